# Sourced by record: the capture is opened, the program reads it, and what it says is looked at.

# Opens the capture as standard input.
open_capture() {
    if [ "$capture" = - ]; then
        capture='standard input'
        { : 3<&0; } 2>/dev/null || fail "$capture: cannot be read"
        return
    fi
    [ -e "$capture" ] || fail "$capture: no such file"
    ! [ -d "$capture" ] || fail "$capture: is a folder"
    { exec <"$capture"; } 2>/dev/null || fail "$capture: cannot be read"
}

# Opens a file, as 5, for a capture that is to be explained: the recorder is asked why, if it is none.
keep_capture() {
    set -C
    { exec 5>"$written.capture"; } 2>/dev/null || fail 'no room for a temporary file'
    set +C
}

# The capture, and nothing past one octet more than it may have.
read_capture() {
    [ "$program" != recorder ] || exec head -c 65537
    set -o pipefail
    head -c 65537 | tee /dev/fd/5
}

# The program takes input that cannot be read for the end of it, and has no status to tell of output that cannot be
# written; head and cat have. The program reads all that is read. `told` is what it says on standard error, and then
# the three statuses.
run_program() {
    told=$({
        read_capture | "${PROGRAM[@]}" "$home/target/bin/$program" 2>&3 | cat >&4
        printf '\n%s' "${PIPESTATUS[*]}" >&3
    } 3>&1 2>/dev/null)
    set -- ${told##*$'\n'}
    [ "$3" -eq 0 ] || fail "$recording: no room to write it"
    [ "$2" -eq 0 ] || fail "the $called did not end well"
    [ "$1" -eq 0 ] || fail "$capture: cannot be read"
}

# Why a capture is bad that was to be explained: what the recorder tells of it.
ask_recorder() {
    program=recorder
    build
    told=$("${PROGRAM[@]}" "$home/target/bin/recorder" <"$written.capture" 2>&1 >/dev/null)
}

# Says that a capture is bad, and why, as far as the recorder told.
say_bad() {
    [ "$recording" != - ] || hand_over
    [ "$program" = recorder ] || ask_recorder
    printf 'record: %s: %s\n' "$capture" "$(grep -m 1 '^bad capture: ' <<<"$told" || echo 'bad capture')" >&2
}
