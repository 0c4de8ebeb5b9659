# Sourced by record: where the recording goes. A file is whole, or as it was: the recording is written beside it,
# and takes its name in one step. Standard output, a device and a pipe are written to, once the whole recording is
# there.

# Whether RECORDING is a file, or is to become one. A name of an open file is none of its own.
is_file() {
    case $recording in - | /dev/fd/* | /proc/*) return 1 ;; esac
    [ -f "$recording" ] || ! [ -e "$recording" ]
}

# Says what is in the way of a recording, before anything is built or read. A link is followed: `file` is where it
# leads.
check_recording() {
    file=
    ! [ -d "$recording" ] || fail "$recording: is a folder"
    if is_file; then
        file=$recording
        if [ -L "$file" ]; then file=$(readlink -f -- "$file") || fail "$recording: the link leads to no folder"; fi
        folder=$(dirname -- "$file")
        [ -d "$folder" ] || fail "$recording: $folder is no folder"
        [ -w "$folder" ] || fail "$recording: cannot be written, for its folder $folder cannot"
    elif [ "$recording" = - ]; then
        { : 3>&1; } 2>/dev/null || fail 'standard output: cannot be written'
        return
    fi
    ! [ -e "$recording" ] || [ -w "$recording" ] || fail "$recording: cannot be written"
}

# Opens the file that the program writes to, as 4: beside the old one and with its mode, and where that may be its
# owner; or where temporary files are, for nobody else. Its name is known before it is there, and only this process
# makes it, so that it is taken away whenever the command is ended.
make_room() {
    if [ -z "$file" ]; then
        umask 077
        new_file || fail 'no room for a temporary file'
        return
    fi
    new_file "$folder/.record.XXXXXX" || fail "$recording: cannot be written"
    if [ -e "$file" ]; then
        chown --reference="$file" -- "$written" 2>/dev/null
        chmod --reference="$file" -- "$written" 2>/dev/null || fail "$recording: cannot be written"
    fi
}

# Opens a file that was not there before.
new_file() { # PATTERN, or nothing for where temporary files are
    written=$(mktemp -u "$@" 2>/dev/null) || return
    set -C
    { exec 4>"$written"; } 2>/dev/null || written=
    set +C
    [ -n "$written" ]
}

# Hands the recording over.
hand_over() {
    if [ -n "$file" ]; then
        { sync -- "$written" && mv -fT -- "$written" "$file"; } 2>/dev/null || fail "$recording: cannot be written"
    elif [ "$recording" = - ]; then
        { cat "$written"; } 2>/dev/null || fail 'standard output: cannot be written'
    else
        { cat "$written" >"$recording"; } 2>/dev/null || fail "$recording: cannot be written"
    fi
}
