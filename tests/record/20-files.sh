# Where ./record writes to: a file is whole, or as it was.
source "$(dirname "${BASH_SOURCE[0]}")/common.sh"

# A new file has the umask's mode, an old one keeps its own.
mode() { # FILE MODE
    [ "$(stat -c %a "$1")" = "$2" ] || wrong "$1 has mode $(stat -c %a "$1") and not $2"
}
(umask 027 && says 0 '' "$record" "$whole" new) || exit 1
same new "$recorded" && mode new 640
old_file old && chmod 604 old
says 0 '' "$record" "$whole" old && same old "$recorded" && mode old 604

# Who has the old file open reads on in it: the new one takes its name in one step.
old_file read && { says 0 '' "$record" "$whole" read && cat <&6 >was; } 6<read && same read "$recorded"
[ "$(cat was)" = 'as it was' ] || wrong 'the old file is written over'

# No room: the old file is as it was, and there is no new one.
no_room() { # FILE
    says 2 "record: $1: no room to write it" bash -c '
        (trap "" XFSZ; ulimit -f 0; "$@" 2>&1) | cat >&2
        exit "${PIPESTATUS[0]}"' bash "$record" "$whole" "$1"
}
old_file full && no_room full && kept full
no_room none && ! [ -e none ] || wrong 'a recording without room is there'

# A bad capture, and one that cannot be read.
old_file full && says 1 'record: .*bad_count.capture: bad capture: .+' "$record" "$bad" full && kept full
says 2 'record: standard input: cannot be read' "$record" - full </ && kept full

# A link is followed; one that leads nowhere is not.
old_file target && ln -s target link && ln -s fresh dangling
says 0 '' "$record" "$whole" link && same target "$recorded" && [ -L link ] || wrong 'a link is not followed'
says 0 '' "$record" "$whole" dangling && same fresh "$recorded" && [ -L dangling ] || wrong 'a new link is not followed'
ln -s loop loop && says 2 'record: loop: the link leads to no folder' "$record" "$whole" loop
ln -s gone/x lost && says 2 'record: lost: the link leads to no folder' "$record" "$whole" lost
says 2 'record: gone/x: gone is no folder' "$record" "$whole" gone/x

# A pipe is written to, and read from.
mkfifo pipe && { timeout 5 cat pipe >piped & }
says 0 '' "$record" "$whole" pipe && wait && same piped "$recorded" && [ -p pipe ] || wrong 'a pipe is not written to'
mkfifo from && { timeout 5 cp "$whole" from & }
says 0 '' "$record" from && same out "$recorded"
says 2 'record: standard output: cannot be written' bash -c '"$@" >/dev/full' bash "$record" "$whole"

# Ended from outside while it waits for its input: alone, and with all that it started.
old_file ended
for signal in TERM HUP; do
    "$record" - ended < <(sleep 2) &
    sleep 0.5
    [ -n "$(find . -name '.record.*')" ] || wrong 'it waits without its file'
    kill -s "$signal" "$!" && wait "$!"
    kept ended
done 2>/dev/null
for signal in INT TERM HUP; do
    timeout -s "$signal" 0.5 "$record" - ended < <(sleep 2)
    kept ended
done
nothing_left

# As a common user: a file, and a folder, that may not be written.
common_user
make_tree && mkdir -p tree/target/bin && cp tree/made/recorder tree/target/bin && chmod -R a+rX tree
cp "$whole" capture && chmod 644 capture
mkdir closed open && old_file closed/file && chmod 666 closed/file && old_file open/file && chmod 444 open/file
chmod 555 closed && chmod 777 open
says 2 'record: closed/file: cannot be written, for its folder closed cannot' tree/record capture closed/file
kept closed/file
says 2 'record: closed/new: cannot be written, for its folder closed cannot' tree/record capture closed/new
says 2 'record: open/file: cannot be written' tree/record capture open/file && kept open/file
chmod 000 capture
says 2 'record: capture: cannot be read' tree/record capture open/new
chmod 644 capture

# A device and an open file are written to. Only a common user tries that: a wrong ./record that root runs could put a
# file in the place of the machine's device.
says 0 '' tree/record capture /dev/null
says 2 'record: /dev/full: cannot be written' tree/record capture /dev/full
says 0 '' tree/record capture /dev/stdout && same out "$recorded"
: >opened && chmod 666 opened
says 0 '' tree/record capture /dev/fd/5 5>opened && same opened "$recorded"
