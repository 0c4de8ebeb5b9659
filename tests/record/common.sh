# What the tests of ./record and make share. Each is run by itself, from anywhere, once the programs are built; it
# says what is wrong and ends with 1, or is silent.
set -u
root=$(cd "$(dirname "${BASH_SOURCE[0]}")/../.." && pwd) || exit 1
captures=$root/examples/captures
whole=$captures/whole_case.capture
recorded=$captures/whole_case.recording
bad=$captures/bad_count.capture
work=$(mktemp -d) || exit 1
chmod 755 "$work"
trap 'chmod -R u+w "$work"; rm -rf "$work"' EXIT
cd "$work" || exit 1
record=$root/record
as=()      # before a command that a common user is to run
path=$PATH # where commands find others

# Ends the test with the reason.
wrong() { # WORDS..
    printf '%s: %s\n' "${0##*/}" "$*"
    exit 1
}

# From now on a common user runs the commands.
common_user() {
    local setpriv
    [ "$(id -u)" -eq 0 ] || return 0
    setpriv=$(type -P setpriv) || wrong 'setpriv is missing'
    as=("$setpriv" --reuid=65534 --regid=65534 --clear-groups)
}

# Runs a command: its status, and what it says on standard error, which the pattern has to match as a whole. Its
# output is in out.
says() { # STATUS PATTERN COMMAND..
    local due=$1 pattern=$2 status
    shift 2
    PATH=$path "${as[@]}" "$@" >out 2>said
    status=$?
    [ "$status" -eq "$due" ] || wrong "$*: status $status and not $due; $(cat said)"
    [[ $(cat said) =~ ^($pattern)$ ]] || wrong "$*: says: $(cat said)"
}

# Two files are the same.
same() { # FILE FILE
    cmp -- "$1" "$2" || wrong "$1 is not as it has to be"
}

# An old recording, which is to be kept or to be written over.
old_file() { printf 'as it was' >"$1"; }

# The old recording is there, and nothing else that was written on the way.
kept() { # FILE
    [ "$(cat "$1")" = 'as it was' ] || wrong "the old $1 is lost"
    nothing_left
}

# No temporary file is left, here or where temporary files are.
nothing_left() {
    local left
    left=$(find . -name '.record.*' -o -path './tmp/*')
    [ -z "$left" ] || wrong "left behind: $left"
}
mkdir tmp
chmod 777 tmp
export TMPDIR=$work/tmp

# A copy of what ./record and make need, in the folder tree, with the files of one crate, and stand-ins in tree/bin: rt,
# which notes its words, takes a second, fails where another one runs, and makes what is in tree/made; apt-get, which
# is never to be run. Where there is tree/two, rt goes on until another build says that it waits; where there is
# tree/during, a source changes while it runs.
make_tree() {
    mkdir -p tree/bin tree/made tree/include
    cp -r "$root"/{record,Makefile,landing_voice.pc.in,crates.txt,tools} tree
    cp "$root/include/landing_voice.h" tree/include
    (cd "$root" && cp -r --parents crates/octets/{src,specs,proofs} "$work/tree")
    mkdir tree/crates/{recorder,explain,landing_c}
    cp "$root"/target/bin/{recorder,explain} tree/made
    printf 'an archive' >tree/made/liblanding.a
    cat >tree/bin/rt <<'END'
#!/bin/sh
crate=${PWD##*/}
cd ../..
printf '%s\n' "$* $crate" >>words
mkdir running || { echo 'rt: NOT PROVED'; exit 1; }
sleep 1
tries=0
while [ -e two ] && [ "$tries" -lt 300 ] && ! grep -qs waiting ../said_one ../said_two; do
    sleep 0.1
    tries=$((tries + 1))
done
if [ -e during ]; then rm during && touch crates/octets/src; fi
mkdir -p "crates/$crate/out"
case $1 in
run) cp "made/$crate" "crates/$crate/out" ;;
lib) cp made/liblanding.a "crates/$crate/out/liblanding_c.a" ;;
esac
rmdir running
END
    printf '#!/bin/sh\ntouch "%s"\n' "$work/installed" >tree/bin/apt-get
    chmod +x tree/bin/*
    touch -d '1 hour ago' tree/crates.txt $(find tree/crates)
}

# How often the stand-in was run.
builds() { # COUNT
    [ "$(wc -l 2>/dev/null <tree/words)" = "$1" ] || wrong "built otherwise than $1 times: $(cat tree/words)"
}

# A folder with some commands alone, and the stand-ins: those that ./record and make use, but for the named ones.
few_commands() { # FOLDER BUT..
    local folder=$1 name found
    shift
    mkdir "$folder"
    for name in env bash sh dirname readlink find touch grep sed sleep mkdir rmdir cat rm cp tee head tr mktemp chmod \
        chown sync mv uname ls flock make install echo rt apt-get qemu-x86_64-static; do
        found=$(PATH=$work/tree/bin:$PATH type -P "$name")
        if [ -n "$found" ] && [[ " $* " != *" $name "* ]]; then ln -s "$found" "$folder/$name"; fi
    done
}
