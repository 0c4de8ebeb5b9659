# The first use of ./record, and the one after a change: it builds once, installs nothing, and says what is in the way.
source "$(dirname "${BASH_SOURCE[0]}")/common.sh"
make_tree
few_commands few
few_commands no_flock flock
few_commands no_rt rt
building='record: proving and building the recorder .*'
waiting='record: another build runs in this checkout: .*'
ok='record: ok'
n=$'\n'

# Two at once: one builds, the other waits and says so.
two_at_once() { # FOLDER OF COMMANDS
    rm -rf tree/target tree/words said_one said_two && touch tree/two
    PATH=$work/$1 tree/record "$whole" one 2>said_one &
    PATH=$work/$1 tree/record "$whole" two 2>said_two
    [ "$?" -eq 0 ] && wait "$!" || wrong "two at once, $1: $(cat said_one said_two)"
    same one "$recorded" && same two "$recorded" && builds 1
    rm tree/two
    [[ $(sort said_one said_two) =~ ^$waiting$n$ok$n$building$ ]] || wrong "two at once say: $(cat said_one said_two)"
}
two_at_once few
two_at_once no_flock
mkdir tree/target/building.d && echo 4194305 >tree/target/building.d/process && touch tree/crates/octets/src
path=$work/no_flock
says 0 "$waiting$n$building$n$ok" tree/record --build
path=$work/few

# Nothing changed; then a proof, and a file that is gone.
rm tree/words && says 0 '' tree/record --build && says 0 '' tree/record "$whole" && same out "$recorded"
sleep 1.1 && touch "$(find tree/crates/octets/proofs -type f | head -n 1)"
says 0 "$building$n$ok" tree/record --build && builds 1
sleep 1.1 && rm "$(find tree/crates/octets/specs -type f | head -n 1)"
says 0 "$building$n$ok" tree/record --build && builds 2
says 0 '' tree/record --build && builds 2

# Without the toolchain: what is built works, and what is not is said.
path=$work/no_rt
says 0 '' tree/record "$whole"
touch tree/crates.txt
says 2 "record: the Rattle toolchain is missing: .*${n}record: README.md says .*" tree/record "$whole"
path=$work/few

# A build that fails.
mkdir tree/running
says 2 "$building${n}record: NOT PROVED${n}record: the recorder could not be built; .*" tree/record --build
rmdir tree/running

# A checkout that cannot be written.
says 0 ".*$ok" tree/record --build
common_user
chmod -R a-w,a+rX tree
says 0 '' tree/record <"$whole" && same out "$recorded"
chmod u+w tree/crates.txt && sleep 1.1 && touch tree/crates.txt && chmod u-w tree/crates.txt
says 2 "record: the recorder has to be built, and $work/tree/target cannot be written" tree/record --build
chmod -R u+w tree && as=()

# Another processor, without an emulator: nothing is installed.
few_commands other uname qemu-x86_64-static
printf '#!/bin/sh\necho other\n' >other/uname && chmod +x other/uname
path=$work/other
says 0 ".*$ok" tree/record --build
says 2 "record: the recorder is for x86-64, .* needs Debian's qemu-user-static.*" tree/record "$whole"
! [ -e installed ] || wrong 'it installs packages'
