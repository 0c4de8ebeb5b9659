# What ./record makes of what the program does: stand-ins for it, as on a machine that runs them.
source "$(dirname "${BASH_SOURCE[0]}")/common.sh"
make_tree
mkdir -p tree/target/bin
printf '#!/bin/sh\necho x86_64\n' >tree/bin/uname && chmod +x tree/bin/uname
path=$work/tree/bin:$PATH

# The program reads all, and then does what the lines say.
program() { # LINES
    printf '#!/bin/sh\ncat >/dev/null\n%s\n' "$1" >tree/target/bin/recorder && chmod +x tree/target/bin/recorder
}

program 'echo "bad capture: too many packets" >&2; echo "bad capture"'
says 1 'record: standard input: bad capture: too many packets' tree/record <"$whole"
printf 'bad capture\n' | cmp - out || wrong 'a bad capture is not told on standard output'
says 1 'record: standard input: bad capture: too many packets' tree/record - /dev/stdout <"$whole"
printf 'bad capture\n' | cmp - out || wrong 'a bad capture is not told on /dev/stdout'
old_file file && says 1 "record: $whole: bad capture: too many packets" tree/record "$whole" file && kept file
[ -s out ] && wrong 'a file is named, and standard output is written to'

program 'echo "bad capture"'
says 1 "record: $whole: bad capture" tree/record "$whole" file && kept file
program 'echo "#!EVRC"; exit 3'
says 2 'record: the recorder did not end well' tree/record "$whole" file && kept file
program 'echo "#!EVRC"; kill -SEGV $$'
says 2 'record: the recorder did not end well' tree/record "$whole" file && kept file
program 'echo otherwise'
says 2 'record: the recorder did not end well' tree/record "$whole" file && kept file
program ':'
says 2 'record: the recorder did not end well' tree/record "$whole" file && kept file
