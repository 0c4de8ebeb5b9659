# ./record --explain as a user meets it: words, a bad capture, output that cannot be written, the first use.
source "$(dirname "${BASH_SOURCE[0]}")/common.sh"
source "$root/tools/for_x86"
fault=$captures/where_the_fault_is.capture

# Its words: one name or none, before the option or behind it.
says 0 '' "$record" --explain "$fault" && mv out told
for words in '' - --; do says 0 '' "$record" --explain $words <"$fault" && same out told; done
says 0 '' "$record" "$fault" --explain && same out told
cp "$fault" './-a capture' && says 0 '' "$record" --explain -- '-a capture' && same out told
says 2 'record: too many names; usage: record --explain \[--\] \[CAPTURE\]' "$record" --explain "$fault" new
[ ! -e new ] || wrong 'it writes a file'
says 2 'record: too many names; usage: record --explain .*' "$record" --explain "$fault" -
says 2 'record: -x: no such option; usage: record --explain .*' "$record" --explain -x
says 2 'record: no such: no such file' "$record" --explain 'no such'
says 2 'record: tmp: is a folder' "$record" --explain tmp
says 2 'record: standard input: cannot be read' "$record" --explain </
says 0 '' "$record" --help && grep -q '^  --explain  ' out || wrong '--help is silent about --explain'

# A bad capture, also one that is too long, and from standard input: the recorder tells why.
says 1 "record: $bad: bad capture: its count is 257, and the most is 256 packets" "$record" --explain "$bad"
printf 'bad capture\n' | cmp - out || wrong 'a bad capture is not told on standard output'
head -c 65537 /dev/zero >long
says 1 'record: standard input: bad capture: it has more than 65536 octets' "$record" --explain <long
says 1 'record: standard input: bad capture: .* 26 octets, and it has 2' "$record" --explain < <(printf '\0\2')
nothing_left

# Output that cannot be written, by ./record and by the program alone.
says 2 'record: standard output: cannot be written' bash -c '"$@" >/dev/full' bash "$record" --explain "$fault"
says 2 'record: standard output: cannot be written' bash -c '"$@" >&-' bash "$record" --explain "$fault"
says 2 'record: -: no room to write it' bash -c '
    (trap "" XFSZ; ulimit -f 0; "$@" 2>&1) | cat >&2
    exit "${PIPESTATUS[0]}"' bash "$record" --explain "$fault"
says 0 'explain: standard output cannot be written' \
    bash -c '"$@" >/dev/full' bash "${PROGRAM[@]}" "$root/target/bin/explain" <"$fault"
nothing_left

# It is built on first use, alone, and again after a change; a program that does not end well is told.
make_tree
path=$work/tree/bin:$PATH
n=$'\n'
building='record: proving and building the explainer .*'
says 0 "$building${n}record: ok" tree/record --explain "$fault" && same out told && builds 1
[ "$(cat tree/words)" = 'run explain' ] || wrong "it builds $(cat tree/words)"
says 0 '' tree/record --explain --build && builds 1
sleep 1.1 && touch tree/crates.txt
says 0 "$building${n}record: ok" tree/record --explain --build && builds 2
printf '#!/bin/sh\necho x86_64\n' >tree/bin/uname && chmod +x tree/bin/uname
for lines in 'echo "Packets, and"; exit 3' 'echo "Packets, and"; kill -SEGV $$' 'echo "#!EVRC"' ':'; do
    printf '#!/bin/sh\ncat >/dev/null\n%s\n' "$lines" >tree/target/bin/explain
    says 2 'record: the explainer did not end well' tree/record --explain "$fault" && [ ! -s out ] || wrong "$lines"
done
