# The words of ./record: options, names with spaces and dashes, from other folders, through a link.
source "$(dirname "${BASH_SOURCE[0]}")/common.sh"

says 0 '' "$record" --help
grep -q '^usage: record ' out && grep -q '65,536 octets and 256 packets' out || wrong '--help tells too little'
mv out help
says 0 '' "$record" -h
same out help
says 2 'record: standard output: cannot be written' bash -c '"$0" --help >/dev/full' "$record"

make_tree
printf '#define LV_VERSION "12.3.4"\n' >tree/include/landing_voice.h
says 0 '' tree/record --version
[ "$(cat out)" = 'record (landing voice) 12.3.4' ] || wrong "--version: $(cat out)"

says 2 'record: -x: no such option; usage: record .*' "$record" -x
says 2 'record: --helf: no such option; usage: record .*' "$record" "$whole" --helf
says 2 'record: too many names; usage: record .*' "$record" a b c

says 2 'record: no such: no such file' "$record" 'no such'
says 2 'record: tmp: is a folder' "$record" tmp
says 2 'record: tmp: is a folder' "$record" "$whole" tmp

# Names with spaces, and that begin with a dash.
cp -- "$whole" '-a capture'
says 0 '' "$record" -- '-a capture' '-its recording'
same '-its recording' "$recorded"
says 0 '' "$record" './-a capture' 'a recording'
same 'a recording' "$recorded"

# As a filter, and with - for either.
says 0 '' "$record" <"$whole" && same out "$recorded"
says 0 '' "$record" - <"$whole" && same out "$recorded"
says 0 '' "$record" - 'by dash' <"$whole" && same 'by dash' "$recorded"
says 0 '' "$record" -- "$whole" - && same out "$recorded"

# Through links to it, from another folder.
mkdir -p far/away
ln -s "$record" far/direct
ln -s ../direct far/away/record
(cd far/away && ./record "$whole" here) && same far/away/here "$recorded" || wrong 'from another folder'
nothing_left
