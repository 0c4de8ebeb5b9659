# make: it builds when something changed, and only then; installs under names with spaces; says what it can do.
source "$(dirname "${BASH_SOURCE[0]}")/common.sh"
make_tree
few_commands no_rt rt
sed -i '/LV_VERSION/d' tree/include/landing_voice.h && echo '#define LV_VERSION "12.3.4"' >>tree/include/landing_voice.h
path=$work/tree/bin:$PATH
building='make: proving and building the archive .*'
n=$'\n'
made=(make -s -C tree)

# Built once; again after a touched proof, a changed crates.txt, and a build that failed.
says 0 "$building${n}make: ok" "${made[@]}" && builds 1
same tree/target/staticlib/liblanding.a tree/made/liblanding.a
says 0 '' "${made[@]}" && builds 1
sleep 1.1 && touch "$(find tree/crates/octets/proofs -type f | head -n 1)"
says 0 "$building${n}make: ok" "${made[@]}" && builds 2
sleep 1.1 && touch tree/crates.txt && mkdir tree/running
says 2 "$building${n}make: NOT PROVED${n}make: the archive could not be built; .*${n}make: .*" "${made[@]}"
rmdir tree/running
says 0 "$building${n}make: ok" "${made[@]}" && builds 4
says 0 '' "${made[@]}" && builds 4

# What changes while it builds is not in it: it is built again.
sleep 1.1 && touch tree/crates.txt tree/during
says 0 "$building${n}make: ok" "${made[@]}"
says 0 "$building${n}make: ok" "${made[@]}" && builds 6

# An update is installed as a whole: the header, and the archive built from the same sources.
sleep 1.1 && touch tree/crates.txt && printf 'a new archive' >tree/made/liblanding.a
says 0 "$building${n}make: ok" "${made[@]}" install PREFIX="$work/to here" DESTDIR="$work/be low"
below="$work/be low$work/to here"
same "$below/lib/liblanding.a" tree/made/liblanding.a
same "$below/include/landing_voice.h" tree/include/landing_voice.h
grep -qx 'Version: 12.3.4' "$below/lib/pkgconfig/landing_voice.pc" || wrong 'the version is not that of the header'
grep -qxF "prefix=$work/to\\ here" "$below/lib/pkgconfig/landing_voice.pc" || wrong 'the prefix is not quoted'
says 0 '' "${made[@]}" uninstall PREFIX="$work/to here" DESTDIR="$work/be low"
[ -z "$(find "$work/be low" -type f)" ] || wrong "not taken away: $(find "$work/be low" -type f)"

# The toolchain is needed to build, not to install what is built.
path=$work/no_rt
says 0 '' "${made[@]}" install PREFIX="$work/again" && says 0 '' "${made[@]}" uninstall PREFIX="$work/again"
touch tree/crates.txt
says 2 "make: the Rattle toolchain is missing: .*${n}make: README.md says .*${n}make: .*" "${made[@]}"

says 0 '' "${made[@]}" help
for target in '' ' install' ' uninstall' ' check' ' clean'; do
    grep -q "^make$target  " out || wrong "make help is silent about make$target"
done
mkdir -p tree/compare/target tree/bench/target
says 0 '' "${made[@]}" clean
[ -z "$(find tree -name target)" ] || wrong "make clean leaves $(find tree -name target)"
mkdir tree/.ci && printf '#!/bin/sh\necho the gate\n' >tree/.ci/run && chmod +x tree/.ci/run
says 0 '' "${made[@]}" check && grep -qx 'the gate' out || wrong 'make check does not run the gate'
