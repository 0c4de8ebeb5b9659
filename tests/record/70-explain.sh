# ./record --explain: a line for each packet, with the octet at fault where there is one, and what became of them all.
source "$(dirname "${BASH_SOURCE[0]}")/common.sh"
fault=$captures/where_the_fault_is.capture
heading='Packets, and octets of a payload, are counted from 0.
packet  source    sequence   timestamp  L  N   B  answer'

# Writes a capture of packets, each SOURCE SEQUENCE TIMESTAMP [PAYLOAD] in hexadecimal.
write_capture() { # FILE PACKET..
    local file=$1 table payloads= packet source sequence timestamp payload
    shift
    table=$(printf %04X "$#")
    for packet in "$@"; do
        read -r source sequence timestamp payload <<<"$packet"
        table+=$source$sequence$timestamp$(printf %04X $((${#payload} / 2)))
        payloads+=$payload
    done
    printf "$(sed 's/../\\x&/g' <<<"$table$payloads")" >"$file"
}

# What is told of a capture, below the heading, stands on standard input.
tells() { # CAPTURE
    says 0 '' "$record" --explain "$1"
    diff <(printf '%s\n' "$heading" && cat) out || wrong "$1 is not explained as it has to be"
}

# Each fault that has a place, another source, a packet put in and repeated, a group after lost frames.
tells "$fault" <<'END'
     0  00000007         1           0  1  0   2  taken
     1  00000007         2         160  1  1   -  refused 4: the table of contents runs past the payload's end, 2 octets
     2  00000007         2         160  1  1   -  refused 5: reserved type, octet 3 of the payload: 0x42
     3  00000007         2         160  1  1   -  refused 6: an entry past the agreed maximum, octet 11 of the payload: 0x01
     4  00000007         2         160  1  1   -  refused 7: the body that begins at octet 6 does not fit, the payload has 15 octets
     5  00000007         2         160  1  1   -  refused 8: octets left over from octet 7 on, the payload has 9 octets
     6  00000008         2         160  1  1   2  refused 10: another source
     7  00000007         2         160  1  1   2  taken
     8  00000007         2         160  1  1   2  taken
     9  00000007         5        1280  1  0   2  taken, lost frames before it: 4
packets taken: 4
packets refused: 6
  4, table cut: 1
  5, reserved type: 1
  6, too many frames: 1
  7, bodies cut: 1
  8, octets left: 1
  10, another source: 1
frames in the recording: 12
erasures among them: 6
END

# The greatest numbers, a payload of one octet, the edges of the places, and each refusal that has none. The group of packet
# 11 ends at 319 + 320 = 639: 480,799 is 3,001 frames behind that, 640 a count, and 16,639 a hundred frames.
write_capture edges 'FFFFFFFF 0009 FFFFFFFF 08011111' 'FFFFFFFF FFFF 00000000' 'FFFFFFFF 0009 00000000 01011111' \
    'FFFFFFFF 0009 00000000 00' 'FFFFFFFF 0009 00000000 0001' 'FFFFFFFF 0009 00000000 0080818E03AAAA' \
    'FFFFFFFF 0009 00000000 008E800E00' 'FFFFFFFF 0009 00000000 00FF' \
    'FFFFFFFF 0009 00000000 0080808080808080808080FF' 'FFFFFFFF 000A 0000009F 11012222' \
    'FFFFFFFF 0009 FFFFFFFF 08012222' 'FFFFFFFF 000B 0000013F 08013333' 'FFFFFFFF 0009 FFFFFFFF 08011111' \
    'FFFFFFFF 0072 0007561F 00014444' 'FFFFFFFF 0073 00000280 00014444' 'FFFFFFFF 0071 000040FF 00015555'
tells edges <<'END'
     0  ffffffff         9  4294967295  1  0   1  taken
     1  ffffffff     65535           0  -  -   -  refused 1: no octet
     2  ffffffff         9           0  0  1   -  refused 2: index past length
     3  ffffffff         9           0  0  0   -  refused 4: the table of contents runs past the payload's end, 1 octet
     4  ffffffff         9           0  0  0   -  refused 7: the body that begins at octet 2 does not fit, the payload has 2 octets
     5  ffffffff         9           0  0  0   -  refused 7: the body that begins at octet 7 does not fit, the payload has 7 octets
     6  ffffffff         9           0  0  0   -  refused 8: octets left over from octet 4 on, the payload has 5 octets
     7  ffffffff         9           0  0  0   -  refused 5: reserved type, octet 1 of the payload: 0xff
     8  ffffffff         9           0  0  0   -  refused 6: an entry past the agreed maximum, octet 11 of the payload: 0xff
     9  ffffffff        10         159  2  1   1  refused 11: contradicts the group
    10  ffffffff         9  4294967295  1  0   1  refused 14: packet differs
    11  ffffffff        11         319  1  0   1  taken
    12  ffffffff         9  4294967295  1  0   1  refused 13: earlier group
    13  ffffffff       114      480799  0  0   1  refused 16: too far ahead
    14  ffffffff       115         640  0  0   1  refused 24: off the clock
    15  ffffffff       113       16639  0  0   1  taken, lost frames before it: 100
packets taken: 3
packets refused: 13
  1, no octet: 1
  2, index past length: 1
  4, table cut: 1
  5, reserved type: 1
  6, too many frames: 1
  7, bodies cut: 2
  8, octets left: 1
  11, contradicts the group: 1
  13, earlier group: 1
  14, packet differs: 1
  16, too far ahead: 1
  24, off the clock: 1
frames in the recording: 105
erasures among them: 102
END

# Silences, and a clock that begins anew.
tells "$captures/a_talk_with_silences.capture" <<'END'
     0  00000007         1           0  1  0   2  taken
     1  00000007         2         160  1  1   2  taken
     2  00000007         3        8640  1  0   2  taken, lost frames before it: 50
     3  00000007         6       10880  0  0   1  taken, lost frames before it: 10
packets taken: 4
packets refused: 0
frames in the recording: 69
erasures among them: 62
END
tells "$captures/clock_begun_anew.capture" <<'END'
     0  00000007         1       80000  0  0   1  taken
     1  00000007         2           0  0  0   1  refused 24: off the clock
     2  00000007         3         160  0  0   1  refused 24: off the clock
     3  00000007         4          64  0  0   1  refused 16: too far ahead
packets taken: 1
packets refused: 3
  16, too far ahead: 1
  24, off the clock: 2
frames in the recording: 1
erasures among them: 0
END
tells "$captures/no_packet.capture" <<'END'
packets taken: 0
packets refused: 0
frames in the recording: 0
erasures among them: 0
END

# Each example: a line for each packet, and as many frames as its recording has; or that it is bad.
for capture in "$captures"/*.capture; do
    recording=${capture%.capture}.recording
    if [[ ${capture##*/} == bad_* ]]; then
        says 1 "record: $capture: bad capture: .+" "$record" --explain "$capture" && same out "$recording"
        continue
    fi
    says 0 '' "$record" --explain "$capture"
    count=$((0x$(od -An -v -tx1 -N2 "$capture" | tr -d ' ')))
    [ "$(grep -c '^ *[0-9].*  \(taken\|refused [0-9]*:\)' out)" -eq "$count" ] || wrong "$capture: not a line a packet"
    [ "$(tail -n 2 out)" = "$("$root/tests/frames" "$recording")" ] || wrong "$capture: other frames than in its recording"
done

# Each number has the words of lv_answer_text.
names=$(sed -n 's/^ *\(LV_[A-Z_0-9]*\) = \([0-9]*\),.*/\1 \2/p; /^};/q' "$root/include/landing_voice.h")
count=0
while read -r name number; do
    text=$(sed -n "s/^ *case $name: return \"\(.*\)\";/\1/p" "$root/include/landing_voice.h")
    [ "$number" -gt 0 ] || continue
    grep -qF "        $number => b\"$text\"," "$root/crates/explain/src/answer.rt" || wrong "$number is not: $text"
    count=$((count + 1))
done <<<"$names"
[ "$count" -ge 22 ] || wrong "the header has $count refusals"
