# Why a capture is bad: each reason that there is, at its edge, with its numbers.
source "$(dirname "${BASH_SOURCE[0]}")/common.sh"

# What ./record says of these octets, given in hexadecimal, and so many zeros behind them.
reason() { # WHY HEX [ZEROS]
    { printf "$(sed 's/ *\([0-9A-F][0-9A-F]\)/\\x\1/g' <<<"$2")"; head -c "${3-0}" /dev/zero; } >bad
    says 1 "record: bad: bad capture: $1" "$record" bad
}

reason 'it has more than 65536 octets' '00 00' 65535
reason 'a count has 2 octets, and it has 0' ''
reason 'a count has 2 octets, and it has 1' '01'
reason 'its count is 257, and the most is 256 packets' '01 01'
reason 'its count is 65535, and the most is 256 packets' 'FF FF' 65534
reason 'its table needs 14 octets, and it has 13' '00 01' 11
reason 'its table and payloads need 16 octets, and it has 15' '00 01 00 00 00 07 00 00 00 00 00 00 00 02' 1
reason 'octets left over after the last payload: 1' '00 00 00'
reason 'octets left over after the last payload: 65534' '00 00' 65534
