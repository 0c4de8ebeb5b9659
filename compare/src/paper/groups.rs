//! Groups: base numbers and time places (document 01, "Groups"), distances ("Session"), and the time between two groups
//! (document 02, (ii)).

/// "A frame lasts 160 timestamp counts."
const FRAME_COUNTS: u32 = 160;

/// The timestamp clock counts "modulo 4,294,967,296".
const CLOCK: i64 = 4_294_967_296;

/// The base numbers, which all packets of a group have in common.
#[derive(Clone, Copy, Debug, Default, PartialEq, Eq)]
pub struct Base {
    pub sequence: u16,
    pub timestamp: u32,
}

/// "A group is L + 1 packets of one source, N from 0 to L, with the same L, B and base numbers."
#[derive(Clone, Copy, Debug, PartialEq, Eq)]
pub struct Group {
    pub source: u32,
    pub base: Base,
    pub l: u8,
    pub b: u8,
}

impl Base {
    /// "The base sequence number is sequence - N, counted modulo 65,536, and the base timestamp is
    /// timestamp - 160 x N, counted modulo 4,294,967,296."
    pub fn of(sequence: u16, timestamp: u32, n: u8) -> Base {
        Base {
            sequence: sequence.wrapping_sub(n.into()),
            timestamp: timestamp.wrapping_sub(FRAME_COUNTS * u32::from(n)),
        }
    }
}

/// How many time places a group has: (L + 1) x B.
pub fn places(l: u8, b: u8) -> usize {
    (usize::from(l) + 1) * usize::from(b)
}

/// "Frame k of packet N stands at time place k x (L + 1) + N."
pub fn place(l: u8, n: usize, k: usize) -> usize {
    k * (usize::from(l) + 1) + n
}

/// "d = new base - b modulo 65,536", b being the held group's base.
pub fn d(new: u16, b: u16) -> u16 {
    new.wrapping_sub(b)
}

/// "e = new base - (b + L + 1) modulo 65,536", b and L being the poured group's.
pub fn e(new: u16, b: u16, l: u8) -> u16 {
    new.wrapping_sub(b.wrapping_add(u16::from(l) + 1))
}

/// "(New base timestamp - (old base timestamp + 160 x (L + 1) x B)) modulo 4,294,967,296", L and B being the poured
/// group's as the old base timestamp is.
pub fn counts_between(new: u32, old: u32, l: u8, b: u8) -> i64 {
    let end = i64::from(old) + i64::from(FRAME_COUNTS) * places(l, b) as i64;
    (i64::from(new) - end).rem_euclid(CLOCK)
}

/// The counts "divided by 160"; nothing if they are "no multiple of 160".
pub fn whole_frames(counts: i64) -> Option<i64> {
    let frame = i64::from(FRAME_COUNTS);
    (counts % frame == 0).then_some(counts / frame)
}
