//! Frames, entries and forms as inputs have them, and octets near good ones.

use crate::rng::Rng;

/// Frame types and body sizes (document 01, "Frames").
pub const TYPES: [(u8, usize); 5] = [(0, 0), (1, 2), (3, 10), (4, 22), (14, 0)];

/// The body size of a good entry octet.
pub fn size_of(entry: u8) -> usize {
    TYPES.iter().find(|row| row.0 == entry & 0x3F).map_or(0, |row| row.1)
}

/// An entry octet with a reserved type and any F and D; some are reserved for a bit above the low four alone.
pub fn reserved(rng: &mut Rng) -> u8 {
    let kinds: Vec<u8> = (0..64).filter(|kind| TYPES.iter().all(|row| row.0 != *kind)).collect();
    rng.small(0, 3) << 6 | rng.pick(&kinds)
}

/// Octets of a frame's body; the spare bits of one of Rate 1 are zero if it is to be sendable.
fn body(rng: &mut Rng, size: usize, sendable: bool) -> Vec<u8> {
    let mut body = rng.octets(size);
    if sendable {
        body.iter_mut().skip(21).for_each(|octet| *octet &= 0xE0);
    }
    body
}

/// So many good entries. F and D are 0, 1 or any; at times all are of one type.
pub fn entries(rng: &mut Rng, count: usize, sendable: bool) -> Vec<Vec<u8>> {
    let types = if sendable { &TYPES[..4] } else { &TYPES[..] };
    let (low, high) = rng.pick(&[(0, 0), (3, 3), (0, 3), (0, 3)]);
    let only = [rng.pick(types)];
    let types = if rng.one_in(8) { &only } else { types };
    let mut entry = || {
        let (kind, size) = rng.pick(types);
        [vec![rng.small(low, high) << 6 | kind], body(rng, size, sendable)].concat()
    };
    (0..count).map(|_| entry()).collect()
}

/// An entry that may not be sent: an erasure, or one with spare bits.
pub fn unsendable(rng: &mut Rng) -> Vec<u8> {
    let f_d = rng.small(0, 3) << 6;
    if rng.one_in(2) {
        return vec![f_d | 14];
    }
    let mut entry = [vec![f_d | 4], body(rng, 22, true)].concat();
    entry[22] |= rng.pick(&[1, 2, 4, 8, 16, 31]);
    entry
}

/// An entry whose body is cut.
pub fn cut(rng: &mut Rng) -> Vec<u8> {
    let (kind, size) = rng.pick(&TYPES[1..4]);
    let kept = rng.between(0, size - 1);
    [vec![rng.small(0, 3) << 6 | kind], rng.octets(kept)].concat()
}

/// Form and maxima: interleaved within the range most often; header-free with any maxima; out of range; no such form.
pub fn agreed(rng: &mut Rng) -> [u64; 3] {
    let (least_l, least_b) = rng.pick(&[(0, 1), (7, 10), (0, 10), (7, 1), (5, 10)]);
    let (l, b) = (rng.between(least_l, 7) as u64, rng.between(least_b, 10) as u64);
    match rng.between(0, 11) {
        0 => [0, rng.pick(&[0, 5, 8, 255]), rng.pick(&[0, 1, 10, 11, 255])],
        1 => [1, rng.pick(&[8, 9, 16, 128, 255]), b],
        2 => [1, l, rng.pick(&[0, 11, 12, 16, 128, 255])],
        3 => [rng.pick(&[2, 3, 128, 255]), l, b],
        _ => [1, l, b],
    }
}

/// Damages octets once or twice: cuts them, or changes, adds or removes one, or flips the F of one near the start.
pub fn damage(rng: &mut Rng, octets: &mut Vec<u8>) {
    for _ in 0..rng.between(1, 2) {
        let len = octets.len();
        match rng.between(0, 4) {
            _ if len == 0 => octets.push(rng.octet()),
            0 => octets.truncate(rng.between(0, len - 1)),
            1 => octets[rng.between(0, len - 1)] = rng.octet(),
            2 => octets.insert(rng.between(0, len), rng.octet()),
            3 => drop(octets.remove(rng.between(0, len - 1))),
            _ => octets[rng.between(0, len.min(11) - 1)] ^= 0x80,
        }
    }
}

/// Every neighbour: each cut, each octet removed, each bit flipped, an octet added at each place.
pub fn neighbours(rng: &mut Rng, good: &[u8]) -> Vec<Vec<u8>> {
    let mut neighbours = vec![[good, &[rng.octet()]].concat()];
    for at in 0..good.len() {
        neighbours.push(good[..at].to_vec());
        neighbours.push([&good[..at], &good[at + 1..]].concat());
        neighbours.push([&good[..at], &[rng.octet()], &good[at..]].concat());
        neighbours.extend((0..8).map(|bit| {
            let mut flipped = good.to_vec();
            flipped[at] ^= 1 << bit;
            flipped
        }));
    }
    neighbours
}

/// Few octets, of those that stand in good tables and entries.
pub fn likely(rng: &mut Rng, most: usize) -> Vec<u8> {
    let len = rng.between(0, most);
    let mut octet = || rng.small(0, 3) << 6 | rng.pick(&[0, 0, 0, 1, 1, 3, 4, 14, 2, 8, 9]);
    (0..len).map(|_| octet()).collect()
}

/// Any octets, at most so many.
pub fn any(rng: &mut Rng, most: usize) -> Vec<u8> {
    let len = rng.between(0, most);
    rng.octets(len)
}
