//! Octets of sessions and holdings changed by no call. Some changes are harmless; after others the octets count as
//! not open, or as holding no packet (document 01, "Groups"; decisions 47 to 49).

use crate::paper::layout::{
    places, B, BODY, FLAGS, FORM, FRAMES, GROUP, GROUP_AT, L, LAST_B, LAST_L, LAST_SEQUENCE, LAST_SPARE,
    LAST_TIMESTAMP, MARKERS, MAX_B, MAX_L, OCTETS, OPEN, PACKETS, POURED, SEQUENCE, SESSION_END, SESSION_SPARE, SOURCE,
    SPARE,
};
use crate::rng::Rng;

/// Octets to be changed: where, and to what.
pub type Changes = Vec<(usize, u8)>;

/// A change of any kind to octets of a session or holding; none if they have nothing of the kind.
pub fn changes(octets: &[u8], session: bool, rng: &mut Rng) -> Changes {
    let any = rng.octet();
    let past = if session { SESSION_END } else { GROUP };
    let start = if session { GROUP_AT } else { 0 };
    let spare = if session { rng.pick(&[LAST_SPARE, SESSION_SPARE]) } else { SPARE };
    vec![match rng.between(if session { 0 } else { 7 }, 25) {
        0 => (OPEN, rng.pick(&[0, 2, 255])),
        1 => (FORM, rng.pick(&[0, 1, 2, 255])),
        2 => rng.pick(&[(MAX_L, 8), (MAX_L, 255), (MAX_B, 0), (MAX_B, 11), (MAX_L, 7), (MAX_B, 10)]),
        3 => (POURED, rng.pick(&[0, 1, 2, 255])),
        4 => (LAST_L, rng.pick(&[8, 255, 7])),
        5 => (LAST_B, rng.pick(&[0, 11, 255, 10])),
        6 => (rng.pick(&[LAST_SEQUENCE, LAST_TIMESTAMP, LAST_TIMESTAMP + 2]) + rng.between(0, 1), any),
        7 => (rng.between(0, OCTETS - 1), any),
        8 => return (0..OCTETS).zip(rng.octets(OCTETS)).collect(),
        // What stands for nothing.
        9 => (rng.pick(&[past, OCTETS - 1, spare, start + MARKERS]), any | 1),
        _ => {
            let change = of_group(&octets[start..start + GROUP], rng);
            return change.map(|(at, octet)| (start + at, octet)).into_iter().collect();
        }
    }]
}

/// A change to the octets of a group.
fn of_group(octets: &[u8], rng: &mut Rng) -> Option<(usize, u8)> {
    let any = rng.octet();
    let none = octets.iter().all(|&octet| octet == 0);
    let flag = |rng: &mut Rng, which: fn(usize, usize, bool) -> bool, flag| {
        let fits = |n: &usize| which(*n, octets[L].into(), octets[FLAGS + n] == 1);
        one_of(rng, (0..PACKETS).filter(fits)).map(|n| (FLAGS + n, flag))
    };
    match rng.between(0, 12) {
        0 => Some((FLAGS + rng.between(0, PACKETS - 1), rng.pick(&[2, 3, 128, 255]))),
        1 => Some((L, rng.pick(&[8, 9, 255]))),
        2 => Some((B, rng.pick(&[0, 11, 255]))),
        3 => Some((SOURCE + rng.between(0, 3), any)),
        // A group of no packet.
        _ if none => Some(rng.pick(&[(SOURCE + 3, 7), (B, 1), (SEQUENCE, any | 1), (L, 1)])),
        4 => Some((SEQUENCE + rng.between(0, 5), any)),
        // A packet above L, one of erasures, and one that is no longer held.
        5 => flag(rng, |n, l, _| n > l, 1),
        6 => flag(rng, |n, l, held| n <= l && !held, 1),
        7 => flag(rng, |_, _, held| held, 0),
        kind => of_place(kind, octets, rng),
    }
}

/// A change to a place that is not held (8), to a frame past B (9), to room past a body (10), to a body (11), or to a
/// type.
fn of_place(kind: usize, octets: &[u8], rng: &mut Rng) -> Option<(usize, u8)> {
    let (b, held) = (usize::from(octets[B]), |n: usize| octets[FLAGS + n] == 1);
    let size = |n, k| match octets[places(n, k).0] {
        243 => 2,
        245 => 10,
        246 => BODY,
        _ => 0,
    };
    let fits = |&(n, k): &(usize, usize)| match kind {
        8 => !held(n),
        9 => held(n) && k >= b,
        10 => held(n) && k < b && size(n, k) < BODY,
        11 => held(n) && k < b && size(n, k) > 0,
        _ => held(n) && k < b,
    };
    let all = (0..PACKETS).flat_map(|n| (0..FRAMES).map(move |k| (n, k)));
    let (n, k) = one_of(rng, all.filter(fits))?;
    let ((at, body), size, any) = (places(n, k), size(n, k), rng.octet() | 1);
    let past = body + rng.between(size.min(BODY - 1), BODY - 1);
    Some(match kind {
        8 | 9 => rng.pick(&[(at, 242), (at, any), (past, any), (body, 1)]),
        10 => (past, any),
        11 => (body + rng.between(0, size - 1), any),
        _ => (at, rng.pick(&[1, 2, 244, 247, 128, 241, 14])),
    })
}

/// One of the given things, if there are any.
fn one_of<T: Copy>(rng: &mut Rng, things: impl Iterator<Item = T>) -> Option<T> {
    let things: Vec<T> = things.collect();
    (!things.is_empty()).then(|| rng.pick(&things))
}
