//! Families over sessions and holdings, of which no member is left out: every distance and every time that rules of
//! place turn on, every octet spoilt, every flag, and many values of every octet that is judged.

use super::talk::counts;
use super::Maker;
use crate::call::Call;
use crate::paper::groups::Base;
use crate::paper::host;
use crate::paper::layout::{
    B, FLAGS, FORM, FRAMES, GROUP_AT, L, LAST_B, LAST_L, MAX_B, MAX_L, OCTETS, OPEN, PACKETS, POURED, TIMESTAMP, TYPES,
};

/// The source of all packets.
const SOURCE: u64 = 0x0102_0304;

/// Room for any group poured.
const ROOM: usize = 1840;

/// All families.
pub fn families(maker: &mut Maker) -> Vec<Call> {
    let mut calls = Vec::new();
    for l in 0..=7 {
        calls.extend(every_distance(maker, l));
        calls.extend(every_time(maker, l));
        calls.extend(every_flag(maker, l));
    }
    calls.extend(every_memory(maker));
    for erasures in [false, true] {
        calls.extend(every_octet(maker, erasures));
    }
    calls
}

/// The base numbers of a group.
fn base(sequence: u16, timestamp: u32) -> Base {
    Base { sequence, timestamp }
}

/// An offer of packet N of a group with this base, L and B, of frames with bodies of two zero octets, or of erasures.
fn offer(maker: &mut Maker, session: &[u8], base: Base, [l, n, b]: [u8; 3], erasures: bool) -> Call {
    let entry = if erasures { 14 } else { 1 };
    let mut payload = vec![l << 3 | n];
    payload.extend((1..=b).map(|k| u8::from(k < b) << 7 | entry));
    payload.extend(vec![0; if erasures { 0 } else { 2 * usize::from(b) }]);
    let (sequence, timestamp) = (base.sequence.wrapping_add(n.into()), base.timestamp.wrapping_add(160 * u32::from(n)));
    let scalars = [SOURCE, sequence.into(), timestamp.into()];
    maker.call("lv_session_offer", &scalars, vec![session.to_vec(), payload])
}

/// What a call leaves of its buffer at a place.
fn left(call: &Call, place: usize) -> Vec<u8> {
    host::make(call).buffers.swap_remove(place)
}

/// An opened session.
fn opened(maker: &mut Maker) -> Vec<u8> {
    left(&maker.call("lv_session_open", &[SOURCE, 1, 7, 10], vec![vec![0; OCTETS]]), 0)
}

/// The same after a group is poured.
fn poured(maker: &mut Maker, session: &[u8]) -> Vec<u8> {
    left(&maker.call("lv_session_pour", &[], vec![session.to_vec(), vec![0; ROOM]]), 0)
}

/// A holding of packet N of a group alone.
fn holding(maker: &mut Maker, base: Base, numbers: [u8; 3]) -> Vec<u8> {
    let fresh = opened(maker);
    let session = left(&offer(maker, &fresh, base, numbers, false), 0);
    copied(maker, &session)
}

/// What is copied out of a session.
fn copied(maker: &mut Maker, session: &[u8]) -> Vec<u8> {
    left(&maker.call("lv_session_copy", &[], vec![session.to_vec(), vec![0; OCTETS]]), 1)
}

/// A group of any B that is heard in part: the session that holds it, that session once it is poured, its holding, its
/// B, and when its frames end.
struct First {
    held: Vec<u8>,
    poured: Vec<u8>,
    holding: Vec<u8>,
    b: u8,
    end: u32,
}

/// Such a group with this base and L.
fn first(maker: &mut Maker, base: Base, l: u8) -> First {
    let (fresh, b) = (opened(maker), maker.rng.small(1, 10));
    let held = left(&offer(maker, &fresh, base, [l, l / 2, b], false), 0);
    let (poured, holding) = (poured(maker, &held), copied(maker, &held));
    First { held, poured, holding, b, end: base.timestamp.wrapping_add(160 * (u32::from(l) + 1) * u32::from(b)) }
}

/// What is lost between a holding and a group with this base, of any L and B, and the other way round.
fn both_ways(maker: &mut Maker, first: &[u8], base: Base) -> [Call; 2] {
    let (l, b) = (maker.rng.small(0, 7), maker.rng.small(1, 10));
    let second = holding(maker, base, [l, l / 2, b]);
    [[first, &second], [&second, first]]
        .map(|pair| maker.call("lv_holding_lost", &[], pair.map(<[u8]>::to_vec).to_vec()))
}

/// Offers at every distance near an edge, to a session that holds a group of L + 1 packets, and to one that has
/// poured it; and what is lost between that group and one at this distance, and the other way round. The clock has gone
/// on by nothing, or by counts that its rule turns on.
fn every_distance(maker: &mut Maker, l: u8) -> Vec<Call> {
    let mut calls = Vec::new();
    let near = (0..=u16::from(l) + 2).chain(97..=112);
    let far = [32_767, 32_768].map(|e| e + u16::from(l) + 1);
    let edges: Vec<u16> = near.chain([32_766, 32_767, 32_768, 32_769, 65_534, 65_535]).chain(far).collect();
    for old in [base(0, 0), base(0x7FFF, 0x8000_0000), base(0xFFFA, 0xFFFF_FF60)] {
        let First { held, poured, holding, b, end } = first(maker, old, l);
        for &d in &edges {
            let (n, sequence) = (maker.rng.small(0, l), old.sequence.wrapping_add(d));
            calls.push(offer(maker, &held, base(sequence, old.timestamp), [l, n, b], false));
            for counts in [0, counts(maker.rng)] {
                let new = base(sequence, end.wrapping_add(counts));
                calls.push(offer(maker, &poured, new, [0, 0, 1], false));
                calls.extend(both_ways(maker, &holding, new));
            }
        }
    }
    calls
}

/// The counts near every edge of the clock's rule: from the end of a group on, about a minute, about as many frames as
/// 16 bits count, and to the clock's end.
fn edges_of_time() -> impl Iterator<Item = u32> {
    let frames = [0, 1, 2, 2_999, 3_000, 3_001, 65_535, 65_536, 65_537, 68_536, 68_537, 13_421_772, 26_843_545];
    let edges = frames.map(|frames| 160 * frames).into_iter().chain([0x8000_0000]);
    let near = |edge: u32| [0, 1, 64, 80, 95, 96, 97, 159].into_iter().map(move |more| edge.wrapping_add(more));
    let back = [1, 80, 95, 96, 97, 160, 256, 320, 479_904, 480_000, 480_096, 480_160];
    edges.flat_map(near).chain(back.map(|back| 0_u32.wrapping_sub(back)))
}

/// Offers of a next group, at every time near an edge, to a session that has poured a group of L + 1 packets; and what
/// is lost between two such groups.
fn every_time(maker: &mut Maker, l: u8) -> Vec<Call> {
    let mut calls = Vec::new();
    for old in [base(0, 0), base(0x7FFF, 0x8000_0001), base(0xFFFA, 0xFFFF_FF60)] {
        let First { poured, holding, end, .. } = first(maker, old, l);
        for counts in edges_of_time() {
            let next = old.sequence.wrapping_add(u16::from(l) + 1).wrapping_add(maker.rng.pick(&[0, 0, 1, 101]));
            let (new, l, b) = (base(next, end.wrapping_add(counts)), maker.rng.small(0, 7), maker.rng.small(1, 10));
            let n = maker.rng.small(0, l);
            calls.push(offer(maker, &poured, new, [l, n, b], false));
            calls.extend(both_ways(maker, &holding, new).into_iter().take(1));
        }
    }
    calls
}

/// A session that has poured a group and holds these packets of another, and a holding that is its copy.
fn heard(maker: &mut Maker, l: u8, b: u8, numbers: &[u8], erasures: bool) -> [Vec<u8>; 2] {
    let mut session = opened(maker);
    session = left(&offer(maker, &session, base(0x0100, 0), [1, 0, 2], false), 0);
    session = poured(maker, &session);
    for &n in numbers {
        session = left(&offer(maker, &session, base(0x0110, 160 * 32), [l, n, b], erasures), 0);
    }
    let copy = copied(maker, &session);
    [session, copy]
}

/// Calls on a session and a holding with octets changed: an offer of another source, which shows whether the session
/// is open, and its group dropped; a pouring and a reading of the holding, and what is lost between it and a later one.
fn spoilt(maker: &mut Maker, [session, holding]: &[Vec<u8>; 2], changes: &[(usize, u8)]) -> Vec<Call> {
    let mut calls = Vec::new();
    let later = self::holding(maker, base(0x0130, 160 * 200), [2, 1, 3]);
    for &(at, octet) in changes {
        let (mut session, mut holding) = (session.clone(), holding.clone());
        session[at] = octet;
        holding[at] = octet;
        calls.push(maker.call("lv_session_offer", &[7, 0, 0], vec![session.clone(), vec![0, 0]]));
        calls.push(maker.call("lv_session_drop", &[], vec![session]));
        calls.push(maker.call("lv_holding_pour", &[], vec![holding.clone(), vec![0x77; ROOM]]));
        calls.push(maker.call("lv_holding_read", &[], vec![holding.clone()]));
        calls.push(maker.call("lv_holding_lost", &[], vec![holding.clone(), later.clone()]));
        calls.push(maker.call("lv_holding_lost", &[], vec![later.clone(), holding]));
    }
    calls
}

/// Every held flag set to 1, 2 and 255, in groups of every L.
fn every_flag(maker: &mut Maker, l: u8) -> Vec<Call> {
    let both = heard(maker, l, l + 1, &[l / 2], false);
    let flags = (FLAGS..FLAGS + PACKETS).chain(GROUP_AT + FLAGS..GROUP_AT + FLAGS + PACKETS);
    let changes: Vec<_> = flags.flat_map(|at| [(at, 1), (at, 2), (at, 255)]).collect();
    spoilt(maker, &both, &changes)
}

/// Some values of an octet.
fn values() -> impl Iterator<Item = u8> {
    (0..=16).chain(126..=129).chain(238..=255)
}

/// A session that has poured a group and holds none, with an octet changed of what it remembers: a packet of the next.
fn every_memory(maker: &mut Maker) -> Vec<Call> {
    let First { poured, end, .. } = first(maker, base(0x0100, 0x0102_0300), 2);
    let changes = (POURED..GROUP_AT).flat_map(|at| values().map(move |value| (at, value)));
    let changed = |(at, value): (usize, u8)| {
        let mut session = poured.clone();
        session[at] = value;
        offer(maker, &session, base(0x0103, end + 160), [1, 0, 3], false)
    };
    changes.map(changed).collect()
}

/// Every octet changed; and those that are judged at many values.
fn every_octet(maker: &mut Maker, erasures: bool) -> Vec<Call> {
    let both = heard(maker, 6, 4, &[0, 2, 5], erasures);
    let mut changes: Vec<(usize, u8)> =
        (0..OCTETS).map(|at| (at, both[0][at].wrapping_add(maker.rng.pick(&[1, 2, 128, 255])))).collect();
    let group = [L, B, FLAGS, FLAGS + 1, TIMESTAMP + 2, TIMESTAMP + 3, TYPES, TYPES + FRAMES];
    let judged =
        [&[OPEN, FORM, MAX_L, MAX_B, POURED, LAST_L, LAST_B], &group[..], &group.map(|at| GROUP_AT + at)].concat();
    changes.extend(judged.iter().flat_map(|&at| values().map(move |value| (at, value))));
    spoilt(maker, &both, &changes)
}
