//! Recordings to read, and entries to write as recordings.

use super::octets::{any, cut, damage, entries, likely, neighbours, reserved};
use super::Maker;
use crate::call::Call;
use crate::paper::host;
use crate::rng::Rng;
use crate::table::number;

/// What a recording opens with (000, section 9.1).
pub const OPENING: &[u8; 7] = b"#!EVRC\n";

/// Entries, with a fault behind them or among them, or none.
fn any_entries(rng: &mut Rng) -> Vec<u8> {
    let count = match rng.between(0, 30) {
        0 => rng.between(20, 300),
        _ => rng.between(0, 12),
    };
    let mut octets = entries(rng, count, false).concat();
    match rng.between(0, 9) {
        0 => octets.extend([vec![reserved(rng)], any(rng, 30)].concat()),
        1 => octets.extend(cut(rng)),
        2 | 3 => damage(rng, &mut octets),
        4 => octets = likely(rng, 30),
        5 => octets = any(rng, 60),
        _ => {}
    }
    octets
}

/// An opening: cut, damaged, another one, or as it ought to be.
fn any_opening(rng: &mut Rng) -> Vec<u8> {
    let mut opening = OPENING.to_vec();
    match rng.between(0, 15) {
        0 => opening.truncate(rng.between(0, 6)),
        1 => opening[rng.between(0, 6)] ^= 1 << rng.small(0, 7),
        2 => drop(opening.remove(rng.between(0, 6))),
        3 => opening = rng.pick(&["#!evrc\n", "#!EVRC\r\n", "#!EVRC-B\n", "#!SMV\n", "\n"]).into(),
        _ => {}
    }
    opening
}

/// A recording read and frames of it asked for; and its entries written.
pub fn seeded(maker: &mut Maker) -> Vec<Call> {
    let entries = any_entries(maker.rng);
    let octets = [any_opening(maker.rng), entries.clone()].concat();
    let read = maker.call("lv_recording_read", &[], vec![octets.clone()]);
    let left = host::make(&read);
    let count = if left.answer == 0 { number(&left.buffers[1]) } else { 0 };
    let mut calls = maker.asked("lv_recording_frame", &[], &octets, count);
    if left.answer != 0 {
        calls.truncate(1);
    }
    calls.push(read);
    calls.extend(maker.written("lv_recording_write", &[], &entries, entries.len() + 40));
    calls
}

/// Families: each octet of the opening at every value, every entry octet with every number of octets behind it,
/// counts up to where 16 bits count no further, and every neighbour of some good recordings.
pub fn families(maker: &mut Maker) -> Vec<Call> {
    let mut recordings: Vec<Vec<u8>> = Vec::new();
    for (at, octet) in (0..7).flat_map(|at| (0..=255).map(move |octet| (at, octet))) {
        let mut octets = [OPENING, &[1, 0x11, 0x11][..]].concat();
        octets[at] = octet;
        recordings.push(octets);
    }
    let entry = |(octet, behind): (u8, usize)| [OPENING, &[octet][..], &vec![0; behind]].concat();
    recordings.extend((0..=255).flat_map(|octet| (0..=23).map(move |behind| (octet, behind))).map(entry));
    let counts = (0..=40).chain(250..=260).chain([65_528, 65_529, 65_535, 65_536, 65_537]);
    recordings.extend(counts.map(|count| [OPENING, &vec![0xC0; count][..]].concat()));
    for _ in 0..12 {
        let good = [OPENING, &entries(maker.rng, 4, false).concat()[..]].concat();
        recordings.extend(neighbours(maker.rng, &good));
    }
    let mut calls = Vec::new();
    for octets in recordings {
        let k = octets.len().saturating_sub(8) as u64;
        calls.push(maker.call("lv_recording_frame", &[k], vec![octets.clone()]));
        let (entries, room) = (octets[octets.len().min(7)..].to_vec(), vec![0x77; octets.len()]);
        calls.push(maker.call("lv_recording_write", &[], vec![entries, room]));
        calls.push(maker.call("lv_recording_read", &[], vec![octets]));
    }
    calls
}
