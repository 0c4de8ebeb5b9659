//! Payloads to read.

use super::octets::{agreed, any, damage, likely, neighbours, reserved, size_of, TYPES};
use super::Maker;
use crate::call::Call;
use crate::paper::host;
use crate::rng::Rng;
use crate::table::number;

/// A type 1 payload: octet 0 with this L and N and any RR, a table of these entries but for F, and their bodies. D is
/// 0, 1 or any.
fn payload(rng: &mut Rng, l: u8, n: u8, kinds: &[u8]) -> Vec<u8> {
    let (low, high) = rng.pick(&[(0, 0), (1, 1), (0, 1)]);
    let mut octets = vec![rng.pick(&[0, 0, 1, 2, 3]) << 6 | l << 3 | n];
    for (k, kind) in kinds.iter().enumerate() {
        octets.push(u8::from(k + 1 < kinds.len()) << 7 | rng.small(low, high) << 6 | kind & 0x3F);
    }
    let size = kinds.iter().map(|&kind| size_of(kind)).sum();
    octets.extend(rng.octets(size));
    octets
}

/// So many types of the table.
fn kinds(rng: &mut Rng, count: usize) -> Vec<u8> {
    (0..count).map(|_| rng.pick(&TYPES).0).collect()
}

/// Packet N of a group with this L and B.
pub fn numbered(rng: &mut Rng, l: u8, n: u8, b: usize) -> Vec<u8> {
    let kinds = kinds(rng, b);
    payload(rng, l, n, &kinds)
}

/// A good payload with L and B of at most these.
pub fn good(rng: &mut Rng, max_l: u8, max_b: u8) -> Vec<u8> {
    let l = rng.small(0, max_l.min(7));
    let (n, count) = (rng.small(0, l), rng.between(1, max_b.clamp(1, 10).into()));
    numbered(rng, l, n, count)
}

/// A payload aimed at one refusal of a reader with these maxima, or at none.
pub fn aimed(rng: &mut Rng, max_l: u8, max_b: u8) -> Vec<u8> {
    let good = good(rng, max_l, max_b);
    let count = 1 + good[1..].iter().take_while(|entry| **entry & 0x80 != 0).count();
    let mut octets = good.clone();
    match rng.between(0, 11) {
        0 => octets.clear(),
        1 => octets[0] = octets[0] & 0xC0 | rng.pick(&[0o01, 0o07, 0o12, 0o67, 0o56]),
        2 => octets[0] = octets[0] & 0xC0 | (max_l + 1).min(7) << 3 | rng.small(0, max_l.min(6)),
        3 => {
            octets.truncate(1 + count);
            octets[count] |= 0x80;
        }
        4 => octets[rng.between(1, count)] = reserved(rng),
        5 => {
            // The table has an entry past the maximum, or is cut right before it.
            octets.truncate(1);
            octets.extend(vec![0x80; max_b.min(20).into()]);
            octets.extend(rng.pick(&[&[][..], &[0], &[2], &[0x81, 1, 1, 1, 1, 1], &[0x82]]));
        }
        6 => octets.truncate(rng.between(1 + count, octets.len())),
        7 => {
            let more = rng.pick(&[1, 1, 2, 10, 22, 80]);
            octets.extend(rng.octets(more));
        }
        _ => {}
    }
    octets
}

/// A payload and the form that it is read in.
fn any_payload(rng: &mut Rng) -> ([u64; 3], Vec<u8>) {
    let agreed = agreed(rng);
    let [form, max_l, max_b] = agreed;
    let (max_l, max_b) = (max_l.min(7) as u8, max_b.clamp(1, 10) as u8);
    let octets = match rng.between(0, 13) {
        0 => any(rng, 24),
        1 => any(rng, 300),
        2 => likely(rng, 16),
        3 => good(rng, 7, 10),
        4 => vec![0x1F; rng.pick(&[2, 10, 22])],
        5 => [good(rng, max_l, max_b), any(rng, 4000)].concat(),
        6 | 7 => {
            let mut octets = good(rng, max_l, max_b);
            damage(rng, &mut octets);
            octets
        }
        _ if form == 0 => {
            let len = rng.pick(&[0, 1, 2, 3, 5, 9, 10, 11, 21, 22, 23, 65_536 + 2, 256 + 10]);
            rng.octets(len)
        }
        _ => aimed(rng, max_l, max_b),
    };
    (agreed, octets)
}

/// A payload read, and frames of it asked for.
pub fn seeded(maker: &mut Maker) -> Vec<Call> {
    let (agreed, octets) = any_payload(maker.rng);
    let read = maker.call("lv_payload_read", &agreed, vec![octets.clone()]);
    let count = number(&host::make(&read).buffers[3]);
    let count = if count <= 10 { count } else { 0 };
    let mut calls = maker.asked("lv_payload_frame", &agreed, &octets, count);
    if count == 0 {
        calls.truncate(1);
    }
    calls.push(read);
    calls
}

/// Families: every payload of at most two octets, every L, N, B and last D, maxima and forms at their ends, lengths,
/// and every neighbour of some good payloads.
pub fn families(maker: &mut Maker) -> Vec<Call> {
    let mut cases: Vec<([u64; 3], Vec<u8>)> = Vec::new();
    cases.extend((0..=255).map(|octet| ([1, 5, 10], vec![octet])));
    cases.extend((0..=0xFFFF_u16).map(|octets| ([1, 5, 10], octets.to_be_bytes().to_vec())));
    for first in (0..64_u8).filter(|first| first & 7 <= first >> 3) {
        for b in 1..=10 {
            let octets = numbered(maker.rng, first >> 3, first & 7, b);
            cases.push(([1, 7, 10], octets.clone()));
            cases.push(([1, (first >> 3).into(), b as u64], octets));
        }
    }
    let numbers = || (0..=12).chain([16, 64, 127, 128, 254, 255]);
    let maxima = numbers().flat_map(|l| numbers().map(move |b| (l, b)));
    cases.extend(maxima.map(|(l, b)| ([1, l, b], vec![0x08, 0x81, 0x41, 0x11, 0x11, 0x11, 0x11])));
    cases.extend((0..=255).map(|form| ([form, 5, 10], vec![0, 0])));
    for len in (0..=600).chain(65_530..=65_560) {
        cases.push(([0, 5, 10], vec![0x11; len]));
        cases.push(([1, 5, 10], [&[0x08, 0x81, 0x41, 0x11, 0x11, 0x11, 0x11][..], &vec![0x11; len]].concat()));
    }
    for _ in 0..25 {
        let good = good(maker.rng, 5, 10);
        cases.extend(neighbours(maker.rng, &good).into_iter().map(|octets| ([1, 5, 10], octets)));
    }
    cases.into_iter().map(|(agreed, octets)| maker.call("lv_payload_read", &agreed, vec![octets])).collect()
}
