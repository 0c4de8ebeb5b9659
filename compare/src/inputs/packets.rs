//! Packets to write.

use super::octets::{agreed, any, cut, damage, entries, reserved, unsendable};
use super::Maker;
use crate::call::Call;
use crate::rng::Rng;

/// The most octets that a packet has.
const MOST: usize = 300;

/// The entries of so many frames, one too few or too many at times, with a fault or more among them or none.
fn given(rng: &mut Rng, count: usize) -> Vec<u8> {
    let count = match rng.between(0, 9) {
        0 => count + 1,
        1 => count.saturating_sub(1),
        _ => count,
    };
    let mut all = entries(rng, count, true);
    for _ in 0..rng.pick(&[0, 0, 1, 2]) {
        let at = rng.between(0, all.len());
        match rng.between(0, 5) {
            0 => all.insert(at, vec![reserved(rng)]),
            1 => all.push(cut(rng)),
            2 => all.insert(at, unsendable(rng)),
            3 if at < all.len() => all[at] = unsendable(rng),
            _ => {}
        }
    }
    let mut octets = all.concat();
    match rng.between(0, 14) {
        0 => damage(rng, &mut octets),
        1 => octets = any(rng, 60),
        _ => {}
    }
    octets
}

/// A packet of a group, or a header-free one, with the form it is written in. The numbers are in their ranges most
/// often.
pub fn seeded(maker: &mut Maker) -> Vec<Call> {
    let rng = &mut *maker.rng;
    let agreed = agreed(rng);
    if rng.one_in(3) {
        let [form, max_l, max_b] = agreed;
        let form = if rng.one_in(4) { form } else { 0 };
        let mut entries = given(rng, 1);
        if rng.one_in(6) {
            entries.iter_mut().take(1).for_each(|octet| *octet = 0);
        }
        return maker.written("lv_packet_write_header_free", &[form, max_l, max_b], &entries, MOST);
    }
    let l = rng.between(0, agreed[1].min(7) as usize) as u64;
    let b = rng.between(1, agreed[2].clamp(1, 10) as usize) as u64;
    let mut numbers = [l, rng.between(0, l as usize) as u64, b, rng.pick(&[0, 1])];
    if rng.one_in(4) {
        numbers[rng.between(0, 3)] = rng.pick(&[0, 1, 2, 7, 8, 10, 11, 255]);
    }
    let entries = given(rng, ((l + 1) * b) as usize);
    maker.written("lv_packet_write", &[&agreed[..], &numbers].concat(), &entries, MOST)
}

/// Families: every L, N, B and D that can be written, under maxima that just admit them and under the greatest; and
/// every number at its ends, with sound entries and with each fault.
pub fn families(maker: &mut Maker) -> Vec<Call> {
    let mut calls = Vec::new();
    for (l, n) in (0..=7).flat_map(|l| (0..=l).map(move |n| (l, n))) {
        for (b, d) in (1..=10).flat_map(|b| [(b, 0), (b, 1)]) {
            let entries = entries(maker.rng, ((l + 1) * b) as usize, true).concat();
            for (max_l, max_b) in [(l, b), (7, 10)] {
                calls.extend(maker.written("lv_packet_write", &[1, max_l, max_b, l, n, b, d], &entries, MOST));
            }
        }
    }
    let good = entries(maker.rng, 9, true).concat();
    for entries in [&good[..], &[2], &[4], &[14], &[], &[&good[..], &[0]].concat()] {
        let middle = [1, 5, 10, 2, 1, 3, 1];
        for (at, value) in (0..7).flat_map(|at| (0..=12).chain([254, 255]).map(move |value| (at, value))) {
            let mut scalars = middle;
            scalars[at] = value;
            calls.extend(maker.written("lv_packet_write", &scalars, entries, MOST));
        }
    }
    for (form, octet, behind) in
        [0, 1, 2].iter().flat_map(|f| (0..=255).flat_map(move |o| [2, 9, 10, 22, 23].map(|b| (*f, o, b))))
    {
        let entries = [&[octet][..], &vec![0xE0; behind]].concat();
        calls.extend(maker.written("lv_packet_write_header_free", &[form, 5, 10], &entries, MOST).into_iter().take(2));
    }
    calls
}
