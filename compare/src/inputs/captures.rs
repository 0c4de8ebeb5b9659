//! Captures to record, and their packets' answers: talks that were heard well or badly, and bad captures.

use super::octets::{any, damage, likely, neighbours};
use super::talk::{change, counts, Packet, Talk};
use super::Maker;
use crate::call::Call;
use crate::paper::capture;
use crate::rng::Rng;

/// The most packets and octets of a capture.
const PACKETS: usize = 256;
const OCTETS: usize = 65_536;

/// So many packets are few: each is asked about.
const FEW: u16 = 40;

/// The octets of a packet's numbers in the table, and where its length stands among them.
const ROW: usize = 12;
const LENGTH: usize = 10;

/// The octets of a capture: count, table and payloads.
fn octets(packets: &[Packet]) -> Vec<u8> {
    let mut octets = (packets.len() as u16).to_be_bytes().to_vec();
    for Packet { source, sequence, timestamp, payload } in packets {
        octets.extend(source.to_be_bytes());
        octets.extend(sequence.to_be_bytes());
        octets.extend(timestamp.to_be_bytes());
        octets.extend((payload.len() as u16).to_be_bytes());
    }
    packets.iter().for_each(|packet| octets.extend(&packet.payload));
    octets
}

/// The packets of a group as they are heard: some lost, in any order, some again as they were or changed, with strays
/// between them.
fn heard(rng: &mut Rng, talk: &Talk) -> Vec<Packet> {
    let mut packets = talk.packets();
    if rng.one_in(2) {
        rng.mix(&mut packets);
    }
    if rng.one_in(2) {
        let one = rng.between(0, packets.len() - 1);
        let mut at = 0..;
        packets.retain(|_| at.next() == Some(one) || !rng.one_in(3));
    }
    for _ in 0..rng.pick(&[0, 0, 1, 2]) {
        let mut again = packets[rng.between(0, packets.len() - 1)].clone();
        if rng.one_in(2) {
            change(rng, &mut again);
        }
        packets.insert(rng.between(0, packets.len()), again);
    }
    if rng.one_in(6) {
        // Another group at the same base, or at a distance and a time at which the rules change.
        let mut stray = talk.twin(rng);
        let l = talk.payloads.len() as u16 - 1;
        let d = rng.pick(&[0, 1, l, l + 1, l + 2, l + 101, l + 102, 32_767, 32_768, 65_535]);
        stray.sequence = stray.sequence.wrapping_add(d);
        if d > l {
            stray.timestamp = talk.end().wrapping_add(counts(rng));
        }
        packets.insert(rng.between(1, packets.len()), stray.packet(rng));
    }
    packets
}

/// The packets of some groups, so many at least; the clock of some is not the talk's.
fn some_groups(rng: &mut Rng, least: usize) -> Vec<Packet> {
    let mut talk = Talk::new(rng, 1, 7, 10);
    let mut packets = Vec::new();
    while packets.len() < least {
        let group = if rng.one_in(6) { talk.astray(rng) } else { talk.clone() };
        packets.extend(heard(rng, &group));
        talk.go_on(rng);
    }
    packets
}

/// Every packet begins a group of its own, with all its frames of Rate 1, as late behind the one before as it may be.
fn largest(rng: &mut Rng) -> Vec<Packet> {
    let mut talk = Talk::new(rng, 1, 7, 10);
    let mut packets = Vec::new();
    for _ in 0..PACKETS {
        talk.b = 10;
        talk.payloads = vec![[vec![0x38], vec![0x84; 9], vec![0x04], rng.octets(220)].concat(); 8];
        packets.push(talk.packets().swap_remove(0));
        talk.skip(0, 160 * 3_000);
    }
    packets
}

/// Adds a malformed packet that fills their capture to a length.
fn filled(rng: &mut Rng, mut packets: Vec<Packet>, len: usize) -> Vec<Packet> {
    let left = len - octets(&packets).len() - ROW;
    let payload = [&[0, 0][..], &rng.octets(left - 2)].concat();
    let at = rng.between(0, packets.len() - 1);
    packets.insert(at, Packet { payload, ..packets[at].clone() });
    packets
}

/// Captures of about as many packets or octets as there may be.
fn big(rng: &mut Rng) -> Vec<u8> {
    let count = rng.pick(&[100, 200, 254, 255]);
    let mut packets = some_groups(rng, count);
    packets.truncate(count);
    while octets(&packets).len() > OCTETS - 100 {
        packets.pop();
    }
    let len = rng.pick(&[OCTETS - 1, OCTETS, OCTETS, OCTETS + 1]);
    match rng.between(0, 4) {
        0 => octets(&packets),
        1 => octets(&filled(rng, packets, len)),
        2 => {
            // As many octets as there may be, but the last payload cut by one, or an octet left.
            let len = rng.pick(&[OCTETS - 1, OCTETS + 1]);
            let mut octets = octets(&filled(rng, packets, len));
            octets.resize(OCTETS, 0);
            octets
        }
        _ => {
            let count = rng.pick(&[PACKETS - 1, PACKETS, PACKETS, PACKETS + 1]);
            let last = packets[packets.len() - 1].clone();
            packets.resize(count, Packet { payload: vec![0, 0], ..last });
            octets(&packets)
        }
    }
}

/// A capture of few groups as it is, cut, with octets left, another count or length, damaged, or no capture at all.
fn small(rng: &mut Rng) -> Vec<u8> {
    let least = rng.between(1, 8);
    let packets = some_groups(rng, least);
    let mut octets = octets(&packets);
    let at = 2 + ROW * rng.between(0, packets.len() - 1) + LENGTH;
    match rng.between(0, 19) {
        0 => octets.truncate(octets.len() - rng.pick(&[1, 1, 2, 12])),
        1 => octets.truncate(rng.between(0, octets.len())),
        2 => octets.extend(rng.pick(&[&[0][..], &[0; 2], &[1; 12]])),
        3 => octets[1] = octets[1].wrapping_add(rng.pick(&[1, 255])),
        4 => octets[0] = rng.pick(&[1, 2, 255]),
        5 => octets[at + rng.between(0, 1)] ^= rng.pick(&[1, 2, 255]),
        6 if packets.len() > 1 => {
            // An octet of a payload belongs to the next.
            octets[2 + LENGTH + 1] = octets[2 + LENGTH + 1].wrapping_sub(1);
            octets[2 + ROW + LENGTH + 1] = octets[2 + ROW + LENGTH + 1].wrapping_add(1);
        }
        7 => damage(rng, &mut octets),
        8 => octets = [vec![0, rng.small(0, 3)], likely(rng, 60)].concat(),
        9 => octets = any(rng, 60),
        10 => octets = vec![0, 0],
        _ => {}
    }
    octets
}

/// One capture by a seed, of any kind; seed 0 has the largest recording.
pub fn random(seed: u64) -> Vec<u8> {
    let rng = &mut Rng::new(seed);
    match seed % 50 {
        _ if seed == 0 => octets(&largest(rng)),
        0 => big(rng),
        _ => small(rng),
    }
}

/// Calls that record a capture, with just enough room and with too little or more.
fn recorded(maker: &mut Maker, capture: Vec<u8>) -> Vec<Call> {
    let needed = capture::recorded(&capture).map_or(0, |recording| recording.len());
    let some = maker.rng.between(0, needed);
    let other = maker.rng.pick(&[needed.saturating_sub(1), 0, some, needed + 1, needed + 40]);
    let mut record = |room: usize| {
        let output = maker.rng.octets(room);
        maker.call("lv_capture_record", &[], vec![capture.clone(), output])
    };
    vec![record(needed), record(other)]
}

/// Calls that ask what packets of a capture were answered: those at the ends and past them, and if they are few, each.
fn answered(maker: &mut Maker, capture: &[u8]) -> Vec<Call> {
    if capture::recorded(capture).is_none() {
        let i = maker.rng.pick(&[0, 0, 1, 255, u64::MAX]);
        return vec![maker.call("lv_capture_answer", &[i], vec![capture.to_vec()])];
    }
    let count = u16::from_be_bytes([capture[0], capture[1]]);
    let mut calls = maker.asked("lv_capture_answer", &[], capture, count.into());
    if count <= FEW {
        let each = |i: u16| maker.call("lv_capture_answer", &[i.into()], vec![capture.to_vec()]);
        calls.extend((0..count).map(each));
    }
    calls
}

/// A capture recorded, and what its packets were answered.
pub fn seeded(maker: &mut Maker) -> Vec<Call> {
    let capture = if maker.rng.one_in(60) { big(maker.rng) } else { small(maker.rng) };
    let mut calls = answered(maker, &capture);
    calls.extend(recorded(maker, capture));
    calls
}

/// Families: the shortest captures, every neighbour of some small ones, and the one with the largest recording. Of each
/// one packet's answer is asked.
pub fn families(maker: &mut Maker) -> Vec<Call> {
    let mut captures = vec![octets(&largest(maker.rng)), Vec::new()];
    captures.extend((0..=255).map(|octet| vec![octet]));
    captures.extend((0..=300).chain([0x0200, 0x8000, 0xFFFF_u16]).map(|count| count.to_be_bytes().to_vec()));
    while captures.len() < 8_000 {
        let good = octets(&some_groups(maker.rng, 2));
        if good.len() < 130 {
            captures.extend(neighbours(maker.rng, &good));
        }
    }
    let mut calls = Vec::new();
    for capture in captures {
        let mut answers = answered(maker, &capture);
        calls.push(answers.swap_remove(maker.rng.between(0, answers.len() - 1)));
        calls.extend(recorded(maker, capture).into_iter().take(1));
    }
    calls
}
