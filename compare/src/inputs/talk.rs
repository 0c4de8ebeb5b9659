//! What a source sends, group after group, and packets changed on their way.

use super::octets::{damage, likely};
use super::payloads;
use crate::rng::Rng;

/// A packet as a box hands it to us.
#[derive(Clone)]
pub struct Packet {
    pub source: u32,
    pub sequence: u16,
    pub timestamp: u32,
    pub payload: Vec<u8>,
}

/// A source, its form and maxima, the base numbers of the group it sends now, its B, and its payloads.
#[derive(Clone)]
pub struct Talk {
    pub source: u32,
    pub form: u8,
    pub max_l: u8,
    pub max_b: u8,
    pub sequence: u16,
    pub timestamp: u32,
    pub b: usize,
    pub payloads: Vec<Vec<u8>>,
}

/// How many packets are lost between two groups, if any.
const GAPS: [u16; 12] = [1, 2, 7, 99, 100, 101, 32_766, 32_767, 32_768, 65_535, 65_530, 60_000];

/// How many frames pass between two groups, if any: up to a minute, and more. The last are all that the clock has.
const FRAMES: [u32; 12] = [1, 2, 3, 50, 1_000, 2_999, 3_000, 3_001, 3_002, 65_536, 65_541, 26_843_545];

/// The counts of a frame, and what the clock has more than whole frames.
const FRAME: u32 = 160;
const OVER: u32 = 96;

/// Counts of the clock from a group's end to the next group: whole frames, some more, or back.
pub fn counts(rng: &mut Rng) -> u32 {
    let (whole, any) = (FRAME * rng.pick(&FRAMES), rng.next() as u32);
    let back = 0_u32.wrapping_sub(rng.pick(&[FRAME, 2 * FRAME, whole]));
    match rng.between(0, 9) {
        0 => 0,
        1..=4 => whole,
        5 | 6 => whole.wrapping_add(rng.pick(&[1, 80, 95, OVER, 159])),
        7 => back,
        // The clock has no whole number of frames: back by so many and 96 counts, it has gone on by whole frames.
        8 => back.wrapping_sub(OVER),
        _ => any,
    }
}

impl Talk {
    /// A talk under these maxima whose numbers often begin shortly before they wrap around.
    pub fn new(rng: &mut Rng, form: u8, max_l: u8, max_b: u8) -> Talk {
        let any = rng.next();
        let mut talk = Talk {
            source: rng.pick(&[7, 8, 0xFFFF_FFFF, 0x0102_0304, any as u32]),
            form,
            max_l,
            max_b,
            sequence: rng.pick(&[0xFFFF, 0xFFFD, 0xFFF0, 0, 1, 0x7FFF, any as u16]),
            timestamp: rng.pick(&[0xFFFF_FF60, 0xFFFF_FE00, 0, 160, 0x8000_0000, any as u32]),
            b: 0,
            payloads: Vec::new(),
        };
        talk.renew(rng);
        talk
    }

    /// The same base numbers, with another L, B and frames; most often a small group.
    pub fn renew(&mut self, rng: &mut Rng) {
        let (most_l, most_b) = if rng.one_in(5) { (7, 10) } else { (3, 3) };
        let l = rng.small(0, self.max_l.min(most_l));
        self.b = rng.between(1, self.max_b.min(most_b).into());
        self.payloads = match self.form {
            0 => {
                self.b = 1;
                let size = rng.pick(&[2, 2, 10, 22]);
                vec![rng.octets(size)]
            }
            _ => (0..=l).map(|n| payloads::numbered(rng, l, n, self.b)).collect(),
        };
    }

    /// Goes on to the next group. At times packets are lost between, with their time or without, there is a pause, or
    /// the clock is set anew.
    pub fn go_on(&mut self, rng: &mut Rng) {
        let gap = if rng.one_in(4) { rng.pick(&GAPS) } else { 0 };
        let counts = match rng.between(0, 11) {
            0..=4 => FRAME * u32::from(gap) * self.b as u32,
            5..=9 => FRAME * rng.pick(&[1, 2, 25, 500, 2_999, 3_000]),
            10 => 0,
            _ => counts(rng),
        };
        self.skip(gap, counts);
        self.renew(rng);
    }

    /// Goes on past the group, and so many packets and counts of the clock more.
    pub fn skip(&mut self, gap: u16, counts: u32) {
        self.timestamp = self.end().wrapping_add(counts);
        self.sequence = self.sequence.wrapping_add(self.payloads.len() as u16).wrapping_add(gap);
    }

    /// The timestamp at which the group's frames end.
    pub fn end(&self) -> u32 {
        self.timestamp.wrapping_add(FRAME * (self.payloads.len() * self.b) as u32)
    }

    /// The same group, with its clock set otherwise.
    pub fn astray(&self, rng: &mut Rng) -> Talk {
        Talk { timestamp: self.timestamp.wrapping_add(counts(rng)), ..self.clone() }
    }

    /// The same talk, or one that differs in the source, a base number, L and B, or the last octet of each packet.
    pub fn twin(&self, rng: &mut Rng) -> Talk {
        let mut twin = self.clone();
        match rng.between(0, 9) {
            0 => twin.source = twin.source.wrapping_add(1),
            1 => twin.sequence = twin.sequence.wrapping_add(1),
            2 => twin.timestamp = twin.timestamp.wrapping_sub(160),
            3 => twin.renew(rng),
            4 => twin.payloads.iter_mut().flat_map(|payload| payload.last_mut()).for_each(|octet| *octet ^= 0x40),
            _ => {}
        }
        twin
    }

    /// Any packet of the group.
    pub fn packet(&self, rng: &mut Rng) -> Packet {
        self.numbered(rng.between(0, self.payloads.len() - 1))
    }

    /// All packets of the group.
    pub fn packets(&self) -> Vec<Packet> {
        (0..self.payloads.len()).map(|n| self.numbered(n)).collect()
    }

    /// Packet N of the group.
    fn numbered(&self, n: usize) -> Packet {
        Packet {
            source: self.source,
            sequence: self.sequence.wrapping_add(n as u16),
            timestamp: self.timestamp.wrapping_add(FRAME * n as u32),
            payload: self.payloads[n].clone(),
        }
    }
}

/// Changes a packet in one way.
pub fn change(rng: &mut Rng, packet: &mut Packet) {
    let few = rng.between(1, 8) as u16;
    let payload = &mut packet.payload;
    match rng.between(0, 10) {
        0 => {
            packet.source ^= 1 << rng.pick(&[0, 1, 7, 8, 16, 31]);
            if rng.one_in(2) {
                damage(rng, payload);
            }
        }
        1 | 2 => {
            let steps = rng.pick(&[1, few, few, 100, 101, 32_767, 32_768, 65_535, 65_534]);
            packet.sequence = packet.sequence.wrapping_add(steps);
        }
        3 => {
            let any = counts(rng);
            packet.timestamp = packet.timestamp.wrapping_add(rng.pick(&[160, 1, 0x8000_0000, any, any]));
        }
        4 => damage(rng, payload),
        5 => *payload = likely(rng, 14),
        6 => payload.iter_mut().rev().take(1).for_each(|octet| *octet ^= rng.pick(&[0x01, 0x10, 0x80])),
        7 => payload.iter_mut().take(1).for_each(|octet| *octet ^= rng.pick(&[0x40, 0x80, 0xC0])),
        8 => *payload = payloads::aimed(rng, 7, 10),
        _ => change_entries(rng, payload),
    }
}

/// Changes D in the table of contents, or a Blank to an erasure or back.
fn change_entries(rng: &mut Rng, payload: &mut [u8]) {
    let bits = rng.pick(&[0x40, 0x40, 0x0E]);
    let count = payload.iter().skip(1).position(|entry| entry & 0x80 == 0).map_or(0, |last| last + 1);
    for entry in payload.iter_mut().skip(1).take(count) {
        if bits == 0x40 || matches!(*entry & 0x3F, 0 | 14) {
            *entry ^= bits;
        }
    }
}
