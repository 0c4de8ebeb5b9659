//! The rows of calls.rs: what each is given, and a turn of each, as in ../calls.c.
use crate::input::{self, ALL_RATES, B, CAPTURE_PACKETS, FRAMES, FRAME_COUNTS, L, PACKETS};
use crate::input::{POURED, RATE_1, SOURCE};
use crate::refusal::Refusal;
use crate::{capture, packet, payload, session};

/// What the turns of a row work on.
pub struct Bench {
    /// What the calls read, and what is spoilt to check them; how many octets of it are lent.
    pub input: Vec<u8>,
    pub len: usize,
    /// A group's payloads.
    payloads: Vec<Vec<u8>>,
    pub session: Vec<u8>,
    pub out: Vec<u8>,
    /// The octets of out that are lent, and those that this turn wrote.
    pub room: usize,
    pub written: usize,
    place: usize,
    pub refused: u64,
    pub sum: u64,
    /// Done so far.
    pub turns: u32,
}

/// A row. Of what a turn wrote, eight octets go into the sum while it is timed; its input is spoilt about so many times to check it.
pub struct Row {
    pub name: &'static str,
    pub turns: u32,
    pub spoilt: usize,
    pub make: fn(&mut Bench),
    pub turn: fn(&mut Bench, u32),
    pub shown: fn(&Bench) -> &[u8],
}

#[rustfmt::skip]
pub const ROWS: [Row; 7] = [
    Row { name: "read", turns: 200_000, spoilt: 20_000, make: make_read, turn: turn_read, shown: |b| &b.out },
    Row { name: "write", turns: 20_000, spoilt: 20_000, make: make_write, turn: turn_write, shown: |b| &b.out[8..] },
    Row { name: "offer", turns: 10_000, spoilt: 20_000, make: make_offer, turn: turn_offer, shown: |b| &b.session[144..] },
    Row { name: "held", turns: 10_000, spoilt: 20_000, make: make_held, turn: turn_offer, shown: |b| &b.session[144..] },
    Row { name: "pour", turns: 10_000, spoilt: 20_000, make: make_pour, turn: turn_pour, shown: |b| &b.out },
    Row { name: "capture", turns: 400, spoilt: 200, make: make_capture, turn: turn_capture, shown: |b| &b.out[7..] },
    Row { name: "capture-roomy", turns: 600, spoilt: 200, make: make_roomy, turn: turn_capture, shown: |b| &b.out[7..] },
];

impl Bench {
    pub fn new() -> Bench {
        Bench {
            input: Vec::new(),
            len: 0,
            payloads: Vec::new(),
            session: vec![0; session::OCTETS],
            out: vec![0; capture::LARGEST],
            room: 0,
            written: 0,
            place: 0,
            refused: 0,
            sum: 14_695_981_039_346_656_037,
            turns: 0,
        }
    }

    pub fn add(&mut self, word: u64) {
        self.sum = (self.sum ^ word).wrapping_mul(1_099_511_628_211);
    }

    /// Takes an answer; a refusal with the place that was told last.
    fn accepted<T>(&mut self, answer: Result<T, Refusal>) -> Option<T> {
        match answer {
            Ok(given) => Some(given),
            Err(refusal) => {
                self.place = refusal.place.unwrap_or(self.place);
                self.refused += 1;
                self.add(refusal.number as u64);
                self.add(self.place as u64);
                None
            }
        }
    }

    /// Offers the six packets of a group to the session, of which so many octets are lent.
    fn offer(&mut self, group: u32, turn: u32, lent: usize) {
        for n in 0..PACKETS {
            self.payloads[n][1 + B] = turn as u8;
            let sequence = (group * PACKETS as u32 + n as u32) as u16;
            let frames = group.wrapping_mul(FRAMES as u32) + n as u32;
            let timestamp = FRAME_COUNTS.wrapping_mul(frames);
            let session = &mut self.session[..lent];
            let answer = session::offer(session, SOURCE, sequence, timestamp, &self.payloads[n]);
            self.written += self.accepted(answer).unwrap_or(0);
        }
    }

    fn pour(&mut self) {
        let answer = session::pour(&mut self.session, &mut self.out[..self.room]);
        self.written += self.accepted(answer).unwrap_or(0);
    }

    fn open_session(&mut self, rates: &[u8; 8]) {
        self.payloads = input::payloads(rates);
        self.room = POURED;
        session::open(&mut self.session, SOURCE, 7, 10);
    }
}

/// read: the six payloads, behind three numbers; D changes from turn to turn.
fn make_read(bench: &mut Bench) {
    bench.payloads = input::payloads(&ALL_RATES);
    bench.input = [vec![1, 5, 10], bench.payloads.concat()].concat();
}

fn turn_read(bench: &mut Bench, _: u32) {
    let mut from = 3;
    for n in 0..PACKETS {
        let to = from + bench.payloads[n].len();
        let end = to.min(bench.len).max(from);
        bench.input[from + B] ^= 0x40;
        let input = &bench.input;
        let answer = payload::read(input[0], input[1], input[2], &input[from..end])
            .map(|read| [read.l, read.n, read.b(), read.d()]);
        if let Some(told) = bench.accepted(answer) {
            bench.out[4 * n..4 * n + 4].copy_from_slice(&told);
            bench.written += 4;
        }
        from = to;
    }
}

/// write: the six packets of the group whose entries stand behind six numbers.
fn make_write(bench: &mut Bench) {
    bench.input = [vec![1, 5, 10, L as u8, B as u8, 0], input::entries()].concat();
    bench.room = POURED;
}

fn turn_write(bench: &mut Bench, turn: u32) {
    bench.input[7] = turn as u8;
    for n in 0..PACKETS as u8 {
        let input = &bench.input;
        let wanted = packet::Wanted {
            form: input[0],
            max_l: input[1],
            max_b: input[2],
            l: input[3],
            n,
            b: input[4],
            d: input[5],
        };
        let entries = &input[6..bench.len.max(6)];
        let out = &mut bench.out[bench.written..bench.room.max(bench.written)];
        let answer = packet::write(&wanted, entries, out);
        bench.written += bench.accepted(answer).unwrap_or(0);
    }
}

/// offer: a group, to a session that has poured the last but one before it; it is copied back before each turn.
fn make_offer(bench: &mut Bench) {
    bench.open_session(&ALL_RATES);
    bench.offer(0, 0, session::OCTETS);
    bench.pour();
    bench.input = bench.session.clone();
}

fn turn_offer(bench: &mut Bench, turn: u32) {
    bench.session.copy_from_slice(&bench.input);
    bench.offer(2, turn, bench.len);
}

/// held: the same to a session that holds the group; for `check` alone.
fn make_held(bench: &mut Bench) {
    make_offer(bench);
    bench.offer(2, 0, session::OCTETS);
    bench.input = bench.session.clone();
}

/// pour: group after group, rate 1 alone, offered and poured.
fn make_pour(bench: &mut Bench) {
    bench.open_session(&RATE_1);
}

fn turn_pour(bench: &mut Bench, turn: u32) {
    bench.offer(turn, turn, session::OCTETS);
    bench.pour();
}

/// capture: into room of just the recording's size; capture-roomy: into room for any recording.
fn make_capture(bench: &mut Bench) {
    make_roomy(bench);
    bench.len = bench.input.len();
    turn_capture(bench, 0);
    bench.room = bench.written;
}

fn make_roomy(bench: &mut Bench) {
    bench.input = input::capture();
    bench.room = capture::LARGEST;
}

fn turn_capture(bench: &mut Bench, turn: u32) {
    bench.input[2 + 12 * CAPTURE_PACKETS + 1 + B] = turn as u8;
    let answer = capture::record(&bench.input[..bench.len], &mut bench.out[..bench.room]);
    bench.written = bench.accepted(answer).unwrap_or(0);
}
