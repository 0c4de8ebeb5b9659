//! Captures recorded (document 01, "Capture program"), in plain Rust. The session is the run's own: it is never judged, and holds
//! the packets where they lie in the capture.
use crate::numbers::Numbers;
use crate::payload::{read, Read};
use crate::refusal::Refusal;

/// The octets of the longest recording.
pub const LARGEST: usize = 841_807;

const OPENING: &[u8] = b"#!EVRC\n";
const ERASURE: u8 = 14;

struct Group<'a> {
    numbers: Numbers,
    held: [Option<Read<'a>>; 8],
}

/// What a run does with what it hears.
trait Recorder {
    fn lost(&mut self, frames: usize);
    fn pour(&mut self, group: &Group);
}

/// The octets of the recording.
struct Measured(usize);

impl Recorder for Measured {
    fn lost(&mut self, frames: usize) {
        self.0 += frames;
    }

    fn pour(&mut self, group: &Group) {
        let bodies = group.held.iter().flatten().map(|read| read.bodies.len());
        let frames = (group.numbers.l as usize + 1) * group.numbers.b as usize;
        self.0 += frames + bodies.sum::<usize>();
    }
}

/// The recording, and how far it is written.
struct Recorded<'a> {
    out: &'a mut [u8],
    at: usize,
}

impl Recorded<'_> {
    fn put(&mut self, kind: u8, body: &[u8]) {
        let end = self.at + 1 + body.len();
        self.out[self.at] = kind;
        self.out[self.at + 1..end].copy_from_slice(body);
        self.at = end;
    }
}

impl Recorder for Recorded<'_> {
    fn lost(&mut self, frames: usize) {
        self.out[self.at..self.at + frames].fill(ERASURE);
        self.at += frames;
    }

    fn pour(&mut self, group: &Group) {
        let mut packets: [_; 8] = group.held.map(|held| held.map(|read| read.frames()));
        for _ in 0..group.numbers.b {
            for packet in &mut packets[..=group.numbers.l as usize] {
                let (kind, body) = match packet {
                    None => (ERASURE, &[][..]),
                    Some(frames) => frames.next().unwrap_or((ERASURE, &[])),
                };
                self.put(kind, body);
            }
        }
    }
}

struct Run<'a, R> {
    recorder: R,
    group: Option<Group<'a>>,
    last: Option<Numbers>,
}

impl<'a, R: Recorder> Run<'a, R> {
    fn pour(&mut self) {
        if let Some(group) = self.group.take() {
            self.recorder.pour(&group);
            self.last = Some(group.numbers);
        }
    }

    fn place(&mut self, numbers: Numbers, read: Read<'a>) -> Result<(), u8> {
        let group = match &mut self.group {
            None => {
                let lost = numbers.lost_since(self.last)?;
                self.recorder.lost(lost);
                let held = [None; 8];
                self.group.insert(Group { numbers, held })
            }
            Some(group) => {
                numbers.is_of(&group.numbers)?;
                group
            }
        };
        match &group.held[read.n as usize] {
            Some(held) if held.same_frames(&read) => Ok(()),
            Some(_) => Err(14),
            None => {
                group.held[read.n as usize] = Some(read);
                Ok(())
            }
        }
    }

    /// Takes a packet of the session's source; one that is refused is skipped.
    fn hear(&mut self, sequence: u16, timestamp: u32, payload: &'a [u8]) {
        if let Ok(read) = read(1, 7, 10, payload) {
            let numbers = Numbers::of_packet(sequence, timestamp, &read);
            if self.place(numbers, read) == Err(12) {
                self.pour();
                let _ = self.place(numbers, read);
            }
        }
    }
}

fn two(row: &[u8], at: usize) -> u16 {
    u16::from_be_bytes([row[at], row[at + 1]])
}

fn four(row: &[u8], at: usize) -> u32 {
    u32::from_be_bytes([row[at], row[at + 1], row[at + 2], row[at + 3]])
}

/// The table and the payloads of a capture, judged whole.
fn judged(capture: &[u8]) -> Option<(&[u8], &[u8])> {
    if capture.len() > 65_536 || capture.len() < 2 {
        return None;
    }
    let count = two(capture, 0) as usize;
    if count > 256 || capture.len() < 2 + 12 * count {
        return None;
    }
    let (table, payloads) = capture[2..].split_at(12 * count);
    let rows = table.chunks_exact(12);
    let need: usize = rows.map(|row| two(row, 10) as usize).sum();
    if payloads.len() == need {
        Some((table, payloads))
    } else {
        None
    }
}

fn run<R: Recorder>(table: &[u8], mut payloads: &[u8], recorder: R) -> R {
    let mut run = Run {
        recorder,
        group: None,
        last: None,
    };
    for row in table.chunks_exact(12) {
        let (payload, rest) = payloads.split_at(two(row, 10) as usize);
        payloads = rest;
        if row[..4] == table[..4] {
            run.hear(two(row, 4), four(row, 6), payload);
        }
    }
    run.pour();
    run.recorder
}

/// Turns a capture into a recording, and gives the octets written. Where not every recording fits, it is measured first.
#[inline(never)] // called as a library's functions are
pub fn record(capture: &[u8], out: &mut [u8]) -> Result<usize, Refusal> {
    let (table, payloads) = judged(capture).ok_or(255)?;
    let begun = OPENING.len();
    if out.len() < LARGEST && run(table, payloads, Measured(begun)).0 > out.len() {
        return Err(15.into());
    }
    out[..begun].copy_from_slice(OPENING);
    Ok(run(table, payloads, Recorded { out, at: begun }).at)
}
