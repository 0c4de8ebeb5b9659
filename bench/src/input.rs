//! What the rows of calls.rs are given, all of it made by a fixed rule; ../input.h makes the same.
use crate::table::size;

pub const SOURCE: u32 = 7;
pub const L: usize = 5;
pub const B: usize = 10;
pub const PACKETS: usize = L + 1;
pub const FRAMES: usize = PACKETS * B;
pub const FRAME_COUNTS: u32 = 160;
pub const POURED: usize = FRAMES * 23;
pub const CAPTURE_PACKETS: usize = 256;

/// All rates, mixed within a packet; or rate 1 alone.
pub const ALL_RATES: [u8; 8] = [4, 3, 1, 4, 0, 3, 4, 1];
pub const RATE_1: [u8; 8] = [4; 8];

fn kind_of(rates: &[u8; 8], n: usize, k: usize) -> u8 {
    rates[(3 * n + k) % 8]
}

/// The body of frame k of packet n: it may be sent.
fn body(rates: &[u8; 8], n: usize, k: usize) -> Vec<u8> {
    let octets = size(kind_of(rates, n, k)).unwrap_or(0);
    let mut body: Vec<u8> = (0..octets).map(|i| (31 * n + 7 * k + i) as u8).collect();
    if octets == 22 {
        body[21] &= 0xE0;
    }
    body
}

/// A group's payloads.
pub fn payloads(rates: &[u8; 8]) -> Vec<Vec<u8>> {
    let payload = |n: usize| {
        let mut payload = vec![(L * 8 + n) as u8];
        payload.extend((0..B).map(|k| if k + 1 < B { 0x80 } else { 0 } + kind_of(rates, n, k)));
        payload.extend((0..B).flat_map(|k| body(rates, n, k)));
        payload
    };
    (0..PACKETS).map(payload).collect()
}

/// The group's frames in time order, as entries.
pub fn entries() -> Vec<u8> {
    let mut entries = Vec::new();
    for k in 0..B {
        for n in 0..PACKETS {
            entries.push(kind_of(&ALL_RATES, n, k));
            entries.extend(body(&ALL_RATES, n, k));
        }
    }
    entries
}

/// A capture of 256 packets, group after group; behind each fourth group the set is silent for 25 frames.
pub fn capture() -> Vec<u8> {
    let payloads = payloads(&ALL_RATES);
    let mut capture = (CAPTURE_PACKETS as u16).to_be_bytes().to_vec();
    for i in 0..CAPTURE_PACKETS {
        let (group, n) = (i / PACKETS, i % PACKETS);
        let frames = (group * FRAMES + group / 4 * 25 + n) as u32;
        capture.extend(SOURCE.to_be_bytes());
        capture.extend((i as u16).to_be_bytes());
        capture.extend((FRAME_COUNTS * frames).to_be_bytes());
        capture.extend((payloads[n].len() as u16).to_be_bytes());
    }
    capture.extend((0..CAPTURE_PACKETS).flat_map(|i| payloads[i % PACKETS].clone()));
    capture
}
