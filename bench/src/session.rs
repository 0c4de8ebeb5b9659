//! Sessions in lent octets (document 01, "Session"), in plain Rust. A session lies in 2,304 octets as the library's does
//! (crates/lending/LAYOUT.md), is judged at each call by the same rules, and is changed in place.
use crate::numbers::Numbers;
use crate::payload::{in_range, read, Read};
use crate::refusal::Refusal;
use crate::table::size;

pub const OCTETS: usize = 2304;
const GROUP: usize = 32;
const HELD: usize = GROUP + 16;
const MARKS: usize = GROUP + 32;
const ROOM: usize = GROUP + 112;
const END: usize = GROUP + 1872;

type Session = [u8; OCTETS];

fn zeros(octets: &[u8]) -> bool {
    octets.iter().all(|&octet| octet == 0)
}

fn two(s: &Session, at: usize) -> u16 {
    u16::from_be_bytes([s[at], s[at + 1]])
}

fn four(s: &Session, at: usize) -> u32 {
    u32::from_be_bytes([s[at], s[at + 1], s[at + 2], s[at + 3]])
}

fn put(s: &mut Session, at: usize, octets: &[u8]) {
    s[at..at + octets.len()].copy_from_slice(octets);
}

/// The type of frame k of packet n: laid out less 14.
fn mark(s: &Session, n: usize, k: usize) -> u8 {
    s[MARKS + 10 * n + k].wrapping_add(14)
}

fn body(s: &Session, n: usize, k: usize, octets: usize) -> &[u8] {
    let at = ROOM + 220 * n + 22 * k;
    &s[at..at + octets]
}

fn frame_right(s: &Session, b: usize, n: usize, k: usize) -> bool {
    let kind = mark(s, n, k);
    match size(kind) {
        None => false,
        Some(octets) => (k < b || kind == 14) && zeros(&body(s, n, k, 22)[octets..]),
    }
}

fn packet_right(s: &Session, l: usize, b: usize, n: usize) -> bool {
    match s[HELD + n] {
        0 => zeros(&s[MARKS + 10 * n..][..10]) && zeros(&s[ROOM + 220 * n..][..220]),
        1 => n <= l && (0..10).all(|k| frame_right(s, b, n, k)),
        _ => false,
    }
}

/// Whether the group is right: nothing at all, or one of this source that holds a packet.
fn group_right(s: &Session) -> bool {
    if !holds(s) {
        return zeros(&s[GROUP..END]);
    }
    let (l, b) = (s[GROUP + 10], s[GROUP + 11]);
    in_range(l, b)
        && s[GROUP..GROUP + 4] == s[4..8]
        && (0..8).all(|n| packet_right(s, l as usize, b as usize, n))
}

/// What stands for nothing is zero.
fn spare_right(s: &Session) -> bool {
    (s[1] == 1 || zeros(&s[2..4]))
        && (s[8] == 1 || zeros(&s[9..20]))
        && zeros(&s[13..16])
        && zeros(&s[20..GROUP])
        && zeros(&s[GROUP + 12..HELD])
        && zeros(&s[HELD + 8..MARKS])
        && zeros(&s[END..])
}

fn is_open(s: &Session) -> bool {
    s[0] == 1
        && s[1] <= 1
        && s[8] <= 1
        && (s[1] == 0 || in_range(s[2], s[3]))
        && (s[8] == 0 || in_range(s[11], s[12]))
        && spare_right(s)
        && group_right(s)
}

/// The session in these octets, if it is open.
fn opened(lent: &mut [u8]) -> Result<&mut Session, u8> {
    let s: &mut Session = lent
        .get_mut(..OCTETS)
        .and_then(|octets| octets.try_into().ok())
        .ok_or(21)?;
    if is_open(s) {
        Ok(s)
    } else {
        Err(21)
    }
}

/// Whether a session that is right holds a group.
fn holds(s: &Session) -> bool {
    !zeros(&s[HELD..HELD + 8])
}

fn last(s: &Session) -> Option<Numbers> {
    if s[8] == 0 {
        return None;
    }
    Some(Numbers {
        sequence: two(s, 9),
        timestamp: four(s, 16),
        l: s[11],
        b: s[12],
    })
}

fn held(s: &Session) -> Numbers {
    Numbers {
        sequence: two(s, GROUP + 4),
        timestamp: four(s, GROUP + 6),
        l: s[GROUP + 10],
        b: s[GROUP + 11],
    }
}

fn put_packet(s: &mut Session, read: &Read) {
    let n = read.n as usize;
    s[HELD + n] = 1;
    for (k, (kind, body)) in read.frames().enumerate() {
        s[MARKS + 10 * n + k] = kind.wrapping_sub(14);
        put(s, ROOM + 220 * n + 22 * k, body);
    }
}

fn same_packet(s: &Session, read: &Read) -> bool {
    let n = read.n as usize;
    read.frames()
        .enumerate()
        .all(|(k, (kind, octets))| mark(s, n, k) == kind && body(s, n, k, octets.len()) == octets)
}

fn place(s: &mut Session, numbers: Numbers, read: &Read) -> Result<usize, u8> {
    if !holds(s) {
        let lost = numbers.lost_since(last(s))?;
        s.copy_within(4..8, GROUP);
        put(s, GROUP + 4, &numbers.sequence.to_be_bytes());
        put(s, GROUP + 6, &numbers.timestamp.to_be_bytes());
        put(s, GROUP + 10, &[numbers.l, numbers.b]);
        put_packet(s, read);
        return Ok(lost);
    }
    numbers.is_of(&held(s))?;
    if s[HELD + read.n as usize] == 0 {
        put_packet(s, read);
    } else if !same_packet(s, read) {
        return Err(14);
    }
    Ok(0)
}

/// Opens a session for a source, interleaved.
pub fn open(lent: &mut [u8], source: u32, max_l: u8, max_b: u8) {
    lent[..OCTETS].fill(0);
    lent[..4].copy_from_slice(&[1, 1, max_l, max_b]);
    lent[4..8].copy_from_slice(&source.to_be_bytes());
}

/// Offers a packet, and gives the frames lost before the group that it begins.
#[inline(never)] // called as a library's functions are
pub fn offer(
    lent: &mut [u8],
    source: u32,
    sequence: u16,
    timestamp: u32,
    payload: &[u8],
) -> Result<usize, Refusal> {
    let s = opened(lent)?;
    if source != four(s, 4) {
        return Err(10.into());
    }
    let read = read(s[1], s[2], s[3], payload)?;
    let numbers = Numbers::of_packet(sequence, timestamp, &read);
    Ok(place(s, numbers, &read)?)
}

/// Pours the group held, ends it, and gives the octets written.
#[inline(never)] // called as a library's functions are
pub fn pour(lent: &mut [u8], out: &mut [u8]) -> Result<usize, Refusal> {
    let s = opened(lent)?;
    if !holds(s) {
        return Err(21.into());
    }
    let (l, b) = (s[GROUP + 10] as usize, s[GROUP + 11] as usize);
    let octets = |n, k| size(mark(s, n, k)).unwrap_or(0);
    let need: usize = (0..=l)
        .map(|n| (0..b).map(|k| 1 + octets(n, k)).sum::<usize>())
        .sum();
    if out.len() < need {
        return Err(15.into());
    }
    let mut at = 0;
    for k in 0..b {
        for n in 0..=l {
            let body = body(s, n, k, octets(n, k));
            out[at] = mark(s, n, k);
            out[at + 1..at + 1 + body.len()].copy_from_slice(body);
            at += 1 + body.len();
        }
    }
    s[8] = 1;
    s.copy_within(GROUP + 4..GROUP + 6, 9);
    s.copy_within(GROUP + 10..GROUP + 12, 11);
    s.copy_within(GROUP + 6..GROUP + 10, 16);
    s[GROUP..END].fill(0);
    Ok(need)
}
