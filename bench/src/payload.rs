//! Payloads read (document 01, "Payloads"), in plain Rust.
use crate::refusal::Refusal;
use crate::table::size;

/// A payload that was read: its table of contents and its bodies, the very parts of the caller's octets.
#[derive(Clone, Copy)]
pub struct Read<'a> {
    pub l: u8,
    pub n: u8,
    pub table: &'a [u8],
    pub bodies: &'a [u8],
}

impl<'a> Read<'a> {
    pub fn b(&self) -> u8 {
        self.table.len() as u8
    }

    pub fn d(&self) -> u8 {
        self.table.last().map_or(0, |entry| entry / 64 % 2)
    }

    /// The frames: type and body.
    pub fn frames(&self) -> impl Iterator<Item = (u8, &'a [u8])> {
        let mut bodies = self.bodies;
        self.table.iter().map(move |entry| {
            let kind = entry % 64;
            let (body, rest) = bodies.split_at(size(kind).unwrap_or(0));
            bodies = rest;
            (kind, body)
        })
    }

    /// Whether the frames are the same; D and RR are no part of them.
    pub fn same_frames(&self, other: &Read) -> bool {
        self.bodies == other.bodies && self.frames().eq(other.frames())
    }
}

/// Whether agreed maxima are in range.
pub fn in_range(max_l: u8, max_b: u8) -> bool {
    max_l <= 7 && (1..=10).contains(&max_b)
}

/// Reads a payload in the agreed form: 0 header-free, 1 interleaved.
#[inline(never)] // called as a library's functions are
pub fn read(form: u8, max_l: u8, max_b: u8, payload: &[u8]) -> Result<Read<'_>, Refusal> {
    match form {
        0 => Ok(header_free(payload)?),
        1 if in_range(max_l, max_b) => interleaved(max_l, max_b, payload),
        _ => Err(21.into()),
    }
}

fn header_free(payload: &[u8]) -> Result<Read<'_>, u8> {
    let table: &[u8] = match payload.len() {
        2 => &[1],
        10 => &[3],
        22 => &[4],
        _ => return Err(9),
    };
    Ok(Read {
        l: 0,
        n: 0,
        table,
        bodies: payload,
    })
}

fn interleaved(max_l: u8, max_b: u8, payload: &[u8]) -> Result<Read<'_>, Refusal> {
    let (first, rest) = payload.split_first().ok_or(1)?;
    let (l, n) = (first / 8 % 8, first % 8);
    if n > l {
        return Err(2.into());
    }
    if l > max_l {
        return Err(3.into());
    }
    let (count, need) = walk(max_b, rest)?;
    let (table, bodies) = rest.split_at(count);
    if bodies.len() < need {
        return Err(Refusal::at(7, first_cut(table, payload.len())));
    }
    if bodies.len() > need {
        return Err(Refusal::at(8, 1 + count + need));
    }
    Ok(Read {
        l,
        n,
        table,
        bodies,
    })
}

/// The number of entries, and the octets that their bodies need.
fn walk(max_b: u8, rest: &[u8]) -> Result<(usize, usize), Refusal> {
    let mut need = 0;
    for (k, &entry) in rest.iter().enumerate() {
        if k == max_b as usize {
            return Err(Refusal::at(6, 1 + k));
        }
        match size(entry % 64) {
            None => return Err(Refusal::at(5, 1 + k)),
            Some(octets) => need += octets,
        }
        if entry < 128 {
            return Ok((1 + k, need));
        }
    }
    Err(Refusal::at(4, 1 + rest.len()))
}

/// Where the first body begins that does not fit whole.
fn first_cut(table: &[u8], len: usize) -> usize {
    let mut start = 1 + table.len();
    for entry in table {
        let end = start + size(entry % 64).unwrap_or(0);
        if end > len {
            break;
        }
        start = end;
    }
    start
}
