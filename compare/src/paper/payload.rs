//! Reading payloads (document 01, "Payloads"), and where their faults are (document 02, (i)).

use super::answers::{refusal, refuse_at, Answer};
use super::frames::{Frame, FrameType};
use super::{Form, Limits};

/// What a reader gives for an accepted payload. "B is the number of entries", and so of frames.
#[derive(Clone, Debug, PartialEq, Eq)]
pub struct Reading {
    pub l: u8,
    pub n: u8,
    pub d: u8,
    pub frames: Vec<Frame>,
}

/// An entry of the table of contents, F x 128 + D x 64 + type: "F = 1 says another entry follows".
#[derive(Clone, Copy)]
struct Entry {
    f: bool,
    d: u8,
    kind: FrameType,
}

/// Reads a payload in the agreed form. "A reader given maxima out of range answers 21 first": see `Form::agreed`.
pub fn read(form: Form, payload: &[u8]) -> Answer<Reading> {
    match form {
        Form::HeaderFree => read_header_free(payload),
        Form::Interleaved(limits) => read_interleaved(limits, payload),
    }
}

/// "Type 2 (header-free): one body and nothing else, its type known by the length. [...] It is read as a group with
/// L = 0, N = 0, B = 1, and D is reported as 0."
fn read_header_free(payload: &[u8]) -> Answer<Reading> {
    let kind = FrameType::of_length(payload.len())?;
    Ok(Reading { l: 0, n: 0, d: 0, frames: vec![Frame::at(0, kind)] })
}

/// Type 1: "octet 0 is RR x 64 + L x 8 + N. RR is [...] ignored when read. Then comes a table of contents. [...] The D
/// reported for a packet is the last entry's."
fn read_interleaved(limits: Limits, payload: &[u8]) -> Answer<Reading> {
    let &octet_0 = payload.first().ok_or(refusal(1))?;
    let (l, n) = (octet_0 / 8 % 8, octet_0 % 8);
    limits.judge(l, n)?;
    let table = read_table(payload, limits)?;
    let frames = lay_out(&table, payload.len())?;
    let d = table.last().map_or(0, |entry| entry.d);
    Ok(Reading { l, n, d, frames })
}

/// The entries up to the first without F, behind octet 0. "For each entry the order is 4, 6, 5." "The walk over the
/// table of contents ends at the first fault it meets."
fn read_table(payload: &[u8], limits: Limits) -> Answer<Vec<Entry>> {
    let mut table = Vec::new();
    loop {
        let entry = read_entry(payload, 1 + table.len(), limits)?;
        table.push(entry);
        if !entry.f {
            return Ok(table);
        }
    }
}

/// The entry at a place, which is also its number, counted from 1. "For 4 the payload's length, for 5 and 6 the entry's
/// place."
fn read_entry(payload: &[u8], place: usize, limits: Limits) -> Answer<Entry> {
    let &octet = payload.get(place).ok_or(refusal(4).at(payload.len()))?;
    refuse_at(6, place, place > limits.max_b.into())?;
    let kind = FrameType::of_entry(octet).ok_or(refusal(5).at(place))?;
    Ok(Entry { f: octet / 128 == 1, d: octet / 64 % 2, kind })
}

/// "Then the bodies, in the entries' order", behind octet 0 and the table: 7 if they "need more octets than are there",
/// with "the place of the first body that doesn't fit whole"; 8 if there are "octets left after the last body", with
/// that of "the first octet left over".
fn lay_out(table: &[Entry], length: usize) -> Answer<Vec<Frame>> {
    let mut end = 1 + table.len();
    let lay = |entry: &Entry| {
        let frame = Frame::at(end, entry.kind);
        end = frame.end();
        frame
    };
    let frames: Vec<Frame> = table.iter().map(lay).collect();
    frames.iter().try_for_each(|frame| refuse_at(7, frame.start, frame.end() > length))?;
    refuse_at(8, end, end < length)?;
    Ok(frames)
}
