//! Entries, as recordings and the input of writers have them: "one octet, then the body" (document 01, "Recordings").

use super::answers::{refusal, refuse_at, Answer};
use super::frames::{Frame, FrameType};

/// The frames of the entries from `start` to the end: "entry by entry 5, 19", and then what `also` says of the frame.
pub fn walk(octets: &[u8], start: usize, also: impl Fn(&Frame) -> Answer<()>) -> Answer<Vec<Frame>> {
    let mut frames = Vec::new();
    let mut at = start;
    while at < octets.len() {
        let frame = entry(octets, at)?;
        also(&frame)?;
        at = frame.end();
        frames.push(frame);
    }
    Ok(frames)
}

/// The frame of an entry: 5 for a reserved type, 19 for a cut body, both "with the place of the entry octet". "F and D
/// of an entry are ignored when read."
fn entry(octets: &[u8], at: usize) -> Answer<Frame> {
    let kind = FrameType::of_entry(octets[at]).ok_or(refusal(5).at(at))?;
    let frame = Frame::at(at + 1, kind);
    refuse_at(19, at, frame.end() > octets.len())?;
    Ok(frame)
}
