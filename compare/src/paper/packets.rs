//! Writing packets (document 01, "Writing packets").

use super::answers::{fitting, refusal, refuse, Answer};
use super::entries::walk;
use super::frames::{Frame, FrameType};
use super::groups::{place, places};
use super::Form;

/// Which packet of which group is written, and its D.
#[derive(Clone, Copy)]
pub struct Numbers {
    pub l: u8,
    pub n: u8,
    pub b: u8,
    pub d: u8,
}

/// "Input: L, N, B, D, the agreed form, and the group's (L + 1) x B frames as recording entries. Output: packet N.
/// Checks: 21 (form not interleaved, maxima out of range, or D above 1), 2, 3, 6 (B is 0 or too great), then the whole
/// input is walked [...]; then 15." Maxima out of range do not come here: see `Form::agreed`.
pub fn write(form: Form, numbers: Numbers, entries: &[u8], room: usize) -> Answer<Vec<u8>> {
    let Numbers { l, n, b, d } = numbers;
    let Form::Interleaved(limits) = form else { return Err(refusal(21)) };
    refuse(21, d > 1)?;
    limits.judge(l, n)?;
    refuse(6, b == 0 || b > limits.max_b)?;
    let frames = sent(entries, places(l, b), |frame| frame.sendable(entries))?;
    let own: Vec<Frame> = (0..b.into()).map(|k| frames[place(l, n.into(), k)]).collect();
    fitting(payload(numbers, &own, entries), room)
}

/// "The header-free writer takes one entry: 21 (form not header-free), the same walk with 17 for Blank too, then 17 if
/// there isn't exactly one entry, then 15." It writes "one body and nothing else".
pub fn write_header_free(form: Form, entries: &[u8], room: usize) -> Answer<Vec<u8>> {
    refuse(21, form != Form::HeaderFree)?;
    let sendable = |frame: &Frame| frame.kind != FrameType::Blank && frame.sendable(entries);
    let frames = sent(entries, 1, sendable)?;
    fitting(frames[0].body(entries).to_vec(), room)
}

/// "The whole input is walked, each entry for 5, 19, 17; then 17 if the number of entries is not" as it has to be.
fn sent(entries: &[u8], count: usize, good: impl Fn(&Frame) -> bool) -> Answer<Vec<Frame>> {
    let frames = walk(entries, 0, |frame| refuse(17, !good(frame)))?;
    refuse(17, frames.len() != count)?;
    Ok(frames)
}

/// "Octet 0 is RR x 64 + L x 8 + N. RR is written as 0 [...]. Then comes a table of contents. [...] Then the bodies, in
/// the entries' order" (document 01, "Payloads").
fn payload(numbers: Numbers, own: &[Frame], entries: &[u8]) -> Vec<u8> {
    let mut octets = vec![numbers.l * 8 + numbers.n];
    octets.extend(own.iter().enumerate().map(|(k, frame)| entry(k + 1 < own.len(), numbers.d, frame.kind)));
    own.iter().for_each(|frame| octets.extend(frame.body(entries)));
    octets
}

/// "Entries F x 128 + D x 64 + type; F = 1 says another entry follows. [...] Our writer sets the same D in all."
fn entry(f: bool, d: u8, kind: FrameType) -> u8 {
    u8::from(f) * 128 + d * 64 + kind.number()
}
