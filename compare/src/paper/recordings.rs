//! Reading and writing recordings (document 01, "Recordings").

use super::answers::{fitting, refuse, Answer};
use super::entries::walk;
use super::frames::Frame;

/// "The opening octets 23 21 45 56 52 43 0A ("#!EVRC" and a newline)."
pub const OPENING: [u8; 7] = [0x23, 0x21, 0x45, 0x56, 0x52, 0x43, 0x0A];

/// The frames of a recording. "Checks: 18 (opening missing or wrong), then entry by entry 5, 19. [...] Opening octets
/// alone are a recording of no frames."
pub fn read(recording: &[u8]) -> Answer<Vec<Frame>> {
    refuse(18, !recording.starts_with(&OPENING))?;
    walk(recording, OPENING.len(), |_| Ok(()))
}

/// "The writer takes entries, checks 5, 19 for each, then 15, and puts the opening before them." "F and D of an entry
/// are [...] 0 when written."
pub fn write(entries: &[u8], room: usize) -> Answer<Vec<u8>> {
    let mut octets = OPENING.to_vec();
    for frame in walk(entries, 0, |_| Ok(()))? {
        octets.push(frame.kind.number());
        octets.extend(frame.body(entries));
    }
    fitting(octets, room)
}
