//! Captures (document 01, "Capture program"), and what their packets were answered (document 02, (i)).

use super::answers::{fitting, refusal, Answer};
use super::form::{Form, Limits, MOST_B, MOST_L};
use super::frames::FrameType;
use super::recordings::OPENING;
use super::session::{Packet, Session};

/// "A capture is at most 65,536 octets, [...] count (2, at most 256)."
const LONGEST: usize = 65_536;
const MOST_PACKETS: u16 = 256;

/// "Interleaved, maxima 7 and 10."
const LIMITS: Limits = Limits { max_l: MOST_L, max_b: MOST_B };

/// The recording of a capture, into so much room: 255 for a bad capture, then 15.
pub fn record(capture: &[u8], room: usize) -> Answer<Vec<u8>> {
    fitting(recorded(capture).ok_or(refusal(255))?, room)
}

/// The recording, unless the capture is bad.
pub fn recorded(capture: &[u8]) -> Option<Vec<u8>> {
    run(capture).map(|(_, recording)| recording)
}

/// What packet i was answered in the run that makes the recording, the lost frames if it was accepted: 255 for a bad
/// capture, then 21 if there is no packet i.
pub fn answer(capture: &[u8], i: usize) -> Answer<u32> {
    let (answers, _) = run(capture).ok_or(refusal(255))?;
    answers.get(i).copied().unwrap_or(Err(refusal(21)))
}

/// What each packet was answered, and the recording, unless the capture is bad. "Any other refusal skips the packet; at
/// the end it pours what is held."
fn run(capture: &[u8]) -> Option<(Vec<Answer<u32>>, Vec<u8>)> {
    let packets = packets(capture)?;
    let mut recorder = Recorder::opened(&packets);
    let answers = packets.iter().map(|packet| recorder.take(packet)).collect();
    recorder.pour();
    Some((answers, recorder.recording))
}

/// The packets of a capture, unless it is bad: the count, "then its table, [...] then all payloads in table order,
/// nothing after".
fn packets(capture: &[u8]) -> Option<Vec<Packet>> {
    let mut rest = Rest(capture);
    let count = rest.u16()?;
    if capture.len() > LONGEST || count > MOST_PACKETS {
        return None;
    }
    let rows = (0..count).map(|_| rest.row()).collect::<Option<Vec<_>>>()?;
    let packets = rows.into_iter().map(|row| rest.packet(row)).collect::<Option<Vec<_>>>()?;
    rest.0.is_empty().then_some(packets)
}

/// What is left of a capture.
struct Rest<'a>(&'a [u8]);

impl<'a> Rest<'a> {
    /// "Per packet source (4), sequence (2), timestamp (4), length (2)."
    fn row(&mut self) -> Option<(u32, u16, u32, u16)> {
        Some((self.u32()?, self.u16()?, self.u32()?, self.u16()?))
    }

    /// The packet of a row, with the next payload.
    fn packet(&mut self, row: (u32, u16, u32, u16)) -> Option<Packet> {
        let (source, sequence, timestamp, length) = row;
        let payload = self.take(length.into())?.to_vec();
        Some(Packet { source, sequence, timestamp, payload })
    }

    /// The next number of 2 octets, "big-endian".
    fn u16(&mut self) -> Option<u16> {
        self.take(2)?.try_into().ok().map(u16::from_be_bytes)
    }

    /// The next number of 4 octets.
    fn u32(&mut self) -> Option<u32> {
        self.take(4)?.try_into().ok().map(u32::from_be_bytes)
    }

    /// The next so many octets, if they are there.
    fn take(&mut self, count: usize) -> Option<&'a [u8]> {
        let (first, rest) = self.0.split_at_checked(count)?;
        self.0 = rest;
        Some(first)
    }
}

/// A session, and the recording in the making.
struct Recorder {
    session: Session,
    recording: Vec<u8>,
}

impl Recorder {
    /// "The session takes the first packet's source. [...] Count 0 gives the seven opening octets."
    fn opened(packets: &[Packet]) -> Recorder {
        let opened = |packet: &Packet| Session::opened(packet.source, Form::Interleaved(LIMITS));
        let session = packets.first().map(opened).unwrap_or_default();
        Recorder { session, recording: OPENING.to_vec() }
    }

    /// "On 12 it pours and offers again." The answer is that to the last offer.
    fn take(&mut self, packet: &Packet) -> Answer<u32> {
        let answer = self.offer(packet);
        if answer != Err(refusal(12)) {
            return answer;
        }
        self.pour();
        self.offer(packet)
    }

    /// Offers a packet: "reported lost frames become entries 0E".
    fn offer(&mut self, packet: &Packet) -> Answer<u32> {
        let lost = self.session.offer(packet)?;
        self.recording.extend((0..lost).map(|_| FrameType::Erasure.number()));
        Ok(lost)
    }

    /// Pours the group that is held, if one is.
    fn pour(&mut self) {
        self.recording.extend(self.session.pour(usize::MAX).unwrap_or_default());
    }
}
