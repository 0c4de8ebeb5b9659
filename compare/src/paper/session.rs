//! Sessions (document 01, "Session"), and the frames that are lost between groups (document 02, (ii)).

use super::answers::{refusal, refuse, Answer};
use super::frames::Frame;
use super::groups::{self, Base, Group};
use super::holding::{self, HeldFrame, HeldPacket, Holding};
use super::{payload, Form};

/// A session: what it is open for, the group that it holds, and its last poured group. One never opened is the default,
/// and one that "counts as not open" is as one never opened.
#[derive(Clone, Debug, Default, PartialEq, Eq)]
pub struct Session {
    pub open: Option<Open>,
    pub held: Option<Holding>,
    pub last: Last,
}

/// What a session is open for.
#[derive(Clone, Copy, Debug, PartialEq, Eq)]
pub struct Open {
    pub source: u32,
    pub form: Form,
}

/// "One poured before (base b, length L, bundle B)", and its base timestamp: its numbers are looked at only if one was
/// poured.
#[derive(Clone, Copy, Debug, Default, PartialEq, Eq)]
pub struct Last {
    pub poured: bool,
    pub base: Base,
    pub l: u8,
    pub b: u8,
}

/// "A box hands us source number (32 bits), sequence number (16 bits), timestamp (32 bits) and payload."
#[derive(Clone, Debug, PartialEq, Eq)]
pub struct Packet {
    pub source: u32,
    pub sequence: u16,
    pub timestamp: u32,
    pub payload: Vec<u8>,
}

/// A packet that was read: its group, its N and its frames.
struct Heard {
    group: Group,
    n: usize,
    frames: HeldPacket,
}

impl Session {
    /// "Opening names the source and the agreed form [...] and otherwise gives a fresh session."
    pub fn opened(source: u32, form: Form) -> Session {
        Session { open: Some(Open { source, form }), ..Session::default() }
    }

    /// "Offering a packet checks in this order: open session (21), source (10), payload (1 to 9), place. Every refused
    /// offer leaves the session as it was." The answer is the number of lost frames.
    pub fn offer(&mut self, packet: &Packet) -> Answer<u32> {
        let Open { source, form } = self.open.ok_or(refusal(21))?;
        refuse(10, packet.source != source)?;
        let heard = Heard::read(form, packet)?;
        match &mut self.held {
            Some(holding) => heard.join_group(holding).and(Ok(0)),
            None => self.begin(heard),
        }
    }

    /// "The packet begins a group and the answer reports [the] lost frames before it"; 0 "with none before".
    fn begin(&mut self, heard: Heard) -> Answer<u32> {
        let lost = if self.last.poured { lost_between(&self.last, &heard.group)? } else { 0 };
        let mut holding = Holding::of(heard.group);
        holding.put_in(heard.n, &heard.frames)?;
        self.held = Some(holding);
        Ok(lost)
    }

    /// "Pouring [...] gives the octet count, and ends the group. Checks: session open and group held (21), room (15)."
    pub fn pour(&mut self, room: usize) -> Answer<Vec<u8>> {
        let held = self.copy()?;
        let entries = holding::pour(Some(&held), room)?;
        self.end_group(held.group);
        Ok(entries)
    }

    /// Drops the group: 21 if the session is not open or holds none; it "is then as after pouring".
    pub fn drop_group(&mut self) -> Answer<()> {
        self.copy().map(|dropped| self.end_group(dropped.group))
    }

    /// Ends the group held, and remembers its numbers.
    fn end_group(&mut self, group: Group) {
        self.last = Last::of(group);
        self.held = None;
    }

    /// "A session's holding can be copied out (21 likewise)."
    pub fn copy(&self) -> Answer<Holding> {
        self.open.and(self.held.clone()).ok_or(refusal(21))
    }
}

impl Last {
    /// A group as it is remembered once it is poured.
    fn of(Group { base, l, b, .. }: Group) -> Last {
        Last { poured: true, base, l, b }
    }
}

impl Heard {
    /// Reads a packet's payload in the session's form.
    fn read(form: Form, packet: &Packet) -> Answer<Heard> {
        let Packet { source, sequence, timestamp, ref payload } = *packet;
        let read = payload::read(form, payload)?;
        let held = |frame: &Frame| HeldFrame { kind: frame.kind, body: frame.body(payload).to_vec() };
        let frames: HeldPacket = read.frames.iter().map(held).collect();
        let base = Base::of(sequence, timestamp, read.n);
        let group = Group { source, base, l: read.l, b: frames.len() as u8 };
        Ok(Heard { group, n: read.n.into(), frames })
    }

    /// "Place, with a group held. [...] d = 0: if L, B or base timestamp differ, 11." Then it is put in, or compared.
    fn join_group(&self, holding: &mut Holding) -> Answer<()> {
        judge_d(groups::d(self.group.base.sequence, holding.group.base.sequence), holding.group.l)?;
        refuse(11, self.group != holding.group)?;
        holding.put_in(self.n, &self.frames)
    }
}

/// "d from 1 to L: 11. d from L + 1 to 32,767: 12. [...] d of 32,768 or more: 13." Nothing for d = 0.
pub fn judge_d(d: u16, l: u8) -> Answer<()> {
    match d {
        0 => Ok(()),
        d if d <= l.into() => Err(refusal(11)),
        d if d < 32_768 => Err(refusal(12)),
        _ => Err(refusal(13)),
    }
}

/// "E of 32,768 or more, 13"; "the limit of 100 packets is dropped".
pub fn judge_e(e: u16) -> Answer<()> {
    refuse(13, e >= 32_768)
}

/// The lost frames, by the counts of the clock between two groups: "24 if the difference is no multiple of 160", "16
/// [...] if the quotient is over 3,000 (one minute)".
pub fn lost_in(counts: i64) -> Answer<u32> {
    let frames = groups::whole_frames(counts).ok_or(refusal(24))?;
    refuse(16, frames > 3_000)?;
    Ok(frames as u32)
}

/// The lost frames between two holdings' groups: 21 if either holds no packet, 10 if their sources differ, then "by the
/// rule of a session that poured" the first.
pub fn lost(before: Option<Holding>, after: Option<Holding>) -> Answer<u32> {
    let (before, after) = (before.ok_or(refusal(21))?.group, after.ok_or(refusal(21))?.group);
    refuse(10, after.source != before.source)?;
    lost_between(&Last::of(before), &after)
}

/// "The lost frames before a new group", "with the poured group's numbers"; "order 13, 24, 16".
fn lost_between(last: &Last, new: &Group) -> Answer<u32> {
    judge_e(groups::e(new.base.sequence, last.base.sequence, last.l))?;
    lost_in(groups::counts_between(new.base.timestamp, last.base.timestamp, last.l, last.b))
}
