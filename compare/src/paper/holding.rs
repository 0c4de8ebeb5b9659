//! Holdings: one group as far as heard (document 01, "Groups"), poured and joined ("Session").
//!
//! A holding here has at least one packet. What "counts as holding no packet" is no holding at all: `None`.

use super::answers::{fitting, refusal, refuse, Answer};
use super::form::MOST_L;
use super::frames::FrameType;
use super::groups::{place, places, Group};

/// A frame as it is held: its type and its body.
#[derive(Clone, Debug, PartialEq, Eq)]
pub struct HeldFrame {
    pub kind: FrameType,
    pub body: Vec<u8>,
}

/// The frames of one packet, "numbered 0 to B - 1".
pub type HeldPacket = Vec<HeldFrame>;

/// The most packets that a group has.
pub const PACKETS: usize = MOST_L as usize + 1;

/// "A holding is one group as far as heard: source, base sequence number, base timestamp, L, B, which packets are held,
/// and the frames. [...] D, RR and the session's maxima are no part of it."
#[derive(Clone, Debug, PartialEq, Eq)]
pub struct Holding {
    pub group: Group,
    pub packets: [Option<HeldPacket>; PACKETS],
}

impl Holding {
    /// A group of which nothing is heard yet.
    pub fn of(group: Group) -> Holding {
        Holding { group, packets: Default::default() }
    }

    /// "If the packet is already held: same types and bodies, accepted and nothing changes; otherwise 14. If not held,
    /// it is put in."
    pub fn put_in(&mut self, n: usize, packet: &HeldPacket) -> Answer<()> {
        match &self.packets[n] {
            Some(held) => refuse(14, held != packet),
            None => {
                self.packets[n] = Some(packet.clone());
                Ok(())
            }
        }
    }

    /// The held frames: frame k of packet n, for each n and k.
    pub fn frames(&self) -> impl Iterator<Item = (usize, usize, &HeldFrame)> {
        let packets = self.packets.iter().zip(0..);
        packets.flat_map(|(packet, n)| packet.iter().flatten().zip(0..).map(move |(frame, k)| (n, k, frame)))
    }

    /// "All (L + 1) x B places in time order as recording entries", each "one octet, then the body"; "a place not held
    /// reads as an erasure".
    fn entries(&self) -> Vec<u8> {
        let mut entries = vec![vec![FrameType::Erasure.number()]; places(self.group.l, self.group.b)];
        for (n, k, frame) in self.frames() {
            entries[place(self.group.l, n, k)] = [&[frame.kind.number()], &frame.body[..]].concat();
        }
        entries.concat()
    }
}

/// "Any holding, joined or not, is poured by the same rule: 21 if it holds no packet, then 15."
pub fn pour(holding: Option<&Holding>, room: usize) -> Answer<Vec<u8>> {
    fitting(holding.ok_or(refusal(21))?.entries(), room)
}

/// What a holding is: "source, base sequence number, base timestamp, L, B, which packets are held". Bit N of the last is
/// 1 if packet N is held. 21 if it holds no packet.
pub fn read(holding: Option<Holding>) -> Answer<(Group, u8)> {
    let Holding { group, packets } = holding.ok_or(refusal(21))?;
    let held = packets.iter().zip(0..).filter(|(packet, _)| packet.is_some());
    Ok((group, held.map(|(_, n)| 1_u8 << n).sum()))
}

/// "Joining two holdings: 21 if either holds no packet; 20 if source, bases, L or B differ; 14 if a packet held in both
/// differs; else every packet held in either."
pub fn join(a: Option<Holding>, b: Option<Holding>) -> Answer<Holding> {
    let (mut joined, other) = (a.ok_or(refusal(21))?, b.ok_or(refusal(21))?);
    refuse(20, joined.group != other.group)?;
    for (n, packet) in other.packets.iter().enumerate() {
        packet.iter().try_for_each(|packet| joined.put_in(n, packet))?;
    }
    Ok(joined)
}
