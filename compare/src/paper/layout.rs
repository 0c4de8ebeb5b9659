//! Sessions and holdings as octets. Numbers are big-endian.
//!
//! A holding is a group: its numbers, flags, types and bodies. A session is what it is open for, its last poured group,
//! and the group that it holds, all zero if it holds none. "Octets of the layout that stand for nothing are zero": those
//! between these parts and behind them, the maxima of the header-free form, and the last poured group if none was
//! poured. One that is not, and the octets are no holding, or no session. Octets past all these are not looked at.

use super::form::{in_range, Form, Limits, MOST_B};
use super::frames::{FrameType, LONGEST};
use super::groups::{Base, Group};
use super::holding::{HeldFrame, HeldPacket, Holding};
use super::session::{Last, Open, Session};

/// The octets of a session or of a holding.
pub const OCTETS: usize = 2304;

/// "A holding has room for 80 frames of 22 octets."
pub use super::holding::PACKETS;
pub const FRAMES: usize = MOST_B as usize;
pub const BODY: usize = LONGEST;

/// Where a group's parts lie: numbers; zeros; for each packet, 1 held, 0 not; zeros; types, less 14 modulo 256; bodies;
/// and the end.
pub const SOURCE: usize = 0;
pub const SEQUENCE: usize = 4;
pub const TIMESTAMP: usize = 6;
pub const L: usize = 10;
pub const B: usize = 11;
pub const SPARE: usize = 12;
pub const FLAGS: usize = 16;
pub const MARKERS: usize = FLAGS + PACKETS;
pub const TYPES: usize = MARKERS + PACKETS;
pub const BODIES: usize = TYPES + PACKETS * FRAMES;
pub const GROUP: usize = BODIES + PACKETS * FRAMES * BODY;

/// Where a session's parts lie: 1 open, 0 not; form, maxima, source; 1 if a group was poured before, else 0, with its
/// base sequence number, L and B; zeros; its base timestamp; zeros; the group; and the end.
pub const OPEN: usize = 0;
pub const FORM: usize = 1;
pub const MAX_L: usize = 2;
pub const MAX_B: usize = 3;
pub const OPEN_SOURCE: usize = 4;
pub const POURED: usize = 8;
pub const LAST_SEQUENCE: usize = 9;
pub const LAST_L: usize = 11;
pub const LAST_B: usize = 12;
pub const LAST_SPARE: usize = 13;
pub const LAST_TIMESTAMP: usize = 16;
pub const SESSION_SPARE: usize = 20;
pub const GROUP_AT: usize = 32;
pub const SESSION_END: usize = GROUP_AT + GROUP;

/// Where the type of frame k of packet n lies in a group, and where its body does.
pub fn places(n: usize, k: usize) -> (usize, usize) {
    let place = FRAMES * n + k;
    (TYPES + place, BODIES + BODY * place)
}

/// The octets of a holding.
pub fn of_holding(holding: &Holding) -> Vec<u8> {
    let mut octets = of_group(holding);
    octets.resize(OCTETS, 0);
    octets
}

/// The first octets of a holding, which a session has too.
fn of_group(holding: &Holding) -> Vec<u8> {
    let Group { source, base, l, b } = holding.group;
    let mut octets = vec![0; GROUP];
    put(&mut octets, SOURCE, &source.to_be_bytes());
    put(&mut octets, SEQUENCE, &base.sequence.to_be_bytes());
    put(&mut octets, TIMESTAMP, &base.timestamp.to_be_bytes());
    put(&mut octets, L, &[l, b]);
    for (n, k, frame) in holding.frames() {
        let (at, body) = places(n, k);
        octets[FLAGS + n] = 1;
        octets[at] = frame.kind.number().wrapping_sub(FrameType::Erasure.number());
        put(&mut octets, body, &frame.body);
    }
    octets
}

/// The octets of a session.
pub fn of_session(session: &Session) -> Vec<u8> {
    let mut octets = vec![0; OCTETS];
    if let Some(Open { source, form }) = session.open {
        let [form, max_l, max_b] = match form {
            Form::HeaderFree => [0; 3],
            Form::Interleaved(Limits { max_l, max_b }) => [1, max_l, max_b],
        };
        put(&mut octets, OPEN, &[1, form, max_l, max_b]);
        put(&mut octets, OPEN_SOURCE, &source.to_be_bytes());
    }
    let Last { poured, base, l, b } = session.last;
    octets[POURED] = poured.into();
    put(&mut octets, LAST_SEQUENCE, &base.sequence.to_be_bytes());
    put(&mut octets, LAST_L, &[l, b]);
    put(&mut octets, LAST_TIMESTAMP, &base.timestamp.to_be_bytes());
    if let Some(holding) = &session.held {
        put(&mut octets, GROUP_AT, &of_group(holding));
    }
    octets
}

/// The holding that octets are. `None` if they are too few, or if it "counts as holding no packet".
pub fn holding(octets: &[u8]) -> Option<Holding> {
    let first = whole(octets)?;
    all_zero(&first[GROUP..]).then_some(())?;
    group(&first)
}

/// The octets that a session or holding lies in, the first of those lent. `None` if they are fewer.
fn whole(octets: &[u8]) -> Option<[u8; OCTETS]> {
    octets.first_chunk().copied()
}

/// The group that the first octets of a holding are. `None` with "L above 7, B not 1 to 10, a packet above L held", a
/// flag above 1, a packet that breaks the rules, or an octet that stands for nothing and is not zero.
fn group(octets: &[u8]) -> Option<Holding> {
    let spare = [SPARE..FLAGS, MARKERS..TYPES];
    spare.into_iter().all(|part| all_zero(&octets[part])).then_some(())?;
    let (l, b) = (octets[L], octets[B]);
    let source = u32::from_be_bytes(part(octets, SOURCE));
    let sequence = u16::from_be_bytes(part(octets, SEQUENCE));
    let timestamp = u32::from_be_bytes(part(octets, TIMESTAMP));
    in_range(l, b).then_some(())?;
    let mut holding = Holding::of(Group { source, base: Base { sequence, timestamp }, l, b });
    for (n, packet) in holding.packets.iter_mut().enumerate() {
        *packet = held_packet(octets, n, b.into())?;
    }
    let mut above = holding.packets.iter().skip(usize::from(l) + 1);
    let sound = above.all(Option::is_none) && holding.packets.iter().any(Option::is_some);
    sound.then_some(holding)
}

/// Packet n, if it is held. `None` if it breaks the rules: "room not used by a held frame is zero, and a place not held
/// reads as an erasure".
fn held_packet(octets: &[u8], n: usize, b: usize) -> Option<Option<HeldPacket>> {
    let held = flag(octets[FLAGS + n])?;
    let (used, unused) = if held { (0..b, b..FRAMES) } else { (0..0, 0..FRAMES) };
    let empty = |k| {
        let (at, body) = places(n, k);
        octets[at] == 0 && all_zero(&octets[body..body + BODY])
    };
    unused.into_iter().all(empty).then_some(())?;
    let frames: HeldPacket = used.map(|k| held_frame(octets, n, k)).collect::<Option<_>>()?;
    Some(held.then_some(frames))
}

/// Frame k of packet n, held. `None` if it breaks the rules: "a type not in the table", or room past its body not zero.
fn held_frame(octets: &[u8], n: usize, k: usize) -> Option<HeldFrame> {
    let (at, body) = places(n, k);
    let kind = FrameType::numbered(octets[at].wrapping_add(FrameType::Erasure.number()))?;
    let (body, rest) = octets[body..body + BODY].split_at(kind.body());
    all_zero(rest).then(|| HeldFrame { kind, body: body.to_vec() })
}

/// The session that octets are.
pub fn session(octets: &[u8]) -> Session {
    whole(octets).and_then(|first| open_session(&first)).unwrap_or_default()
}

/// The session that octets are, if it is open. "A session counts as not open if its held group breaks this or names
/// another source, if the L or B of its last poured group is out of these ranges, or if its maxima are."
fn open_session(octets: &[u8]) -> Option<Session> {
    spare_of_session(octets).into_iter().all(|part| all_zero(&octets[part])).then_some(())?;
    let (open, poured) = (flag(octets[OPEN])?, flag(octets[POURED])?);
    let limits = Limits { max_l: octets[MAX_L], max_b: octets[MAX_B] };
    let form = Form::agreed(octets[FORM], limits).ok()?;
    let source = u32::from_be_bytes(part(octets, OPEN_SOURCE));
    let last = Last { poured, base: last_base(octets), l: octets[LAST_L], b: octets[LAST_B] };
    let held = held_group(&octets[GROUP_AT..SESSION_END], source)?;
    let sound = open && (!last.poured || in_range(last.l, last.b));
    sound.then_some(Session { open: Some(Open { source, form }), held, last })
}

/// The base numbers of the last poured group, which may be any.
fn last_base(octets: &[u8]) -> Base {
    let sequence = u16::from_be_bytes(part(octets, LAST_SEQUENCE));
    let timestamp = u32::from_be_bytes(part(octets, LAST_TIMESTAMP));
    Base { sequence, timestamp }
}

/// What stands for nothing in a session, beside its group.
fn spare_of_session(octets: &[u8]) -> Vec<std::ops::Range<usize>> {
    let mut spare = vec![LAST_SPARE..LAST_TIMESTAMP, SESSION_SPARE..GROUP_AT, SESSION_END..OCTETS];
    spare.extend((octets[FORM] == 0).then_some(MAX_L..OPEN_SOURCE));
    spare.extend((octets[POURED] == 0).then_some(LAST_SEQUENCE..SESSION_SPARE));
    spare
}

/// The group that a session holds, if any. `None` if there is one that breaks the rules "or names another source".
fn held_group(octets: &[u8], source: u32) -> Option<Option<Holding>> {
    if all_zero(octets) {
        return Some(None);
    }
    let holding = group(octets)?;
    (holding.group.source == source).then_some(Some(holding))
}

/// What a flag says, unless it is above 1.
fn flag(octet: u8) -> Option<bool> {
    (octet <= 1).then_some(octet == 1)
}

/// Whether all of these are zero.
fn all_zero(octets: &[u8]) -> bool {
    octets.iter().all(|&octet| octet == 0)
}

/// Puts a part at its place.
fn put(octets: &mut [u8], at: usize, part: &[u8]) {
    octets[at..at + part.len()].copy_from_slice(part);
}

/// The part of so many octets at a place.
fn part<const COUNT: usize>(octets: &[u8], at: usize) -> [u8; COUNT] {
    octets[at..at + COUNT].try_into().expect("a part has its count of octets")
}
