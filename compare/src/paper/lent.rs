//! The calls on sessions and holdings in lent octets.
//!
//! Fewer octets than a session or holding has are no session and no holding to read: 21. Fewer octets than a call has
//! to write are 15, "output shorter than the answer needs", and that comes last. A call that accepts writes all octets
//! of what it changes; "each refusal [...] changes nothing lent" (document 01, "Answers by number").

use super::answers::{refuse, Answer};
use super::form::{Form, Limits};
use super::groups::Group;
use super::holding;
use super::layout::{self, OCTETS};
use super::session::{self, Packet, Session};

/// Opens a session, whatever its octets were: 21 if there is no such form or a maximum is out of range.
pub fn open(octets: &mut [u8], source: u32, form: u8, limits: Limits) -> Answer<()> {
    let session = Session::opened(source, Form::agreed(form, limits)?);
    room(octets)?;
    write(octets, &layout::of_session(&session));
    Ok(())
}

/// Offers a packet. The answer is the number of lost frames.
pub fn offer(octets: &mut [u8], packet: &Packet) -> Answer<u32> {
    let mut session = layout::session(octets);
    let lost = session.offer(packet)?;
    write(octets, &layout::of_session(&session));
    Ok(lost)
}

/// Pours a session's group into so much room.
pub fn pour(octets: &mut [u8], room: usize) -> Answer<Vec<u8>> {
    let mut session = layout::session(octets);
    let entries = session.pour(room)?;
    write(octets, &layout::of_session(&session));
    Ok(entries)
}

/// Copies a session's group out.
pub fn copy(octets: &[u8], out: &mut [u8]) -> Answer<()> {
    let holding = layout::session(octets).copy()?;
    room(out)?;
    write(out, &layout::of_holding(&holding));
    Ok(())
}

/// Drops a session's group.
pub fn drop_group(octets: &mut [u8]) -> Answer<()> {
    let mut session = layout::session(octets);
    session.drop_group()?;
    write(octets, &layout::of_session(&session));
    Ok(())
}

/// "Ending a session clears all of it, a held group and the memory of the last one", whatever its octets were.
pub fn end(octets: &mut [u8]) -> Answer<()> {
    room(octets)?;
    write(octets, &layout::of_session(&Session::default()));
    Ok(())
}

/// What a holding is.
pub fn read(octets: &[u8]) -> Answer<(Group, u8)> {
    holding::read(layout::holding(octets))
}

/// Joins two holdings.
pub fn join(a: &[u8], b: &[u8], out: &mut [u8]) -> Answer<()> {
    let joined = holding::join(layout::holding(a), layout::holding(b))?;
    room(out)?;
    write(out, &layout::of_holding(&joined));
    Ok(())
}

/// Pours a holding into so much room.
pub fn pour_holding(octets: &[u8], room: usize) -> Answer<Vec<u8>> {
    holding::pour(layout::holding(octets).as_ref(), room)
}

/// The lost frames between two holdings' groups.
pub fn lost(before: &[u8], after: &[u8]) -> Answer<u32> {
    session::lost(layout::holding(before), layout::holding(after))
}

/// 15 if there are fewer octets than a session or holding has.
fn room(lent: &[u8]) -> Answer<()> {
    refuse(15, lent.len() < OCTETS)
}

/// Writes the octets of a session or holding, and none past them.
fn write(lent: &mut [u8], octets: &[u8]) {
    lent.iter_mut().zip(octets).for_each(|(lent, octet)| *lent = *octet);
}
