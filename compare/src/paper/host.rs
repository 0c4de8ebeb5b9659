//! What each C call does (document 01, "Capture program": the host "calls with numbers and byte buffers").
//! The last buffer of a call whose refusals have a place is `place` (document 02, (i)).

use super::answers::{Answer, Refusal};
use super::form::{Form, Limits};
use super::frames::{asked, Frame};
use super::packets::{self, Numbers};
use super::payload::Reading;
use super::session::Packet;
use super::{capture, lent, payload, recordings};
use crate::call::{Call, Left};

/// The calls, as include/landing_voice.h has them.
#[rustfmt::skip]
pub const CALLS: [&str; 19] = [
    "lv_payload_read", "lv_payload_frame", "lv_packet_write", "lv_packet_write_header_free",
    "lv_recording_read", "lv_recording_frame", "lv_recording_write",
    "lv_capture_record", "lv_capture_answer",
    "lv_session_open", "lv_session_offer", "lv_session_pour", "lv_session_copy", "lv_session_drop", "lv_session_end",
    "lv_holding_read", "lv_holding_join", "lv_holding_pour", "lv_holding_lost",
];

/// Makes a call. "Each refusal returns its number and nothing else", but for its place, "and changes nothing lent".
pub fn make(call: &Call) -> Left {
    let mut buffers = call.buffers.clone();
    let answer = match on_octets(call, &mut buffers) {
        Ok(()) => 0,
        Err(Refusal { number, place }) => {
            tell_place(place, &mut buffers);
            number
        }
    };
    Left { answer, buffers }
}

/// Sets the place of the fault, if it has one: no other out-parameter is set by a refusal.
fn tell_place(place: Option<usize>, buffers: &mut [Vec<u8>]) {
    if let (Some(place), Some(last)) = (place, buffers.last_mut()) {
        last.copy_from_slice(&place.to_le_bytes());
    }
}

/// The calls on payloads, packets, recordings and captures; all others are on what is lent.
fn on_octets(call: &Call, buffers: &mut [Vec<u8>]) -> Answer<()> {
    match (call.name, &call.scalars[..], buffers) {
        ("lv_payload_read", &[form, max_l, max_b], [payload, l, n, b, d, _]) => {
            let read = read(form, max_l, max_b, payload)?;
            tell([l, n, d], [read.l, read.n, read.d].map(usize::from))?;
            tell([b], [read.frames.len()])
        }
        ("lv_payload_frame", &[form, max_l, max_b, k], [payload, kind, start, size, _]) => {
            show(&read(form, max_l, max_b, payload)?.frames, k, [kind, start, size])
        }
        ("lv_packet_write", &[form, max_l, max_b, l, n, b, d], [entries, out, written, _]) => {
            let [l, n, b, d] = [l, n, b, d].map(|number| number as u8);
            let form = agreed(form, max_l, max_b)?;
            fill(out, written, |room| packets::write(form, Numbers { l, n, b, d }, entries, room))
        }
        ("lv_packet_write_header_free", &[form, max_l, max_b], [entries, out, written, _]) => {
            let form = agreed(form, max_l, max_b)?;
            fill(out, written, |room| packets::write_header_free(form, entries, room))
        }
        ("lv_recording_read", [], [recording, count, _]) => tell([count], [recordings::read(recording)?.len()]),
        ("lv_recording_frame", &[k], [recording, kind, start, size, _]) => {
            show(&recordings::read(recording)?, k, [kind, start, size])
        }
        ("lv_recording_write", [], [entries, out, written, _]) => {
            fill(out, written, |room| recordings::write(entries, room))
        }
        ("lv_capture_record", [], [capture, out, written]) => fill(out, written, |room| capture::record(capture, room)),
        ("lv_capture_answer", &[i], [capture, lost, _]) => {
            tell([lost], [capture::answer(capture, i as usize)? as usize])
        }
        (.., buffers) => on_lent(call, buffers),
    }
}

/// The calls on sessions and holdings.
fn on_lent(call: &Call, buffers: &mut [Vec<u8>]) -> Answer<()> {
    let given = buffers.len();
    match (call.name, &call.scalars[..], buffers) {
        ("lv_session_open", &[source, form, max_l, max_b], [session]) => {
            lent::open(session, source as u32, form as u8, limits(max_l, max_b))
        }
        ("lv_session_offer", &[source, sequence, timestamp], [session, payload, lost, _]) => {
            let (source, sequence, timestamp) = (source as u32, sequence as u16, timestamp as u32);
            let packet = Packet { source, sequence, timestamp, payload: payload.clone() };
            tell([lost], [lent::offer(session, &packet)? as usize])
        }
        ("lv_session_pour", [], [session, out, written]) => fill(out, written, |room| lent::pour(session, room)),
        ("lv_session_copy", [], [session, holding]) => lent::copy(session, holding),
        ("lv_session_drop", [], [session]) => lent::drop_group(session),
        ("lv_session_end", [], [session]) => lent::end(session),
        ("lv_holding_read", [], [holding, source, sequence, timestamp, l, b, held]) => {
            let (group, packets) = lent::read(holding)?;
            tell([source, timestamp], [group.source, group.base.timestamp].map(|number| number as usize))?;
            tell([sequence], [group.base.sequence.into()])?;
            tell([l, b, held], [group.l, group.b, packets].map(usize::from))
        }
        ("lv_holding_join", [], [a, b, out]) => lent::join(a, b, out),
        ("lv_holding_pour", [], [holding, out, written]) => {
            fill(out, written, |room| lent::pour_holding(holding, room))
        }
        ("lv_holding_lost", [], [before, after, lost]) => tell([lost], [lent::lost(before, after)? as usize]),
        (name, scalars, _) => {
            panic!("no call {name} with {} scalars and {given} buffers", scalars.len())
        }
    }
}

/// Reads a payload in the form that a host's numbers name.
fn read(form: u64, max_l: u64, max_b: u64, payload: &[u8]) -> Answer<Reading> {
    payload::read(agreed(form, max_l, max_b)?, payload)
}

/// The agreed form, by a host's numbers.
fn agreed(form: u64, max_l: u64, max_b: u64) -> Answer<Form> {
    Form::agreed(form as u8, limits(max_l, max_b))
}

/// The maxima, by a host's numbers.
fn limits(max_l: u64, max_b: u64) -> Limits {
    Limits { max_l: max_l as u8, max_b: max_b as u8 }
}

/// Sets the out-parameters of an accepted call, each as long as its type.
fn tell<const COUNT: usize>(outs: [&mut Vec<u8>; COUNT], numbers: [usize; COUNT]) -> Answer<()> {
    for (out, number) in outs.into_iter().zip(numbers) {
        let octets = out.len();
        out.copy_from_slice(&number.to_le_bytes()[..octets]);
    }
    Ok(())
}

/// Gives frame k: "its type and the very part [...] where its body lies".
fn show(frames: &[Frame], k: u64, outs: [&mut Vec<u8>; 3]) -> Answer<()> {
    let frame = asked(frames, k as usize)?;
    tell(outs, [frame.kind.number().into(), frame.start, frame.size])
}

/// Writes the octets that `made` gives for so much room, and their number. "Output octets past an answer's end stay
/// unchanged."
fn fill(out: &mut [u8], written: &mut Vec<u8>, made: impl FnOnce(usize) -> Answer<Vec<u8>>) -> Answer<()> {
    let octets = made(out.len())?;
    out[..octets.len()].copy_from_slice(&octets);
    tell([written], [octets.len()])
}
