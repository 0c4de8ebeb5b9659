//! The marked examples P1 to P15 of document 01, the places and the clock of document 02, the edges of d and e, and a
//! call of another shape.

use super::answers::{refusal, Answer};
use super::form::{Form, Limits};
use super::groups::{counts_between, d, e, Base};
use super::holding::{self, Holding};
use super::host::make;
use super::session::{judge_d, judge_e, lost, lost_in, Packet, Session};
use super::{capture, packets, payload, recordings};
use crate::call::Call;

/// "Maxima 5 and 10 unless named."
const DEFAULT: Limits = Limits { max_l: 5, max_b: 10 };

/// A packet's sequence number, timestamp and payload.
type Sent = (u16, u32, &'static str);

/// The packets of the whole case, what they are poured as, and the case as a capture.
const FIRST: Sent = (0xFFFF, 0xFFFF_FF60, "08 81 01 11 11 33 33");
const SECOND: Sent = (0x0000, 0, "09 81 01 22 22 44 44");
const POURED: &str = "01 11 11 01 22 22 01 33 33 01 44 44";
const CAPTURE: &str = "00 02 00 00 00 07 FF FF FF FF FF 60 00 07 00 00 00 07 00 00 00 00 00 00 \
                       00 07 08 81 01 11 11 33 33 09 81 01 22 22 44 44";

/// Octets in hexadecimal.
fn hex(text: &str) -> Vec<u8> {
    let octet = |digits| u8::from_str_radix(digits, 16).expect("two digits");
    text.split_whitespace().map(octet).collect()
}

/// The recording of these entries.
fn recording(entries: &str) -> Option<Vec<u8>> {
    Some(hex(&format!("23 21 45 56 52 43 0A {entries}")))
}

/// The number of an answer.
fn number(answer: Answer<()>) -> u8 {
    answer.err().map_or(0, |refusal| refusal.number)
}

/// What the interleaved reader answers: L, N, and where the bodies begin.
fn read(limits: Limits, payload: &str) -> Answer<(u8, u8, Vec<usize>)> {
    let read = payload::read(Form::Interleaved(limits), &hex(payload))?;
    Ok((read.l, read.n, read.frames.iter().map(|frame| frame.start).collect()))
}

/// A session opened for the source of the whole case, in the widest form.
fn opened() -> Session {
    Session::opened(7, Form::Interleaved(Limits { max_l: 7, max_b: 10 }))
}

/// Offers a packet of that source.
fn offer(session: &mut Session, (sequence, timestamp, payload): Sent) -> Answer<u32> {
    session.offer(&Packet { source: 7, sequence, timestamp, payload: hex(payload) })
}

/// What a session holds that heard one packet.
fn heard(packet: Sent) -> Option<Holding> {
    let mut session = opened();
    assert_eq!(offer(&mut session, packet), Ok(0));
    session.copy().ok()
}

#[test]
fn p1_to_p10_payloads() {
    assert_eq!(read(DEFAULT, FIRST.2), Ok((1, 0, vec![3, 5])));
    let ten = format!("00 {} 01", ["81"; 10].join(" "));
    for (payload, number) in [("", 1), ("0A", 2), ("30", 3)] {
        assert_eq!(read(DEFAULT, payload), Err(refusal(number)), "{payload}");
    }
    for (payload, number, place) in
        [("00 81", 4, 2), ("00 02", 5, 1), (&ten, 6, 11), ("00 01 11", 7, 2), ("00 01 11 11 00", 8, 4)]
    {
        assert_eq!(read(DEFAULT, payload), Err(refusal(number).at(place)), "{payload}");
    }
    assert_eq!(read(Limits { max_l: 6, ..DEFAULT }, "30"), Err(refusal(4).at(1)));
    assert_eq!(read(DEFAULT, "C0 00"), Ok((0, 0, vec![2])));
}

/// "The place of the first body that doesn't fit whole", though it be the payload's length; empty bodies always fit.
#[test]
fn a_payload_has_the_place_of_its_fault() {
    let places = [
        ("00", 4, 1),
        ("00 81 82 01", 5, 2),
        ("00 01", 7, 2),
        ("00 81 01 11 11", 7, 5),
        ("00 80 81 8E 03 AA AA", 7, 7),
        ("00 84 04 00 00", 7, 3),
        ("00 8E 80 0E 00", 8, 4),
    ];
    for (payload, number, place) in places {
        assert_eq!(read(DEFAULT, payload), Err(refusal(number).at(place)), "{payload}");
    }
    assert_eq!(read(Limits { max_b: 1, ..DEFAULT }, "00 80 02"), Err(refusal(6).at(2)));
}

/// In a recording the opening counts, and in entries that are lent to a writer the first is at 0. "Place of the entry
/// octet", also for a body that is cut.
#[test]
fn entries_have_the_place_of_their_fault() {
    for (entries, number, place) in [("02", 5, 0), ("01 11 11 3F", 5, 3), ("00 03 33", 19, 1), ("01", 19, 0)] {
        let fault = |before: usize| Some(refusal(number).at(before + place));
        let octets = recording(entries).expect("octets");
        assert_eq!(recordings::read(&octets).err(), fault(7), "{entries}");
        assert_eq!(recordings::write(&hex(entries), 99).err(), fault(0), "{entries}");
        let numbers = packets::Numbers { l: 0, n: 0, b: 1, d: 0 };
        assert_eq!(packets::write(Form::Interleaved(DEFAULT), numbers, &hex(entries), 99).err(), fault(0), "{entries}");
    }
    assert_eq!(packets::write_header_free(Form::HeaderFree, &hex("01 11 11 02"), 99), Err(refusal(5).at(3)));
    assert_eq!(packets::write_header_free(Form::HeaderFree, &hex("0E 02"), 99), Err(refusal(17)));
}

#[test]
fn p11_the_whole_case() {
    for order in [[FIRST, SECOND], [SECOND, FIRST]] {
        let mut session = opened();
        assert_eq!(order.map(|packet| offer(&mut session, packet)), [Ok(0); 2]);
        assert_eq!(session.pour(11), Err(refusal(15)));
        assert_eq!(session.pour(12), Ok(hex(POURED)));
        assert_eq!(session.pour(12), Err(refusal(21)));
    }
}

#[test]
fn p11_as_a_capture() {
    let octets = hex(CAPTURE);
    assert_eq!(capture::recorded(&octets), recording(POURED));
    assert_eq!(capture::record(&octets, 18), Err(refusal(15)));
    assert_eq!(capture::record(&octets, 19).ok(), recording(POURED));
    for cut in 0..octets.len() {
        assert_eq!(capture::record(&octets[..cut], 0), Err(refusal(255)), "cut to {cut}");
    }
    assert_eq!(capture::recorded(&[&octets[..], &[0]].concat()), None);
    assert_eq!(capture::recorded(&[0, 0]), recording(""));
}

/// The answer is that to the last offer: 12 is never told.
#[test]
fn a_capture_tells_what_its_packets_were_answered() {
    // Base 0001, L 0, B 1: the packet, a repeat, a later group's behind a packet lost, another source's, one of a
    // reserved type, a later group's too far ahead, one off the clock, and an earlier one's.
    let first = ["07 00 01 00 00 00 00", "07 00 01 00 00 00 00", "07 00 03 00 00 01 40", "08 00 04 00 00 01 E0"];
    let rest = ["07 00 04 00 00 01 E0", "07 00 AA 00 07 55 80", "07 00 05 00 00 01 E1", "07 00 02 00 00 00 A0"];
    let rows: String = [first, rest].concat().iter().map(|row| format!("00 00 00 {row} 00 02 ")).collect();
    let octets = hex(&format!("00 08 {rows} 00 00 00 00 00 00 00 00 00 02 00 00 00 00 00 00"));
    let answers: Vec<_> = (0..9).map(|i| capture::answer(&octets, i)).collect();
    let refusals = [refusal(10), refusal(5).at(1), refusal(16), refusal(24), refusal(13), refusal(21)];
    assert_eq!(answers[..3], [Ok(0), Ok(0), Ok(1)]);
    assert_eq!(answers[3..], refusals.map(Err));
    assert_eq!(capture::answer(&octets[1..], 0), Err(refusal(255)));
}

#[test]
fn p12_the_second_packet_lost() {
    let poured = "01 11 11 0E 01 33 33 0E";
    assert_eq!(holding::pour(heard(FIRST).as_ref(), 200), Ok(hex(poured)));
    let first = "00 01 00 00 00 07 FF FF FF FF FF 60 00 07 08 81 01 11 11 33 33";
    assert_eq!(capture::recorded(&hex(first)), recording(poured));
}

#[test]
fn p13_base_numbers_wrap_around() {
    assert_eq!(Base::of(0, 0, 1), Base { sequence: 0xFFFF, timestamp: 0xFFFF_FF60 });
    assert_eq!(Base::of(6, 1120, 7), Base { sequence: 0xFFFF, timestamp: 0 });
}

#[test]
fn p14_header_free() {
    let read = |length| payload::read(Form::HeaderFree, &vec![0xFF; length]);
    let kind = |length| read(length).map(|read| read.frames[0].kind.number());
    let answers = [22, 10, 2, 0, 5, 23].map(kind);
    assert_eq!(answers, [Ok(4), Ok(3), Ok(1), Err(refusal(9)), Err(refusal(9)), Err(refusal(9))]);
}

#[test]
fn p15_distances_from_base_ffff() {
    let mut session = opened();
    assert_eq!(offer(&mut session, FIRST), Ok(0));
    for (sequence, answer) in [(0x0001, 12), (0x0000, 11), (0xFFFE, 13)] {
        assert_eq!(offer(&mut session, (sequence, 0, "00 00")), Err(refusal(answer)));
    }
}

/// With a base b and an L of 5.
#[test]
fn edges_of_d_and_e() {
    let of_d = [(0, 0), (1, 11), (5, 11), (6, 12), (32_767, 12), (32_768, 13), (65_535, 13)];
    let of_e = [(0, 0), (100, 0), (101, 0), (32_767, 0), (32_768, 13), (65_535, 13)];
    for b in [0, 1, 0x7FFF, 0x8000, 0xFFFA, 0xFFFF_u16] {
        let by_d = |far| number(judge_d(d(b.wrapping_add(far), b), 5));
        let by_e = |far| number(judge_e(e(b.wrapping_add(6).wrapping_add(far), b, 5)));
        of_d.iter().for_each(|&(far, answer)| assert_eq!(by_d(far), answer, "d = {far}"));
        of_e.iter().for_each(|&(far, answer)| assert_eq!(by_e(far), answer, "e = {far}"));
    }
    assert_eq!(judge_d(1, 0), Err(refusal(12)));
}

/// As 4,294,967,296 = 160 x 26,843,545 + 96, a clock that has gone back by frames is off by 96, and one that has gone
/// back by 96, 256, .. counts is on again, and far ahead.
#[test]
fn edges_of_the_clock() {
    let of_frames = [(0, Ok(0)), (1, Ok(1)), (2_999, Ok(2_999)), (3_000, Ok(3_000))];
    of_frames.iter().for_each(|&(frames, answer)| assert_eq!(lost_in(160 * frames), answer, "{frames} frames"));
    for frames in [3_001, 65_536, 26_843_545] {
        assert_eq!(lost_in(160 * frames), Err(refusal(16)), "{frames} frames");
    }
    for counts in [1, 80, 159, 161, 479_999, 480_001, 480_159, 480_161, 4_294_967_295] {
        assert_eq!(lost_in(counts), Err(refusal(24)), "{counts} counts");
    }
    for (back, number) in [(1, 24), (95, 24), (96, 16), (97, 24), (160, 24), (256, 16), (320, 24), (480_096, 16)] {
        assert_eq!(lost_in(counts_between(1_000_640 - back, 1_000_000, 1, 2)), Err(refusal(number)), "back by {back}");
    }
}

/// From the end of a group of L 1 and B 2, FFFFFF60 + 640 = 01E0, to one of L 0 and B 3, however many packets are lost.
#[test]
fn lost_frames_count_by_the_clock() {
    for e in [0, 1, 50, 100, 101, 32_767] {
        for (timestamp, answer) in
            [(0x01E0, Ok(0)), (0x0280, Ok(1)), (0x0281, Err(24)), (0, Err(24)), (0x0180, Err(16))]
        {
            let mut session = opened();
            assert_eq!(offer(&mut session, FIRST), Ok(0));
            assert_eq!(session.pour(200).map(|octets| octets.len()), Ok(8));
            let before = session.clone();
            let answered = offer(&mut session, (0x0001 + e, timestamp, "00 80 80 00"));
            assert_eq!(answered, answer.map_err(refusal), "e = {e}, timestamp {timestamp:04X}");
            assert_eq!(session == before, answer.is_err());
        }
    }
}

#[test]
fn two_boxes_have_the_whole_case() {
    let (a, b) = (heard(FIRST), heard(SECOND));
    let joined = holding::join(a.clone(), b.clone());
    assert_eq!(joined, holding::join(b, a.clone()));
    assert_eq!(holding::pour(joined.ok().as_ref(), 12), Ok(hex(POURED)));
    assert_eq!(holding::join(a.clone(), a.clone()).ok(), a);
    assert_eq!(holding::join(a, None), Err(refusal(21)));
}

#[test]
fn a_holding_tells_its_group_and_packets() {
    let (a, b) = (heard(FIRST), heard(SECOND));
    let joined = holding::join(a.clone(), b.clone()).ok();
    let (group, held) = holding::read(a).expect("a packet is held");
    assert_eq!((group.source, group.base, group.l, group.b), (7, Base::of(0, 0, 1), 1, 2));
    assert_eq!((held, holding::read(b), holding::read(joined)), (1, Ok((group, 2)), Ok((group, 3))));
    assert_eq!(holding::read(None), Err(refusal(21)));
}

/// "The session is then as after pouring", and what is lost between two holdings is what it reports.
#[test]
fn a_dropped_group_counts_as_a_poured_one() {
    for (e, counts) in
        [0, 1, 101, 32_767, 32_768].into_iter().flat_map(|e| (0..500).map(move |counts| (e, 32 * counts)))
    {
        let mut session = opened();
        assert_eq!(session.drop_group(), Err(refusal(21)));
        assert_eq!(offer(&mut session, FIRST), Ok(0));
        let mut poured = session.clone();
        assert_eq!(poured.pour(200).map(|octets| octets.len()), Ok(8));
        assert_eq!((session.drop_group(), session.drop_group()), (Ok(()), Err(refusal(21))));
        assert_eq!(session, poured);
        let later = (0x0001_u16.wrapping_add(e), 0x01E0 + counts, "00 80 80 00");
        assert_eq!(offer(&mut session, later), lost(heard(FIRST), heard(later)), "e = {e}, {counts} counts");
    }
    assert_eq!((lost(None, heard(FIRST)), lost(heard(FIRST), None)), (Err(refusal(21)), Err(refusal(21))));
}

/// "Frame k of packet N stands at time place k x (L + 1) + N": in the greatest group, its place as its body.
#[test]
fn the_greatest_group_is_poured_in_time_order() {
    let mut session = opened();
    for n in [5, 0, 7, 3, 1, 6, 2, 4_u8] {
        let mut payload = [&[7 * 8 + n], &[0x84; 9][..], &[4]].concat();
        (0..10).for_each(|k| payload.extend([k * 8 + n; 22]));
        let sequence = 0xFFFC_u16.wrapping_add(n.into());
        let timestamp = 0xFFFF_FE00_u32.wrapping_add(160 * u32::from(n));
        assert_eq!(session.offer(&Packet { source: 7, sequence, timestamp, payload }), Ok(0));
    }
    let entry = |place| [&[4][..], &[place; 22]].concat();
    assert_eq!(session.pour(1839), Err(refusal(15)));
    assert_eq!(session.pour(1840), Ok((0..80).flat_map(entry).collect()));
}

#[test]
#[should_panic(expected = "no call lv_session_end with 1 scalars and 1 buffers")]
fn another_shape_is_no_call() {
    make(&Call { name: "lv_session_end", scalars: vec![0], buffers: vec![Vec::new()] });
}
