//! What the comparison has found: differences, how often each call was made, and which answers were reached.

use std::collections::BTreeMap;
use std::fmt::{self, Display, Formatter};
use std::process::ExitCode;

use crate::call::{Call, Left};
use crate::library::Made;
use crate::table::Table;

/// The answers that each call can give.
const ANSWERS: [(&str, &[u8]); 19] = [
    ("lv_payload_read", &[0, 1, 2, 3, 4, 5, 6, 7, 8, 9, 21]),
    ("lv_payload_frame", &[0, 1, 2, 3, 4, 5, 6, 7, 8, 9, 21]),
    ("lv_packet_write", &[0, 2, 3, 5, 6, 15, 17, 19, 21]),
    ("lv_packet_write_header_free", &[0, 5, 15, 17, 19, 21]),
    ("lv_recording_read", &[0, 5, 18, 19]),
    ("lv_recording_frame", &[0, 5, 18, 19, 21]),
    ("lv_recording_write", &[0, 5, 15, 19]),
    ("lv_capture_record", &[0, 15, 255]),
    ("lv_capture_answer", &[0, 1, 2, 4, 5, 6, 7, 8, 10, 11, 13, 14, 16, 21, 24, 255]),
    ("lv_session_open", &[0, 15, 21]),
    ("lv_session_offer", &[0, 1, 2, 3, 4, 5, 6, 7, 8, 9, 10, 11, 12, 13, 14, 16, 21, 24]),
    ("lv_session_pour", &[0, 15, 21]),
    ("lv_session_copy", &[0, 15, 21]),
    ("lv_session_drop", &[0, 21]),
    ("lv_session_end", &[0, 15]),
    ("lv_holding_read", &[0, 21]),
    ("lv_holding_join", &[0, 14, 15, 20, 21]),
    ("lv_holding_pour", &[0, 15, 21]),
    ("lv_holding_lost", &[0, 10, 13, 16, 21, 24]),
];

/// How many differences are told in full.
const TOLD: usize = 3;

/// Counts calls by name and answer, differences and failures; tells the first differences in full.
#[derive(Default)]
pub struct Report {
    answers: BTreeMap<(&'static str, u8), usize>,
    differences: usize,
    failures: usize,
    slips: Option<usize>,
}

impl Report {
    /// Counts a call, and tells if the library did otherwise than is due.
    pub fn judge(&mut self, call: &Call, due: &Left, made: &Made, whose: &dyn Display) {
        let answer = made.as_ref().map_or(due.answer, |left| left.answer);
        *self.answers.entry((call.name, answer)).or_default() += 1;
        if made.as_ref() != Ok(due) {
            self.differs(call, due, made, whose);
        }
    }

    /// Two sides differ over a call.
    pub fn differs(&mut self, call: &Call, due: &Left, made: &Made, whose: &dyn Display) {
        self.differences += 1;
        if self.differences <= TOLD {
            println!("difference {}, {whose}:\n{}", self.differences, Difference { call, due, made });
        }
    }

    /// The comparison itself falls short.
    pub fn failure(&mut self, told: impl Display) {
        self.failures += 1;
        println!("failure: {told}");
    }

    /// So many slips showed.
    pub fn shown(&mut self, slips: usize) {
        self.slips = Some(slips);
    }

    /// How often a call was made.
    pub fn calls(&self, name: &str) -> usize {
        self.answers.iter().filter(|((call, _), _)| *call == name).map(|(_, count)| count).sum()
    }

    /// How often each call of the table was made, accepted and refused. Each has to be made, and to give every answer
    /// that it can.
    pub fn tally(&mut self, table: &Table) {
        println!("{:28} {:>8} {:>8} {:>8}", "", "calls", "accepted", "refused");
        for entry in &table.0 {
            let calls = self.calls(entry.name);
            let accepted = self.answers.get(&(entry.name, 0)).copied().unwrap_or(0);
            println!("{:28} {calls:8} {accepted:8} {:8}", entry.name, calls - accepted);
            if calls == 0 {
                self.failure(format_args!("no input is made for {}", entry.name));
            }
            if ANSWERS.iter().all(|(name, _)| *name != entry.name) {
                self.failure(format_args!("no answers are listed for {}", entry.name));
            }
        }
        for (name, answers) in ANSWERS {
            for answer in 0..=255 {
                let (can, count) = (answers.contains(&answer), self.answers.get(&(name, answer)).copied().unwrap_or(0));
                match (can, count) {
                    (true, 0) => self.failure(format_args!("{name} never answers {answer}")),
                    (false, 1..) => self.failure(format_args!("{name} cannot answer {answer}")),
                    _ => {}
                }
            }
        }
    }

    /// How often each call gave each answer.
    pub fn tell_answers(&self) {
        for (name, answers) in ANSWERS {
            let count = |answer: &u8| self.answers.get(&(name, *answer)).copied().unwrap_or(0);
            let counts: Vec<String> = answers.iter().map(|answer| format!("{answer}: {}", count(answer))).collect();
            println!("{name} answers {}", counts.join(", "));
        }
    }

    /// The last line, and the status to leave with.
    pub fn close(self) -> ExitCode {
        let calls: usize = self.answers.values().sum();
        let slips = self.slips.map_or(String::new(), |slips| format!(", {slips} slips showed"));
        print!("compare: {calls} calls, {} differences{slips}", self.differences);
        if self.differences == 0 && self.failures == 0 {
            println!();
            return ExitCode::SUCCESS;
        }
        println!(", {} failures", self.failures);
        ExitCode::FAILURE
    }
}

/// A call, what it ought to leave, and what it left.
struct Difference<'a> {
    call: &'a Call,
    due: &'a Left,
    made: &'a Made,
}

impl Display for Difference<'_> {
    /// The call, then both answers, and the first octets that differ.
    fn fmt(&self, f: &mut Formatter) -> fmt::Result {
        let Difference { call, due, made } = self;
        writeln!(f, "  {} scalars {:?}", call.name, call.scalars)?;
        for (place, octets) in call.buffers.iter().enumerate() {
            writeln!(f, "  buffer {place}, {} octets: {}", octets.len(), Hex(octets, 0))?;
        }
        let left = match made {
            Ok(left) => left,
            Err(told) => return writeln!(f, "  due: answer {}; given: {told}", due.answer),
        };
        writeln!(f, "  due: answer {}; given: answer {}", due.answer, left.answer)?;
        for (place, (due, left)) in due.buffers.iter().zip(&left.buffers).enumerate() {
            if let Some(at) = due.iter().zip(left).position(|(due, left)| due != left) {
                writeln!(f, "  buffer {place} from octet {at} on, due: {}", Hex(due, at))?;
                writeln!(f, "  buffer {place} from octet {at} on, left: {}", Hex(left, at))?;
            }
        }
        Ok(())
    }
}

/// Octets from a place on as document 01 writes them, the first of many.
struct Hex<'a>(&'a [u8], usize);

/// How many octets are told at most.
const OCTETS_TOLD: usize = 64;

impl Display for Hex<'_> {
    /// Two digits for each octet.
    fn fmt(&self, f: &mut Formatter) -> fmt::Result {
        let octets = &self.0[self.1..];
        let (told, rest) = octets.split_at(octets.len().min(OCTETS_TOLD));
        let told: Vec<String> = told.iter().map(|octet| format!("{octet:02X}")).collect();
        write!(f, "{}", told.join(" "))?;
        match rest.len() {
            0 => Ok(()),
            more => write!(f, " and {more} more"),
        }
    }
}
