//! Makes calls on both sides, the library's and the paper's reading, and compares what they leave.

use std::fmt::Display;

use crate::call::{Call, Left};
use crate::library::Library;
use crate::paper::host;
use crate::report::Report;
use crate::rng::Rng;

/// A comparison under way.
pub struct Comparison {
    pub library: Library,
    pub rng: Rng,
    pub report: Report,
    /// Calls with what the library left, to try slips on: those of rows, and some of each call of the others.
    pub rows: Vec<(Call, Left)>,
    pub others: Vec<(Call, Left)>,
    keep: usize,
}

/// How many calls are made at a time, at most, and after how many octets no more is added to them.
const BATCH: usize = 500;
const BATCH_OCTETS: usize = 1 << 22;

impl Comparison {
    /// A comparison that keeps so many of each call to try slips on.
    pub fn new(library: Library, rng: Rng, report: Report, keep: usize) -> Comparison {
        Comparison { library, rng, report, rows: Vec::new(), others: Vec::new(), keep }
    }

    /// Has calls made at once, and gives what the library left of each. They are compared with the paper's reading.
    pub fn make(&mut self, calls: Vec<Call>, whose: &dyn Display) -> Result<Vec<Left>, String> {
        let made = self.library.make(&calls, &mut self.rng)?;
        let mut lefts = Vec::with_capacity(calls.len());
        for (call, made) in calls.into_iter().zip(made) {
            let due = host::make(&call);
            self.report.judge(&call, &due, &made, whose);
            let left = made.unwrap_or(due);
            if self.keep > 0 && self.report.calls(call.name) < self.keep {
                self.others.push((call, left.clone()));
            }
            lefts.push(left);
        }
        Ok(lefts)
    }

    /// Makes all calls that there are, a batch at a time.
    pub fn make_all(&mut self, calls: impl IntoIterator<Item = Call>, whose: &dyn Display) -> Result<(), String> {
        let (mut batch, mut octets) = (Vec::new(), 0);
        for call in calls {
            octets += call.buffers.iter().map(Vec::len).sum::<usize>();
            batch.push(call);
            if batch.len() == BATCH || octets > BATCH_OCTETS {
                self.make(std::mem::take(&mut batch), whose)?;
                octets = 0;
            }
        }
        self.make(batch, whose).map(drop)
    }
}
