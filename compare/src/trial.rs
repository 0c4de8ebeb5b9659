//! Tries slips: mistakes that are woven into the reading of document 01 (see `slips`). Each has to show in a call
//! that was compared.

use std::panic::{self, AssertUnwindSafe};

use crate::call::{Call, Left};
use crate::comparison::Comparison;
use crate::paper::host;
use crate::slips::{self, SLIPS};

/// Tries every slip, on the rows and then on other calls, until it shows.
pub fn try_slips(comparison: &mut Comparison) {
    let (mut in_rows, mut elsewhere) = (0, 0);
    let told = panic::take_hook();
    panic::set_hook(Box::new(|_| {}));
    let mut missed = Vec::new();
    for (number, text) in (1..).zip(SLIPS) {
        if shows(number, &comparison.rows) {
            in_rows += 1;
        } else if shows(number, &comparison.others) {
            elsewhere += 1;
            println!("no row shows: {text}");
        } else {
            missed.push(text);
        }
    }
    panic::set_hook(told);
    println!("slips: {} showed of {}, {in_rows} of them in rows", in_rows + elsewhere, SLIPS.len());
    missed.iter().for_each(|text| comparison.report.failure(format_args!("does not show: {text}")));
    comparison.report.shown(in_rows + elsewhere);
}

/// Whether a slip leaves another thing than the library did, or no answer at all, in one of these calls.
fn shows(number: usize, calls: &[(Call, Left)]) -> bool {
    calls.iter().any(|(call, left)| {
        let made = slips::with(number, || panic::catch_unwind(AssertUnwindSafe(|| host::make(call))));
        made.as_ref().ok() != Some(left)
    })
}
