//! Compares a program that records captures with document 01. It reads a capture on standard input and writes the
//! recording, or the line "bad capture", on standard output.

use std::io::{self, Write};
use std::process::{Command, Output, Stdio};
use std::thread;

use crate::inputs::captures::random;
use crate::paper::capture;

/// What document 01 has such a program write, and whether the capture is good.
pub fn due(capture: &[u8]) -> (Vec<u8>, bool) {
    match capture::recorded(capture) {
        Some(recording) => (recording, true),
        None => (b"bad capture\n".to_vec(), false),
    }
}

/// How many of the captures by these seeds a program records otherwise; each is told on standard error.
pub fn differences(seed: u64, count: u64, command: &[&str]) -> Result<u64, String> {
    let mut differences = 0;
    for seed in (0..count).map(|number| seed.wrapping_add(number)) {
        let capture = random(seed);
        let output = run(command, &capture).map_err(|error| format!("{command:?}: {error}"))?;
        if !agrees(&capture, &output) {
            eprintln!("compare: otherwise for random-capture {seed} ({})", output.status);
            differences += 1;
        }
    }
    Ok(differences)
}

/// A good capture has to end well, a bad one by any status.
fn agrees(capture: &[u8], output: &Output) -> bool {
    let (due, good) = due(capture);
    let ended = if good { output.status.success() } else { output.status.code().is_some() };
    ended && output.stdout == due
}

/// Runs a program on a capture.
fn run(command: &[&str], capture: &[u8]) -> io::Result<Output> {
    let (program, words) = command.split_first().ok_or_else(|| io::Error::other("no command"))?;
    let mut child =
        Command::new(program).args(words).stdin(Stdio::piped()).stdout(Stdio::piped()).stderr(Stdio::null()).spawn()?;
    let input = child.stdin.take();
    thread::scope(|scope| {
        // A program may end before it has read all: what it writes says enough.
        scope.spawn(move || input.map(|mut input| input.write_all(capture)));
        child.wait_with_output()
    })
}

#[cfg(test)]
mod tests {
    use super::*;

    /// Seed 0 has the largest recording there is; other captures are good or bad.
    #[test]
    fn captures_by_seed() {
        assert_eq!(due(&random(0)).0.len(), 841_807);
        let good = (1..=200).filter(|seed| due(&random(*seed)).1).count();
        assert!((50..=190).contains(&good), "{good} of 200 captures are good");
    }
}
