//! Compares the landing voice library with an independent reading of document 01, and of (i) and (ii) of document 02.
//!
//! `call` is a C call. `paper` says what it ought to leave, `library` what it does leave, by another program
//! (`serve.c`), whose `table` has the calls of the header. `inputs` makes calls, from the numbers of `rng`; `rows`
//! has some with answers worked out by hand. `comparison` makes them on both sides, and `report` has what was found.
//! `slips` are mistakes woven into the paper's reading, and `trial` tries whether each shows. `programs` compares
//! programs that record captures.

mod call;
mod comparison;
mod inputs;
mod library;
mod paper;
mod programs;
mod report;
mod rng;
mod rows;
mod slips;
mod table;
mod trial;

use std::env;
use std::ffi::OsString;
use std::io::{self, Read, Write};
use std::process::ExitCode;

use call::Call;
use comparison::Comparison;
use inputs::sequences::Sequence;
use inputs::{captures, lent, packets, payloads, recordings, Maker};
use library::Library;
use paper::host::CALLS;
use report::Report;
use rng::Rng;

const USAGE: &str = "\
usage: compare [--seed N] [--calls C] [--rows] [--answers] -- COMMAND [WORDS..]
       compare record < CAPTURE > RECORDING
       compare random-capture SEED > CAPTURE
       compare programs SEED COUNT -- COMMAND [WORDS..]
The first compares the library, called by serve.c, which COMMAND starts. N is the seed of the inputs; with C, seeded
calls go on until each call was made C times; with --rows only the rows are played; with --answers it is told how often
each call gave each answer. Of random captures, that of seed 0 has the largest recording. The last compares a program
that records captures, on COUNT random ones.";

/// The seed if none is given.
const SEED: u64 = 20_261_115;

/// What makes seeded inputs, for which calls, and how many in a round.
type Seeded = (&'static [&'static str], usize, fn(&mut Maker) -> Vec<Call>);
const SEEDED: [Seeded; 4] = [
    (&["lv_payload_read", "lv_payload_frame"], 6, payloads::seeded),
    (&["lv_recording_read", "lv_recording_frame", "lv_recording_write"], 3, recordings::seeded),
    (&["lv_packet_write", "lv_packet_write_header_free"], 4, packets::seeded),
    (&["lv_capture_record", "lv_capture_answer"], 1, captures::seeded),
];

/// How many rounds of seeded inputs there are, how many sequences are played side by side, and how many calls each has.
const ROUNDS: usize = 3_000;
const SIDE_BY_SIDE: usize = 50;
const SEQUENCE: usize = 2_000;

/// How many of each call are kept to try slips on.
const KEPT: usize = 2_500;

/// Does what the words ask for. The status is 1 if not all is well, and 2 for other words.
fn main() -> ExitCode {
    let words: Vec<OsString> = env::args_os().skip(1).collect();
    let plain: Vec<&str> = words.iter().filter_map(|word| word.to_str()).collect();
    let done = match plain[..] {
        ["-h" | "--help"] => put(USAGE.as_bytes()).and_then(|()| put(b"\n").map(|()| true)),
        ["record"] => record(),
        ["random-capture", seed] => number(seed).and_then(|seed| put(&captures::random(seed)).map(|()| true)),
        ["programs", seed, count, "--", ref command @ ..] => compare_programs(seed, count, command),
        _ => match asked(&words) {
            Some((asked, command, words)) => return compare(asked, command, words),
            None => Err(USAGE.into()),
        },
    };
    match done {
        Ok(well) => ExitCode::from(u8::from(!well)),
        Err(error) => {
            eprintln!("{error}");
            ExitCode::from(2)
        }
    }
}

/// What is asked of a comparison: the seed of its inputs, how often it makes each call at least, whether it plays rows
/// alone, and whether it tells how often each answer was given.
struct Asked {
    seed: u64,
    calls: usize,
    rows: bool,
    answers: bool,
}

/// What is asked, and the command that starts the server with its words.
fn asked(words: &[OsString]) -> Option<(Asked, &OsString, &[OsString])> {
    let end = words.iter().position(|word| word == "--")?;
    let mut asked = Asked { seed: SEED, calls: 0, rows: false, answers: false };
    let mut options = words[..end].iter().map(|word| word.to_str());
    while let Some(option) = options.next() {
        match option? {
            "--seed" => asked.seed = options.next()??.parse().ok()?,
            "--calls" => asked.calls = options.next()??.parse().ok()?,
            "--rows" => asked.rows = true,
            "--answers" => asked.answers = true,
            _ => return None,
        }
    }
    let (command, words) = words[end + 1..].split_first()?;
    Some((asked, command, words))
}

/// Compares the library, and tells what was found.
fn compare(asked: Asked, command: &OsString, words: &[OsString]) -> ExitCode {
    let mut report = Report::default();
    let library = match Library::start(command, words, &CALLS) {
        Ok(library) => library,
        Err(fault) => {
            report.failure(fault);
            return report.close();
        }
    };
    let keep = if slips::SLIPS.is_empty() { 0 } else { KEPT };
    let mut comparison = Comparison::new(library, Rng::new(asked.seed), report, keep);
    if let Err(fault) = compare_all(&asked, &mut comparison) {
        comparison.report.failure(fault);
    }
    if !slips::SLIPS.is_empty() {
        trial::try_slips(&mut comparison);
    }
    comparison.report.tally(&comparison.library.table);
    if asked.answers {
        comparison.report.tell_answers();
    }
    let Comparison { library, mut report, .. } = comparison;
    if let Err(fault) = library.end() {
        report.failure(fault);
    }
    report.close()
}

/// Compares rows, families, and seeded calls. A fault of the server ends this early.
fn compare_all(asked: &Asked, comparison: &mut Comparison) -> Result<(), String> {
    rows::play(comparison)?;
    if asked.rows {
        return Ok(());
    }
    let families = [payloads::families, recordings::families, packets::families, captures::families, lent::families];
    for family in families {
        let calls = made(comparison, family);
        comparison.make_all(calls, &"of a family")?;
    }
    for _ in 0..ROUNDS {
        seeded(comparison, usize::MAX)?;
    }
    played(comparison, SEQUENCE, false)?;
    let wants = |comparison: &Comparison, name: &&str| comparison.report.calls(name) < asked.calls;
    let in_sequences = |name: &&str| SEEDED.iter().all(|(names, ..)| !names.contains(name));
    while CALLS.iter().any(|name| wants(comparison, name)) {
        seeded(comparison, asked.calls)?;
        if CALLS.iter().any(|name| in_sequences(name) && wants(comparison, name)) {
            played(comparison, SEQUENCE / 10, true)?;
        }
    }
    Ok(())
}

/// Calls that are made of the comparison's numbers.
fn made(comparison: &mut Comparison, make: fn(&mut Maker) -> Vec<Call>) -> Vec<Call> {
    make(&mut Maker { table: &comparison.library.table, rng: &mut comparison.rng })
}

/// A round of seeded inputs, some of each kind that has a call made less often than this.
fn seeded(comparison: &mut Comparison, least: usize) -> Result<(), String> {
    let mut calls = Vec::new();
    for (names, times, make) in SEEDED {
        if names.iter().any(|name| comparison.report.calls(name) < least) {
            (0..times).for_each(|_| calls.extend(made(comparison, make)));
        }
    }
    comparison.make_all(calls, &"seeded")
}

/// Sequences of so many calls each, side by side; no call is rare in them if they are to be even.
fn played(comparison: &mut Comparison, length: usize, even: bool) -> Result<(), String> {
    let mut sequences: Vec<Sequence> = (0..SIDE_BY_SIDE).map(|_| Sequence::new(&mut comparison.rng, even)).collect();
    for _ in 0..length {
        let mut maker = Maker { table: &comparison.library.table, rng: &mut comparison.rng };
        let calls = sequences.iter_mut().map(|sequence| sequence.next(&mut maker)).collect();
        let lefts = comparison.make(calls, &"in a sequence")?;
        for (sequence, left) in sequences.iter_mut().zip(&lefts) {
            sequence.take(left, &mut comparison.rng);
        }
    }
    Ok(())
}

/// Records a capture; a bad one is not well.
fn record() -> Result<bool, String> {
    let mut capture = Vec::new();
    io::stdin().read_to_end(&mut capture).map_err(|error| error.to_string())?;
    let (octets, good) = programs::due(&capture);
    put(&octets).map(|()| good)
}

/// Compares a program; all is well if nothing differs.
fn compare_programs(seed: &str, count: &str, command: &[&str]) -> Result<bool, String> {
    let (seed, count) = (number(seed)?, number(count)?);
    let differences = programs::differences(seed, count, command)?;
    put(format!("programs: {count} captures, {differences} differences\n").as_bytes())?;
    Ok(differences == 0)
}

/// A number among the words.
fn number(word: &str) -> Result<u64, String> {
    word.parse().map_err(|_| USAGE.into())
}

/// Writes to standard output.
fn put(octets: &[u8]) -> Result<(), String> {
    io::stdout().write_all(octets).map_err(|error| error.to_string())
}
