//! Rows: calls with answers worked out by hand, in `compare/rows/*.txt`. Both the library and the paper's reading
//! have to give them.
//!
//! A row is a call, its arguments in the order of its parameters, `->`, and what is left: the answer; if it is 0, what
//! the call wrote, in the order of its parameters; if it is a refusal that has a place, `@` and that place. A place that
//! is not stated stays as it was. Both sides have
//!
//! ```text
//! 7, 0xFFFF              a number
//! [08 81 01x10]          octets, `x` for so many of one
//! [capture A | B *3]     a capture of packets, each a source, sequence, timestamp and octets; `*` for so many of one
//! room 12                an output of so many octets; its first ones are stated, the others stay as they were
//! fit                    an output of just the octets that are stated; once more with an octet less, the answer is 15
//! s, s/2047              a buffer by its name, or its first octets; it stays from row to row, and `see` states it
//! ..                     behind `->`: not stated
//! ```
//!
//! Other lines are `let WORD = WORDS`, which stand for it from there on; `set s = LENGTH FILL; AT: OCTETS, AT:
//! OCTETS`, the octets of a buffer, FILL where none are listed; `see s = ..`, which states them likewise; and
//! comments behind `#`. Lines may be joined by `then`. Each file begins anew.

use std::collections::HashMap;

use crate::call::{Call, Left};
use crate::comparison::Comparison;
use crate::paper::host;
use crate::table::{Kind, Parameter};

/// The files.
const FILES: [(&str, &str); 8] = [
    ("payloads", include_str!("../rows/payloads.txt")),
    ("recordings", include_str!("../rows/recordings.txt")),
    ("packets", include_str!("../rows/packets.txt")),
    ("captures", include_str!("../rows/captures.txt")),
    ("sessions", include_str!("../rows/sessions.txt")),
    ("two_boxes", include_str!("../rows/two_boxes.txt")),
    ("long_session", include_str!("../rows/long_session.txt")),
    ("pauses", include_str!("../rows/pauses.txt")),
];

/// What an output has before a call.
const UNWRITTEN: u8 = 0x77;

/// Plays all rows.
pub fn play(comparison: &mut Comparison) -> Result<(), String> {
    for (name, text) in FILES {
        let mut player = Player { comparison, buffers: HashMap::new(), words: HashMap::new() };
        for (number, line) in text.lines().enumerate() {
            let place = format!("rows/{name}.txt:{}", number + 1);
            let line = line.split('#').next().unwrap_or_default();
            let mut parts = line.split(" then ");
            parts.try_for_each(|part| player.part(part, &place)).map_err(|error| format!("{place}: {error}"))?;
        }
    }
    Ok(())
}

/// A file of rows as it is played: buffers by their names, and words that stand for others.
struct Player<'a> {
    comparison: &'a mut Comparison,
    buffers: HashMap<String, Vec<u8>>,
    words: HashMap<String, Vec<String>>,
}

/// A row taken apart: scalars, octets shown and lent, the name of each buffer that has one, and which output is to fit.
#[derive(Default)]
struct Given {
    scalars: Vec<u64>,
    octets: Vec<Vec<u8>>,
    names: Vec<Option<String>>,
    fit: Option<usize>,
}

/// A call, what is due, and which of its buffers are stated.
struct Row {
    call: Call,
    due: Left,
    stated: Vec<bool>,
}

impl Player<'_> {
    /// Plays a line, or a part of it.
    fn part(&mut self, line: &str, place: &str) -> Result<(), String> {
        let line = line.replace('[', " [ ").replace(']', " ] ").replace('|', " | ").replace(';', " ; ");
        let words: Vec<&str> = line.split_whitespace().collect();
        match words[..] {
            [] => Ok(()),
            ["let", word, "=", ref others @ ..] => {
                let others = self.replaced(others);
                self.words.insert(word.into(), others);
                Ok(())
            }
            ["set", name, "=", ref octets @ ..] => {
                let octets = self.buffer(octets)?;
                self.buffers.insert(name.into(), octets);
                Ok(())
            }
            ["see", name, "=", ref octets @ ..] => {
                let due = self.buffer(octets)?;
                if self.buffers.get(name) != Some(&due) {
                    self.comparison.report.failure(format_args!("{place}: {name} is not as stated"));
                }
                Ok(())
            }
            _ => self.row(&words, place),
        }
    }

    /// Words with those replaced that stand for others.
    fn replaced(&self, words: &[&str]) -> Vec<String> {
        let others = |word: &&str| self.words.get(*word).cloned().unwrap_or_else(|| vec![word.to_string()]);
        words.iter().flat_map(others).collect()
    }

    /// The octets of a buffer: `LENGTH FILL; AT: OCTETS, AT: OCTETS`.
    fn buffer(&self, words: &[&str]) -> Result<Vec<u8>, String> {
        let text = self.replaced(words).join(" ");
        let (head, listed) = text.split_once(';').unwrap_or((&text, ""));
        let (length, fill) = head.trim().split_once(' ').ok_or("a buffer has a length and an octet that fills it")?;
        let mut octets = read_octets(fill)?.repeat(read_number(length)? as usize);
        for part in listed.split(',').filter(|part| !part.trim().is_empty()) {
            let (at, some) = part.split_once(':').ok_or("octets without a place")?;
            let (at, some) = (read_number(at.trim())? as usize, read_octets(some)?);
            octets.get_mut(at..at + some.len()).ok_or("octets past the buffer")?.copy_from_slice(&some);
        }
        Ok(octets)
    }

    /// The octets of a buffer by its name; by `NAME/COUNT` the first of them.
    fn named(&self, word: &str) -> Result<Vec<u8>, String> {
        let (name, count) = word.split_once('/').unwrap_or((word, ""));
        let octets = self.buffers.get(name).ok_or_else(|| format!("no buffer is named {name}"))?;
        let count = if count.is_empty() { octets.len() } else { read_number(count)? as usize };
        Ok(octets.get(..count).ok_or("more octets than the buffer has")?.to_vec())
    }

    /// Plays a row.
    fn row(&mut self, words: &[&str], place: &str) -> Result<(), String> {
        let words = self.replaced(words);
        let arrow = words.iter().position(|word| word == "->").ok_or("a row without ->")?;
        let table = &self.comparison.library.table;
        let entry = table.0.iter().find(|entry| entry.name == words[0]).ok_or("no such call")?;
        let mut arguments = arguments(&words[1..arrow])?.into_iter();
        let mut given = Given::default();
        for parameter in &entry.parameters {
            self.take(&mut given, parameter, &mut arguments)?;
        }
        let Given { scalars, octets, names, fit } = given;
        let call = table.call(entry.name, &scalars, octets, &mut self.comparison.rng);
        let kinds: Vec<Kind> = entry.buffers().map(|parameter| parameter.kind).collect();
        let mut row = Row { due: Left { answer: 0, buffers: call.buffers.clone() }, stated: Vec::new(), call };
        row.state(&kinds, &names, fit, arguments_of(arguments, &words[arrow + 1..])?)?;
        if let Some(less) = fit.and_then(|place| row.with_less(place)) {
            self.made(less, &[], place)?;
        }
        self.made(row, &names, place)
    }

    /// Takes the argument of a parameter.
    fn take(&self, given: &mut Given, parameter: &Parameter, words: &mut Words) -> Result<(), String> {
        if let Kind::Out(_) | Kind::Place = parameter.kind {
            given.names.push(None);
            return Ok(());
        }
        let (octets, name) = match (parameter.kind, words.next().ok_or("too few arguments")?) {
            (Kind::Scalar, Word::Number(number)) => {
                given.scalars.push(number);
                return Ok(());
            }
            (Kind::Shown, Word::Octets(shown)) => (shown, None),
            (Kind::Lent, Word::Room(room)) => (vec![UNWRITTEN; room], None),
            (Kind::Lent, Word::Fit) => {
                given.fit = Some(given.names.len());
                (Vec::new(), None)
            }
            (Kind::Shown | Kind::Lent, Word::Named(word)) => (self.named(&word)?, Some(word)),
            (_, word) => return Err(format!("{word:?} for {}", parameter.name)),
        };
        given.octets.push(octets);
        given.names.push(name);
        Ok(())
    }

    /// Makes the call of a row, and holds both sides to what it states.
    fn made(&mut self, row: Row, names: &[Option<String>], place: &str) -> Result<(), String> {
        let left = self.comparison.make(vec![row.call.clone()], &place)?.remove(0);
        let paper = host::make(&row.call);
        for (whose, left) in [("the library", &left), ("the reading of document 01", &paper)] {
            let due = row.due(left);
            if due != *left {
                self.comparison.report.differs(&row.call, &due, &Ok(left.clone()), &format!("{whose} against {place}"));
            }
        }
        for (name, octets) in names.iter().zip(&left.buffers) {
            if let Some(buffer) = name.as_ref().and_then(|name| self.buffers.get_mut(name)) {
                buffer.clone_from(octets);
            }
        }
        self.comparison.rows.push((row.call, left));
        Ok(())
    }
}

impl Row {
    /// What is due, with what is not stated as it is left.
    fn due(&self, left: &Left) -> Left {
        let buffers = self.due.buffers.iter().zip(&left.buffers).zip(&self.stated);
        let due = |((due, left), stated): ((&Vec<u8>, &Vec<u8>), &bool)| if *stated { due } else { left }.clone();
        Left { answer: self.due.answer, buffers: buffers.map(due).collect() }
    }

    /// The row with an octet less of room, if it needs any.
    fn with_less(&self, place: usize) -> Option<Row> {
        let mut call = self.call.clone();
        call.buffers[place].pop()?;
        let due = Left { answer: 15, buffers: call.buffers.clone() };
        Some(Row { stated: vec![true; call.buffers.len()], call, due })
    }

    /// Takes what is stated: the answer; if it is 0, each lent buffer without a name and each out-parameter; else the
    /// place of the fault, if it has one.
    fn state(
        &mut self,
        kinds: &[Kind],
        names: &[Option<String>],
        fit: Option<usize>,
        mut stated: Words,
    ) -> Result<(), String> {
        let Some(Word::Number(answer)) = stated.next() else { return Err("no answer is stated".into()) };
        self.due.answer = answer as u8;
        for (place, kind) in kinds.iter().enumerate() {
            let named = *kind == Kind::Lent && names[place].is_some();
            self.stated.push(answer != 0 || !named);
            match kind {
                Kind::Place if answer != 0 => self.state_place(place, stated.next())?,
                Kind::Lent | Kind::Out(_) if answer == 0 && !named => {
                    self.state_written(place, fit, stated.next().ok_or("too little is stated")?)?;
                }
                _ => {}
            }
        }
        stated.next().map_or(Ok(()), |word| Err(format!("too much is stated: {word:?}")))
    }

    /// Takes what is stated of a buffer that an accepted call wrote.
    fn state_written(&mut self, place: usize, fit: Option<usize>, word: Word) -> Result<(), String> {
        let due = &mut self.due.buffers[place];
        match word {
            Word::Not => self.stated[place] = false,
            Word::Number(number) => *due = number.to_le_bytes()[..due.len()].to_vec(),
            Word::Octets(octets) => {
                if fit == Some(place) {
                    due.resize(octets.len(), UNWRITTEN);
                    self.call.buffers[place].clone_from(due);
                }
                due.get_mut(..octets.len()).ok_or("more than there is room for")?.copy_from_slice(&octets);
            }
            word => return Err(format!("{word:?} is stated")),
        }
        Ok(())
    }

    /// Takes the place of a fault; where none is stated it stays as it was.
    fn state_place(&mut self, place: usize, word: Option<Word>) -> Result<(), String> {
        match word {
            None => {}
            Some(Word::Place(octet)) => self.due.buffers[place] = octet.to_le_bytes().to_vec(),
            Some(word) => return Err(format!("{word:?} is stated")),
        }
        Ok(())
    }
}

/// An argument, or what is stated.
#[derive(Debug)]
enum Word {
    Number(u64),
    Octets(Vec<u8>),
    Named(String),
    Room(usize),
    Fit,
    Not,
    Place(u64),
}

type Words = std::vec::IntoIter<Word>;

/// What is stated, if all arguments are taken.
fn arguments_of(mut taken: Words, words: &[String]) -> Result<Words, String> {
    match taken.next() {
        Some(word) => Err(format!("too many arguments: {word:?}")),
        None => Ok(arguments(words)?.into_iter()),
    }
}

/// Reads arguments.
fn arguments(words: &[String]) -> Result<Vec<Word>, String> {
    let mut words = words.iter().map(String::as_str);
    let mut read = Vec::new();
    while let Some(word) = words.next() {
        read.push(match word {
            "[" => Word::Octets(bracketed(&words.by_ref().take_while(|word| *word != "]").collect::<Vec<_>>())?),
            "room" => Word::Room(read_number(words.next().unwrap_or_default())? as usize),
            "fit" => Word::Fit,
            ".." => Word::Not,
            word if word.starts_with('@') => Word::Place(read_number(&word[1..])?),
            word if word.starts_with(|first: char| first.is_ascii_digit()) => Word::Number(read_number(word)?),
            word => Word::Named(word.into()),
        });
    }
    Ok(read)
}

/// What stands between brackets: octets, or a capture.
fn bracketed(words: &[&str]) -> Result<Vec<u8>, String> {
    let ["capture", ref packets @ ..] = words[..] else { return read_octets(&words.join(" ")) };
    let (mut count, mut rows, mut payloads) = (0_u16, Vec::new(), Vec::new());
    for packet in packets.split(|word| *word == "|") {
        let (packet, times) = match packet {
            [packet @ .., last] if last.starts_with('*') => (packet, read_number(&last[1..])? as usize),
            _ => (packet, 1),
        };
        let [source, sequence, timestamp, ref payload @ ..] = packet[..] else { return Err("a packet is cut".into()) };
        let mut row = (read_number(source)? as u32).to_be_bytes().to_vec();
        row.extend((read_number(sequence)? as u16).to_be_bytes());
        row.extend((read_number(timestamp)? as u32).to_be_bytes());
        let payload = read_octets(&payload.join(" "))?;
        row.extend((payload.len() as u16).to_be_bytes());
        count += times as u16;
        rows.extend(row.repeat(times));
        payloads.extend(payload.repeat(times));
    }
    Ok([&count.to_be_bytes()[..], &rows, &payloads].concat())
}

/// A number, decimal or behind 0x.
fn read_number(word: &str) -> Result<u64, String> {
    let number = match word.strip_prefix("0x") {
        Some(hex) => u64::from_str_radix(hex, 16),
        None => word.parse(),
    };
    number.map_err(|_| format!("{word} is no number"))
}

/// Octets as document 01 writes them, or so many of one: 81x10.
fn read_octets(text: &str) -> Result<Vec<u8>, String> {
    let mut octets = Vec::new();
    for word in text.split_whitespace() {
        let (octet, times) = word.split_once('x').unwrap_or((word, "1"));
        let octet = u8::from_str_radix(octet, 16).map_err(|_| format!("{word} is no octet"))?;
        octets.extend(std::iter::repeat_n(octet, read_number(times)? as usize));
    }
    Ok(octets)
}
