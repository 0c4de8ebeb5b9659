//! The table of calls, as the server has it from the header (see `compare/calls`).

use crate::call::Call;
use crate::rng::Rng;

/// The calls by their places.
pub struct Table(pub Vec<Entry>);

/// A call's name and parameters.
pub struct Entry {
    pub name: &'static str,
    pub parameters: Vec<Parameter>,
}

/// A parameter of a call.
pub struct Parameter {
    pub name: String,
    pub kind: Kind,
}

/// What a parameter is: a number; octets that are shown to be read, or lent to be written; an out-parameter of so many
/// octets; or the place of a fault, the out-parameter that a refusal may set.
#[derive(Clone, Copy, Debug, PartialEq, Eq)]
pub enum Kind {
    Scalar,
    Shown,
    Lent,
    Out(usize),
    Place,
}

/// The octets of a place.
pub const PLACE: usize = 8;

impl Kind {
    /// The kind that a word of the table names.
    fn named(word: &str) -> Option<Kind> {
        Some(match word {
            "u8" | "u16" | "u32" | "size" => Kind::Scalar,
            "shown" => Kind::Shown,
            "lent" => Kind::Lent,
            "out8" => Kind::Out(1),
            "out16" => Kind::Out(2),
            "out32" => Kind::Out(4),
            "outsize" => Kind::Out(8),
            "place" => Kind::Place,
            _ => return None,
        })
    }
}

impl Table {
    /// Reads the table's text. Its calls have to be the known ones.
    pub fn read(text: &str, known: &[&'static str]) -> Result<Table, String> {
        let entries: Vec<Entry> = text.lines().map(|line| entry(line, known)).collect::<Result<_, _>>()?;
        match known.iter().find(|name| entries.iter().all(|entry| entry.name != **name)) {
            Some(name) => Err(format!("{name} is read in document 01, and is no call of the header")),
            None => Ok(Table(entries)),
        }
    }

    /// The place of a call.
    pub fn place(&self, name: &str) -> usize {
        self.0.iter().position(|entry| entry.name == name).unwrap_or_else(|| panic!("there is no call {name}"))
    }

    /// A call with these scalars, and these octets shown and lent. Its out-parameters are numbers that no answer has.
    pub fn call(&self, name: &str, scalars: &[u64], given: Vec<Vec<u8>>, rng: &mut Rng) -> Call {
        let entry = &self.0[self.place(name)];
        let mut given = given.into_iter();
        let mut buffer = |kind| match kind {
            Kind::Scalar => None,
            Kind::Out(octets) => Some(unset(octets, rng)),
            Kind::Place => Some(unset(PLACE, rng)),
            Kind::Shown | Kind::Lent => Some(given.next().expect("octets are given for each buffer")),
        };
        let buffers = entry.parameters.iter().filter_map(|parameter| buffer(parameter.kind)).collect();
        Call { name: entry.name, scalars: scalars.to_vec(), buffers }
    }
}

impl Entry {
    /// The parameters that are buffers.
    pub fn buffers(&self) -> impl Iterator<Item = &Parameter> {
        self.parameters.iter().filter(|parameter| parameter.kind != Kind::Scalar)
    }
}

/// The call of a line.
fn entry(line: &str, known: &[&'static str]) -> Result<Entry, String> {
    let mut words = line.split(' ');
    let name = words.next().unwrap_or_default();
    let unknown = || format!("{name} is a call of the header, and is not read in document 01");
    let name = known.iter().find(|known| **known == name).ok_or_else(unknown)?;
    let parameter = |word: &str| {
        let (kind, name) = word.split_once(':')?;
        Some(Parameter { kind: Kind::named(kind)?, name: name.into() })
    };
    let parameters = words.map(parameter).collect::<Option<_>>();
    Ok(Entry { name, parameters: parameters.ok_or_else(|| format!("not a line of the table: {line}"))? })
}

/// An out-parameter of so many octets before a call: a number that no answer has.
fn unset(octets: usize, rng: &mut Rng) -> Vec<u8> {
    rng.octets(octets).iter().map(|octet| octet | 0x80).collect()
}

/// The number in an out-parameter.
pub fn number(octets: &[u8]) -> u64 {
    octets.iter().rev().fold(0, |number, octet| number << 8 | u64::from(*octet))
}

#[cfg(test)]
mod tests {
    use super::*;

    /// A call that the reading does not know is noticed, and one that the header lacks, and a kind that there is not.
    #[test]
    fn calls_are_the_known_ones() {
        let text = "lv_a u8:x shown:y out32:z\nlv_b lent:x outsize:y place:z";
        let kinds = |entry: &Entry| entry.buffers().map(|parameter| parameter.kind).collect::<Vec<_>>();
        let table = Table::read(text, &["lv_b", "lv_a"]).expect("the calls are known");
        assert_eq!(kinds(&table.0[0]), [Kind::Shown, Kind::Out(4)]);
        assert_eq!(kinds(&table.0[1]), [Kind::Lent, Kind::Out(8), Kind::Place]);
        assert!(Table::read(text, &["lv_a"]).is_err());
        assert!(Table::read(text, &["lv_a", "lv_b", "lv_c"]).is_err());
        assert!(Table::read("lv_a u64:x", &["lv_a"]).is_err());
    }
}
