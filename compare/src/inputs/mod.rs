//! Inputs for the comparison, made from a seed: good ones, damaged ones, ones aimed at each refusal, random ones, and
//! whole families.
//!
//! `octets` has frames, entries and damage; over it stand `payloads`, `recordings`, `packets` (written) and `talk`
//! (what a source sends, of which `captures` and `sequences` are made); `lent` has families over sessions and
//! holdings, `spoil` what may be changed in them.

pub mod captures;
pub mod lent;
mod octets;
pub mod packets;
pub mod payloads;
pub mod recordings;
pub mod sequences;
mod spoil;
mod talk;

use crate::call::Call;
use crate::paper::host;
use crate::rng::Rng;
use crate::table::{number, Table};

/// Makes calls.
pub struct Maker<'a> {
    pub table: &'a Table,
    pub rng: &'a mut Rng,
}

impl Maker<'_> {
    /// A call with these scalars, and these octets shown and lent.
    pub fn call(&mut self, name: &str, scalars: &[u64], given: Vec<Vec<u8>>) -> Call {
        self.table.call(name, scalars, given, self.rng)
    }

    /// Calls that find frames of octets that have so many: those at the ends, at the count and past it, and huge
    /// numbers, among them some that are below the count in their low bits.
    fn asked(&mut self, name: &str, scalars: &[u64], octets: &[u8], count: u64) -> Vec<Call> {
        let near = self.rng.between(0, count.max(1) as usize - 1) as u64;
        let bit = self.rng.pick(&[8, 16, 31, 32, 63]);
        let numbers = [0, near, count.saturating_sub(1), count, count + 1, 1 << bit | near, u64::MAX];
        let asked = |k: &u64| self.call(name, &[scalars, &[*k]].concat(), vec![octets.to_vec()]);
        numbers.iter().map(asked).collect()
    }

    /// Calls that write, with an output of so many octets at most: none, all but one, just as many as are needed, one
    /// more, and more.
    fn written(&mut self, name: &str, scalars: &[u64], shown: &[u8], most: usize) -> Vec<Call> {
        let call = self.call(name, scalars, vec![shown.to_vec(), vec![0; most]]);
        let left = host::make(&call);
        let needed = if left.answer == 0 { number(&left.buffers[2]) as usize } else { self.rng.between(0, most) };
        let some = self.rng.between(0, needed);
        let rooms = [needed, needed.saturating_sub(1), self.rng.pick(&[0, some, needed + 1, needed + 30])];
        let rooms = if left.answer == 0 { &rooms[..] } else { &rooms[..1] };
        let mut with = |room: &usize| {
            let output = self.rng.octets(*room);
            self.call(name, scalars, vec![shown.to_vec(), output])
        };
        rooms.iter().map(&mut with).collect()
    }
}
