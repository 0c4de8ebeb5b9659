//! A group's numbers, and what they decide of a packet (document 01, "Session", and document 02, (ii)), in plain Rust.
use crate::payload::Read;

/// The base numbers, L and B of a group.
#[derive(Clone, Copy)]
pub struct Numbers {
    pub sequence: u16,
    pub timestamp: u32,
    pub l: u8,
    pub b: u8,
}

impl Numbers {
    pub fn of_packet(sequence: u16, timestamp: u32, read: &Read) -> Numbers {
        Numbers {
            sequence: sequence.wrapping_sub(read.n as u16),
            timestamp: timestamp.wrapping_sub(160 * read.n as u32),
            l: read.l,
            b: read.b(),
        }
    }

    /// Whether a packet with these numbers is the held group's.
    pub fn is_of(&self, held: &Numbers) -> Result<(), u8> {
        match self.sequence.wrapping_sub(held.sequence) {
            0 => {}
            d if d <= held.l as u16 => return Err(11),
            1..=32767 => return Err(12),
            _ => return Err(13),
        }
        if self.l != held.l || self.b != held.b || self.timestamp != held.timestamp {
            return Err(11);
        }
        Ok(())
    }

    /// The frames lost between the last group, if there is one, and the one that begins.
    pub fn lost_since(&self, last: Option<Numbers>) -> Result<usize, u8> {
        let last = match last {
            None => return Ok(0),
            Some(last) => last,
        };
        let next = last.sequence.wrapping_add(last.l as u16 + 1);
        if self.sequence.wrapping_sub(next) >= 32768 {
            return Err(13);
        }
        let frames = (last.l as u32 + 1) * last.b as u32;
        let counts = self
            .timestamp
            .wrapping_sub(last.timestamp.wrapping_add(160 * frames));
        if counts % 160 != 0 {
            return Err(24);
        }
        if counts / 160 > 3000 {
            return Err(16);
        }
        Ok((counts / 160) as usize)
    }
}
