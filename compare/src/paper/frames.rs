//! Frame types and their bodies (document 01, "Frames"), and frames as a reader gives them ("Payloads").

use super::answers::{refusal, Answer};

/// "EVRC types", by their numbers; "all others are reserved".
#[derive(Clone, Copy, Debug, PartialEq, Eq)]
pub enum FrameType {
    Blank = 0,
    Eighth = 1,
    Half = 3,
    Full = 4,
    Erasure = 14,
}

/// The types of the table.
const TABLE: [FrameType; 5] =
    [FrameType::Blank, FrameType::Eighth, FrameType::Half, FrameType::Full, FrameType::Erasure];

/// The octets of the longest body.
pub const LONGEST: usize = 22;

impl FrameType {
    /// The type with this number, unless it is reserved.
    pub fn numbered(number: u8) -> Option<FrameType> {
        TABLE.into_iter().find(|kind| kind.number() == number)
    }

    /// The type of an entry, F x 128 + D x 64 + type, unless it is reserved.
    pub fn of_entry(octet: u8) -> Option<FrameType> {
        FrameType::numbered(octet % 64)
    }

    /// The type that is "known by the length" of a body: "2, 10 or 22. Any other length, 0 too, is refused", 9.
    pub fn of_length(length: usize) -> Answer<FrameType> {
        TABLE.into_iter().find(|kind| length > 0 && kind.body() == length).ok_or(refusal(9))
    }

    /// Its number.
    pub fn number(self) -> u8 {
        self as u8
    }

    /// The size of its body in octets.
    pub fn body(self) -> usize {
        match self {
            FrameType::Blank | FrameType::Erasure => 0,
            FrameType::Eighth => 2,
            FrameType::Half => 10,
            FrameType::Full => LONGEST,
        }
    }
}

/// A frame: its type, and "the very part" of the octets it was read from "where its body lies".
#[derive(Clone, Copy, Debug, PartialEq, Eq)]
pub struct Frame {
    pub kind: FrameType,
    pub start: usize,
    pub size: usize,
}

impl Frame {
    /// The frame of this type whose body begins at `start`.
    pub fn at(start: usize, kind: FrameType) -> Frame {
        Frame { kind, start, size: kind.body() }
    }

    /// Where its body ends.
    pub fn end(&self) -> usize {
        self.start + self.size
    }

    /// Its body. "Our readers keep [the spare] bits as they came."
    pub fn body<'a>(&self, octets: &'a [u8]) -> &'a [u8] {
        &octets[self.start..self.end()]
    }

    /// "A frame is sendable if its type is 0, 1, 3 or 4 and, for type 4, those 5 bits are zero."
    pub fn sendable(&self, octets: &[u8]) -> bool {
        self.kind != FrameType::Erasure && self.spare_bits(octets) == 0
    }

    /// "The low 5 bits of [the] octet 22" of a Rate 1 frame; other frames have none.
    fn spare_bits(&self, octets: &[u8]) -> u8 {
        match self.kind {
            FrameType::Full => octets[self.end() - 1] % 32,
            _ => 0,
        }
    }
}

/// "A frame is asked for by its number; one not below the frame count answers 21."
pub fn asked(frames: &[Frame], k: usize) -> Answer<Frame> {
    frames.get(k).copied().ok_or(refusal(21))
}
