//! The agreed form (document 01, "Payloads").

use super::answers::{refusal, refuse, Answer};

/// "L at most 0 to 7, B at most 1 to 10."
pub const MOST_L: u8 = 7;
pub const MOST_B: u8 = 10;

/// The two maxima of the interleaved form.
#[derive(Clone, Copy, Debug, PartialEq, Eq)]
pub struct Limits {
    pub max_l: u8,
    pub max_b: u8,
}

/// "The agreed form of a session is either header-free, or interleaved with two maxima."
#[derive(Clone, Copy, Debug, PartialEq, Eq)]
pub enum Form {
    HeaderFree,
    Interleaved(Limits),
}

/// Whether L, or its maximum, is 0 to 7, and B, or its maximum, 1 to 10.
pub fn in_range(l: u8, b: u8) -> bool {
    l <= MOST_L && (1..=MOST_B).contains(&b)
}

impl Limits {
    /// 21 if a maximum is out of range.
    pub fn checked(self) -> Answer<Limits> {
        refuse(21, !in_range(self.max_l, self.max_b))?;
        Ok(self)
    }

    /// 2: "N above L"; 3: "L above the agreed maximum".
    pub fn judge(self, l: u8, n: u8) -> Answer<()> {
        refuse(2, n > l)?;
        refuse(3, l > self.max_l)
    }
}

impl Form {
    /// The form that a host's numbers name: 0 is header-free, its maxima ignored; 1 is interleaved; else 21.
    pub fn agreed(form: u8, limits: Limits) -> Answer<Form> {
        match form {
            0 => Ok(Form::HeaderFree),
            1 => limits.checked().map(Form::Interleaved),
            _ => Err(refusal(21)),
        }
    }
}
