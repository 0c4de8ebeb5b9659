//! Refusals, for the plain programs.

/// A refusal's number, and the octet at fault if it has one.
pub struct Refusal {
    pub number: u8,
    pub place: Option<usize>,
}

impl Refusal {
    pub fn at(number: u8, place: usize) -> Refusal {
        Refusal {
            number,
            place: Some(place),
        }
    }
}

impl From<u8> for Refusal {
    fn from(number: u8) -> Refusal {
        Refusal {
            number,
            place: None,
        }
    }
}
