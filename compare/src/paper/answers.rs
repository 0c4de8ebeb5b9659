//! Refusals and room (document 01, "Answers by number"; document 02, (i)).

/// What is answered: what was asked for, or a refusal.
pub type Answer<T> = Result<T, Refusal>;

/// A refusal: its number; and where it has one, "the octet place of the fault", counted from 0.
#[derive(Clone, Copy, Debug, PartialEq, Eq)]
pub struct Refusal {
    pub number: u8,
    pub place: Option<usize>,
}

/// The refusal with this number, which has no place.
pub fn refusal(number: u8) -> Refusal {
    Refusal { number, place: None }
}

impl Refusal {
    /// The same with the place of the fault.
    pub fn at(self, place: usize) -> Refusal {
        Refusal { place: Some(place), ..self }
    }
}

/// This number, "given exactly when" there is the fault.
pub fn refuse(number: u8, fault: bool) -> Answer<()> {
    (!fault).then_some(()).ok_or(refusal(number))
}

/// The same with the place of the fault.
pub fn refuse_at(number: u8, place: usize, fault: bool) -> Answer<()> {
    (!fault).then_some(()).ok_or(refusal(number).at(place))
}

/// An answer's octets; 15 if the output is "shorter than the answer needs".
pub fn fitting(octets: Vec<u8>, room: usize) -> Answer<Vec<u8>> {
    refuse(15, room < octets.len())?;
    Ok(octets)
}
