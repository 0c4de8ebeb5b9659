//! The EVRC frame table, for the plain programs.

/// The octets of the body of a type, if it is not reserved.
pub fn size(kind: u8) -> Option<usize> {
    match kind {
        0 | 14 => Some(0),
        1 => Some(2),
        3 => Some(10),
        4 => Some(22),
        _ => None,
    }
}
