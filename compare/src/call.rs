//! A C call, as it is made and as it ends.

/// A call: its name, and its scalars and buffers, each in the order of its parameters. An out-parameter is a buffer
/// as long as its type, little-endian (a size_t has 8 octets); a pointer with a length is a buffer of that length.
#[derive(Clone, Debug, PartialEq, Eq)]
pub struct Call {
    pub name: &'static str,
    pub scalars: Vec<u64>,
    pub buffers: Vec<Vec<u8>>,
}

/// What a call left: its answer, and every buffer as it is after it.
#[derive(Clone, Debug, PartialEq, Eq)]
pub struct Left {
    pub answer: u8,
    pub buffers: Vec<Vec<u8>>,
}
