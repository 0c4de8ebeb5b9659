//! Document 01, with (i) and (ii) of document 02, read anew: what the landing voice library ought to answer. Nothing
//! here comes from the library.
//!
//! A module takes a section of the document, in its words. Each stands only on those above it:
//!
//! ```text
//! answers      "Answers by number"    refusals, their places, and 15
//! frames       "Frames"               types, bodies, what is sendable
//! form         "Payloads"             the agreed form and its maxima
//! payload      "Payloads"             reading payloads
//! groups       "Groups"               base numbers, time places, distances, time between groups
//! holding      "Groups", "Session"    one group as far as heard; read, poured, joined
//! session      "Session"              open, offer, pour, copy out, drop, end; what is lost between groups
//! entries      "Recordings"           the walk over entries
//! packets      "Writing packets"
//! recordings   "Recordings"
//! capture      "Capture program"
//! layout                              sessions and holdings as octets
//! lent                                what calls do with such octets
//! host                                what each C call does, on numbers and buffers
//! ```

mod answers;
pub mod capture;
mod entries;
pub mod form;
pub mod frames;
pub mod groups;
pub mod holding;
pub mod host;
pub mod layout;
mod lent;
mod packets;
pub mod payload;
mod recordings;
pub mod session;
#[cfg(test)]
mod tests;

pub use form::{Form, Limits};
