//! An independent reading of document 01, written from the documents alone.
//!
//! Bytes come in, replies go out, as the library promises them; the text of 01 decides, and where
//! it leaves a place open the readings of docs/DECISIONS.md. Nothing here is proved: it is the
//! second opinion that the proved library is held against, so it prefers the plain way over the
//! fast one.
//!
//! The way of the data: `parse` (refusals 1 to 11) gives a [`sheet::Sheet`]; `rows` reads sessions
//! and row lists; `admission` decides a row; `solve` decides what some row and session could meet;
//! `verdicts` and `normal` stand on that; `calls` puts the refusals 12 to 16 in their order.

pub mod admission;
pub mod bits;
pub mod calls;
pub mod contents;
pub mod normal;
pub mod pack;
pub mod parse;
pub mod readout;
pub mod rows;
pub mod sheet;
pub mod solve;
pub mod verdicts;

/// A refusal, by 01's number.
#[derive(Clone, Copy, Debug, PartialEq, Eq, PartialOrd, Ord)]
pub struct Refusal(pub u32);

/// "A sheet has at most 16,384 bytes."
pub const SHEET_BYTES: usize = 16_384;
/// "A row list has at most 65,536 bytes."
pub const ROW_LIST_BYTES: usize = 65_536;
/// "N over 256 (dead and isolated only)" is refused.
pub const MOST_BRANCHES: u64 = 256;
/// "Selectors nest inside selectors to a depth of six, a lone leaf being one."
pub const DEEPEST_NODE: u32 = 6;
