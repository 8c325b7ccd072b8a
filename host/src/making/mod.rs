//! Making inputs: sheets in short words, raw fields, random sheets, sessions and rows, and damage.

pub mod damage;
pub mod questions;
pub mod random;
pub mod raw;
pub mod sheets;
pub mod words;
