//! A question to the library and its reply, as numbers and bytes: the one form that cases,
//! comparisons, shrinking and printed reproductions share.

use crate::reading::calls;
use crate::reading::readout::readout;
use crate::reading::verdicts::Isolation;
use crate::reading::Refusal;

/// One public call, with its inputs. `out` is the lent output as found.
#[derive(Clone, Debug, PartialEq, Eq)]
pub enum Question {
    Branches { sheet: Vec<u8>, table: u32, command: u32 },
    Dead { sheet: Vec<u8>, table: u32, command: u32 },
    Isolated { sheet: Vec<u8>, table: u32, command: u32 },
    Covers { sheet: Vec<u8>, a: u32, b: u32 },
    Normal { sheet: Vec<u8>, out: Vec<u8> },
    Listing { sheet: Vec<u8>, table: u32, command: u32, session: Vec<u8>, rows: Vec<u8>, out: Vec<u8> },
}

impl Question {
    pub fn sheet(&self) -> &[u8] {
        match self {
            Question::Branches { sheet, .. }
            | Question::Dead { sheet, .. }
            | Question::Isolated { sheet, .. }
            | Question::Covers { sheet, .. }
            | Question::Normal { sheet, .. }
            | Question::Listing { sheet, .. } => sheet,
        }
    }

    pub fn sheet_mut(&mut self) -> &mut Vec<u8> {
        match self {
            Question::Branches { sheet, .. }
            | Question::Dead { sheet, .. }
            | Question::Isolated { sheet, .. }
            | Question::Covers { sheet, .. }
            | Question::Normal { sheet, .. }
            | Question::Listing { sheet, .. } => sheet,
        }
    }

    /// The name of the call.
    pub fn call(&self) -> &'static str {
        match self {
            Question::Branches { .. } => "branches",
            Question::Dead { .. } => "dead",
            Question::Isolated { .. } => "isolated",
            Question::Covers { .. } => "covers",
            Question::Normal { .. } => "normal",
            Question::Listing { .. } => "listing",
        }
    }
}

/// The numbers handed out, the refusal first, and the lent output as it is left.
#[derive(Clone, Debug, PartialEq, Eq)]
pub struct Reply {
    pub numbers: Vec<u64>,
    pub out: Vec<u8>,
}

impl Reply {
    pub fn refusal(&self) -> u32 {
        self.numbers[0] as u32
    }
}

/// Something that answers questions as the library does.
pub trait Answers {
    fn answer(&self, question: &Question) -> Reply;
}

/// The reading of document 01.
pub struct Reading;

impl Answers for Reading {
    fn answer(&self, question: &Question) -> Reply {
        let numbers = |found: Result<Vec<u64>, Refusal>, zeros: usize| match found {
            Ok(found) => [vec![0], found].concat(),
            Err(Refusal(number)) => [vec![u64::from(number)], vec![0; zeros]].concat(),
        };
        let silent = |numbers| Reply { numbers, out: vec![] };
        match question {
            Question::Branches { sheet, table, command } => {
                silent(numbers(calls::branches(sheet, *table, *command).map(|count| vec![count]), 1))
            }
            Question::Dead { sheet, table, command } => {
                silent(numbers(calls::dead(sheet, *table, *command).map(|dead| vec![u64::from(dead)]), 1))
            }
            Question::Isolated { sheet, table, command } => {
                let found = calls::isolated(sheet, *table, *command).map(|verdict| match verdict {
                    Isolation::Isolated => vec![0, 0, 0],
                    Isolation::Leaks(a, b) => vec![1, u64::from(a), u64::from(b)],
                });
                silent(numbers(found, 3))
            }
            Question::Covers { sheet, a, b } => {
                silent(numbers(calls::covers(sheet, *a, *b).map(|covers| vec![u64::from(covers)]), 1))
            }
            Question::Normal { sheet, out } => {
                let mut out = out.clone();
                let found = calls::normal_form(sheet, &mut out).map(|length| vec![length as u64]);
                Reply { numbers: numbers(found, 1), out }
            }
            Question::Listing { sheet, table, command, session, rows, out } => {
                let mut out = out.clone();
                let found = calls::listing(sheet, *table, *command, session, rows, &mut out)
                    .map(|listed| vec![listed.length as u64, listed.rows as u64]);
                Reply { numbers: numbers(found, 2), out }
            }
        }
    }
}

/// The text that the read-out prints.
pub fn printed(sheet: &[u8]) -> String {
    readout(sheet)
}
