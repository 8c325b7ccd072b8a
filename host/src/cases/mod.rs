//! The run cases: questions with replies worked out by hand from document 01.
//!
//! The bytes are made by the builder, the replies stand here as numbers; nothing here asks the
//! reading. `crates/cases/data/*.txt` holds them for programs in other languages (its README says how).

pub mod format;
pub mod limits;
pub mod listings;
pub mod marked;
pub mod normals;
pub mod order;
pub mod readouts;
pub mod refusals;
pub mod verdicts;

use crate::question::{Question, Reply};
use crate::reading::pack;
use crate::reading::sheet::Sheet;

/// What every byte of a lent output holds before a case is run.
pub const FOUND: u8 = 0xA5;

/// What is asked: a call, or what the read-out prints.
#[derive(Clone, Debug, PartialEq, Eq)]
pub enum Asked {
    Call(Question, Reply),
    Printed(Vec<u8>, String),
}

#[derive(Clone, Debug, PartialEq, Eq)]
pub struct Case {
    pub name: String,
    pub asked: Asked,
}

/// A file of cases.
pub struct Group {
    pub file: &'static str,
    pub about: &'static str,
    pub cases: Vec<Case>,
}

/// Every case, file by file.
pub fn groups() -> Vec<Group> {
    let group = |file, about, cases| Group { file, about, cases };
    vec![
        group("marked", "The thirteen marked cases of document 01, and its read-out example.", marked::cases()),
        group("refusals", "Every refusal, each by at least five causes.", refusals::cases()),
        group("order", "Two faults in one input: which refusal comes first.", order::cases()),
        group("truncated", "One sheet cut at every byte.", limits::truncated()),
        group("limits", "Each limit at its edge and past it.", limits::cases()),
        group("large", "Limits whose bytes are many.", limits::large()),
        group("verdicts", "Branches, dead, isolated, covers.", verdicts::cases()),
        group("normals", "The six steps.", normals::cases()),
        group("listings", "Which rows are handed out.", listings::cases()),
        group("readouts", "What the read-out prints.", readouts::cases()),
    ]
}

fn case(name: &str, question: Question, numbers: &[u64], out: Vec<u8>) -> Case {
    Case { name: name.to_string(), asked: Asked::Call(question, Reply { numbers: numbers.to_vec(), out }) }
}

/// The sheet gets this refusal (0: none) from a call that asks for table 0 and SELECT.
pub fn reads(name: &str, sheet: Vec<u8>, refusal: u64) -> Case {
    assert!(refusal != 0, "an accepted sheet has a count");
    case(name, Question::Branches { sheet, table: 0, command: 0 }, &[refusal, 0], vec![])
}

pub fn branches(name: &str, sheet: Vec<u8>, asked: (u32, u32), reply: [u64; 2]) -> Case {
    case(name, Question::Branches { sheet, table: asked.0, command: asked.1 }, &reply, vec![])
}

pub fn dead(name: &str, sheet: Vec<u8>, asked: (u32, u32), reply: [u64; 2]) -> Case {
    case(name, Question::Dead { sheet, table: asked.0, command: asked.1 }, &reply, vec![])
}

pub fn isolated(name: &str, sheet: Vec<u8>, asked: (u32, u32), reply: [u64; 4]) -> Case {
    case(name, Question::Isolated { sheet, table: asked.0, command: asked.1 }, &reply, vec![])
}

pub fn covers(name: &str, sheet: Vec<u8>, asked: (u32, u32), reply: [u64; 2]) -> Case {
    case(name, Question::Covers { sheet, a: asked.0, b: asked.1 }, &reply, vec![])
}

/// `after` laid over a lent output of `room` bytes, the rest as found.
fn left(after: &[u8], room: usize) -> Vec<u8> {
    let mut out = vec![FOUND; room];
    out[..after.len()].copy_from_slice(after);
    out
}

/// The sheet's normal form is `normal`; the lent output is as long as the sheet.
pub fn normal(name: &str, sheet: &Sheet, normal: &Sheet) -> Case {
    let (sheet, normal) = (pack::sheet(sheet), pack::sheet(normal));
    let (room, length) = (sheet.len(), normal.len() as u64);
    case(name, Question::Normal { sheet, out: vec![FOUND; room] }, &[0, length], left(&normal, room))
}

/// The call for a normal form is refused.
pub fn normal_refused(name: &str, sheet: Vec<u8>, room: usize, refusal: u64) -> Case {
    case(name, Question::Normal { sheet, out: vec![FOUND; room] }, &[refusal, 0], vec![FOUND; room])
}

/// What a listing is asked for; `room` is the lent output's length.
#[derive(Clone)]
pub struct Wanted {
    pub sheet: Vec<u8>,
    pub table: u32,
    pub command: u32,
    pub session: Vec<u8>,
    pub rows: Vec<u8>,
    pub room: usize,
}

impl Wanted {
    fn question(self) -> Question {
        let Wanted { sheet, table, command, session, rows, room } = self;
        Question::Listing { sheet, table, command, session, rows, out: vec![FOUND; room] }
    }

    /// The listing hands out these rows.
    pub fn lists(self, name: &str, admitted: &[Vec<u8>]) -> Case {
        let (bytes, room) = (admitted.concat(), self.room);
        let numbers = [0, bytes.len() as u64, admitted.len() as u64];
        case(name, self.question(), &numbers, left(&bytes, room))
    }

    pub fn refused(self, name: &str, refusal: u64) -> Case {
        let room = self.room;
        case(name, self.question(), &[refusal, 0, 0], vec![FOUND; room])
    }
}

pub fn prints(name: &str, sheet: Vec<u8>, text: &str) -> Case {
    Case { name: name.to_string(), asked: Asked::Printed(sheet, text.to_string()) }
}
