//! The library called with every input locked against an unreadable page and every output between
//! guard bytes and one.

use super::bare;
use super::fence::{Fence, Side};
use super::trap::watched;
use crate::question::{Answers, Question, Reply};
use std::cell::{Cell, RefCell};

/// Room for the longest input that a test lays down.
const ROOM: usize = 80 * 1024;

pub struct Library {
    sheet: RefCell<Fence>,
    session: RefCell<Fence>,
    rows: RefCell<Fence>,
    out: RefCell<Fence>,
    calls: Cell<u64>,
}

impl Default for Library {
    fn default() -> Self {
        let fence = || RefCell::new(Fence::new(ROOM));
        Library { sheet: fence(), session: fence(), rows: fence(), out: fence(), calls: Cell::new(0) }
    }
}

impl Library {
    /// The input's pointer: locked, and null at times where there is no byte.
    fn lent(&self, fence: &RefCell<Fence>, bytes: &[u8]) -> *const u8 {
        let mut fence = fence.borrow_mut();
        let at = fence.lay(bytes, self.side());
        fence.lock();
        self.null_if_empty(at, bytes)
    }

    fn lent_out(&self, bytes: &[u8]) -> *mut u8 {
        let at = self.out.borrow_mut().lay(bytes, self.side());
        self.null_if_empty(at, bytes)
    }

    /// Mostly the unreadable page behind, which an unchecked read runs into.
    fn side(&self) -> Side {
        self.calls.set(self.calls.get() + 1);
        if self.calls.get().is_multiple_of(4) {
            Side::Front
        } else {
            Side::Back
        }
    }

    fn null_if_empty(&self, at: *mut u8, bytes: &[u8]) -> *mut u8 {
        if bytes.is_empty() && self.calls.get().is_multiple_of(2) {
            std::ptr::null_mut()
        } else {
            at
        }
    }

    /// The reply, with the output as left; a lost guard byte is shown as an output of its own.
    fn reply(&self, numbers: Vec<u64>) -> Reply {
        let fence = self.out.borrow();
        let out = if fence.guards_stand() {
            fence.bytes().to_vec()
        } else {
            b"a byte beside the output was written".to_vec()
        };
        Reply { numbers, out }
    }
}

fn silent(numbers: Vec<u64>) -> Reply {
    Reply { numbers, out: vec![] }
}

impl Answers for Library {
    fn answer(&self, question: &Question) -> Reply {
        let sheet = self.lent(&self.sheet, question.sheet());
        let length = question.sheet().len();
        let wide = |numbers: &[u32]| numbers.iter().map(|&number| u64::from(number)).collect::<Vec<u64>>();
        // SAFETY (each call): pointers into fences of this object, each with its length.
        match question {
            Question::Branches { table, command, .. } => {
                let found =
                    watched(question, || unsafe { bare::fiddlecomet_branches(sheet, length, *table, *command) });
                silent(vec![u64::from(found.refusal), found.count])
            }
            Question::Dead { table, command, .. } => {
                let found = watched(question, || unsafe { bare::fiddlecomet_dead(sheet, length, *table, *command) });
                silent(wide(&[found.refusal, found.dead]))
            }
            Question::Isolated { table, command, .. } => {
                let found =
                    watched(question, || unsafe { bare::fiddlecomet_isolated(sheet, length, *table, *command) });
                silent(wide(&[found.refusal, found.leaks, found.a, found.b]))
            }
            Question::Covers { a, b, .. } => {
                let found = watched(question, || unsafe { bare::fiddlecomet_covers(sheet, length, *a, *b) });
                silent(wide(&[found.refusal, found.covers]))
            }
            Question::Normal { out, .. } => {
                let lent = self.lent_out(out);
                let found =
                    watched(question, || unsafe { bare::fiddlecomet_normal_form(sheet, length, lent, out.len()) });
                self.reply(wide(&[found.refusal, found.length]))
            }
            Question::Listing { table, command, session, rows, out, .. } => {
                let keys = self.lent(&self.session, session);
                let list = self.lent(&self.rows, rows);
                let lent = self.lent_out(out);
                let found = watched(question, || unsafe {
                    bare::fiddlecomet_listing(
                        sheet,
                        length,
                        *table,
                        *command,
                        keys,
                        session.len(),
                        list,
                        rows.len(),
                        lent,
                        out.len(),
                    )
                });
                self.reply(wide(&[found.refusal, found.length, found.rows]))
            }
        }
    }
}
