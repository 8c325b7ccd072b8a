//! Could some row meet these atoms, with one session or with two?
//!
//! Every atom but an equality says which contents its variable may hold; an equality makes two
//! variables one class that isn't null. Classes bear on each other only through the question
//! whether two of them can differ, so each class is decided by itself, exactly.

use super::contents::Contents;
use super::sheet::{Atom, Clause, Kind, Sheet, Test, Variable};

/// Which of two sessions a clause's keys are taken from.
#[derive(Clone, Copy, Debug, PartialEq, Eq)]
pub enum Session {
    One,
    Two,
}

/// Columns, keys of the first session, keys of the second.
const SLOTS: usize = 32;

/// Where a variable's content stands.
fn slot(variable: Variable, session: Session) -> usize {
    match (variable, session) {
        (Variable::Column(n), _) => n,
        (Variable::Key(n), Session::One) => 16 + n,
        (Variable::Key(n), Session::Two) => 24 + n,
    }
}

/// What is known of a row and two sessions.
#[derive(Clone)]
pub struct Conditions {
    kinds: [Kind; SLOTS],
    /// The slot that speaks for each slot's class.
    speaker: [usize; SLOTS],
    /// What each class may hold, kept at its speaker.
    holds: Vec<Contents>,
}

impl Conditions {
    pub fn none(sheet: &Sheet) -> Self {
        let kinds = std::array::from_fn(|slot| {
            let kind = if slot < 16 { sheet.columns.get(slot) } else { sheet.keys.get(slot % 8) };
            kind.copied().unwrap_or(Kind::Integer)
        });
        Conditions {
            kinds,
            speaker: std::array::from_fn(|slot| slot),
            holds: kinds.iter().map(|&kind| Contents::of_kind(kind)).collect(),
        }
    }

    /// The conditions that a clause adds, its keys taken from the session.
    pub fn with(mut self, clause: &[Atom], session: Session) -> Self {
        for atom in clause {
            self.add(atom, session);
        }
        self
    }

    fn add(&mut self, atom: &Atom, session: Session) {
        let at = slot(atom.variable, session);
        match atom.test {
            Test::Equals(other) => self.equate(at, slot(other, session)),
            _ => self.confine(at, &Contents::meeting(&atom.test, self.kinds[at])),
        }
    }

    fn confine(&mut self, at: usize, contents: &Contents) {
        let class = self.speaker[at];
        self.holds[class] = self.holds[class].common(contents);
    }

    fn equate(&mut self, one: usize, two: usize) {
        let (kept, given_up) = (self.speaker[one], self.speaker[two]);
        let common = self.holds[kept].common(&self.holds[given_up]).values();
        for speaker in &mut self.speaker {
            if *speaker == given_up {
                *speaker = kept;
            }
        }
        self.holds[kept] = common;
    }

    /// Is there a row and sessions that meet all?
    pub fn are_met(&self) -> bool {
        self.speaker.iter().all(|&class| !self.holds[class].is_empty())
    }

    /// Are they met by contents of the two slots that differ, null counted as one more value?
    fn can_differ(&self, one: usize, two: usize) -> bool {
        let (one, two) = (self.speaker[one], self.speaker[two]);
        let forced = self.holds[one].is_single() && self.holds[one] == self.holds[two];
        self.are_met() && one != two && !forced
    }

    /// "Two sessions are of different tenants when key 0 differs, null counted as one more value."
    pub fn allow_two_tenants(&self) -> bool {
        self.can_differ(slot(Variable::Key(0), Session::One), slot(Variable::Key(0), Session::Two))
    }

    /// Does every row and session that meets them meet the atom?
    pub fn imply(&self, atom: &Atom) -> bool {
        let at = slot(atom.variable, Session::One);
        let met_within = |at: usize, contents: &Contents| {
            let mut confined = self.clone();
            confined.confine(at, contents);
            confined.are_met()
        };
        match atom.test {
            Test::Equals(other) => {
                let other = slot(other, Session::One);
                let null = Contents::null();
                !met_within(at, &null) && !met_within(other, &null) && !self.can_differ(at, other)
            }
            _ => !met_within(at, &Contents::meeting(&atom.test, self.kinds[at]).others(self.kinds[at])),
        }
    }
}

/// Does some row and session meet the clause?
pub fn is_live(sheet: &Sheet, clause: &[Atom]) -> bool {
    Conditions::none(sheet).with(clause, Session::One).are_met()
}

/// "Clause p covers clause q when every row and session meeting q meets p."
pub fn clause_covers(sheet: &Sheet, p: &Clause, q: &Clause) -> bool {
    let met = Conditions::none(sheet).with(q, Session::One);
    p.iter().all(|atom| met.imply(atom))
}
