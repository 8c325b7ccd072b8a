//! Sheets in short words.

use crate::reading::sheet::{Atom, Clause, Kind, Policy, Selector, Sheet, Table, Test, Variable};

pub use crate::reading::sheet::Kind::{Boolean, Integer, Token};

pub fn col(number: usize) -> Variable {
    Variable::Column(number)
}

pub fn key(number: usize) -> Variable {
    Variable::Key(number)
}

/// The atom that asks `test` of `variable`.
pub fn is(variable: Variable, test: Test) -> Atom {
    Atom { variable, test }
}

pub fn equal(one: Variable, two: Variable) -> Atom {
    is(one, Test::Equals(two))
}

pub fn within(variable: Variable, list: &[i64]) -> Atom {
    is(variable, Test::In(list.to_vec()))
}

pub fn without(variable: Variable, list: &[i64]) -> Atom {
    is(variable, Test::NotIn(list.to_vec()))
}

pub fn and(left: Selector, right: Selector) -> Selector {
    Selector::And(Box::new(left), Box::new(right))
}

pub fn or(left: Selector, right: Selector) -> Selector {
    Selector::Or(Box::new(left), Box::new(right))
}

pub fn not(inner: Selector) -> Selector {
    Selector::Not(Box::new(inner))
}

/// A sheet of no tables and no policies yet.
pub fn sheet(columns: &[Kind], keys: &[Kind]) -> Sheet {
    Sheet { columns: columns.to_vec(), keys: keys.to_vec(), tables: vec![], policies: vec![] }
}

fn numbers<const N: usize>(members: &[usize]) -> [bool; N] {
    std::array::from_fn(|number| members.contains(&number))
}

/// The commands whose letters stand in the text: S, I, U, D.
pub fn commands(letters: &str) -> [bool; 4] {
    ["S", "I", "U", "D"].map(|letter| letters.contains(letter))
}

impl Sheet {
    pub fn table(mut self, schema: usize, tags: &[usize], holds: &[usize]) -> Self {
        self.tables.push(Table { schema, tags: numbers(tags), holds: numbers(holds) });
        self
    }

    /// A table of schema 0 without tags that holds every column.
    pub fn full_table(self) -> Self {
        let all: Vec<usize> = (0..self.columns.len()).collect();
        self.table(0, &[], &all)
    }

    pub fn permit(self, letters: &str, selector: Selector, clauses: &[Clause]) -> Self {
        self.policy(false, letters, selector, clauses)
    }

    pub fn restrict(self, letters: &str, selector: Selector, clauses: &[Clause]) -> Self {
        self.policy(true, letters, selector, clauses)
    }

    pub fn policy(mut self, restrictive: bool, letters: &str, selector: Selector, clauses: &[Clause]) -> Self {
        self.policies.push(Policy { restrictive, commands: commands(letters), selector, clauses: clauses.to_vec() });
        self
    }
}
