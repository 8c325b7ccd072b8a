//! Sheets field by field, well-formed or not: the form in which refusals are worked out by hand.

use crate::reading::pack::{self, Field};

/// Fields laid down one after another.
#[derive(Clone, Debug, Default)]
pub struct Raw(pub Vec<Field>);

impl Raw {
    /// A field of any width and value.
    pub fn field(mut self, width: u32, value: u64) -> Self {
        self.0.push(Field { width, value });
        self
    }

    /// Edition, columns, keys, tables, policies.
    pub fn header(edition: u64, columns: u64, keys: u64, tables: u64, policies: u64) -> Self {
        Raw::default().field(4, edition).field(5, columns).field(4, keys).field(5, tables).field(5, policies)
    }

    pub fn kinds(self, kinds: &[u64]) -> Self {
        kinds.iter().fold(self, |raw, &kind| raw.field(2, kind))
    }

    /// Schema 0, no tags, and the columns held, first bit for column 0.
    pub fn table(self, holds: u64) -> Self {
        self.field(6, 0).field(8, 0).field(16, holds)
    }

    /// Type and commands, first bit for SELECT.
    pub fn policy(self, restrictive: u64, commands: u64) -> Self {
        self.field(1, restrictive).field(4, commands)
    }

    /// A selector's node.
    pub fn node(self, node: u64) -> Self {
        self.field(3, node)
    }

    /// A clause count, an atom count or a list's count.
    pub fn count(self, count: u64) -> Self {
        self.field(4, count)
    }

    pub fn variable(self, variable: u64) -> Self {
        self.field(5, variable)
    }

    pub fn operator(self, operator: u64) -> Self {
        self.field(4, operator)
    }

    pub fn value(self, value: i64) -> Self {
        self.field(64, value as u64)
    }

    pub fn bits(&self) -> usize {
        self.0.iter().map(|field| field.width as usize).sum()
    }

    /// The bytes, zero bits filling the last one.
    pub fn bytes(&self) -> Vec<u8> {
        pack::bits(&self.0).into_bytes()
    }
}
