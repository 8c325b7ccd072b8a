//! Packing a sheet, a session, a row: the format table read from left to right.

use super::bits::BitString;
use super::sheet::{Atom, Content, Kind, Policy, Selector, Sheet, Table, Test};

/// One number of the format table's Bits column.
#[derive(Clone, Copy, Debug, PartialEq, Eq)]
pub struct Field {
    pub width: u32,
    pub value: u64,
}

fn field(width: u32, value: usize) -> Field {
    Field { width, value: value as u64 }
}

fn value(value: i64) -> Field {
    Field { width: 64, value: value as u64 }
}

fn set(members: &[bool]) -> Field {
    let bits = members.iter().fold(0, |bits, &member| bits << 1 | usize::from(member));
    field(members.len() as u32, bits)
}

/// The bits of fields laid down one after another.
pub fn bits(fields: &[Field]) -> BitString {
    let mut laid = BitString::default();
    for field in fields {
        laid.put(field.width, field.value);
    }
    laid
}

/// The sheet's bytes.
pub fn sheet(sheet: &Sheet) -> Vec<u8> {
    bits(&sheet_fields(sheet)).into_bytes()
}

/// Every field of the sheet, in order, padding left out.
pub fn sheet_fields(sheet: &Sheet) -> Vec<Field> {
    let kind = |kind: &Kind| match kind {
        Kind::Integer => field(2, 0),
        Kind::Token => field(2, 1),
        Kind::Boolean => field(2, 2),
    };
    let mut fields = vec![
        field(4, 1),
        field(5, sheet.columns.len()),
        field(4, sheet.keys.len()),
        field(5, sheet.tables.len()),
        field(5, sheet.policies.len()),
    ];
    fields.extend(sheet.columns.iter().chain(&sheet.keys).map(kind));
    fields.extend(sheet.tables.iter().flat_map(table_fields));
    fields.extend(sheet.policies.iter().flat_map(policy_fields));
    fields
}

fn table_fields(table: &Table) -> [Field; 3] {
    [field(6, table.schema), set(&table.tags), set(&table.holds)]
}

fn policy_fields(policy: &Policy) -> Vec<Field> {
    let mut fields = vec![field(1, usize::from(policy.restrictive)), set(&policy.commands)];
    fields.extend(selector_fields(&policy.selector));
    fields.push(field(4, policy.clauses.len()));
    fields.extend(policy.clauses.iter().flat_map(|clause| clause_fields(clause)));
    fields
}

/// "A selector is written node first, 3 bits each."
pub fn selector_fields(selector: &Selector) -> Vec<Field> {
    let node = |number| field(3, number);
    match selector {
        Selector::All => vec![node(0)],
        Selector::HasColumn(column) => vec![node(1), field(4, *column)],
        Selector::InSchema(schema) => vec![node(2), field(6, *schema)],
        Selector::Table(table) => vec![node(3), field(4, *table)],
        Selector::Tag(tag) => vec![node(4), field(3, *tag)],
        Selector::And(left, right) => [vec![node(5)], selector_fields(left), selector_fields(right)].concat(),
        Selector::Or(left, right) => [vec![node(6)], selector_fields(left), selector_fields(right)].concat(),
        Selector::Not(inner) => [vec![node(7)], selector_fields(inner)].concat(),
    }
}

/// A clause's fields, its atom count among them.
pub fn clause_fields(clause: &[Atom]) -> Vec<Field> {
    let mut fields = vec![field(4, clause.len())];
    fields.extend(clause.iter().flat_map(atom_fields));
    fields
}

pub fn atom_fields(atom: &Atom) -> Vec<Field> {
    let (operator, operands) = match &atom.test {
        Test::Equals(other) => (0, vec![field(5, other.number())]),
        Test::In(list) => (1, list_fields(list)),
        Test::NotIn(list) => (2, list_fields(list)),
        Test::AtMost(bound) => (3, vec![value(*bound)]),
        Test::AtLeast(bound) => (4, vec![value(*bound)]),
        Test::Below(bound) => (5, vec![value(*bound)]),
        Test::Above(bound) => (6, vec![value(*bound)]),
        Test::IsNull => (7, vec![]),
        Test::IsNotNull => (8, vec![]),
    };
    [vec![field(5, atom.variable.number()), field(4, operator)], operands].concat()
}

fn list_fields(list: &[i64]) -> Vec<Field> {
    std::iter::once(field(4, list.len())).chain(list.iter().map(|&member| value(member))).collect()
}

/// A session or a row: "one presence bit (0 is null) and, if that is 1, a value", zero bits filling
/// the last byte.
pub fn contents(contents: &[Content]) -> Vec<u8> {
    let mut laid = BitString::default();
    for content in contents {
        laid.put(1, u64::from(content.is_some()));
        if let Some(value) = content {
            laid.put(64, *value as u64);
        }
    }
    laid.into_bytes()
}
