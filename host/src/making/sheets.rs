//! Random well-formed sheets, sessions and rows, biased to what is interesting: few values so that
//! things meet, contradictions, chains of equalities, lists, nulls.

use super::random::Random;
use super::words::{and, not, or};
use crate::reading::pack;
use crate::reading::sheet::{Atom, Clause, Content, Kind, Policy, Selector, Sheet, Table, Test, Variable};

const KINDS: [Kind; 3] = [Kind::Integer, Kind::Token, Kind::Boolean];

/// How large sheets get.
#[derive(Clone, Copy, Debug)]
pub struct Size {
    pub columns: usize,
    pub keys: usize,
    pub tables: usize,
    pub policies: usize,
    pub clauses: usize,
    pub atoms: usize,
    /// Each count up to the most is as likely as any other; else small ones are likelier.
    pub even: bool,
}

impl Size {
    fn count(self, random: &mut Random, least: usize, most: usize) -> usize {
        if self.even {
            random.between(least, most)
        } else {
            random.small(least, most)
        }
    }
}

pub const SMALL: Size = Size { columns: 3, keys: 2, tables: 2, policies: 3, clauses: 3, atoms: 4, even: false };
pub const ANY: Size = Size { columns: 16, keys: 8, tables: 16, policies: 16, clauses: 8, atoms: 8, even: false };
pub const CROWDED: Size = Size { columns: 4, keys: 3, tables: 2, policies: 5, clauses: 8, atoms: 8, even: true };

/// A value of the kind: mostly of a small pool, at times an end of its range or anything.
pub fn value(random: &mut Random, kind: Kind) -> i64 {
    let (least, greatest) = kind.range();
    match (kind, random.below(24)) {
        (Kind::Boolean, _) => random.below(2) as i64,
        (_, 0) => least,
        (_, 1) => greatest,
        (_, 2) => greatest - 1,
        (Kind::Integer, 3) => random.bits() as i64,
        (Kind::Integer, 4) => least + 1,
        (Kind::Integer, 5) => -(random.below(4) as i64),
        (Kind::Token, 3) => (random.bits() >> 32) as i64,
        _ => random.below(5) as i64,
    }
}

pub fn content(random: &mut Random, kind: Kind) -> Content {
    (!random.once_in(6)).then(|| value(random, kind))
}

/// A random sheet. Once in thirty its policies use columns that a table lacks (refusal 11).
pub fn sheet(random: &mut Random, size: Size) -> Sheet {
    let few_kinds = random.once_in(3).then(|| *random.pick(&KINDS));
    let columns = size.count(random, 0, size.columns);
    let keys = size.count(random, 1, size.keys);
    let tables = size.count(random, 1, size.tables);
    let policies = size.count(random, 0, size.policies);
    let columns: Vec<Kind> = (0..columns).map(|_| few_kinds.unwrap_or_else(|| *random.pick(&KINDS))).collect();
    let keys = (0..keys).map(|_| few_kinds.unwrap_or_else(|| *random.pick(&KINDS))).collect();
    let mut sheet = Sheet { columns, keys, tables: vec![], policies: vec![] };
    for _ in 0..tables {
        let table = table(random, sheet.columns.len());
        sheet.tables.push(table);
    }
    let careless = random.once_in(30);
    for _ in 0..policies {
        let policy = policy(random, &sheet, size, careless);
        sheet.policies.push(policy);
    }
    sheet
}

fn table(random: &mut Random, columns: usize) -> Table {
    let full = !random.once_in(3);
    Table {
        schema: if random.once_in(10) { random.below(64) } else { random.below(3) },
        tags: std::array::from_fn(|_| random.once_in(4)),
        holds: std::array::from_fn(|column| column < columns && (full || !random.once_in(4))),
    }
}

fn policy(random: &mut Random, sheet: &Sheet, size: Size, careless: bool) -> Policy {
    let selector = selector(random, sheet, 1);
    let mut commands: [bool; 4] = std::array::from_fn(|_| random.once_in(2));
    if commands == [false; 4] {
        commands[random.below(4)] = true;
    }
    let matched: Vec<&Table> = (0..sheet.tables.len())
        .filter(|&table| sheet.matches(&selector, table))
        .map(|table| &sheet.tables[table])
        .collect();
    let usable = |column: &usize| careless || matched.iter().all(|table| table.holds[*column]);
    let columns = (0..sheet.columns.len()).filter(usable).map(Variable::Column);
    let variables: Vec<Variable> = columns.chain((0..sheet.keys.len()).map(Variable::Key)).collect();
    let least = usize::from(!random.once_in(8));
    let clauses = size.count(random, least, size.clauses);
    Policy {
        restrictive: random.once_in(3),
        commands,
        selector,
        clauses: (0..clauses).map(|_| clause(random, sheet, &variables, size)).collect(),
    }
}

/// A selector of at most the depth allowed; the deeper, the likelier a leaf.
pub fn selector(random: &mut Random, sheet: &Sheet, depth: u32) -> Selector {
    let deep = random.once_in(20);
    let leaf = depth == 6 || !(deep || random.once_in(2 + depth as usize));
    if leaf {
        return match random.below(8) {
            1 if !sheet.columns.is_empty() => Selector::HasColumn(random.below(sheet.columns.len())),
            2 => Selector::InSchema(random.below(3)),
            3 => Selector::Table(random.below(sheet.tables.len())),
            4 => Selector::Tag(random.below(8)),
            _ => Selector::All,
        };
    }
    let mut inner = || selector(random, sheet, depth + 1);
    let (left, right) = (inner(), inner());
    match random.below(3) {
        0 => and(left, right),
        1 => or(left, right),
        _ => not(left),
    }
}

pub fn clause(random: &mut Random, sheet: &Sheet, variables: &[Variable], size: Size) -> Clause {
    let least = usize::from(!random.once_in(8));
    let atoms = size.count(random, least, size.atoms);
    // Few variables in one clause, so that atoms bear on each other.
    let few: Vec<Variable> = (0..random.between(1, 4)).map(|_| *random.pick(variables)).collect();
    let mut one = || {
        let of = if random.once_in(4) { variables } else { &few };
        atom(random, sheet, of, variables)
    };
    let mut atoms: Clause = (0..atoms).map(|_| one()).collect();
    if random.once_in(3) {
        keep_to_tenant(random, sheet, variables, &mut atoms);
    }
    atoms
}

/// Makes an atom an equality of key 0 with a column, where there is one of its kind: the clause that
/// customers write most.
fn keep_to_tenant(random: &mut Random, sheet: &Sheet, variables: &[Variable], atoms: &mut Clause) {
    let tenant = Variable::Key(0);
    let alike = |&&one: &&Variable| matches!(one, Variable::Column(_)) && sheet.kind(one) == sheet.kind(tenant);
    let columns: Vec<Variable> = variables.iter().filter(alike).copied().collect();
    if !columns.is_empty() && !atoms.is_empty() {
        let place = random.below(atoms.len());
        atoms[place] = Atom { variable: *random.pick(&columns), test: Test::Equals(tenant) };
    }
}

fn atom(random: &mut Random, sheet: &Sheet, variables: &[Variable], mates: &[Variable]) -> Atom {
    let variable = *random.pick(variables);
    let kind = sheet.kind(variable);
    let list = |random: &mut Random| {
        let count = random.small(1, 8);
        (0..count).map(|_| value(random, kind)).collect::<Vec<i64>>()
    };
    let test = match random.below(if kind == Kind::Integer { 14 } else { 10 }) {
        0..=3 => {
            let alike: Vec<Variable> = mates.iter().copied().filter(|&mate| sheet.kind(mate) == kind).collect();
            Test::Equals(*random.pick(&alike))
        }
        4..=5 => Test::In(list(random)),
        6..=7 => Test::NotIn(list(random)),
        8 if random.once_in(2) => Test::IsNull,
        8..=9 => Test::IsNotNull,
        10 => Test::AtMost(value(random, kind)),
        11 => Test::AtLeast(value(random, kind)),
        12 => Test::Below(value(random, kind)),
        _ => Test::Above(value(random, kind)),
    };
    Atom { variable, test }
}

/// A session's bytes.
pub fn session(random: &mut Random, sheet: &Sheet) -> Vec<u8> {
    let keys: Vec<Content> = sheet.keys.iter().map(|&kind| content(random, kind)).collect();
    pack::contents(&keys)
}

/// A row's bytes; empty for a table that holds no column.
pub fn row(random: &mut Random, sheet: &Sheet, table: usize) -> Vec<u8> {
    let contents: Vec<Content> = sheet.row_kinds(table).iter().map(|&kind| content(random, kind)).collect();
    pack::contents(&contents)
}

/// A list of up to `most` rows.
pub fn row_list(random: &mut Random, sheet: &Sheet, table: usize, most: usize) -> Vec<u8> {
    let rows = random.between(0, most);
    (0..rows).flat_map(|_| row(random, sheet, table)).collect()
}
