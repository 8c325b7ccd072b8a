//! The sheets that are measured.

use crate::making::random::Random;
use crate::making::words::*;
use crate::reading::pack;
use crate::reading::sheet::{Atom, Clause, Content, Selector, Sheet, Test, Variable};

const HOUSE: Variable = Variable::Column(0);
const SEATS: Variable = Variable::Column(1);
const RELEASED: Variable = Variable::Column(2);
const SESSION_HOUSE: Variable = Variable::Key(0);

/// House (token), seats (integer), released (boolean); keys house and role (tokens).
fn table() -> Sheet {
    sheet(&[Token, Integer, Boolean], &[Token, Token]).full_table()
}

fn own() -> Atom {
    equal(HOUSE, SESSION_HOUSE)
}

/// Only sessions of house 1: tenants are kept apart without an equality.
fn one_house() -> Atom {
    within(SESSION_HOUSE, &[1])
}

fn between(least: i64, most: i64) -> [Atom; 2] {
    [is(SEATS, Test::AtLeast(least)), is(SEATS, Test::AtMost(most))]
}

/// One policy for the tables that a selector names.
pub fn plain(selector: Selector) -> Sheet {
    table().permit("S", selector, &[vec![own()]])
}

/// Sheets for listing, from one policy with one atom to sixteen policies.
pub fn listings() -> Vec<(&'static str, Sheet)> {
    let four: Clause = [vec![own(), within(RELEASED, &[1])], between(1, 900).to_vec()].concat();
    let three =
        |n: i64| -> Clause { [vec![within(HOUSE, &[n, n + 1, n + 2])], between(n * 10, n * 90).to_vec()].concat() };
    let some = (0..3).fold(table(), |sheet, n| sheet.permit("S", Selector::All, &[three(n), three(n + 4)]));
    let many = (0..12).fold(table(), |sheet, n| {
        let clauses: Vec<Clause> = (0..4).map(|m| [three(n * 4 + m), vec![own()]].concat()).collect();
        sheet.permit("S", Selector::All, &clauses)
    });
    let guard = |n: i64| vec![between(0, 900 + n).to_vec(), vec![within(RELEASED, &[1]), own()]];
    vec![
        ("1 policy, 1 atom", table().permit("S", Selector::All, &[vec![own()]])),
        ("1 policy, 4 atoms", table().permit("S", Selector::All, &[four])),
        ("4 policies, 20 atoms", some.restrict("S", Selector::All, &[vec![own()], vec![is(SEATS, Test::Above(100))]])),
        ("16 policies, 208 atoms", (0..4).fold(many, |sheet, n| sheet.restrict("S", Selector::All, &guard(n)))),
    ]
}

/// Rows for those sheets; a shorter list is the beginning of a longer one.
pub fn rows(count: usize) -> Vec<[Content; 3]> {
    let mut random = Random::new(65_536);
    let mut row = || {
        let house = (!random.once_in(20)).then(|| random.below(4) as i64);
        let seats = (!random.once_in(20)).then(|| random.below(1000) as i64);
        [house, seats, (!random.once_in(20)).then(|| random.below(2) as i64)]
    };
    (0..count).map(|_| row()).collect()
}

/// As many rows as a row list takes.
pub fn full_list() -> usize {
    let mut bytes = 0;
    rows(6000)
        .iter()
        .take_while(|row| {
            bytes += pack::contents(&row[..]).len();
            bytes <= crate::reading::ROW_LIST_BYTES
        })
        .count()
}

/// Where the first leaking pair of branches stands.
#[derive(Clone, Copy, Debug, PartialEq, Eq)]
pub enum Leak {
    First,
    Last,
    None,
}

/// What keeps tenants apart.
#[derive(Clone, Copy, Debug, PartialEq, Eq)]
pub enum Apart {
    Equality,
    List,
}

/// A sheet of N branches, N being 1, 16, 64 or 256, all live.
pub fn branches(n: usize, leak: Leak, apart: Apart) -> Sheet {
    let (permissive, restrictive) = if n == 256 { (64, 4) } else { (n, 1) };
    let open = |place: usize, count: usize| match leak {
        Leak::First => place == 0,
        Leak::Last => place == count - 1,
        Leak::None => false,
    };
    let with = |mut atoms: Clause, is_open: bool| {
        if !is_open {
            atoms.push(if apart == Apart::Equality { own() } else { one_house() });
        }
        atoms
    };
    let clauses: Vec<Clause> =
        (0..permissive).map(|n| with(vec![within(SEATS, &[n as i64, 1000 + n as i64])], open(n, permissive))).collect();
    let guards: Vec<Clause> =
        (0..restrictive).map(|n| with(vec![is(SEATS, Test::AtLeast(-(n as i64)))], open(n, restrictive))).collect();
    let sheet = clauses.chunks(8).fold(table(), |sheet, some| sheet.permit("S", Selector::All, some));
    sheet.restrict("S", Selector::All, &guards)
}

/// The worst sheet found: 256 branches of 128 atoms with eight values each, isolated without an
/// equality, all live, the values struck out one by one from where the search begins.
pub fn worst() -> Sheet {
    let mut next = 0;
    let mut strikes = |atoms: usize| -> Clause {
        let mut list = || {
            next = (next + 8) % 1024;
            without(SEATS, &std::array::from_fn::<i64, 8, _>(|n| next + n as i64))
        };
        (0..atoms).map(|_| list()).collect()
    };
    let first = [vec![one_house(), is(SEATS, Test::AtLeast(0))], strikes(6)].concat();
    let mut sheet = table().permit("S", Selector::All, &[first]);
    for place in 0..15 {
        let clauses: Vec<Clause> = (0..if place < 8 { 2 } else { 1 }).map(|_| strikes(8)).collect();
        sheet = sheet.restrict("S", Selector::All, &clauses);
    }
    sheet
}

/// A sheet of about so many bytes: policies of eight clauses with mixed atoms.
pub fn of_bytes(bytes: usize) -> Sheet {
    let mut sheet = table();
    let mut value = 0;
    while pack::sheet(&sheet).len() < bytes {
        if sheet.policies.last().is_none_or(|policy| policy.clauses.len() == 8) {
            if sheet.policies.len() == 16 {
                return sheet;
            }
            sheet = sheet.permit("S", Selector::All, &[]);
        }
        value += 7;
        let list: Vec<i64> = (0..8).map(|n| (value * 31 + n * 17) % 500).collect();
        let few: Vec<i64> = (0..3).map(|n| (value * 13 + n * 5) % 500).collect();
        let clause = vec![
            own(),
            within(SEATS, &list),
            without(SEATS, &few),
            is(SEATS, Test::Below(value)),
            within(HOUSE, &list),
        ];
        sheet.policies.last_mut().expect("one").clauses.push(clause);
    }
    sheet
}

/// Eight policies of eight clauses with so many atoms each, none of which implies another.
pub fn of_atoms(atoms: usize) -> Sheet {
    let clause = |p: usize, c: usize| -> Clause {
        let value = (p * 8 + c) as i64;
        let strikes = (0..atoms).map(|n| without(SEATS, &[value * 10 + n as i64, 5000 + n as i64]));
        strikes.collect()
    };
    (0..8).fold(table(), |sheet, p| {
        let clauses: Vec<Clause> = (0..8).map(|c| clause(p, c)).collect();
        sheet.permit("S", Selector::All, &clauses)
    })
}
