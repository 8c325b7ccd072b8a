//! The normal form: six steps in each policy.

use super::bits::BitString;
use super::pack;
use super::sheet::{Atom, Clause, Sheet, Test};
use super::solve::{clause_covers, is_live, Conditions, Session};

/// "Table facts, policy order, types, commands and selectors stay."
pub fn normal_form(sheet: &Sheet) -> Sheet {
    let mut normal = sheet.clone();
    for policy in &mut normal.policies {
        policy.clauses = normal_clauses(sheet, &policy.clauses);
    }
    normal
}

fn normal_clauses(sheet: &Sheet, clauses: &[Clause]) -> Vec<Clause> {
    // Step 1: "Drop each clause that no row and session meets."
    let live = clauses.iter().filter(|clause| is_live(sheet, clause));
    let mut normal: Vec<Clause> = live.map(|clause| normal_clause(sheet, clause)).collect();
    // Step 6: "Sort clauses by their bits, count included. From last to first, drop a clause covered by
    // one remaining other."
    normal.sort_by_cached_key(|clause| pack::bits(&pack::clause_fields(clause)));
    drop_from_last(normal, |clause, others| others.iter().any(|other| clause_covers(sheet, other, clause)))
}

/// Steps 2 to 5 on one clause that is met by some row and session.
fn normal_clause(sheet: &Sheet, clause: &Clause) -> Clause {
    // Step 5: "From last to first, drop an atom that the remaining others imply."
    drop_from_last(tidied(clause), |atom, others| Conditions::none(sheet).with(others, Session::One).imply(atom))
}

/// Steps 2 to 4 on one clause that is met by some row and session.
pub fn tidied(clause: &Clause) -> Clause {
    let mut atoms = merged(clause.iter().cloned().map(turned).map(bounded).collect());
    // Step 4: "Sort atoms by their bits; drop repeats."
    atoms.sort_by_cached_key(atom_bits);
    atoms.dedup();
    atoms
}

fn atom_bits(atom: &Atom) -> BitString {
    pack::bits(&pack::atom_fields(atom))
}

/// Step 2: "Equality of a variable with itself becomes 'is not null'. Otherwise the lower variable number
/// stands left."
fn turned(atom: Atom) -> Atom {
    match atom.test {
        Test::Equals(other) if other == atom.variable => Atom { test: Test::IsNotNull, ..atom },
        Test::Equals(other) if other.number() < atom.variable.number() => {
            Atom { variable: other, test: Test::Equals(atom.variable) }
        }
        _ => atom,
    }
}

/// Step 3: "Below v becomes at most v−1; above v becomes at least v+1. List values ascend, each once."
/// A clause that is met has no bound past the ends of the integers.
fn bounded(atom: Atom) -> Atom {
    let test = match atom.test {
        Test::Below(bound) => Test::AtMost(bound - 1),
        Test::Above(bound) => Test::AtLeast(bound + 1),
        Test::In(list) => Test::In(ascending(list)),
        Test::NotIn(list) => Test::NotIn(ascending(list)),
        other => other,
    };
    Atom { test, ..atom }
}

fn ascending(mut list: Vec<i64>) -> Vec<i64> {
    list.sort_unstable();
    list.dedup();
    list
}

/// Step 3: "All in-lists on one variable become one, their common values."
fn merged(atoms: Clause) -> Clause {
    let mut merged: Clause = Vec::new();
    for atom in atoms {
        let earlier = merged.iter_mut().filter(|other| other.variable == atom.variable).find_map(|other| {
            if let Test::In(list) = &mut other.test {
                Some(list)
            } else {
                None
            }
        });
        match (&atom.test, earlier) {
            (Test::In(list), Some(common)) => common.retain(|value| list.contains(value)),
            _ => merged.push(atom),
        }
    }
    merged
}

/// From last to first, drops each item for which `goes` holds with the others that remain.
fn drop_from_last<T: Clone>(mut items: Vec<T>, goes: impl Fn(&T, &[T]) -> bool) -> Vec<T> {
    for place in (0..items.len()).rev() {
        let item = items.remove(place);
        if !goes(&item, &items) {
            items.insert(place, item);
        }
    }
    items
}
