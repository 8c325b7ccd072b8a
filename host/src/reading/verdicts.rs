//! Branches, and the verdicts dead, isolated and covers.

use super::admission::policies_that_count;
use super::sheet::{Clause, Policy, Sheet};
use super::solve::{clause_covers, is_live, Conditions, Session};

/// Is a table isolated for a command, or which two branches leak?
#[derive(Clone, Copy, Debug, PartialEq, Eq)]
pub enum Isolation {
    Isolated,
    Leaks(u32, u32),
}

/// "N is the sum of the permissive policies' clause counts times the product of the restrictive
/// ones' counts (a product of none is 1)."
pub fn branch_count(sheet: &Sheet, table: usize, command: usize) -> u64 {
    let (permissive, restrictive) = policies_that_count(sheet, table, command);
    let clauses = |policy: &&Policy| policy.clauses.len() as u64;
    permissive.iter().map(clauses).sum::<u64>() * restrictive.iter().map(clauses).product::<u64>()
}

/// The branches, each as the atoms of its clauses: "numbered from 0 in sheet order, the permissive
/// clause varying slowest and the last restrictive policy fastest".
pub fn branches(sheet: &Sheet, table: usize, command: usize) -> Vec<Clause> {
    // A last factor of 0 leaves none, however many stand before it.
    if branch_count(sheet, table, command) == 0 {
        return vec![];
    }
    let (permissive, restrictive) = policies_that_count(sheet, table, command);
    let mut branches: Vec<Clause> = permissive.iter().flat_map(|policy| policy.clauses.clone()).collect();
    for policy in restrictive {
        let with_each = |branch: &Clause| -> Vec<Clause> {
            policy.clauses.iter().map(|clause| [branch.as_slice(), clause].concat()).collect()
        };
        branches = branches.iter().flat_map(with_each).collect();
    }
    branches
}

/// "Dead: no row and session is admitted."
pub fn is_dead(sheet: &Sheet, table: usize, command: usize) -> bool {
    !branches(sheet, table, command).iter().any(|branch| is_live(sheet, branch))
}

/// "A leak is named by the first pair (a, b), a before b in importance, for which some row meets a
/// with one session and b with a session of another tenant."
///
/// Exchanging the sessions turns a leak (a, b) into (b, a), so the first pair has a at most b.
pub fn isolation(sheet: &Sheet, table: usize, command: usize) -> Isolation {
    let branches = branches(sheet, table, command);
    let live: Vec<usize> = (0..branches.len()).filter(|&n| is_live(sheet, &branches[n])).collect();
    for (place, &a) in live.iter().enumerate() {
        let first = Conditions::none(sheet).with(&branches[a], Session::One);
        let leaks = |&&b: &&usize| first.clone().with(&branches[b], Session::Two).allow_two_tenants();
        if let Some(&b) = live[place..].iter().find(leaks) {
            return Isolation::Leaks(a as u32, b as u32);
        }
    }
    Isolation::Isolated
}

/// "Policy A covers policy B when each clause of B that some row and session meets is covered by a
/// single clause of A."
pub fn policy_covers(sheet: &Sheet, a: &Policy, b: &Policy) -> bool {
    let covered = |q: &Clause| a.clauses.iter().any(|p| clause_covers(sheet, p, q));
    b.clauses.iter().filter(|q| is_live(sheet, q)).all(covered)
}
