//! The six steps of the normal form, worked out by hand.

use super::{normal, Case};
use crate::making::words::*;
use crate::reading::sheet::{Atom, Clause, Selector, Sheet, Test, Variable};

const X: Variable = Variable::Column(0);
const Y: Variable = Variable::Column(1);
const Z: Variable = Variable::Column(2);
const F: Variable = Variable::Column(3);
const T: Variable = Variable::Column(4);
const TENANT: Variable = Variable::Key(0);

/// Integers x, y, z; boolean f; token t; key 0 a token.
fn layouts() -> Sheet {
    sheet(&[Integer, Integer, Integer, Boolean, Token], &[Token]).full_table()
}

fn at_least(variable: Variable, bound: i64) -> Atom {
    is(variable, Test::AtLeast(bound))
}

fn at_most(variable: Variable, bound: i64) -> Atom {
    is(variable, Test::AtMost(bound))
}

fn some(variable: Variable) -> Atom {
    is(variable, Test::IsNotNull)
}

fn clauses(name: &str, written: &[Clause], kept: &[Clause]) -> Case {
    let with = |clauses| layouts().permit("S", Selector::All, clauses);
    normal(name, &with(written), &with(kept))
}

fn atoms(name: &str, written: &[Atom], kept: &[Atom]) -> Case {
    clauses(name, &[written.to_vec()], &[kept.to_vec()])
}

pub fn cases() -> Vec<Case> {
    [single(), several(), whole()].concat()
}

/// Steps 2 to 5.
fn single() -> Vec<Case> {
    vec![
        atoms("2 x = x becomes x is not null", &[equal(X, X)], &[some(X)]),
        atoms("2 key 0 = t becomes t = key 0", &[equal(TENANT, T)], &[equal(T, TENANT)]),
        atoms("2 and 4 x = y and y = x are one", &[equal(Y, X), equal(X, Y)], &[equal(X, Y)]),
        atoms("3 below 5 becomes at most 4", &[is(X, Test::Below(5))], &[at_most(X, 4)]),
        atoms("3 above -1 becomes at least 0", &[is(X, Test::Above(-1))], &[at_least(X, 0)]),
        atoms("3 list values ascend by sign, each once", &[within(X, &[3, -1, 3, 0])], &[within(X, &[-1, 0, 3])]),
        atoms("3 not-in lists ascend too", &[without(T, &[9, 2, 9])], &[without(T, &[2, 9])]),
        atoms(
            "3 three in-lists become one",
            &[within(X, &[1, 2, 3, 4]), within(Y, &[9]), within(X, &[4, 3, 2]), within(X, &[3, 4, 5])],
            &[within(X, &[3, 4]), within(Y, &[9])],
        ),
        atoms(
            "3 in-lists of equal variables stay two, the implied one goes",
            &[equal(X, Y), within(X, &[1, 2]), within(Y, &[2, 3])],
            &[equal(X, Y), within(X, &[1, 2]), within(Y, &[2, 3])],
        ),
        atoms(
            "3 not-in lists do not become one",
            &[without(X, &[2]), without(X, &[1])],
            &[without(X, &[1]), without(X, &[2])],
        ),
        atoms(
            "4 by bits -1 stands behind 2",
            &[without(X, &[-1]), without(X, &[2])],
            &[without(X, &[2]), without(X, &[-1])],
        ),
        atoms(
            "4 by variable, then by operator",
            &[some(T), within(F, &[1]), equal(X, Y), is(Z, Test::IsNull)],
            &[equal(X, Y), is(Z, Test::IsNull), within(F, &[1]), some(T)],
        ),
        atoms(
            "5 a longer list of strikes implies a shorter one",
            &[without(X, &[1]), without(X, &[2, 1])],
            &[without(X, &[1, 2])],
        ),
        atoms("5 x in [4] implies x at most 9", &[at_most(X, 9), within(X, &[4])], &[within(X, &[4])]),
        atoms("5 the lower of two bounds stays", &[at_most(X, 7), at_most(X, 5)], &[at_most(X, 5)]),
        atoms("5 at most -1 stays, though it stands behind", &[at_most(X, 5), at_most(X, -1)], &[at_most(X, -1)]),
        atoms(
            "a range of one value does not become a list",
            &[at_least(X, 4), at_most(X, 4)],
            &[at_most(X, 4), at_least(X, 4)],
        ),
        atoms(
            "a list and a bound do not become one",
            &[at_least(X, 2), within(X, &[1, 2, 3])],
            &[within(X, &[1, 2, 3]), at_least(X, 2)],
        ),
        atoms(
            "5 of three equalities the last goes",
            &[equal(Y, Z), equal(X, Z), equal(X, Y)],
            &[equal(X, Y), equal(X, Z)],
        ),
        atoms("5 is not null is implied by any atom", &[some(X), within(X, &[1, 2])], &[within(X, &[1, 2])]),
        atoms("5 is not null is implied by an equality", &[some(Y), equal(X, Y), some(X)], &[equal(X, Y)]),
        atoms(
            "5 y in [4] is implied by x = y and x in [4]",
            &[within(Y, &[4]), within(X, &[4]), equal(X, Y)],
            &[equal(X, Y), within(X, &[4])],
        ),
        atoms("5 f not in [0] is implied by f in [1]", &[without(F, &[0]), within(F, &[1])], &[within(F, &[1])]),
        atoms("f in [0, 1] stays and implies f is not null", &[some(F), within(F, &[1, 0])], &[within(F, &[0, 1])]),
        atoms("f in [1] does not become f is not null", &[within(F, &[1])], &[within(F, &[1])]),
        atoms("5 a bound beside a struck end", &[at_least(X, 3), without(X, &[2])], &[at_least(X, 3)]),
        atoms(
            "5 two strikes imply nothing of a third",
            &[without(X, &[1]), without(X, &[3]), at_most(X, 3)],
            &[without(X, &[1]), without(X, &[3]), at_most(X, 3)],
        ),
        atoms(
            "5 through an equality: y at most 9 from x at most 5",
            &[equal(X, Y), at_most(Y, 9), at_most(X, 5)],
            &[equal(X, Y), at_most(X, 5)],
        ),
    ]
}

/// Steps 1 and 6.
fn several() -> Vec<Case> {
    vec![
        clauses(
            "1 the clause that nobody meets goes",
            &[vec![is(X, Test::IsNull), some(X)], vec![within(X, &[1])]],
            &[vec![within(X, &[1])]],
        ),
        clauses("1 two lists without a common value", &[vec![within(X, &[1]), within(X, &[2])]], &[]),
        clauses(
            "6 [1] is covered by [1, 2]",
            &[vec![within(X, &[1, 2])], vec![within(X, &[1])]],
            &[vec![within(X, &[1, 2])]],
        ),
        clauses("6 a clause without atoms covers all", &[vec![within(X, &[1])], vec![], vec![some(Y)]], &[vec![]]),
        clauses("6 equal clauses, once", &[vec![some(X)], vec![equal(X, X)], vec![some(X)]], &[vec![some(X)]]),
        clauses(
            "6 fewer atoms stand first",
            &[vec![within(X, &[1]), some(Y)], vec![within(Z, &[9])]],
            &[vec![within(Z, &[9])], vec![within(X, &[1]), some(Y)]],
        ),
        clauses(
            "6 by bits",
            &[vec![some(Y)], vec![is(X, Test::IsNull)], vec![some(X)]],
            &[vec![is(X, Test::IsNull)], vec![some(X)], vec![some(Y)]],
        ),
        clauses(
            "6 two halves do not cover the whole",
            &[vec![at_most(X, 5)], vec![at_least(X, 6)], vec![some(X)]],
            &[vec![some(X)]],
        ),
        clauses(
            "6 of two that cover each other the earlier by bits stays",
            &[vec![at_least(X, 4), at_most(X, 4)], vec![within(X, &[4])]],
            &[vec![within(X, &[4])]],
        ),
        clauses(
            "6 a tenant's clause covers its narrower one",
            &[vec![equal(TENANT, T), within(F, &[1])], vec![equal(T, TENANT)]],
            &[vec![equal(T, TENANT)]],
        ),
        clauses("nothing to do", &[vec![equal(T, TENANT)]], &[vec![equal(T, TENANT)]]),
    ]
}

/// What stays: table facts, policy order, types, commands, selectors.
fn whole() -> Vec<Case> {
    let dead = vec![is(X, Test::IsNull), some(X)];
    let with = |first: &[Clause], second: &[Clause], third: &[Clause]| {
        layouts()
            .table(63, &[0, 7], &[0, 4])
            .restrict("SD", and(Selector::Tag(7), not(Selector::InSchema(3))), first)
            .permit("I", or(Selector::Table(0), Selector::HasColumn(4)), second)
            .permit("I", or(Selector::HasColumn(4), Selector::Table(0)), third)
    };
    let one = vec![within(T, &[2, 2])];
    vec![
        normal(
            "an emptied restrictive policy stays, and the order of policies",
            &with(&[dead.clone()], &[one.clone()], &[vec![some(T)], one]),
            &with(&[], &[vec![within(T, &[2])]], &[vec![some(T)]]),
        ),
        normal("a sheet without policies", &layouts(), &layouts()),
        normal("a policy without clauses", &with(&[], &[], &[]), &with(&[], &[], &[])),
    ]
}
