//! Branches, dead, isolated, covers, each verdict with the reason in its name.

use super::{branches, covers, dead, isolated, Case};
use crate::making::words::*;
use crate::reading::pack;
use crate::reading::sheet::{Atom, Clause, Selector, Sheet, Test, Variable};

const X: Variable = Variable::Column(0);
const Y: Variable = Variable::Column(1);
const F: Variable = Variable::Column(2);
const G: Variable = Variable::Column(3);
const T: Variable = Variable::Column(4);
const U: Variable = Variable::Column(5);
const TENANT: Variable = Variable::Key(0);
const SECOND: Variable = Variable::Key(1);

/// Integers x, y; booleans f, g; tokens t, u; key 0 and key 1 tokens; one table that holds all.
fn layouts() -> Sheet {
    sheet(&[Integer, Integer, Boolean, Boolean, Token, Token], &[Token, Token]).full_table()
}

fn permit(clauses: &[Clause]) -> Sheet {
    layouts().permit("S", Selector::All, clauses)
}

fn at_least(variable: Variable, bound: i64) -> Atom {
    is(variable, Test::AtLeast(bound))
}

fn at_most(variable: Variable, bound: i64) -> Atom {
    is(variable, Test::AtMost(bound))
}

fn null(variable: Variable) -> Atom {
    is(variable, Test::IsNull)
}

fn some(variable: Variable) -> Atom {
    is(variable, Test::IsNotNull)
}

pub fn cases() -> Vec<Case> {
    [lives(), isolations(), coverings(), counts()].concat()
}

fn lives() -> Vec<Case> {
    let one =
        |name: &str, atoms: &[Atom], verdict| dead(name, pack::sheet(&permit(&[atoms.to_vec()])), (0, 0), [0, verdict]);
    let against = permit(&[vec![within(X, &[1])]]).restrict("S", Selector::All, &[vec![within(X, &[2])]]);
    let emptied = permit(&[vec![]]).restrict("S", Selector::All, &[]);
    let alone = layouts().restrict("S", Selector::All, &[vec![]]);
    vec![
        dead("dead: two policies contradict each other", pack::sheet(&against), (0, 0), [0, 1]),
        dead("dead: a restrictive policy without clauses", pack::sheet(&emptied), (0, 0), [0, 1]),
        dead("dead: no permissive policy", pack::sheet(&alone), (0, 0), [0, 1]),
        one("dead: x = y, y in [1], x in [2]", &[equal(X, Y), within(Y, &[1]), within(X, &[2])], 1),
        one("live: x = y, y in [1, 2], x in [2, 3]", &[equal(X, Y), within(Y, &[1, 2]), within(X, &[2, 3])], 0),
        one("dead: x is null, x = y", &[null(X), equal(Y, X)], 1),
        one("dead: x is null, x not in [1]", &[null(X), without(X, &[1])], 1),
        one("live: x is null, y is not null", &[null(X), some(Y)], 0),
        one("dead: f = g, f not in [0], g not in [1]", &[equal(F, G), without(F, &[0]), without(G, &[1])], 1),
        one("live: f not in [0], g not in [1]", &[without(F, &[0]), without(G, &[1])], 0),
        one("dead: x at least 5, x at most 4", &[at_least(X, 5), at_most(X, 4)], 1),
        one("live: x at least 5, x at most 5", &[at_least(X, 5), at_most(X, 5)], 0),
        one("dead: 5 alone and struck out", &[at_least(X, 5), at_most(X, 5), without(X, &[5])], 1),
        one(
            "dead: 3 to 5 struck out through an equality",
            &[equal(X, Y), at_least(X, 3), at_most(Y, 5), without(X, &[4, 3]), without(Y, &[5])],
            1,
        ),
        one("live: 3 to 6 with 3 to 5 struck out", &[at_least(X, 3), at_most(X, 6), without(X, &[4, 3, 5])], 0),
        one("dead: x above 4, x below 5", &[is(X, Test::Above(4)), is(X, Test::Below(5))], 1),
        one(
            "dead: t = u, u = key 0, key 0 in [1], t in [2]",
            &[equal(T, U), equal(U, TENANT), within(TENANT, &[1]), within(T, &[2])],
            1,
        ),
        one("live: t = t", &[equal(T, T)], 0),
        one("dead: key 0 = key 0, key 0 is null", &[equal(TENANT, TENANT), null(TENANT)], 1),
        dead(
            "live: only the last of three clauses",
            pack::sheet(&permit(&[vec![null(X), some(X)], vec![within(F, &[0]), within(F, &[1])], vec![null(X)]])),
            (0, 0),
            [0, 0],
        ),
    ]
}

fn isolations() -> Vec<Case> {
    const ISOLATED: [u64; 4] = [0, 0, 0, 0];
    let leaks = |a, b| [0, 1, a, b];
    let of = |name: &str, clauses: &[Clause], verdict: [u64; 4]| {
        isolated(name, pack::sheet(&permit(clauses)), (0, 0), verdict)
    };
    let tenant = || equal(T, TENANT);
    let two = permit(&[vec![tenant()], vec![within(F, &[1])]]).restrict(
        "S",
        Selector::All,
        &[vec![tenant()], vec![within(F, &[1])]],
    );
    let guarded = permit(&[vec![]]).restrict("S", Selector::All, &[vec![equal(TENANT, T)]]);
    let boolean_key = sheet(&[], &[Boolean]).table(0, &[], &[]);
    let keys = |clauses: &[Clause]| pack::sheet(&boolean_key.clone().permit("S", Selector::All, clauses));
    vec![
        of("isolated: t = u, u = key 0", &[vec![equal(T, U), equal(U, TENANT)]], ISOLATED),
        isolated("isolated: by the restrictive policy alone", pack::sheet(&guarded), (0, 0), ISOLATED),
        of("leaks: t = key 1", &[vec![equal(T, SECOND)]], leaks(0, 0)),
        of("isolated: t = key 1, key 1 = key 0", &[vec![equal(T, SECOND), equal(SECOND, TENANT)]], ISOLATED),
        of("leaks: key 1 = key 0 alone, each with its own", &[vec![equal(SECOND, TENANT)]], leaks(0, 0)),
        of("isolated: key 0 is null", &[vec![null(TENANT)]], ISOLATED),
        of("leaks: key 0 is not null", &[vec![some(TENANT)]], leaks(0, 0)),
        of("leaks: a clause without atoms", &[vec![]], leaks(0, 0)),
        of(
            "leaks: key 0 in [7] or key 0 in [8]",
            &[vec![within(TENANT, &[7])], vec![within(TENANT, &[8])]],
            leaks(0, 1),
        ),
        of("leaks: key 0 in [7, 8]", &[vec![within(TENANT, &[7, 8])]], leaks(0, 0)),
        of("leaks: key 0 is null or key 0 in [7]", &[vec![null(TENANT)], vec![within(TENANT, &[7])]], leaks(0, 1)),
        of(
            "isolated: the two clauses share no row",
            &[vec![within(X, &[1]), within(TENANT, &[7])], vec![within(X, &[2]), within(TENANT, &[8])]],
            ISOLATED,
        ),
        of(
            "leaks: the two clauses share a row",
            &[vec![within(X, &[1]), within(TENANT, &[7])], vec![at_most(X, 1), within(TENANT, &[8])]],
            leaks(0, 1),
        ),
        of(
            "leaks 1 1: the first clause is for one tenant",
            &[vec![tenant(), within(X, &[1])], vec![within(X, &[2])]],
            leaks(1, 1),
        ),
        of(
            "leaks 0 2: not with the second, which is dead",
            &[vec![tenant()], vec![null(X), some(X)], vec![within(F, &[1])]],
            leaks(0, 2),
        ),
        isolated("leaks 0 3: the last restrictive clause varies fastest", pack::sheet(&two), (0, 0), leaks(0, 3)),
        of("isolated: nobody meets it", &[vec![null(T), tenant()]], ISOLATED),
        of(
            "isolated: a row's tenant is one value",
            &[vec![tenant(), within(T, &[3])], vec![within(TENANT, &[3])]],
            ISOLATED,
        ),
        of("leaks 0 1: t is 3 or the session's", &[vec![tenant()], vec![within(T, &[3])]], leaks(0, 1)),
        isolated(
            "isolated: key 0 in [0] or not in [1], a boolean",
            keys(&[vec![within(TENANT, &[0])], vec![without(TENANT, &[1])]]),
            (0, 0),
            ISOLATED,
        ),
        isolated("leaks 0 0: key 0 in [0, 1], a boolean", keys(&[vec![within(TENANT, &[1, 0])]]), (0, 0), leaks(0, 0)),
        isolated("isolated: another command", pack::sheet(&permit(&[vec![]])), (0, 1), ISOLATED),
    ]
}

fn coverings() -> Vec<Case> {
    let of = |name: &str, a: &[Clause], b: &[Clause], verdict| {
        let sheet = permit(a).restrict("D", not(Selector::All), b);
        covers(name, pack::sheet(&sheet), (0, 1), [0, verdict])
    };
    let one = |name: &str, a: &[Atom], b: &[Atom], verdict| of(name, &[a.to_vec()], &[b.to_vec()], verdict);
    let none: &[Clause] = &[];
    vec![
        one("x at most 5 covers x in [1, 5]", &[at_most(X, 5)], &[within(X, &[1, 5])], 1),
        one("x in [1, 5] does not cover x at most 5", &[within(X, &[1, 5])], &[at_most(X, 5)], 0),
        of("two halves do not cover the whole", &[vec![at_most(X, 5)], vec![at_least(X, 6)]], &[vec![some(X)]], 0),
        one("x in [3] covers x = y, y in [3]", &[within(X, &[3])], &[equal(X, Y), within(Y, &[3])], 1),
        one("x = y covers x in [4], y in [4]", &[equal(X, Y)], &[within(X, &[4]), within(Y, &[4])], 1),
        one(
            "x = y does not cover x in [4, 5], y in [4, 5]",
            &[equal(X, Y)],
            &[within(X, &[4, 5]), within(Y, &[4, 5])],
            0,
        ),
        one("x = x covers x in [1]", &[equal(X, X)], &[within(X, &[1])], 1),
        one("x = x does not cover a clause without atoms", &[equal(X, X)], &[], 0),
        one("a clause without atoms covers x is null", &[], &[null(X)], 1),
        one("x is not null does not cover x is null", &[some(X)], &[null(X)], 0),
        one("f in [0, 1] covers f is not null", &[within(F, &[0, 1])], &[some(F)], 1),
        one("f in [1] does not cover f is not null", &[within(F, &[1])], &[some(F)], 0),
        one("f in [1] covers f not in [0]", &[within(F, &[1])], &[without(F, &[0])], 1),
        one("x at least 4 covers x above 3", &[at_least(X, 4)], &[is(X, Test::Above(3))], 1),
        one("x above 3 covers x at least 4", &[is(X, Test::Above(3))], &[at_least(X, 4)], 1),
        one("x not in [9] covers x below 9", &[without(X, &[9])], &[is(X, Test::Below(9))], 1),
        one("t = key 0 covers t = u, u = key 0", &[equal(T, TENANT)], &[equal(T, U), equal(U, TENANT)], 1),
        one("t = key 0 does not cover t = key 1", &[equal(T, TENANT)], &[equal(T, SECOND)], 0),
        one("anything covers a clause that nobody meets", &[within(X, &[1])], &[null(Y), some(Y)], 1),
        of("anything covers a policy without clauses", &[vec![within(X, &[1])]], none, 1),
        of("no clause covers no clause", none, none, 1),
        of("no clause covers nothing that is met", none, &[vec![within(X, &[1])]], 0),
        of("no clause covers a clause that nobody meets", none, &[vec![null(Y), some(Y)]], 1),
        of(
            "each clause by its own",
            &[vec![within(X, &[1, 2])], vec![null(Y)]],
            &[vec![null(Y), some(X)], vec![within(X, &[2])]],
            1,
        ),
        covers("a policy covers itself", pack::sheet(&permit(&[vec![within(X, &[1])]])), (0, 0), [0, 1]),
    ]
}

fn counts() -> Vec<Case> {
    let clauses = |n: usize| vec![vec![]; n];
    let mixed = layouts()
        .table(2, &[4], &[0])
        .permit("SI", Selector::All, &clauses(3))
        .restrict("S", Selector::Tag(4), &clauses(4))
        .permit("S", Selector::InSchema(2), &clauses(2))
        .restrict("IU", Selector::Table(0), &clauses(0))
        .permit("U", not(Selector::All), &clauses(5));
    let mixed = pack::sheet(&mixed);
    let count = |name: &str, table, command, n| branches(name, mixed.clone(), (table, command), [0, n]);
    vec![
        count("N of 3: one permissive policy", 0, 0, 3),
        count("N of 20: five times four", 1, 0, 20),
        count("N of 0: a restrictive policy without clauses", 0, 1, 0),
        count("N of 3: the restrictive one is for table 0", 1, 1, 3),
        count("N of 0: no permissive policy matches", 0, 2, 0),
        count("N of 0: no policy for DELETE", 1, 3, 0),
    ]
}
