//! "Integer x, boolean f, tenant column t of key 0's kind (token), permissive unless said."

use super::{dead, isolated, normal, prints, Case, Wanted};
use crate::making::words::*;
use crate::reading::pack;
use crate::reading::sheet::{Atom, Clause, Selector, Sheet, Test, Variable};

const X: Variable = Variable::Column(0);
const F: Variable = Variable::Column(1);
const T: Variable = Variable::Column(2);
const KEY: Variable = Variable::Key(0);

/// One table that holds x, f and t, and one permissive SELECT policy.
fn faces(clauses: &[Clause]) -> Sheet {
    sheet(&[Integer, Boolean, Token], &[Token]).full_table().permit("S", Selector::All, clauses)
}

/// What a session of tenant 7 is handed of the rows.
fn seen(clauses: &[Clause], rows: &[[Option<i64>; 3]]) -> Wanted {
    let rows: Vec<u8> = rows.iter().flat_map(|row| pack::contents(row)).collect();
    let session = pack::contents(&[Some(7)]);
    let room = rows.len();
    Wanted { sheet: pack::sheet(&faces(clauses)), table: 0, command: 0, session, rows, room }
}

fn kept(name: &str, written: &[Clause], kept: &[Clause]) -> Case {
    normal(name, &faces(written), &faces(kept))
}

fn tenant() -> Atom {
    equal(T, KEY)
}

pub fn cases() -> Vec<Case> {
    let rows = [[None, None, None], [Some(4), Some(1), Some(9)]];
    let packed: Vec<Vec<u8>> = rows.iter().map(|row| pack::contents(row)).collect();
    let besides = faces(&[vec![tenant()], vec![within(F, &[1])]]).restrict("S", Selector::All, &[vec![tenant()]]);
    let read_out = vec![0x10, 0x88, 0x42, 0xA0, 0x00, 0x40, 0x00, 0x20, 0x08, 0x80, 0x20];
    vec![
        seen(&[vec![equal(X, X)]], &rows[..1]).lists("1 {x = x} with x null: hidden", &[]),
        seen(&[vec![]], &rows).lists("2 a clause without atoms: any row admitted", &packed),
        seen(&[], &rows).lists("3 a policy without clauses: none", &[]),
        kept(
            "4 x in [3, 3, 1] and x in [1, 5]: x in [1]",
            &[vec![within(X, &[3, 3, 1]), within(X, &[1, 5])]],
            &[vec![within(X, &[1])]],
        ),
        kept("5 x above 9223372036854775807: clause dropped", &[vec![is(X, Test::Above(i64::MAX))]], &[]),
        kept("6 x below -9223372036854775808: dropped", &[vec![is(X, Test::Below(i64::MIN))]], &[]),
        kept("7 f not in [0] and f not in [1]: dropped", &[vec![without(F, &[0]), without(F, &[1])]], &[]),
        kept(
            "8 {x in [4]} or {x at least 4, x at most 4}: the first stays alone",
            &[vec![within(X, &[4])], vec![is(X, Test::AtLeast(4)), is(X, Test::AtMost(4))]],
            &[vec![within(X, &[4])]],
        ),
        isolated("9 key 0 in [7] alone: isolated", pack::sheet(&faces(&[vec![within(KEY, &[7])]])), (0, 0), [0; 4]),
        isolated("10 t in [7] alone: leaks 0 0", pack::sheet(&faces(&[vec![within(T, &[7])]])), (0, 0), [0, 1, 0, 0]),
        isolated(
            "11 {t = key 0} or {f in [1]}: leaks 0 1",
            pack::sheet(&faces(&[vec![tenant()], vec![within(F, &[1])]])),
            (0, 0),
            [0, 1, 0, 1],
        ),
        isolated("12 with a restrictive {t = key 0} besides: isolated", pack::sheet(&besides), (0, 0), [0; 4]),
        isolated(
            "13 {t = key 0} or {key 0 is null}: leaks 0 1",
            pack::sheet(&faces(&[vec![tenant()], vec![is(KEY, Test::IsNull)]])),
            (0, 0),
            [0, 1, 0, 1],
        ),
        prints(
            "the read-out's example",
            read_out.clone(),
            "tables 1 policies 1\n0 S 1 live isolated\n0 I 0 dead isolated\n0 U 0 dead isolated\n0 D 0 dead isolated\n",
        ),
        dead("the example's SELECT is live", read_out.clone(), (0, 0), [0, 0]),
        dead("the example's DELETE is dead", read_out, (0, 3), [0, 1]),
    ]
}
