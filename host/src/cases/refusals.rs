//! Every refusal by at least five causes, worked out field by field.
//!
//! 16 has none: no step of the normal form lengthens an atom, a clause or a policy, so no sheet of
//! this edition has a normal form that is longer.

use super::{branches, covers, dead, isolated, normal_refused, reads, Case, Wanted};
use crate::making::raw::Raw;
use crate::making::words::*;
use crate::reading::pack;
use crate::reading::sheet::{Clause, Selector, Sheet, Test};

/// Two columns (integer, token), two keys (token, boolean), one table holding both, one policy.
pub fn head() -> Raw {
    Raw::header(1, 2, 2, 1, 1).kinds(&[0, 1, 1, 2]).table(0b1100_0000_0000_0000)
}

/// ... a permissive SELECT policy for all tables, of one clause with one atom that follows.
pub fn to_atom() -> Raw {
    head().policy(0, 0b1000).node(0).count(1).count(1)
}

/// ... and one more atom on column 0 behind what is given, so that much would be left to read.
pub fn behind(raw: Raw) -> Vec<u8> {
    raw.variable(0).operator(3).value(5).bytes()
}

pub fn cases() -> Vec<Case> {
    [first(), fields(), kinds(), selectors(), whole(), asked(), forms()].concat()
}

/// 1 is in `limits::large`; here 2 and 3.
fn first() -> Vec<Case> {
    let edition = |edition| Raw::header(edition, 1, 1, 1, 0).kinds(&[0, 1]).table(0x8000).bytes();
    vec![
        reads("2 no byte at all", vec![], 2),
        reads("2 the edition alone", vec![0x10], 2),
        reads("2 nothing behind the counts", Raw::header(1, 2, 2, 1, 1).field(1, 0).bytes(), 2),
        reads(
            "2 a table cut behind its schema",
            Raw::header(1, 0, 1, 1, 0).kinds(&[0]).field(6, 0).field(1, 0).bytes(),
            2,
        ),
        reads("2 a policy cut in its commands", head().policy(0, 0b1000).bytes()[..8].to_vec(), 2),
        reads("2 an inner selector missing", head().policy(0, 0b1000).node(5).node(5).node(5).bytes(), 2),
        reads("2 a value cut in its last byte", cut(&to_atom().variable(0).operator(3).value(5)), 2),
        reads("2 a list's second value missing", to_atom().variable(0).operator(1).count(2).value(5).bytes(), 2),
        reads("3 edition 0", edition(0), 3),
        reads("3 edition 2", edition(2), 3),
        reads("3 edition 3", edition(3), 3),
        reads("3 edition 9, whose last bit is right", edition(9), 3),
        reads("3 edition 15", edition(15), 3),
        reads("3 edition 2 and nothing more", vec![0x20], 3),
    ]
}

fn cut(raw: &Raw) -> Vec<u8> {
    let mut bytes = raw.bytes();
    bytes.pop();
    bytes
}

/// 4, 5 and 8.
fn fields() -> Vec<Case> {
    let header = |c, k, t, p| behind(Raw::header(1, c, k, t, p).kinds(&[0; 8]));
    let list = |operator, count| to_atom().variable(0).operator(operator).count(count).value(1).value(1).bytes();
    let commands = |restrictive| behind(head().policy(restrictive, 0).node(0).count(1).count(1));
    let two = Raw::header(1, 2, 2, 1, 2).kinds(&[0, 1, 1, 2]).table(0xC000);
    vec![
        reads("4 seventeen columns", header(17, 1, 1, 1), 4),
        reads("4 thirty-one columns", header(31, 1, 1, 1), 4),
        reads("4 no key", header(2, 0, 1, 1), 4),
        reads("4 nine keys", header(2, 9, 1, 1), 4),
        reads("4 no table", header(2, 1, 0, 1), 4),
        reads("4 seventeen tables", header(2, 1, 17, 1), 4),
        reads("4 seventeen policies", header(2, 1, 1, 17), 4),
        reads("4 nine clauses", head().policy(0, 8).node(0).count(9).count(0).bytes(), 4),
        reads("4 fifteen atoms", head().policy(0, 8).node(0).count(1).count(15).bytes(), 4),
        reads("4 an in-list of none", list(1, 0), 4),
        reads("4 an in-list of nine", list(1, 9), 4),
        reads("4 a not-in list of none", list(2, 0), 4),
        reads("5 a column of kind 3", behind(Raw::header(1, 2, 1, 1, 1).kinds(&[0, 3, 0])), 5),
        reads("5 a key of kind 3", behind(Raw::header(1, 1, 2, 1, 1).kinds(&[0, 1, 3])), 5),
        reads("5 variable 24", behind(to_atom().variable(24).operator(7)), 5),
        reads("5 variable 31", behind(to_atom().variable(31).operator(7)), 5),
        reads("5 a right side of 24", behind(to_atom().variable(0).operator(0).variable(24)), 5),
        reads("5 operator 9", behind(to_atom().variable(0).operator(9)), 5),
        reads("5 operator 15 on a boolean", behind(to_atom().variable(17).operator(15)), 5),
        reads("8 a permissive policy for no command", commands(0), 8),
        reads("8 a restrictive policy for no command", commands(1), 8),
        reads("8 no command and nothing behind it", head().policy(0, 0).bytes(), 8),
        reads(
            "8 the second policy for no command",
            two.policy(0, 8).node(0).count(0).policy(1, 0).node(0).count(0).bytes(),
            8,
        ),
        reads("8 no command, no clause", head().policy(0, 0).node(0).count(0).bytes(), 8),
    ]
}

/// 6 and 7.
fn kinds() -> Vec<Case> {
    let held = |columns, holds| {
        let kinds = vec![0; columns as usize + 1];
        behind(Raw::header(1, columns, 1, 1, 0).kinds(&kinds).table(holds))
    };
    let node = |node, number| behind(head().policy(0, 8).node(node).field(4, number));
    let value = |variable, value| to_atom().variable(variable).operator(1).count(1).value(value).bytes();
    let ordered = |variable, operator| behind(to_atom().variable(variable).operator(operator).value(0));
    let equated = |one, two| behind(to_atom().variable(one).operator(0).variable(two));
    vec![
        reads("6 a held column 0 where there is none", held(0, 0x8000), 6),
        reads("6 a held column 2 of two", held(2, 0xE000), 6),
        reads("6 a held column 15 of fifteen", held(15, 0x0001), 6),
        reads("6 has column 2 of two", node(1, 2), 6),
        reads("6 table 1 of one", node(3, 1), 6),
        reads("6 table 15 of one", node(3, 15), 6),
        reads("6 variable 2 of two columns", behind(to_atom().variable(2).operator(7)), 6),
        reads("6 variable 18 of two keys", behind(to_atom().variable(18).operator(7)), 6),
        reads("6 a right side of 15", equated(0, 15), 6),
        reads("6 a right side of 23", equated(1, 23), 6),
        reads("7 an integer equals a token", equated(0, 1), 7),
        reads("7 a token equals a boolean", equated(16, 17), 7),
        reads("7 a boolean equals an integer", equated(17, 0), 7),
        reads("7 a token at most 0", ordered(1, 3), 7),
        reads("7 a token at least 0", ordered(1, 4), 7),
        reads("7 a boolean below 0", ordered(17, 5), 7),
        reads("7 a boolean above 0", ordered(17, 6), 7),
        reads("7 token 4294967296", value(1, 4_294_967_296), 7),
        reads("7 token -1", value(1, -1), 7),
        reads("7 boolean 2", value(17, 2), 7),
        reads("7 boolean -1", value(17, -1), 7),
        reads("7 the second value of a list", to_atom().variable(17).operator(2).count(2).value(1).value(3).bytes(), 7),
    ]
}

/// 9: nodes nested `nots` deep, then what follows.
fn selectors() -> Vec<Case> {
    let nots = |number: usize| (0..number).fold(head().policy(0, 8), |raw, _| raw.node(7));
    let ands = (0..6).fold(head().policy(0, 8), |raw, _| raw.node(5));
    let ors = (0..6).fold(head().policy(0, 8), |raw, _| raw.node(6).node(0));
    // "a selector node at depth seven, before its bits are read": 80 bits, ten bytes, and no more.
    let bare = Raw::header(1, 0, 2, 1, 1).kinds(&[0, 0]).table(0).policy(0, 8);
    let bare = (0..6).fold(bare, |raw, _| raw.node(7));
    assert_eq!(bare.bits(), 80);
    vec![
        reads("9 a leaf under six nots", behind(nots(6).node(0).count(0)), 9),
        reads("9 a not under six nots", behind(nots(7).node(0).count(0)), 9),
        reads("9 a leaf under six ands, each on the left", behind(ands.node(0)), 9),
        reads("9 a leaf under six ors, each on the right", behind(ors.node(0)), 9),
        reads("9 at depth seven with no bit left", bare.bytes(), 9),
        reads("9 an and under five nots", nots(5).node(5).bytes(), 9),
    ]
}

fn fonts(holds: &[usize], selector: Selector, clauses: &[Clause]) -> Sheet {
    sheet(&[Integer, Token], &[Token]).table(3, &[2], holds).permit("U", selector, clauses)
}

/// 10 and 11.
fn whole() -> Vec<Case> {
    let good = pack::sheet(&fonts(&[0, 1], Selector::All, &[vec![equal(col(1), key(0))]]));
    let with = |tail: &[u8]| [good.as_slice(), tail].concat();
    let mut padded = good.clone();
    *padded.last_mut().expect("some bytes") |= 1;
    let lacks =
        |name: &str, selector, clauses: &[Clause]| reads(name, pack::sheet(&fonts(&[0], selector, clauses)), 11);
    let token = vec![within(col(1), &[4])];
    let dead_clause = vec![is(col(1), Test::IsNull), within(col(1), &[4])];
    let second =
        fonts(&[0], Selector::All, &[vec![]]).table(0, &[], &[0, 1]).restrict("D", Selector::All, &[token.clone()]);
    vec![
        reads("10 the last padding bit is 1", padded.clone(), 10),
        reads("10 a zero byte left over", with(&[0]), 10),
        reads("10 a byte left over", with(&[0x55]), 10),
        reads("10 a second sheet behind the first", with(&good), 10),
        reads("10 a padding bit 1 and a byte left over", [padded, vec![0]].concat(), 10),
        lacks("11 a column not held", Selector::All, &[token.clone()]),
        lacks("11 on the right of an equality", Selector::InSchema(3), &[vec![equal(key(0), col(1))]]),
        lacks("11 on the left of an equality", Selector::Tag(2), &[vec![equal(col(1), key(0))]]),
        lacks("11 in a clause that nobody meets", Selector::Table(0), &[vec![], dead_clause]),
        lacks("11 by a selector that is turned", not(Selector::HasColumn(1)), &[vec![equal(col(1), col(1))]]),
        reads("11 in the second policy, for another command", pack::sheet(&second), 11),
    ]
}

/// 12 and 13.
fn asked() -> Vec<Case> {
    let one = pack::sheet(&fonts(&[0, 1], Selector::All, &[vec![]]));
    let many = |restrictive: &[usize]| {
        let one = fonts(&[0, 1], Selector::All, &vec![vec![]; 8]);
        pack::sheet(&restrictive.iter().fold(one, |sheet, &n| sheet.restrict("U", Selector::All, &vec![vec![]; n])))
    };
    let far = u32::MAX;
    vec![
        branches("12 table 1 of one", one.clone(), (1, 2), [12, 0]),
        branches("12 table 256 is not table 0", one.clone(), (256, 2), [12, 0]),
        dead("12 table 65536 is not table 0", one.clone(), (65_536, 2), [12, 0]),
        isolated("12 the last number of a table", one.clone(), (far, 2), [12, 0, 0, 0]),
        branches("12 command 4", one.clone(), (0, 4), [12, 0]),
        dead("12 command 256 is not SELECT", one.clone(), (0, 256), [12, 0]),
        isolated("12 the last number of a command", one.clone(), (0, far), [12, 0, 0, 0]),
        covers("12 a covering policy that isn't there", one.clone(), (1, 0), [12, 0]),
        covers("12 a covered policy that isn't there", one.clone(), (0, 1), [12, 0]),
        covers("12 policy 256 is not policy 0", one, (0, 256), [12, 0]),
        dead("13 dead: N of 8 x 8 x 5", many(&[8, 5]), (0, 2), [13, 0]),
        isolated("13 isolated: N of 8 x 8 x 5", many(&[8, 5]), (0, 2), [13, 0, 0, 0]),
        dead("13 N of 8 x 3 x 8 x 2", many(&[3, 8, 2]), (0, 2), [13, 0]),
        isolated("13 N of eight to the fifth", many(&[8; 4]), (0, 2), [13, 0, 0, 0]),
        dead("13 N of eight to the sixteenth", many(&[8; 15]), (0, 2), [13, 0]),
        branches("N of eight to the sixteenth is counted", many(&[8; 15]), (0, 2), [0, 1 << 48]),
        dead("a last factor of 0 makes N 0", many(&[&[8; 14][..], &[0]].concat()), (0, 2), [0, 1]),
    ]
}

/// 14 and 15.
fn forms() -> Vec<Case> {
    let two = sheet(&[Integer, Token, Boolean], &[Token, Boolean]).table(0, &[], &[0, 1]).table(0, &[], &[]);
    let packed = pack::sheet(&two.table(0, &[], &[2]).permit("S", Selector::All, &[vec![]]));
    let session = pack::contents(&[Some(7), None]);
    let rows = [pack::contents(&[Some(1), None]), pack::contents(&[None, Some(4)])].concat();
    let room = rows.len();
    let good =
        Wanted { sheet: packed.clone(), table: 0, command: 0, session: session.clone(), rows: rows.clone(), room };
    let session_is = |name: &str, session: Vec<u8>| Wanted { session, ..good.clone() }.refused(name, 15);
    let rows_are = |name: &str, table, rows: Vec<u8>| {
        let room = rows.len();
        Wanted { table, rows, room, ..good.clone() }.refused(name, 15)
    };
    let mut dirty = session.clone();
    *dirty.last_mut().expect("a byte") |= 1;
    let mut dirty_rows = rows.clone();
    dirty_rows[8] |= 1;
    vec![
        normal_refused("14 no room for a normal form", packed.clone(), 0, 14),
        normal_refused("14 one byte short for a normal form", packed.clone(), packed.len() - 1, 14),
        Wanted { room: 0, ..good.clone() }.refused("14 no room for a listing", 14),
        Wanted { room: room - 1, ..good.clone() }.refused("14 one byte short for a listing", 14),
        Wanted { room: room - 1, command: 3, ..good.clone() }.refused("14 short for a listing of nothing", 14),
        session_is("15 no session", vec![]),
        session_is("15 a session cut short", session[..8].to_vec()),
        session_is("15 a session with a byte left over", [session.as_slice(), &[0]].concat()),
        session_is("15 a session with a padding bit 1", dirty),
        session_is("15 token 4294967296 in a session", pack::contents(&[Some(4_294_967_296), None])),
        session_is("15 boolean 2 in a session", pack::contents(&[None, Some(2)])),
        rows_are("15 a row cut short", 0, rows[..room - 1].to_vec()),
        rows_are("15 a row with a padding bit 1", 0, dirty_rows),
        rows_are("15 token -1 in a row", 0, pack::contents(&[Some(1), Some(-1)])),
        rows_are("15 boolean 2 in a row", 2, pack::contents(&[Some(2)])),
        rows_are("15 a byte left over behind the last row", 0, [rows.as_slice(), &[0x80]].concat()),
        rows_are("15 a row of a table that holds no column", 1, vec![0]),
    ]
}
