//! Two faults in one input: "1 comes first; then each field as it is reached, 2 before the field's
//! own fault, and 5, 6, 7 in that order within one field. ... Then 10, 11, 12, 13, 14, 15, 16."

use super::refusals::{behind, head, to_atom};
use super::{covers, dead, isolated, normal_refused, reads, Case, Wanted};
use crate::making::raw::Raw;
use crate::making::words::*;
use crate::reading::pack;
use crate::reading::sheet::Selector;

pub fn cases() -> Vec<Case> {
    [within_fields(), between_fields(), at_the_end(), asked()].concat()
}

/// The order within one field, and a field's fault before the next field's absence.
fn within_fields() -> Vec<Case> {
    // 95 bits stand before an atom's operator in this head, so that bytes end where wanted.
    let atom = |raw: Raw| raw.bytes();
    vec![
        reads("5 before 6: variable 24 is no key 8", behind(to_atom().variable(24).operator(0)), 5),
        reads("5 before 7: operator 9 on a boolean", behind(to_atom().variable(17).operator(9)), 5),
        reads(
            "6 before 7: a right side not there, its kind unknown",
            behind(to_atom().variable(1).operator(0).variable(5)),
            6,
        ),
        reads("5 before 7: a right side of 31", behind(to_atom().variable(1).operator(0).variable(31)), 5),
        reads("5 before 2: variable 24, the operator cut off", cut_behind(to_atom(), 24), 5),
        reads("6 before 2: variable 3, the operator cut off", cut_behind(to_atom(), 3), 6),
        reads("2: a variable cut off has no fault of its own", to_atom().field(3, 7).bytes(), 2),
        reads(
            "7 before 2: an order operator on a token, its value cut off",
            atom(to_atom().variable(1).operator(3)),
            7,
        ),
        reads("4 before 2: a list of nine, its values cut off", atom(to_atom().variable(1).operator(1).count(9)), 4),
        reads(
            "4 before 7: a list of none on a boolean",
            behind(to_atom().variable(17).operator(2).count(0).value(9)),
            4,
        ),
        reads("7 before 2: the first value bad, the second cut off", first_value_bad(), 7),
        reads("2 before 7: a value cut off that would be bad", bad_value_cut(), 2),
        reads("2 before 4: the clause count cut off", head_to_count(), 2),
        reads("7 before 5: a value not of the kind, then a bad operator", value_then_operator(), 7),
    ]
}

/// The atom's variable is the last field wholly there: 82 bits, six left in the last byte are
/// taken away with it, so the operator has two bits.
fn cut_behind(raw: Raw, variable: u64) -> Vec<u8> {
    let raw = raw.variable(variable);
    let mut bytes = raw.field(2, 0).bytes();
    bytes.truncate(11);
    bytes
}

fn first_value_bad() -> Vec<u8> {
    to_atom().variable(17).operator(1).count(2).value(2).bytes()
}

fn bad_value_cut() -> Vec<u8> {
    let mut bytes = to_atom().variable(17).operator(1).count(1).value(-1).bytes();
    bytes.pop();
    bytes
}

/// Behind the selector stand 69 bits; nine bytes leave three of the clause count's four.
fn head_to_count() -> Vec<u8> {
    let mut bytes = head().policy(0, 8).node(0).count(15).bytes();
    bytes.truncate(9);
    bytes
}

fn value_then_operator() -> Vec<u8> {
    head()
        .policy(0, 8)
        .node(0)
        .count(1)
        .count(2)
        .variable(17)
        .operator(1)
        .count(1)
        .value(5)
        .variable(0)
        .operator(9)
        .bytes()
}

/// The earlier field's fault counts, whatever its number.
fn between_fields() -> Vec<Case> {
    let two = Raw::header(1, 2, 2, 1, 2).kinds(&[0, 1, 1, 2]).table(0xC000);
    let seven_then_eight = two.clone().policy(0, 8).node(0).count(1).count(1).variable(1).operator(3).policy(0, 0);
    let eight_then_seven = two.clone().policy(0, 0).node(0).count(1).count(1).variable(1).operator(3);
    let deep = |raw: Raw| (0..7).fold(raw, |raw, _| raw.node(7));
    let nine_then_eight = deep(two.clone().policy(0, 8)).policy(0, 0);
    vec![
        reads("3 before 4: edition 2 of seventeen columns", Raw::header(2, 17, 1, 1, 0).bytes(), 3),
        reads("4 before 5: seventeen columns of kind 3", behind(Raw::header(1, 17, 1, 1, 0).kinds(&[3; 18])), 4),
        reads("4 before 4's neighbour 2: nine keys and nothing behind", Raw::header(1, 2, 9, 1, 0).bytes(), 4),
        reads("5 before 4: kind 3, then nine clauses", five_then_four(), 5),
        reads(
            "5 before 6: kind 3, then a held column not there",
            Raw::header(1, 1, 1, 1, 0).kinds(&[3, 0]).table(0xFFFF).bytes(),
            5,
        ),
        reads("6 before 5: a held column not there, then variable 24", six_then_five(), 6),
        reads("6 before 8: a held column not there, then no command", six_then_eight(), 6),
        reads("7 before 8: an order on a token, then no command", behind(seven_then_eight), 7),
        reads("8 before 7: no command, then an order on a token", behind(eight_then_seven), 8),
        reads("8 before 9: no command, then depth seven", behind(deep(head().policy(0, 0))), 8),
        reads("9 before 8: depth seven, then no command", behind(nine_then_eight), 9),
        reads(
            "6 before 9: a table not there at depth two",
            behind(deep(head().policy(0, 8).node(5).node(3).field(4, 1))),
            6,
        ),
        reads(
            "9 before 6: depth seven, then variable 23",
            behind(deep(head().policy(0, 8)).count(1).count(1).variable(23)),
            9,
        ),
        reads(
            "9 before 10: depth seven, then bytes left over",
            [deep(head().policy(0, 8)).bytes(), vec![255; 9]].concat(),
            9,
        ),
    ]
}

fn five_then_four() -> Vec<u8> {
    Raw::header(1, 1, 1, 1, 1).kinds(&[3, 0]).table(0x8000).policy(0, 8).node(0).count(9).bytes()
}

fn six_then_five() -> Vec<u8> {
    let head = Raw::header(1, 1, 1, 1, 1).kinds(&[0, 0]).table(0xC000);
    head.policy(0, 8).node(0).count(1).count(1).variable(24).operator(7).bytes()
}

fn six_then_eight() -> Vec<u8> {
    Raw::header(1, 1, 1, 1, 1).kinds(&[0, 0]).table(0x0001).policy(0, 0).node(0).count(0).bytes()
}

/// 10 and 11 behind all fields.
fn at_the_end() -> Vec<Case> {
    let lacking = pack::sheet(&sheet(&[Token], &[Token]).table(0, &[], &[]).permit(
        "S",
        Selector::All,
        &[vec![within(col(0), &[1])]],
    ));
    let mut padded = lacking.clone();
    *padded.last_mut().expect("some bytes") |= 1;
    let over = [lacking.clone(), vec![0]].concat();
    let seven = [to_atom().variable(17).operator(1).count(1).value(2).bytes(), vec![1, 2]].concat();
    vec![
        reads("7 before 10: a bad value, then bytes left over", seven, 7),
        reads("10 before 11: a padding bit 1, a column not held", padded, 10),
        reads("10 before 11: a byte left over, a column not held", over.clone(), 10),
        dead("10 before 12: a byte left over, table 9", over, (9, 9), [10, 0]),
        dead("11 before 12: a column not held, table 9", lacking.clone(), (9, 0), [11, 0]),
        covers("11 before 12: a column not held, policy 9", lacking.clone(), (9, 9), [11, 0]),
        normal_refused("11 before 14: a column not held, no room", lacking, 0, 11),
    ]
}

/// 12 to 15, in the calls that know them.
fn asked() -> Vec<Case> {
    let faces = sheet(&[Token], &[Token]).full_table();
    let many = (0..2).fold(faces.clone(), |faces, n| faces.policy(n > 0, "S", Selector::All, &vec![vec![]; 8]));
    let many = pack::sheet(&many.restrict("S", Selector::All, &vec![vec![]; 5]));
    let one = pack::sheet(&faces.permit("S", Selector::All, &[vec![]]));
    let short = pack::sheet(&sheet(&[], &[Token]).table(0, &[], &[]));
    let wanted = Wanted { sheet: one.clone(), table: 0, command: 0, session: vec![0], rows: vec![0; 3], room: 3 };
    let with = |change: fn(&mut Wanted)| {
        let mut wanted = wanted.clone();
        change(&mut wanted);
        wanted
    };
    vec![
        dead("12 before 13: command 4, N of 320 for SELECT", many.clone(), (0, 4), [12, 0]),
        isolated("12 before 13: table 1 of one", many.clone(), (1, 0), [12, 0, 0, 0]),
        dead("N of 320 is refused only where it is asked for", many, (0, 1), [0, 1]),
        with(|w| (w.table, w.room) = (1, 2)).refused("12 before 14: table 1 of one, no room", 12),
        with(|w| (w.command, w.session) = (4, vec![])).refused("12 before 15: command 4, no session", 12),
        with(|w| (w.room, w.session) = (2, vec![])).refused("14 before 15: no room, no session", 14),
        with(|w| (w.room, w.rows) = (0, vec![255])).refused("14 before 15: no room, a row cut short", 14),
        with(|w| (w.session, w.rows, w.room) = (vec![1], vec![255], 1)).refused("15: session and rows both bad", 15),
        with(|w| (w.sheet, w.room) = (vec![0x20], 0)).refused("3 before 14: edition 2, no room", 3),
        normal_refused("2 before 14: a sheet cut short, no room", one[..3].to_vec(), 0, 2),
        normal_refused(
            "14 where the normal form itself would fit",
            {
                let twice = sheet(&[Token], &[Token]).full_table().permit("S", Selector::All, &vec![vec![]; 2]);
                pack::sheet(&twice.permit("S", Selector::All, &vec![vec![within(col(0), &[1, 1, 1])]; 2]))
            },
            30,
            14,
        ),
        covers("12: no policy at all", short, (0, 0), [12, 0]),
    ]
}
