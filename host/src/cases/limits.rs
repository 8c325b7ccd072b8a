//! Each limit at its edge and past it.

use super::{branches, covers, dead, isolated, normal, reads, Case, Wanted};
use crate::making::raw::Raw;
use crate::making::words::*;
use crate::reading::pack;
use crate::reading::sheet::{Clause, Kind, Selector, Sheet, Test};

/// One table of one column and a policy with something of everything.
pub fn sample() -> Sheet {
    let selector =
        or(and(Selector::HasColumn(0), not(Selector::Tag(7))), or(Selector::InSchema(5), Selector::Table(0)));
    let first = vec![equal(col(1), key(0)), within(col(2), &[1]), is(col(0), Test::Below(10))];
    let second = vec![is(key(1), Test::IsNull), without(col(1), &[3, 4]), is(col(0), Test::IsNotNull)];
    sheet(&[Integer, Token, Boolean], &[Token, Integer])
        .table(5, &[0, 7], &[0, 1, 2])
        .permit("SU", selector, &[first, second])
        .restrict("S", Selector::All, &[vec![], vec![is(col(0), Test::AtLeast(-3))]])
}

/// A sheet cut at a byte always lacks a field: 2.
pub fn truncated() -> Vec<Case> {
    let whole = pack::sheet(&sample());
    let mut cases: Vec<Case> = (0..whole.len())
        .map(|length| reads(&format!("2 cut behind {length} bytes"), whole[..length].to_vec(), 2))
        .collect();
    cases.push(branches("whole: two clauses by two", whole.clone(), (0, 0), [0, 4]));
    cases.push(branches("whole: UPDATE has two", whole.clone(), (0, 2), [0, 2]));
    cases.push(branches("whole: INSERT has none", whole, (0, 1), [0, 0]));
    cases
}

/// `permissive` policies of no atoms with these clause counts, and restrictive ones.
fn counted(permissive: &[usize], restrictive: &[usize]) -> Sheet {
    let bare = sheet(&[], &[Token]).table(0, &[], &[]);
    let open = |sheet: Sheet, restrictive, &n: &usize| sheet.policy(restrictive, "S", Selector::All, &vec![vec![]; n]);
    let sheet = permissive.iter().fold(bare, |sheet, n| open(sheet, false, n));
    restrictive.iter().fold(sheet, |sheet, n| open(sheet, true, n))
}

fn nested(nots: usize) -> Selector {
    (0..nots).fold(Selector::All, |inner, _| not(inner))
}

fn header(columns: usize, keys: usize, tables: usize) -> Sheet {
    let empty = sheet(&vec![Integer; columns], &vec![Boolean; keys]);
    (0..tables).fold(empty, |sheet, _| sheet.full_table())
}

pub fn cases() -> Vec<Case> {
    [counts(), depths(), values(), numbers(), branch_counts()].concat()
}

fn counts() -> Vec<Case> {
    let none = |name: &str, sheet: Sheet| branches(name, pack::sheet(&sheet), (0, 0), [0, 0]);
    let atoms = |count: usize| vec![is(key(0), Test::IsNotNull); count];
    let list =
        |count| pack::sheet(&header(1, 1, 1).permit("S", Selector::All, &[vec![within(col(0), &vec![1; count])]]));
    let nine = Raw::header(1, 1, 1, 1, 1).kinds(&[0, 2]).table(0x8000).policy(0, 8).node(0).count(1).count(1);
    let nine = (0..9).fold(nine.variable(0).operator(1).count(9), |raw, _| raw.value(1));
    vec![
        none("no column, one key, one table, no policy", header(0, 1, 1)),
        none("sixteen columns", header(16, 1, 1)),
        none("eight keys", header(1, 8, 1)),
        none("sixteen tables", header(1, 1, 16)),
        branches("sixteen policies", pack::sheet(&counted(&[1; 16], &[])), (0, 0), [0, 16]),
        branches("eight clauses", pack::sheet(&counted(&[8], &[])), (0, 0), [0, 8]),
        branches("eight atoms", pack::sheet(&header(0, 1, 1).permit("S", Selector::All, &[atoms(8)])), (0, 0), [0, 1]),
        branches("a list of eight", list(8), (0, 0), [0, 1]),
        reads("4 a list of nine", nine.bytes(), 4),
        branches("table 15 of sixteen", pack::sheet(&header(1, 1, 16)), (15, 3), [0, 0]),
        branches("12 table 16 of sixteen", pack::sheet(&header(1, 1, 16)), (16, 3), [12, 0]),
        covers("policy 15 of sixteen", pack::sheet(&counted(&[1; 16], &[])), (15, 0), [0, 1]),
        covers("12 policy 16 of sixteen", pack::sheet(&counted(&[1; 16], &[])), (15, 16), [12, 0]),
    ]
}

fn depths() -> Vec<Case> {
    let deep = |selector| pack::sheet(&header(0, 1, 1).permit("S", selector, &[vec![]]));
    vec![
        branches("depth one: a lone leaf", deep(nested(0)), (0, 0), [0, 1]),
        branches("depth two: not all", deep(nested(1)), (0, 0), [0, 0]),
        branches("depth six: a leaf under five nots", deep(nested(5)), (0, 0), [0, 0]),
        branches(
            "depth six on the right of ands",
            deep((0..5).fold(Selector::All, |s, _| and(Selector::All, s))),
            (0, 0),
            [0, 1],
        ),
        reads("9 depth seven: a leaf under six nots", deep(nested(6)), 9),
        reads("9 depth seven on the right", deep((0..6).fold(Selector::All, |s, _| and(Selector::All, s))), 9),
        branches("schema 63 asked for, 0 had", deep(Selector::InSchema(63)), (0, 0), [0, 0]),
        branches("tag 7 asked for, none had", deep(not(Selector::Tag(7))), (0, 0), [0, 1]),
    ]
}

/// Values at the ends of their kinds, in sheets, sessions and rows.
fn values() -> Vec<Case> {
    let ends = |kind: Kind| {
        let (least, greatest) = kind.range();
        let one = sheet(&[kind], &[kind]).full_table();
        (
            one.permit("S", Selector::All, &[vec![within(col(0), &[least, greatest]), equal(col(0), key(0))]]),
            least,
            greatest,
        )
    };
    let listed = |name: &str, kind: Kind| {
        let (sheet, least, greatest) = ends(kind);
        let rows: Vec<Vec<u8>> = [Some(least), Some(greatest), None].map(|content| pack::contents(&[content])).to_vec();
        let bytes = rows.concat();
        let session = pack::contents(&[Some(greatest)]);
        let room = bytes.len();
        Wanted { sheet: pack::sheet(&sheet), table: 0, command: 0, session, rows: bytes, room }.lists(name, &rows[1..2])
    };
    vec![
        listed("the ends of the integers", Integer),
        listed("the ends of the tokens", Token),
        listed("the ends of the booleans", Boolean),
        dead("at least the last integer is met", bound(Test::AtLeast(i64::MAX)), (0, 0), [0, 0]),
        dead("at most the first integer is met", bound(Test::AtMost(i64::MIN)), (0, 0), [0, 0]),
        dead("above the last integer is not", bound(Test::Above(i64::MAX)), (0, 0), [0, 1]),
        dead("below the first integer is not", bound(Test::Below(i64::MIN)), (0, 0), [0, 1]),
    ]
}

fn bound(test: Test) -> Vec<u8> {
    pack::sheet(&header(1, 1, 1).permit("S", Selector::All, &[vec![is(col(0), test)]]))
}

/// Numbers asked, at their edges.
fn numbers() -> Vec<Case> {
    let one = pack::sheet(&counted(&[1], &[]));
    vec![
        branches("command 3", one.clone(), (0, 3), [0, 0]),
        branches("12 command 4", one.clone(), (0, 4), [12, 0]),
        branches("12 command 4294967295", one.clone(), (0, u32::MAX), [12, 0]),
        branches("12 table 4294967295", one, (u32::MAX, 0), [12, 0]),
    ]
}

/// "N of 256 and 258 (no sheet has 257)".
fn branch_counts() -> Vec<Case> {
    let even = pack::sheet(&counted(&[8; 8], &[4]));
    let many = pack::sheet(&counted(&[8, 8, 8, 8, 8, 3], &[2, 3]));
    let also = pack::sheet(&counted(&[8, 8], &[2, 8]));
    vec![
        branches("N of 256", even.clone(), (0, 0), [0, 256]),
        dead("N of 256 is judged", even.clone(), (0, 0), [0, 0]),
        isolated("N of 256 leaks 0 0", even, (0, 0), [0, 1, 0, 0]),
        branches("N of 256 otherwise made", also.clone(), (0, 0), [0, 256]),
        isolated("N of 256 otherwise made leaks 0 0", also, (0, 0), [0, 1, 0, 0]),
        branches("N of 258", many.clone(), (0, 0), [0, 258]),
        dead("13 dead: N of 258", many.clone(), (0, 0), [13, 0]),
        isolated("13 isolated: N of 258", many.clone(), (0, 0), [13, 0, 0, 0]),
        isolated("N of 258 is for SELECT alone", many, (0, 2), [0, 0, 0, 0]),
        branches("sixteen permissive policies of eight", pack::sheet(&counted(&[8; 16], &[])), (0, 0), [0, 128]),
    ]
}

/// A sheet of exactly `bytes` bytes: full lists, then atoms without values to come near, then
/// not-in lists of one value.
pub fn sheet_of(bytes: usize) -> Sheet {
    let full: Clause = vec![without(col(0), &[1, 2, 3, 4, 5, 6, 7, 8]); 8];
    let mut sheet = header(1, 1, 1);
    let size = |sheet: &Sheet| pack::sheet(sheet).len();
    while size(&sheet) + 9 * 525 / 8 + 8 < bytes {
        if sheet.policies.last().is_none_or(|policy| policy.clauses.len() == 8) {
            sheet = sheet.permit("S", Selector::All, &[]);
        }
        sheet.policies.last_mut().expect("one").clauses.push(full.clone());
    }
    sheet = sheet.permit("S", Selector::All, &[]);
    for atom in [without(col(0), &[1, 2, 3, 4, 5, 6, 7, 8]), without(col(0), &[1]), is(col(0), Test::IsNotNull)] {
        loop {
            let mut longer = sheet.clone();
            let clauses = &mut longer.policies.last_mut().expect("one").clauses;
            match clauses.last_mut() {
                Some(clause) if clause.len() < 8 => clause.push(atom.clone()),
                _ => clauses.push(vec![atom.clone()]),
            }
            if size(&longer) > bytes {
                break;
            }
            sheet = longer;
        }
    }
    assert_eq!(size(&sheet), bytes);
    sheet
}

/// Sheets of 16,384 bytes and one more, row lists of 65,536 bytes and one more.
pub fn large() -> Vec<Case> {
    let full = sheet_of(16_384);
    let packed = pack::sheet(&full);
    let one_more = pack::sheet(&sheet_of(16_385));
    let clauses: u64 = full.policies.iter().map(|policy| policy.clauses.len() as u64).sum();
    let open = pack::sheet(&sheet(&[Integer], &[Token]).full_table().permit(
        "S",
        Selector::All,
        &[vec![is(col(0), Test::IsNull)]],
    ));
    let row = pack::contents(&[Some(5)]);
    let null = pack::contents(&[None]);
    let rows = |bytes: usize| [row.repeat(bytes / 9), null.repeat(bytes % 9)].concat();
    let list = |bytes: usize, room: usize| Wanted {
        sheet: open.clone(),
        table: 0,
        command: 0,
        session: vec![0],
        rows: rows(bytes),
        room,
    };
    vec![
        branches("a sheet of 16,384 bytes", packed.clone(), (0, 0), [0, clauses]),
        covers("a sheet of 16,384 bytes covers itself", packed, (0, 0), [0, 1]),
        reads("1 a well-formed sheet of one byte more", one_more, 1),
        reads("1 before 3: 16,385 zero bytes", vec![0; 16_385], 1),
        reads("1 before 10: a sheet and zero bytes behind it", [pack::sheet(&sample()), vec![0; 16_384]].concat(), 1),
        dead("1 before 12: 16,385 bytes of ones, table 99", vec![255; 16_385], (99, 99), [1, 0]),
        super::normal_refused("1 before 14: 20,000 bytes, no room", vec![0x10; 20_000], 0, 1),
        reads("3 16,384 zero bytes", vec![0; 16_384], 3),
        list(65_536, 65_536).lists("a row list of 65,536 bytes, the nulls at its end", &vec![null.clone(); 65_536 % 9]),
        list(65_537, 65_537).refused("15 a row list of 65,537 bytes", 15),
        list(65_537, 65_536).refused("14 before 15: a row list of 65,537 bytes, room for one less", 14),
        normal("a small sheet in a large one's place", &sample(), &sample_normal()),
    ]
}

/// By hand: below 10 becomes at most 9; atoms and clauses by their bits (a variable's number leads);
/// the restrictive policy's open clause covers the other.
fn sample_normal() -> Sheet {
    let mut normal = sample();
    let first = vec![is(col(0), Test::AtMost(9)), equal(col(1), key(0)), within(col(2), &[1])];
    let second = vec![is(col(0), Test::IsNotNull), without(col(1), &[3, 4]), is(key(1), Test::IsNull)];
    normal.policies[0].clauses = vec![first, second];
    normal.policies[1].clauses = vec![vec![]];
    normal
}
