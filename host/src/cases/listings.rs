//! Which rows are handed out, in a font manager's words: tenant, licence, locked.

use super::{Case, Wanted};
use crate::making::words::*;
use crate::reading::pack;
use crate::reading::sheet::{Clause, Content, Selector, Sheet, Test, Variable};

const TENANT: Variable = Variable::Column(0);
const SEATS: Variable = Variable::Column(1);
const LOCKED: Variable = Variable::Column(2);
const SESSION: Variable = Variable::Key(0);
const ROLE: Variable = Variable::Key(1);

/// Table 0 holds tenant (token), seats (integer) and locked (boolean), table 1 the tenant alone,
/// table 2 nothing; keys: the session's tenant and role (tokens).
fn licences() -> Sheet {
    sheet(&[Token, Integer, Boolean], &[Token, Token]).full_table().table(1, &[3], &[0]).table(2, &[], &[])
}

type Row = [Content; 3];

const ROWS: [Row; 6] = [
    [Some(7), Some(10), Some(0)],
    [Some(8), Some(-3), Some(1)],
    [Some(7), None, Some(1)],
    [None, Some(0), None],
    [Some(7), Some(10), Some(0)],
    [Some(9), Some(i64::MAX), None],
];

fn packed(row: &Row) -> Vec<u8> {
    pack::contents(row)
}

fn wanted(sheet: &Sheet, session: [Content; 2]) -> Wanted {
    let rows: Vec<u8> = ROWS.iter().flat_map(packed).collect();
    let room = rows.len();
    Wanted { sheet: pack::sheet(sheet), table: 0, command: 0, session: pack::contents(&session), rows, room }
}

fn admitted(places: &[usize]) -> Vec<Vec<u8>> {
    places.iter().map(|&place| packed(&ROWS[place])).collect()
}

fn of(name: &str, clauses: &[Clause], session: [Content; 2], places: &[usize]) -> Case {
    wanted(&licences().permit("S", Selector::Table(0), clauses), session).lists(name, &admitted(places))
}

pub fn cases() -> Vec<Case> {
    [atoms(), policies(), buffers()].concat()
}

fn atoms() -> Vec<Case> {
    let seven = [Some(7), None];
    let tenant = || equal(TENANT, SESSION);
    vec![
        of("the tenant's rows, a doubled one twice", &[vec![tenant()]], seven, &[0, 2, 4]),
        of("a session without a tenant gets none", &[vec![tenant()]], [None, Some(7)], &[]),
        of("a tenant without rows gets none", &[vec![tenant()]], [Some(6), None], &[]),
        of("seats = seats hides null", &[vec![equal(SEATS, SEATS)]], seven, &[0, 1, 3, 4, 5]),
        of("seats in [10, -3]", &[vec![within(SEATS, &[10, -3])]], seven, &[0, 1, 4]),
        of("seats not in [10] hides null", &[vec![without(SEATS, &[10])]], seven, &[1, 3, 5]),
        of("seats at most 0", &[vec![is(SEATS, Test::AtMost(0))]], seven, &[1, 3]),
        of("seats at least 10", &[vec![is(SEATS, Test::AtLeast(10))]], seven, &[0, 4, 5]),
        of("seats below 0", &[vec![is(SEATS, Test::Below(0))]], seven, &[1]),
        of("seats above 10", &[vec![is(SEATS, Test::Above(10))]], seven, &[5]),
        of("seats is null", &[vec![is(SEATS, Test::IsNull)]], seven, &[2]),
        of("locked is not null", &[vec![is(LOCKED, Test::IsNotNull)]], seven, &[0, 1, 2, 4]),
        of("locked in [0]", &[vec![within(LOCKED, &[0])]], seven, &[0, 4]),
        of("two atoms of one clause", &[vec![tenant(), within(LOCKED, &[1])]], seven, &[2]),
        of("two clauses", &[vec![within(LOCKED, &[1])], vec![is(TENANT, Test::IsNull)]], seven, &[1, 2, 3]),
        of("a key alone opens all", &[vec![within(ROLE, &[1])]], [None, Some(1)], &[0, 1, 2, 3, 4, 5]),
        of("a key alone closes all", &[vec![within(ROLE, &[1])]], [None, Some(2)], &[]),
        of("a key that is null is null", &[vec![is(ROLE, Test::IsNull)]], seven, &[0, 1, 2, 3, 4, 5]),
    ]
}

fn policies() -> Vec<Case> {
    let seven = [Some(7), Some(1)];
    let open = || licences().permit("S", Selector::All, &[vec![]]);
    let guarded = open().restrict("S", Selector::All, &[vec![equal(TENANT, SESSION)]]);
    let guarded = Sheet { tables: licences().tables[..2].to_vec(), ..guarded };
    let unlocked = |sheet: Sheet| sheet.restrict("S", Selector::HasColumn(2), &[vec![within(LOCKED, &[0])]]);
    let two = licences().permit("S", Selector::Table(0), &[vec![within(TENANT, &[8])]]).permit(
        "S",
        Selector::Table(0),
        &[vec![within(TENANT, &[9])]],
    );
    let update = licences().permit("U", Selector::Table(0), &[vec![]]);
    vec![
        wanted(&guarded, seven).lists("a restrictive policy beside an open one", &admitted(&[0, 2, 4])),
        wanted(&unlocked(guarded.clone()), seven).lists("two restrictive policies", &admitted(&[0, 4])),
        wanted(&two, seven).lists("two permissive policies", &admitted(&[1, 5])),
        wanted(&open().restrict("S", Selector::All, &[]), seven).lists("a restrictive policy without clauses", &[]),
        wanted(&licences().restrict("S", Selector::All, &[vec![]]), seven).lists("no permissive policy", &[]),
        wanted(&update, seven).lists("a policy for UPDATE says nothing of SELECT", &[]),
        Wanted { command: 2, ..wanted(&update, seven) }
            .lists("a policy for UPDATE under UPDATE", &admitted(&[0, 1, 2, 3, 4, 5])),
        wanted(&licences(), seven).lists("no policy at all", &[]),
    ]
}

fn buffers() -> Vec<Case> {
    let seven = [Some(7), Some(1)];
    let own = licences().permit("S", not(Selector::Table(2)), &[vec![equal(TENANT, SESSION)]]);
    let good = wanted(&own, seven);
    let names = [Some(8), Some(7), None].map(|tenant| pack::contents(&[tenant]));
    let narrow = Wanted { table: 1, rows: names.concat(), room: 100, ..good.clone() };
    let none = Wanted { table: 2, rows: vec![], room: 5, ..good.clone() };
    vec![
        Wanted { room: good.room + 40, ..good.clone() }
            .lists("output beyond the length is left as found", &admitted(&[0, 2, 4])),
        Wanted { rows: vec![], room: 0, ..good.clone() }.lists("no rows, no room", &[]),
        narrow.lists("a table that holds one column", &names[1..2]),
        none.lists("a table that holds no column, the empty list", &[]),
        Wanted { rows: packed(&ROWS[3]), room: 9, ..good }.lists("a row that starts with null", &[]),
    ]
}
