//! The two example sheets, from a font manager for post houses.
//!
//! Table 0 faces, table 1 licences, table 2 title layouts. Key 0 is the session's post house, key 1
//! its role. The first sheet stands as the engineers wrote it; the second is mended.

use crate::making::words::*;
use crate::reading::sheet::{Selector, Sheet, Test, Variable};

const HOUSE: Variable = Variable::Column(0);
const SEATS: Variable = Variable::Column(2);
const RELEASED: Variable = Variable::Column(3);
const SESSION_HOUSE: Variable = Variable::Key(0);
const ROLE: Variable = Variable::Key(1);

/// Columns house, face (tokens), seats (integer), released (boolean); keys house and role (tokens).
fn tables() -> Sheet {
    sheet(&[Token, Token, Integer, Boolean], &[Token, Token]).table(0, &[0], &[0, 1]).table(0, &[0], &[0, 1, 2]).table(
        1,
        &[0],
        &[0, 1, 3],
    )
}

/// Faces are isolated; two licence policies contradict each other, so licences are dead; a title
/// layout whose `released` is merely not null is shown to every house: a leak.
pub fn fonts() -> Sheet {
    let own = || vec![equal(HOUSE, SESSION_HOUSE)];
    tables()
        .permit("S", Selector::Table(0), &[own()])
        .permit("S", Selector::Table(1), &[vec![equal(HOUSE, SESSION_HOUSE), is(SEATS, Test::AtLeast(1))]])
        .restrict("SIUD", Selector::HasColumn(2), &[vec![is(SEATS, Test::Below(1))]])
        .permit("S", Selector::InSchema(1), &[own(), vec![is(RELEASED, Test::IsNotNull)]])
        .permit("IUD", Selector::Tag(0), &[vec![equal(HOUSE, SESSION_HOUSE), within(ROLE, &[1])]])
}

/// The contradiction is gone, and a restrictive policy keeps every table to its own house.
pub fn mended() -> Sheet {
    let own = || vec![equal(HOUSE, SESSION_HOUSE)];
    tables()
        .permit("S", Selector::Table(0), &[own()])
        .permit("S", Selector::Table(1), &[vec![equal(HOUSE, SESSION_HOUSE), is(SEATS, Test::AtLeast(1))]])
        .restrict("SIUD", Selector::HasColumn(2), &[vec![is(SEATS, Test::Above(0))]])
        .permit("S", Selector::InSchema(1), &[own(), vec![within(RELEASED, &[1])]])
        .permit("IUD", Selector::Tag(0), &[vec![equal(HOUSE, SESSION_HOUSE), within(ROLE, &[1])]])
        .restrict("SIUD", Selector::Tag(0), &[own()])
}

/// Each example's file name, sheet and read-out, worked out by hand.
pub fn examples() -> [(&'static str, Sheet, &'static str); 2] {
    [
        (
            "fonts",
            fonts(),
            "tables 3 policies 5\n\
             0 S 1 live isolated\n0 I 1 live isolated\n0 U 1 live isolated\n0 D 1 live isolated\n\
             1 S 1 dead isolated\n1 I 1 live isolated\n1 U 1 live isolated\n1 D 1 live isolated\n\
             2 S 2 live leaks 0 1\n2 I 1 live isolated\n2 U 1 live isolated\n2 D 1 live isolated\n",
        ),
        (
            "fonts-mended",
            mended(),
            "tables 3 policies 6\n\
             0 S 1 live isolated\n0 I 1 live isolated\n0 U 1 live isolated\n0 D 1 live isolated\n\
             1 S 1 live isolated\n1 I 1 live isolated\n1 U 1 live isolated\n1 D 1 live isolated\n\
             2 S 2 live isolated\n2 I 1 live isolated\n2 U 1 live isolated\n2 D 1 live isolated\n",
        ),
    ]
}
