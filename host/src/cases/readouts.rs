//! What the read-out prints.

use super::{prints, Case};
use crate::making::words::*;
use crate::reading::pack;
use crate::reading::sheet::Selector;

pub fn cases() -> Vec<Case> {
    let bare = sheet(&[Token, Integer], &[Token]).full_table();
    let tenant = vec![equal(col(0), key(0))];
    let two = bare
        .clone()
        .table(4, &[], &[0, 1])
        .permit("SU", Selector::All, &[tenant.clone()])
        .permit("S", Selector::InSchema(4), &[vec![within(col(1), &[1])]])
        .restrict("U", Selector::Table(1), &[vec![within(col(1), &[1]), within(col(1), &[2])], tenant.clone()])
        .permit("D", Selector::All, &[vec![within(col(0), &[3]), within(col(0), &[4])]]);
    let many =
        bare.clone().permit("SI", Selector::All, &vec![vec![]; 8]).restrict("S", Selector::All, &vec![vec![]; 8]);
    let many = many.restrict("S", Selector::All, &vec![tenant; 5]);
    vec![
        prints(
            "a table without policies",
            pack::sheet(&bare),
            "tables 1 policies 0\n0 S 0 dead isolated\n0 I 0 dead isolated\n0 U 0 dead isolated\n0 D 0 dead isolated\n",
        ),
        prints(
            "two tables, a leak and dead commands",
            pack::sheet(&two),
            "tables 2 policies 4\n\
             0 S 1 live isolated\n0 I 0 dead isolated\n0 U 1 live isolated\n0 D 1 dead isolated\n\
             1 S 2 live leaks 0 1\n1 I 0 dead isolated\n1 U 2 live isolated\n1 D 1 dead isolated\n",
        ),
        prints(
            "N over 256",
            pack::sheet(&many),
            "tables 1 policies 3\n0 S refused 13\n0 I 8 live leaks 0 0\n0 U 0 dead isolated\n0 D 0 dead isolated\n",
        ),
        prints("no byte at all", vec![], "refused 2\n"),
        prints("edition 2", vec![0x20, 0, 0], "refused 3\n"),
        prints("a byte left over", [pack::sheet(&bare), vec![0]].concat(), "refused 10\n"),
        prints("16,385 bytes", vec![0x10; 16_385], "refused 1\n"),
    ]
}
