//! Random questions, well-formed and damaged, for each call.

use super::random::Random;
use super::{damage, sheets};
use crate::question::Question;
use crate::reading::pack;
use crate::reading::sheet::Sheet;
use crate::reading::verdicts::branch_count;
use crate::reading::{ROW_LIST_BYTES, SHEET_BYTES};

/// The six calls.
pub const CALLS: [&str; 6] = ["branches", "dead", "isolated", "covers", "normal", "listing"];

/// Bytes that a lent output might hold before the call.
pub fn found(random: &mut Random, length: usize) -> Vec<u8> {
    let seed = random.bits() as u8;
    (0..length).map(|n| (n as u8).wrapping_mul(151).wrapping_add(seed)).collect()
}

/// A random question to the call.
pub fn question(random: &mut Random, call: &str) -> Question {
    let size = match random.below(12) {
        0 => sheets::CROWDED,
        1..=4 => sheets::ANY,
        _ => sheets::SMALL,
    };
    let made = sheets::sheet(random, size);
    let packed = match random.below(12) {
        0 if random.once_in(40) => at_the_limit(random, &made),
        0..=3 => {
            let other = sheets::sheet(random, sheets::SMALL);
            damage::sheet(random, &made, &other)
        }
        4 if random.once_in(8) => (0..random.below(64)).map(|_| random.bits() as u8).collect(),
        _ => pack::sheet(&made),
    };
    let (table, command) = asked(random, &made);
    match call {
        "branches" => Question::Branches { sheet: packed, table, command },
        "dead" => Question::Dead { sheet: packed, table, command },
        "isolated" => Question::Isolated { sheet: packed, table, command },
        "covers" => {
            let (a, b) = (number(random, made.policies.len()), number(random, made.policies.len()));
            Question::Covers { sheet: packed, a, b }
        }
        "normal" => {
            let length = room(random, packed.len());
            Question::Normal { sheet: packed, out: found(random, length) }
        }
        _ => listing(random, &made, packed, table, command),
    }
}

/// A sheet followed by zero bytes up to 16,384 bytes or a few more.
fn at_the_limit(random: &mut Random, made: &Sheet) -> Vec<u8> {
    let mut bytes = pack::sheet(made);
    bytes.resize(SHEET_BYTES + random.below(3), 0);
    bytes
}

/// A table and command: mostly such that some branch is there.
fn asked(random: &mut Random, made: &Sheet) -> (u32, u32) {
    let all = (0..made.tables.len()).flat_map(|table| (0..4).map(move |command| (table, command)));
    let busy: Vec<(usize, usize)> = all.filter(|&(table, command)| branch_count(made, table, command) > 0).collect();
    if busy.is_empty() || random.once_in(4) {
        return (number(random, made.tables.len()), number(random, 4));
    }
    let &(table, command) = random.pick(&busy);
    (table as u32, command as u32)
}

/// A number asked: mostly one that is there.
fn number(random: &mut Random, count: usize) -> u32 {
    match random.below(60) {
        0 => count as u32,
        1 => random.bits() as u32,
        2 => 256 * random.below(300) as u32,
        _ => random.below(count.max(1)) as u32,
    }
}

/// A length of lent output: mostly what is asked for, at times a little less or more.
fn room(random: &mut Random, needed: usize) -> usize {
    match random.below(20) {
        0 => needed.saturating_sub(random.between(1, 9)),
        1 => 0,
        2..=9 => needed,
        _ => needed + random.below(40),
    }
}

fn listing(random: &mut Random, made: &Sheet, sheet: Vec<u8>, table: u32, command: u32) -> Question {
    let of = (table as usize).min(made.tables.len() - 1);
    let mut session = sheets::session(random, made);
    let most = if random.once_in(50) { 200 } else { 12 };
    let mut rows = sheets::row_list(random, made, of, most);
    if random.once_in(12) {
        damage::bytes_of(random, &mut session);
    }
    if random.once_in(8) {
        damage::bytes_of(random, &mut rows);
    }
    if random.once_in(400) && !rows.is_empty() {
        rows = rows.repeat(ROW_LIST_BYTES / rows.len() + random.below(2));
    }
    let length = room(random, rows.len());
    Question::Listing { sheet, table, command, session, rows, out: found(random, length) }
}
