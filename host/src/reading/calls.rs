//! The six public calls, refusals 12 to 16 in their order. A refusal changes no output byte.

use super::admission::{is_admitted, look_up, policies_that_count};
use super::parse::parse;
use super::sheet::Sheet;
use super::verdicts::{self, Isolation};
use super::{normal, pack, rows, Refusal, MOST_BRANCHES};

/// What a listing wrote: its length in bytes and its row count.
#[derive(Clone, Copy, Debug, PartialEq, Eq)]
pub struct Listed {
    pub length: usize,
    pub rows: usize,
}

/// 12: "table or policy number asked not there, or command over 3".
fn asked(sheet: &Sheet, table: u32, command: u32) -> Result<(usize, usize), Refusal> {
    let (table, command) = (table as usize, command as usize);
    if table < sheet.tables.len() && command < 4 {
        Ok((table, command))
    } else {
        Err(Refusal(12))
    }
}

/// 13: "N over 256 (dead and isolated only)".
fn few_branches(sheet: &Sheet, table: usize, command: usize) -> Result<(), Refusal> {
    if verdicts::branch_count(sheet, table, command) > MOST_BRANCHES {
        return Err(Refusal(13));
    }
    Ok(())
}

/// Lists the rows that the session may see, in the list's order.
pub fn listing(
    sheet: &[u8],
    table: u32,
    command: u32,
    session: &[u8],
    row_list: &[u8],
    out: &mut [u8],
) -> Result<Listed, Refusal> {
    let sheet = parse(sheet)?;
    let (table, command) = asked(&sheet, table, command)?;
    if out.len() < row_list.len() {
        return Err(Refusal(14));
    }
    let keys = rows::session(&sheet, session)?;
    let row_list = rows::row_list(&sheet, table, row_list)?;
    let (permissive, restrictive) = policies_that_count(&sheet, table, command);
    let mut listed = Listed { length: 0, rows: 0 };
    for row in row_list {
        if is_admitted(&permissive, &restrictive, look_up(&row.columns, &keys)) {
            let end = listed.length + row.bytes.len();
            out[listed.length..end].copy_from_slice(row.bytes);
            listed = Listed { length: end, rows: listed.rows + 1 };
        }
    }
    Ok(listed)
}

/// Writes the normal form and gives its length.
pub fn normal_form(sheet: &[u8], out: &mut [u8]) -> Result<usize, Refusal> {
    let read = parse(sheet)?;
    if out.len() < sheet.len() {
        return Err(Refusal(14));
    }
    let normal = pack::sheet(&normal::normal_form(&read));
    if normal.len() > sheet.len() {
        return Err(Refusal(16));
    }
    out[..normal.len()].copy_from_slice(&normal);
    Ok(normal.len())
}

/// Is no row and session admitted?
pub fn dead(sheet: &[u8], table: u32, command: u32) -> Result<bool, Refusal> {
    let sheet = parse(sheet)?;
    let (table, command) = asked(&sheet, table, command)?;
    few_branches(&sheet, table, command)?;
    Ok(verdicts::is_dead(&sheet, table, command))
}

/// Is no row admitted for two sessions of different tenants, or which two branches leak first?
pub fn isolated(sheet: &[u8], table: u32, command: u32) -> Result<Isolation, Refusal> {
    let sheet = parse(sheet)?;
    let (table, command) = asked(&sheet, table, command)?;
    few_branches(&sheet, table, command)?;
    Ok(verdicts::isolation(&sheet, table, command))
}

/// Does policy a cover policy b?
pub fn covers(sheet: &[u8], a: u32, b: u32) -> Result<bool, Refusal> {
    let sheet = parse(sheet)?;
    match (sheet.policies.get(a as usize), sheet.policies.get(b as usize)) {
        (Some(a), Some(b)) => Ok(verdicts::policy_covers(&sheet, a, b)),
        _ => Err(Refusal(12)),
    }
}

/// N, at any size.
pub fn branches(sheet: &[u8], table: u32, command: u32) -> Result<u64, Refusal> {
    let sheet = parse(sheet)?;
    let (table, command) = asked(&sheet, table, command)?;
    Ok(verdicts::branch_count(&sheet, table, command))
}
