//! Making a failing question small: parts of the sheet go first, then rows and keys, then bytes.

use crate::question::Question;
use crate::reading::pack;
use crate::reading::parse::parse;
use crate::reading::sheet::{Atom, Policy, Selector, Sheet, Test, Variable};

/// Steps tried at most, so that shrinking ends soon.
const PATIENCE: usize = 20_000;

/// The smallest question found for which `fails` still holds.
pub fn smallest(mut question: Question, fails: impl Fn(&Question) -> bool) -> Question {
    let mut tried = 0;
    loop {
        let smaller = smaller(&question).into_iter().take_while(|_| {
            tried += 1;
            tried < PATIENCE
        });
        match smaller.into_iter().find(|candidate| *candidate != question && fails(candidate)) {
            Some(found) => question = found,
            None => return question,
        }
    }
}

/// Questions a step smaller.
fn smaller(question: &Question) -> Vec<Question> {
    let with_sheet = |sheet: Vec<u8>| {
        let mut changed = question.clone();
        *changed.sheet_mut() = sheet;
        changed
    };
    let mut found = Vec::new();
    match parse(question.sheet()) {
        Ok(sheet) => {
            found.extend(smaller_sheets(&sheet).iter().map(|sheet| with_sheet(pack::sheet(sheet))));
            found.extend((0..sheet.tables.len()).map(|table| without_table(question, &sheet, table)));
        }
        Err(_) => found.extend(smaller_bytes(question.sheet()).into_iter().map(with_sheet)),
    }
    if let Question::Listing { session, rows, .. } = question {
        found.extend(smaller_bytes(rows).into_iter().map(|bytes| change(question, |_, rows| *rows = bytes)));
        found.extend(smaller_bytes(session).into_iter().map(|bytes| change(question, |session, _| *session = bytes)));
    }
    if let Question::Listing { out, .. } | Question::Normal { out, .. } = question {
        for length in [0, out.len() / 2, out.len().saturating_sub(1)] {
            found.push(change_out(question, length));
        }
    }
    found
}

fn change(question: &Question, edit: impl FnOnce(&mut Vec<u8>, &mut Vec<u8>)) -> Question {
    let mut changed = question.clone();
    if let Question::Listing { session, rows, .. } = &mut changed {
        edit(session, rows);
    }
    changed
}

/// The question over a sheet that lacks a table; those behind it, and the one asked for, move up.
fn without_table(question: &Question, sheet: &Sheet, table: usize) -> Question {
    let mut changed = question.clone();
    if sheet.tables.len() == 1 {
        return changed;
    }
    let mut smaller = sheet.clone();
    smaller.tables.remove(table);
    *changed.sheet_mut() = pack::sheet(&smaller);
    match &mut changed {
        Question::Branches { table: asked, .. }
        | Question::Dead { table: asked, .. }
        | Question::Isolated { table: asked, .. }
        | Question::Listing { table: asked, .. }
            if *asked as usize > table =>
        {
            *asked -= 1;
        }
        _ => {}
    }
    changed
}

fn change_out(question: &Question, length: usize) -> Question {
    let mut changed = question.clone();
    if let Question::Listing { out, .. } | Question::Normal { out, .. } = &mut changed {
        out.truncate(length);
    }
    changed
}

/// Byte strings a step smaller: cut, a part taken out, a byte cleared.
fn smaller_bytes(bytes: &[u8]) -> Vec<Vec<u8>> {
    let length = bytes.len();
    let mut found = vec![bytes[..length / 2].to_vec(), bytes[..length.saturating_sub(1)].to_vec()];
    for part in [64, 17, 9, 1] {
        for start in (0..length.saturating_sub(part - 1)).step_by(part).take(200) {
            found.push([&bytes[..start], &bytes[start + part..]].concat());
        }
    }
    for place in (0..length).filter(|&place| bytes[place] != 0).take(300) {
        for kept in [0, bytes[place] & (bytes[place] - 1)] {
            let mut cleared = bytes.to_vec();
            cleared[place] = kept;
            found.push(cleared);
        }
    }
    found
}

/// Sheets a step smaller: without a policy, clause, atom or value, a column or the last key, or
/// with a plainer selector, fewer commands, smaller values.
fn smaller_sheets(sheet: &Sheet) -> Vec<Sheet> {
    let mut found = Vec::new();
    let mut offer = |edit: &dyn Fn(&mut Sheet)| {
        let mut smaller = sheet.clone();
        edit(&mut smaller);
        found.push(smaller);
    };
    for p in 0..sheet.policies.len() {
        offer(&|sheet| drop(sheet.policies.remove(p)));
    }
    for column in (0..sheet.columns.len()).rev().filter(|&column| !uses(sheet, Variable::Column(column))) {
        offer(&|sheet| without_column(sheet, column));
    }
    if sheet.keys.len() > 1 && !uses(sheet, Variable::Key(sheet.keys.len() - 1)) {
        offer(&|sheet| sheet.keys.truncate(sheet.keys.len() - 1));
    }
    for (p, policy) in sheet.policies.iter().enumerate() {
        for (c, clause) in policy.clauses.iter().enumerate() {
            offer(&|sheet| drop(sheet.policies[p].clauses.remove(c)));
            for (a, atom) in clause.iter().enumerate() {
                offer(&|sheet| drop(sheet.policies[p].clauses[c].remove(a)));
                for smaller in smaller_atoms(atom) {
                    offer(&|sheet| sheet.policies[p].clauses[c][a] = smaller.clone());
                }
            }
        }
        for selector in smaller_selectors(&policy.selector) {
            offer(&|sheet| sheet.policies[p].selector = selector.clone());
        }
        for command in (0..4).filter(|&command| fewer_commands(policy, command)) {
            offer(&|sheet| sheet.policies[p].commands[command] = false);
        }
    }
    for table in 0..sheet.tables.len() {
        offer(&|sheet| (sheet.tables[table].tags, sheet.tables[table].schema) = ([false; 8], 0));
    }
    found
}

fn fewer_commands(policy: &Policy, command: usize) -> bool {
    policy.commands[command] && policy.commands.iter().filter(|&&named| named).count() > 1
}

fn uses(sheet: &Sheet, variable: Variable) -> bool {
    let in_atom = |atom: &Atom| atom.variable == variable || atom.test == Test::Equals(variable);
    sheet.policies.iter().flat_map(|policy| &policy.clauses).flatten().any(in_atom)
}

/// The column is held by no table any more, and gone if it was the last.
fn without_column(sheet: &mut Sheet, column: usize) {
    for table in &mut sheet.tables {
        table.holds[column] = false;
    }
    if column == sheet.columns.len() - 1 {
        sheet.columns.pop();
    }
}

fn smaller_atoms(atom: &Atom) -> Vec<Atom> {
    let with = |test| Atom { variable: atom.variable, test };
    let lists = |list: &[i64]| -> Vec<Vec<i64>> {
        let mut shorter: Vec<Vec<i64>> = Vec::new();
        for place in 0..list.len() {
            if list.len() > 1 {
                shorter.push([&list[..place], &list[place + 1..]].concat());
            }
            if list[place] != 0 {
                let mut plainer = list.to_vec();
                plainer[place] = if (0..=5).contains(&list[place]) { list[place] - 1 } else { 5 };
                shorter.push(plainer);
            }
        }
        shorter
    };
    match &atom.test {
        Test::In(list) => lists(list).into_iter().map(|list| with(Test::In(list))).collect(),
        Test::NotIn(list) => lists(list).into_iter().map(|list| with(Test::NotIn(list))).collect(),
        Test::AtMost(v) if *v != 0 => vec![with(Test::AtMost(0))],
        Test::AtLeast(v) if *v != 0 => vec![with(Test::AtLeast(0))],
        Test::Below(v) if *v != 0 => vec![with(Test::Below(0))],
        Test::Above(v) if *v != 0 => vec![with(Test::Above(0))],
        _ => vec![],
    }
}

fn smaller_selectors(selector: &Selector) -> Vec<Selector> {
    match selector {
        Selector::All => vec![],
        Selector::And(left, right) | Selector::Or(left, right) => vec![Selector::All, *left.clone(), *right.clone()],
        Selector::Not(inner) => vec![Selector::All, *inner.clone()],
        _ => vec![Selector::All],
    }
}
