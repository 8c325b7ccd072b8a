//! Sheets, sessions and rows as SQL.
//!
//! Integers and tokens are bigint, booleans boolean; a key is a setting, the empty text standing for
//! null. The equality of a key with itself is written "is not null", which 01 says it means:
//! PostgreSQL 15 gives up on the bare form ("cannot cope with variable-free clause").

use crate::reading::sheet::{Atom, Clause, Content, Kind, Policy, Sheet, Test, Variable, COMMANDS};
use std::fmt::Write;

/// A value of the kind.
pub fn value(kind: Kind, value: i64) -> String {
    match kind {
        Kind::Boolean => (value == 1).to_string(),
        _ => format!("'{value}'::bigint"),
    }
}

fn content(kind: Kind, content: Content) -> String {
    content.map_or_else(|| "null".to_string(), |held| value(kind, held))
}

fn type_of(kind: Kind) -> &'static str {
    match kind {
        Kind::Boolean => "boolean",
        _ => "bigint",
    }
}

fn variable(sheet: &Sheet, variable: Variable) -> String {
    match variable {
        Variable::Column(n) => format!("c{n}"),
        Variable::Key(n) => format!("nullif(current_setting('key.k{n}', true), '')::{}", type_of(sheet.keys[n])),
    }
}

fn atom(sheet: &Sheet, atom: &Atom) -> String {
    let kind = sheet.kind(atom.variable);
    let left = variable(sheet, atom.variable);
    let list = |values: &[i64]| values.iter().map(|&held| value(kind, held)).collect::<Vec<_>>().join(", ");
    match &atom.test {
        Test::Equals(other) if *other == atom.variable && matches!(other, Variable::Key(_)) => {
            format!("{left} is not null")
        }
        Test::Equals(other) => format!("{left} = {}", variable(sheet, *other)),
        Test::In(values) => format!("{left} in ({})", list(values)),
        Test::NotIn(values) => format!("{left} not in ({})", list(values)),
        Test::AtMost(bound) => format!("{left} <= {}", value(kind, *bound)),
        Test::AtLeast(bound) => format!("{left} >= {}", value(kind, *bound)),
        Test::Below(bound) => format!("{left} < {}", value(kind, *bound)),
        Test::Above(bound) => format!("{left} > {}", value(kind, *bound)),
        Test::IsNull => format!("{left} is null"),
        Test::IsNotNull => format!("{left} is not null"),
    }
}

fn clause(sheet: &Sheet, clause: &Clause) -> String {
    let atoms: Vec<String> = clause.iter().map(|one| format!("({})", atom(sheet, one))).collect();
    if atoms.is_empty() {
        "true".to_string()
    } else {
        atoms.join(" and ")
    }
}

/// A policy's predicate.
pub fn predicate(sheet: &Sheet, policy: &Policy) -> String {
    let clauses: Vec<String> = policy.clauses.iter().map(|one| format!("({})", clause(sheet, one))).collect();
    if clauses.is_empty() {
        "false".to_string()
    } else {
        clauses.join(" or ")
    }
}

/// The table under `name`, with a column `id` for the row's place in its list and `touched` for
/// updates, row security forced, and each policy that matches it, once for each of its commands.
pub fn create_table(sheet: &Sheet, table: usize, name: &str) -> String {
    let mut text = format!("create table {name} (id integer, touched boolean");
    for column in sheet.tables[table].columns() {
        write!(text, ", c{column} {}", type_of(sheet.columns[column])).expect("text");
    }
    text += ");\n";
    writeln!(text, "alter table {name} enable row level security;").expect("text");
    writeln!(text, "alter table {name} force row level security;").expect("text");
    writeln!(text, "grant select, insert, update, delete on {name} to plain;").expect("text");
    for (number, policy) in
        sheet.policies.iter().enumerate().filter(|(_, policy)| sheet.matches(&policy.selector, table))
    {
        let kind = if policy.restrictive { "restrictive" } else { "permissive" };
        for command in (0..4).filter(|&command| policy.commands[command]) {
            let word = COMMANDS[command];
            let using = if word == "INSERT" { "with check" } else { "using" };
            let predicate = predicate(sheet, policy);
            writeln!(
                text,
                "create policy p{number}_{word} on {name} as {kind} for {word} to plain {using} ({predicate});"
            )
            .expect("text");
        }
    }
    text
}

/// The rows, numbered from 0.
pub fn insert_rows(sheet: &Sheet, table: usize, name: &str, rows: &[[Content; 16]]) -> String {
    if rows.is_empty() {
        return String::new();
    }
    let held = sheet.tables[table].columns();
    let row = |(id, row): (usize, &[Content; 16])| {
        let contents: Vec<String> = held.iter().map(|&column| content(sheet.columns[column], row[column])).collect();
        format!("({id}, false, {})", contents.join(", "))
    };
    let rows: Vec<String> = rows.iter().enumerate().map(row).collect();
    format!("insert into {name} values {};\n", rows.join(",\n"))
}

/// The session's keys as settings.
pub fn set_keys(sheet: &Sheet, keys: &[Content]) -> String {
    let mut text = String::new();
    for (number, (&held, &kind)) in keys.iter().zip(&sheet.keys).enumerate() {
        let held = match (held, kind) {
            (None, _) => String::new(),
            (Some(held), Kind::Boolean) => (held == 1).to_string(),
            (Some(held), _) => held.to_string(),
        };
        writeln!(text, "set key.k{number} = '{held}';").expect("text");
    }
    text
}

/// What the plain role is handed under the command, as rows `tag|id` in order. Each command is
/// given without a condition of its own, so that only policies of that command bear on it.
pub fn under(command: usize, name: &str, tag: &str) -> String {
    match COMMANDS[command] {
        "SELECT" => format!("set role plain;\nselect '{tag}', id from {name} order by id;\nreset role;\n"),
        "INSERT" => format!(
            "begin;\ncreate temporary table source on commit drop as table {name};\ngrant select on source to plain;\n\
             truncate {name};\nset local role plain;\n\
             do $$ declare r {name}%rowtype; begin for r in select * from source loop\n\
             begin insert into {name} select (r).*; exception when insufficient_privilege then null; end;\n\
             end loop; end $$;\nreset role;\nselect '{tag}', id from {name} order by id;\nrollback;\n"
        ),
        "UPDATE" => format!(
            "begin;\nset local role plain;\nupdate {name} set touched = true;\nreset role;\n\
             select '{tag}', id from {name} where touched order by id;\nrollback;\n"
        ),
        _ => format!(
            "begin;\ncreate temporary table source on commit drop as table {name};\nset local role plain;\n\
             delete from {name};\nreset role;\n\
             select '{tag}', s.id from source s where not exists (select from {name} t where t.id = s.id) order by 1, 2;\n\
             rollback;\n"
        ),
    }
}
