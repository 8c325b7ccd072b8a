//! The verdict questions as SMT-LIB, for z3: one satisfiability question each.
//!
//! A variable is an integer and a flag for null. Isolation is asked in two ways: whether there is a
//! leak at all, as one formula, which is the lighter question; and pair by pair up to the first that
//! leaks, which is the question that the library answers.

use crate::reading::admission::policies_that_count;
use crate::reading::sheet::{Atom, Clause, Kind, Policy, Sheet, Test, Variable};
use crate::reading::verdicts;
use std::fmt::Write;
use std::io::Write as _;
use std::process::{Command, Stdio};

pub fn is_installed() -> bool {
    Command::new("z3").arg("--version").stdout(Stdio::null()).status().is_ok()
}

fn name(variable: Variable, session: usize) -> String {
    match variable {
        Variable::Column(n) => format!("c{n}"),
        Variable::Key(n) => format!("k{n}s{session}"),
    }
}

fn number(value: i64) -> String {
    if value < 0 {
        format!("(- {})", value.unsigned_abs())
    } else {
        value.to_string()
    }
}

fn any(parts: &[String]) -> String {
    if parts.is_empty() {
        "false".into()
    } else {
        format!("(or {} false)", parts.join(" "))
    }
}

fn all(parts: &[String]) -> String {
    if parts.is_empty() {
        "true".into()
    } else {
        format!("(and {} true)", parts.join(" "))
    }
}

fn atom(atom: &Atom, session: usize) -> String {
    let held = name(atom.variable, session);
    let member =
        |list: &[i64]| any(&list.iter().map(|&value| format!("(= {held} {})", number(value))).collect::<Vec<_>>());
    let known = format!("(not {held}null)");
    let order = |sign: &str, bound: i64| format!("(and {known} ({sign} {held} {}))", number(bound));
    match &atom.test {
        Test::Equals(other) => {
            let other = name(*other, session);
            format!("(and {known} (not {other}null) (= {held} {other}))")
        }
        Test::In(list) => format!("(and {known} {})", member(list)),
        Test::NotIn(list) => format!("(and {known} (not {}))", member(list)),
        Test::AtMost(bound) => order("<=", *bound),
        Test::AtLeast(bound) => order(">=", *bound),
        Test::Below(bound) => order("<", *bound),
        Test::Above(bound) => order(">", *bound),
        Test::IsNull => format!("{held}null"),
        Test::IsNotNull => known,
    }
}

fn clause(clause: &Clause, session: usize) -> String {
    all(&clause.iter().map(|one| atom(one, session)).collect::<Vec<_>>())
}

fn policy(policy: &Policy, session: usize) -> String {
    any(&policy.clauses.iter().map(|one| clause(one, session)).collect::<Vec<_>>())
}

fn admitted(sheet: &Sheet, table: usize, command: usize, session: usize) -> String {
    let (permissive, restrictive) = policies_that_count(sheet, table, command);
    let met = |policies: &[&Policy]| policies.iter().map(|one| policy(one, session)).collect::<Vec<_>>();
    format!("(and {} {})", any(&met(&permissive)), all(&met(&restrictive)))
}

/// Declarations of every variable, for two sessions.
fn declare(sheet: &Sheet) -> String {
    let mut text = String::new();
    let columns = (0..sheet.columns.len()).map(|n| (Variable::Column(n), 1));
    let keys = (1..3).flat_map(|session| (0..sheet.keys.len()).map(move |n| (Variable::Key(n), session)));
    for (variable, session) in columns.chain(keys) {
        let held = name(variable, session);
        let (least, greatest) = match sheet.kind(variable) {
            Kind::Integer => (i64::MIN, i64::MAX),
            kind => kind.range(),
        };
        writeln!(text, "(declare-const {held} Int)(declare-const {held}null Bool)").expect("text");
        writeln!(text, "(assert (and (<= {} {held}) (<= {held} {})))", number(least), number(greatest)).expect("text");
    }
    text
}

fn question(sheet: &Sheet, formula: &str) -> String {
    format!("(push)\n{}(assert {formula})\n(check-sat)\n(pop)\n", declare(sheet))
}

/// Unsatisfiable: the table is dead.
pub fn dead(sheet: &Sheet, table: usize, command: usize) -> String {
    question(sheet, &admitted(sheet, table, command, 1))
}

/// "Two sessions are of different tenants when key 0 differs, null counted as one more value."
const DIFFER: &str = "(or (not (= k0s1null k0s2null)) (and (not k0s1null) (not k0s2null) (not (= k0s1 k0s2))))";

/// Unsatisfiable: the table is isolated. The whole question as one formula, without the first pair.
pub fn isolated(sheet: &Sheet, table: usize, command: usize) -> String {
    let (one, two) = (admitted(sheet, table, command, 1), admitted(sheet, table, command, 2));
    question(sheet, &format!("(and {one} {two} {DIFFER})"))
}

/// The pairs of branches one by one, in order, up to the first that leaks (or all): the question
/// that `isolated` answers.
pub fn pairs(sheet: &Sheet, table: usize, command: usize, first: Option<(usize, usize)>) -> String {
    let branches = verdicts::branches(sheet, table, command);
    let mut text = format!("(push)\n{}(define-fun differ () Bool {DIFFER})\n", declare(sheet));
    for (n, branch) in branches.iter().enumerate() {
        writeln!(text, "(define-fun a{n} () Bool {})", clause(branch, 1)).expect("text");
        writeln!(text, "(define-fun b{n} () Bool {})", clause(branch, 2)).expect("text");
    }
    let all = (0..branches.len()).flat_map(|a| (a..branches.len()).map(move |b| (a, b)));
    for (a, b) in all.take_while(|&pair| first.is_none_or(|first| pair <= first)) {
        writeln!(text, "(push)(assert (and a{a} b{b} differ))(check-sat)(pop)").expect("text");
    }
    text + "(pop)\n"
}

/// Unsatisfiable: clause p covers clause q.
pub fn clause_covers(sheet: &Sheet, p: &Clause, q: &Clause) -> String {
    question(sheet, &format!("(and {} (not {}))", clause(q, 1), clause(p, 1)))
}

/// Runs the script; true for each `sat`, false for each `unsat`.
pub fn run(script: &str) -> Result<Vec<bool>, String> {
    let mut z3 = Command::new("z3")
        .args(["-smt2", "-in"])
        .stdin(Stdio::piped())
        .stdout(Stdio::piped())
        .spawn()
        .map_err(|fault| format!("z3: {fault}"))?;
    let mut input = z3.stdin.take().expect("asked for");
    let script = script.to_string();
    let writer = std::thread::spawn(move || input.write_all(script.as_bytes()));
    let output = z3.wait_with_output().map_err(|fault| fault.to_string())?;
    let _ = writer.join();
    let text = String::from_utf8_lossy(&output.stdout).into_owned();
    text.lines()
        .map(|line| match line {
            "sat" => Ok(true),
            "unsat" => Ok(false),
            other => Err(format!("z3 says {other}")),
        })
        .collect()
}
