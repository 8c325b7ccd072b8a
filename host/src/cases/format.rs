//! The text form of cases: a line each, words parted by one space, bytes as hex.

use super::{Asked, Case, Group, FOUND};
use crate::question::{Question, Reply};

/// Bytes as lower-case hex; none as `-`.
pub fn hex(bytes: &[u8]) -> String {
    if bytes.is_empty() {
        return "-".to_string();
    }
    let digit = |digit: u8| char::from(b"0123456789abcdef"[usize::from(digit)]);
    bytes.iter().flat_map(|byte| [digit(byte >> 4), digit(byte & 15)]).collect()
}

pub fn unhex(word: &str) -> Option<Vec<u8>> {
    if word == "-" {
        return Some(vec![]);
    }
    let digits = word.as_bytes();
    let byte = |pair: &[u8]| u8::from_str_radix(std::str::from_utf8(pair).ok()?, 16).ok();
    digits.len().is_multiple_of(2).then(|| digits.chunks(2).map(byte).collect::<Option<Vec<u8>>>())?
}

/// The question as words: the call and its arguments; a lent output is given by its length.
pub fn question_words(question: &Question) -> String {
    let call = question.call();
    let sheet = hex(question.sheet());
    match question {
        Question::Branches { table, command, .. }
        | Question::Dead { table, command, .. }
        | Question::Isolated { table, command, .. } => format!("{call} {sheet} {table} {command}"),
        Question::Covers { a, b, .. } => format!("{call} {sheet} {a} {b}"),
        Question::Normal { out, .. } => format!("{call} {sheet} {}", out.len()),
        Question::Listing { table, command, session, rows, out, .. } => {
            format!("{call} {sheet} {table} {command} {} {} {}", hex(session), hex(rows), out.len())
        }
    }
}

/// The reply as words: its numbers, and what was written.
pub fn reply_words(question: &Question, reply: &Reply) -> String {
    let numbers: Vec<String> = reply.numbers.iter().map(u64::to_string).collect();
    match question {
        Question::Normal { .. } | Question::Listing { .. } => {
            format!("{} {}", numbers.join(" "), hex(&reply.out[..(reply.numbers[1] as usize).min(reply.out.len())]))
        }
        _ => numbers.join(" "),
    }
}

/// A file's text.
pub fn text(group: &Group) -> String {
    let mut text = format!("# {}\n", group.about);
    for case in &group.cases {
        let line = match &case.asked {
            Asked::Call(question, reply) => format!("{} > {}", question_words(question), reply_words(question, reply)),
            Asked::Printed(sheet, printed) => format!("readout {} > {}", hex(sheet), hex(printed.as_bytes())),
        };
        text += &format!("# {}\n{line}\n", case.name);
    }
    text
}

/// The cases of a file's text; none for a line that isn't of the form.
pub fn cases(text: &str) -> Option<Vec<Case>> {
    let mut name = String::new();
    let mut cases = Vec::new();
    for line in text.lines() {
        match line.strip_prefix("# ") {
            Some(words) => name = words.to_string(),
            None => cases.push(Case { name: name.clone(), asked: asked(line)? }),
        }
    }
    Some(cases)
}

fn asked(line: &str) -> Option<Asked> {
    let (question, reply) = line.split_once(" > ")?;
    let words: Vec<&str> = question.split(' ').collect();
    let reply: Vec<&str> = reply.split(' ').collect();
    let sheet = unhex(words.get(1)?)?;
    if words[0] == "readout" {
        return Some(Asked::Printed(sheet, String::from_utf8(unhex(reply[0])?).ok()?));
    }
    let question = question_of(&words, sheet)?;
    let (numbers, written) = match &question {
        Question::Normal { .. } => (&reply[..2], reply.get(2)),
        Question::Listing { .. } => (&reply[..3], reply.get(3)),
        _ => (&reply[..], None),
    };
    let numbers = numbers.iter().map(|word| word.parse().ok()).collect::<Option<Vec<u64>>>()?;
    let out = match &question {
        Question::Normal { out, .. } | Question::Listing { out, .. } => super::left(&unhex(written?)?, out.len()),
        _ => vec![],
    };
    Some(Asked::Call(question, Reply { numbers, out }))
}

/// The question that the words ask; the lent output is filled with one byte.
pub fn question_of(words: &[&str], sheet: Vec<u8>) -> Option<Question> {
    let number = |place: usize| words.get(place)?.parse::<u32>().ok();
    let room = |place: usize| Some(vec![FOUND; words.get(place)?.parse::<usize>().ok()?]);
    Some(match words[0] {
        "branches" => Question::Branches { sheet, table: number(2)?, command: number(3)? },
        "dead" => Question::Dead { sheet, table: number(2)?, command: number(3)? },
        "isolated" => Question::Isolated { sheet, table: number(2)?, command: number(3)? },
        "covers" => Question::Covers { sheet, a: number(2)?, b: number(3)? },
        "normal" => Question::Normal { sheet, out: room(2)? },
        "listing" => Question::Listing {
            sheet,
            table: number(2)?,
            command: number(3)?,
            session: unhex(words.get(4)?)?,
            rows: unhex(words.get(5)?)?,
            out: room(6)?,
        },
        _ => return None,
    })
}
