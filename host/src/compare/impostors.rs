//! Libraries that are wrong, to show that the comparison would see it: those of document 01 ("Try
//! these impostors") and some nearer misses. Each answers as the reading does but for one thing.

use crate::question::{Answers, Question, Reading, Reply};
use crate::reading::parse::parse;
use crate::reading::{pack, solve};

pub struct Impostor {
    pub name: &'static str,
    /// The call that it answers wrongly.
    pub call: &'static str,
    spoil: fn(&Question, Reply) -> Reply,
}

impl Answers for Impostor {
    fn answer(&self, question: &Question) -> Reply {
        (self.spoil)(question, Reading.answer(question))
    }
}

fn answered(reply: &Reply) -> bool {
    reply.refusal() == 0
}

/// Changes the numbers of an answer that isn't a refusal.
fn numbers(reply: Reply, edit: fn(&mut [u64])) -> Reply {
    let mut reply = reply;
    if answered(&reply) {
        edit(&mut reply.numbers);
    }
    reply
}

fn lent(question: &Question) -> Vec<u8> {
    match question {
        Question::Normal { out, .. } | Question::Listing { out, .. } => out.clone(),
        _ => vec![],
    }
}

fn refused(question: &Question, reply: &Reply, number: u64) -> Reply {
    let mut numbers = vec![0; reply.numbers.len()];
    numbers[0] = number;
    Reply { numbers, out: lent(question) }
}

/// Copies the sheet, perhaps after the first step.
fn copies(question: &Question, reply: Reply, first_step: bool) -> Reply {
    if !answered(&reply) {
        return reply;
    }
    let mut sheet = parse(question.sheet()).expect("it was answered");
    if first_step {
        let whole = sheet.clone();
        for policy in &mut sheet.policies {
            policy.clauses.retain(|clause| solve::is_live(&whole, clause));
        }
    }
    let bytes = pack::sheet(&sheet);
    let mut out = lent(question);
    out[..bytes.len()].copy_from_slice(&bytes);
    Reply { numbers: vec![0, bytes.len() as u64], out }
}

pub const IMPOSTORS: [Impostor; 16] = [
    Impostor { name: "refuses every sheet", call: "branches", spoil: |q, r| refused(q, &r, 2) },
    Impostor { name: "calls every table isolated", call: "isolated", spoil: |_, r| numbers(r, |n| n[1..].fill(0)) },
    Impostor { name: "calls no table isolated", call: "isolated", spoil: |_, r| numbers(r, |n| n[1] = 1) },
    Impostor {
        name: "names the leaking pair the other way round",
        call: "isolated",
        spoil: |_, r| numbers(r, |n| n.swap(2, 3)),
    },
    Impostor { name: "calls every table live", call: "dead", spoil: |_, r| numbers(r, |n| n[1] = 0) },
    Impostor { name: "says that each policy covers each", call: "covers", spoil: |_, r| numbers(r, |n| n[1] = 1) },
    Impostor {
        name: "lists nothing",
        call: "listing",
        spoil: |q, r| if answered(&r) { Reply { numbers: vec![0, 0, 0], out: lent(q) } } else { r },
    },
    Impostor {
        name: "makes up a listing's length",
        call: "listing",
        spoil: |_, r| numbers(r, |n| n[1] += u64::from(n[1] > 0)),
    },
    Impostor { name: "makes up a row count", call: "listing", spoil: |_, r| numbers(r, |n| n[2] = n[2].min(1)) },
    Impostor { name: "copies its sheet", call: "normal", spoil: |q, r| copies(q, r, false) },
    Impostor { name: "does the first step only", call: "normal", spoil: |q, r| copies(q, r, true) },
    Impostor { name: "makes up N", call: "branches", spoil: |_, r| numbers(r, |n| n[1] = n[1].min(4)) },
    Impostor {
        name: "clears the output's last byte",
        call: "listing",
        spoil: |_, mut r| {
            r.out.iter_mut().last().into_iter().for_each(|byte| *byte = 0);
            r
        },
    },
    Impostor {
        name: "writes before it refuses",
        call: "normal",
        spoil: |_, mut r| {
            if r.refusal() == 14 {
                r.out.iter_mut().take(1).for_each(|byte| *byte = 0x10);
            }
            r
        },
    },
    Impostor {
        name: "says 6 for 7",
        call: "covers",
        spoil: |q, r| if r.refusal() == 7 { refused(q, &r, 6) } else { r },
    },
    Impostor {
        name: "takes table numbers by their last byte",
        call: "dead",
        spoil: |q, r| match q {
            Question::Dead { sheet, table, command } if r.refusal() == 12 => {
                Reading.answer(&Question::Dead { sheet: sheet.clone(), table: table % 256, command: *command })
            }
            _ => r,
        },
    },
];
