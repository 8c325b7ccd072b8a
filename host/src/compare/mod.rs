//! Two that answer, held against each other: every number and every output byte.

pub mod impostors;
pub mod shrink;

use crate::cases::format::{hex, question_words};
use crate::making::questions::question;
use crate::making::random::Random;
use crate::question::{Answers, Question, Reply};
use std::fmt;

/// A question that the two answer differently, made small.
#[derive(Debug)]
pub struct Difference {
    pub question: Question,
    pub expected: Reply,
    pub given: Reply,
}

impl fmt::Display for Difference {
    fn fmt(&self, f: &mut fmt::Formatter) -> fmt::Result {
        writeln!(f, "reproduce: {}", question_words(&self.question))?;
        if let Question::Normal { out, .. } | Question::Listing { out, .. } = &self.question {
            writeln!(f, "  output found:    {}", hex(out))?;
        }
        for (who, reply) in [("expected", &self.expected), ("given   ", &self.given)] {
            writeln!(f, "  {who}: {:?} output {}", reply.numbers, hex(&reply.out))?;
        }
        Ok(())
    }
}

/// What was compared: how many questions got each refusal, 0 standing for an answer.
#[derive(Clone, Copy, Debug, Default, PartialEq, Eq)]
pub struct Compared {
    pub by_refusal: [usize; 17],
}

impl Compared {
    pub fn questions(&self) -> usize {
        self.by_refusal.iter().sum()
    }

    pub fn answered(&self) -> usize {
        self.by_refusal[0]
    }
}

/// Asks both one question; the difference, made as small as it gets.
pub fn differ(right: &dyn Answers, tried: &dyn Answers, question: &Question) -> Option<Difference> {
    let wrong = |question: &Question| right.answer(question) != tried.answer(question);
    if !wrong(question) {
        return None;
    }
    let question = shrink::smallest(question.clone(), wrong);
    let (expected, given) = (right.answer(&question), tried.answer(&question));
    Some(Difference { question, expected, given })
}

/// Asks both the same `count` random and damaged questions of one call.
pub fn compare(
    right: &dyn Answers,
    tried: &dyn Answers,
    call: &str,
    seed: u64,
    count: usize,
) -> Result<Compared, Box<Difference>> {
    let mut random = Random::new(seed);
    let mut compared = Compared::default();
    for _ in 0..count {
        let question = question(&mut random, call);
        let expected = right.answer(&question);
        if tried.answer(&question) != expected {
            return Err(Box::new(differ(right, tried, &question).expect("seen to differ")));
        }
        compared.by_refusal[expected.refusal() as usize] += 1;
    }
    Ok(compared)
}
