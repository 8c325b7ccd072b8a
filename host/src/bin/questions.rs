//! Prints random and damaged questions with the reading's replies, as lines of crates/cases/data' form:
//!
//!   cargo run --bin questions -- listing 7 500 > more.txt
//!
//! for the call, the seed and the count given. Lent outputs are filled with the byte a5.

use fiddlecomet_host::cases::format::{question_words, reply_words};
use fiddlecomet_host::cases::FOUND;
use fiddlecomet_host::making::questions::{question, CALLS};
use fiddlecomet_host::making::random::Random;
use fiddlecomet_host::question::{Answers, Question, Reading};
use std::process::ExitCode;

fn main() -> ExitCode {
    let words: Vec<String> = std::env::args().skip(1).collect();
    let number = |place: usize| words.get(place).and_then(|word| word.parse::<u64>().ok());
    let (Some(call), Some(seed), Some(count)) = (words.first(), number(1), number(2)) else {
        eprintln!("usage: questions CALL SEED COUNT");
        return ExitCode::from(2);
    };
    if !CALLS.contains(&call.as_str()) {
        eprintln!("no call {call}: {}", CALLS.join(", "));
        return ExitCode::from(2);
    }
    let mut random = Random::new(seed);
    for _ in 0..count {
        let mut asked = question(&mut random, call);
        if let Question::Normal { out, .. } | Question::Listing { out, .. } = &mut asked {
            out.fill(FOUND);
        }
        println!("{} > {}", question_words(&asked), reply_words(&asked, &Reading.answer(&asked)));
    }
    ExitCode::SUCCESS
}
