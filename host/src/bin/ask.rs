//! Asks one question, given as a line of crates/cases/data' form, and prints the replies:
//!
//!   cargo run --bin ask -- dead 10884280004000200880 0 0
//!
//! A line that a failed comparison printed can be asked again this way. The lent output is filled
//! with the byte a5.

use fiddlecomet_host::cases::format::{question_of, reply_words, unhex};
use fiddlecomet_host::library::{exports, fenced::Library};
use fiddlecomet_host::question::{Answers, Reading};
use fiddlecomet_host::reading::readout::readout;
use std::process::ExitCode;

fn main() -> ExitCode {
    let words: Vec<String> = std::env::args().skip(1).collect();
    let words: Vec<&str> = words.iter().flat_map(|word| word.split(' ')).take_while(|word| *word != ">").collect();
    let Some(sheet) = words.get(1).and_then(|word| unhex(word)) else {
        eprintln!("usage: ask CALL SHEET ..., as a line of crates/cases/data");
        return ExitCode::from(2);
    };
    if words[0] == "readout" {
        print!("{}", readout(&sheet));
        return ExitCode::SUCCESS;
    }
    let Some(question) = question_of(&words, sheet) else {
        eprintln!("not a question of crates/cases/data' form");
        return ExitCode::from(2);
    };
    let read = Reading.answer(&question);
    println!("reading {}", reply_words(&question, &read));
    if !exports(question.call()) {
        println!("library -");
        return ExitCode::SUCCESS;
    }
    let given = Library::default().answer(&question);
    println!("library {}", reply_words(&question, &given));
    ExitCode::from(u8::from(given != read))
}
