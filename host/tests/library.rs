//! The library held against the reading: every reply number and every output byte, on random and
//! damaged inputs and on the run cases. FIDDLECOMET_QUESTIONS asks for more than the gate's 20,000
//! for each call, FIDDLECOMET_SEED for others.
//!
//! A call that the library doesn't export isn't compared, and its test says so; host/run decides
//! whether that may be.

use fiddlecomet_host::cases::{groups, Asked};
use fiddlecomet_host::compare::{compare, differ};
use fiddlecomet_host::library::exports;
use fiddlecomet_host::library::fenced::Library;
use fiddlecomet_host::making::questions::{question, CALLS};
use fiddlecomet_host::making::random::Random;
use fiddlecomet_host::question::{Answers, Question, Reading, Reply};

fn number(variable: &str, otherwise: u64) -> u64 {
    std::env::var(variable).ok().map_or(otherwise, |text| text.parse().expect("a number"))
}

fn against(call: &str) {
    let questions = number("FIDDLECOMET_QUESTIONS", 20_000) as usize;
    if !exports(call) {
        println!("compared {call}: 0 of {questions} questions, the library doesn't export it");
        return;
    }
    match compare(&Reading, &Library::default(), call, number("FIDDLECOMET_SEED", 1), questions) {
        Ok(compared) => {
            println!("compared {call}: {} questions, {} answered", compared.questions(), compared.answered())
        }
        Err(difference) => panic!("{call} differs\n{difference}"),
    }
}

#[test]
fn branches() {
    against("branches");
}

#[test]
fn dead() {
    against("dead");
}

#[test]
fn isolated() {
    against("isolated");
}

#[test]
fn covers() {
    against("covers");
}

#[test]
fn normal_form() {
    against("normal");
}

#[test]
fn listing() {
    against("listing");
}

/// "Thread-safe, no state": the same replies from eight threads at once, in another order on each.
#[test]
fn many_threads_at_once() {
    let calls: Vec<&str> = CALLS.into_iter().filter(|call| exports(call)).collect();
    let mut random = Random::new(3);
    let asked: Vec<Question> =
        (0..300).flat_map(|_| calls.iter().map(|call| question(&mut random, call)).collect::<Vec<_>>()).collect();
    let replies: Vec<Reply> = asked.iter().map(|question| Reading.answer(question)).collect();
    std::thread::scope(|scope| {
        for thread in 0..8 {
            let (asked, replies) = (&asked, &replies);
            scope.spawn(move || {
                let library = Library::default();
                for place in 0..asked.len() {
                    let place = (place * 7 + thread * 13) % asked.len();
                    assert_eq!(library.answer(&asked[place]), replies[place]);
                }
            });
        }
    });
    println!("compared on eight threads: {}", 8 * asked.len());
}

/// The replies are laid out as tests/header.c finds them by the header.
#[test]
fn replies_are_laid_out_as_in_the_header() {
    use fiddlecomet_host::library::{BranchCount, Cover, Isolation, Life, Listed, Written};
    use std::mem::{offset_of, size_of};
    assert_eq!((size_of::<Listed>(), offset_of!(Listed, length), offset_of!(Listed, rows)), (12, 4, 8));
    assert_eq!((size_of::<Written>(), offset_of!(Written, length)), (8, 4));
    assert_eq!((size_of::<Life>(), offset_of!(Life, dead)), (8, 4));
    assert_eq!((size_of::<Isolation>(), offset_of!(Isolation, leaks)), (16, 4));
    assert_eq!((offset_of!(Isolation, a), offset_of!(Isolation, b)), (8, 12));
    assert_eq!((size_of::<Cover>(), offset_of!(Cover, covers)), (8, 4));
    assert_eq!((size_of::<BranchCount>(), offset_of!(BranchCount, count)), (16, 8));
}

/// Some sheets, each cut at every byte and with every bit turned, under every call.
#[test]
fn every_cut_and_every_bit() {
    let mut random = Random::new(2);
    let library = Library::default();
    let mut compared = 0;
    for _ in 0..8 {
        let calls: Vec<&str> = CALLS.into_iter().filter(|call| exports(call)).collect();
        let whole: Vec<Question> = calls.iter().map(|call| question(&mut random, call)).collect();
        for question in whole.iter().filter(|question| question.sheet().len() < 300) {
            for damaged in cuts_and_turns(question.sheet()) {
                let mut question = question.clone();
                *question.sheet_mut() = damaged;
                if let Some(difference) = differ(&Reading, &library, &question) {
                    panic!("{difference}");
                }
                compared += 1;
            }
        }
    }
    println!("compared cuts and turned bits: {compared}");
}

/// Some row lists that are listed, each cut at every byte and with every bit turned: the end of a list
/// is read in another way than its rows before.
#[test]
fn every_cut_and_every_bit_of_rows() {
    if !exports("listing") {
        return;
    }
    let mut random = Random::new(3);
    let library = Library::default();
    let (mut lists, mut compared, mut listed) = (0, 0, 0);
    while lists < 12 {
        let whole = question(&mut random, "listing");
        let Question::Listing { rows, .. } = &whole else { unreachable!("a listing was asked for") };
        let reply = Reading.answer(&whole);
        if !(160..480).contains(&rows.len()) || reply.refusal() != 0 || reply.numbers[2] == 0 {
            continue;
        }
        lists += 1;
        for damaged in cuts_and_turns(rows) {
            let mut question = whole.clone();
            if let Question::Listing { rows, .. } = &mut question {
                *rows = damaged;
            }
            if let Some(difference) = differ(&Reading, &library, &question) {
                panic!("{difference}");
            }
            compared += 1;
            listed += usize::from(Reading.answer(&question).refusal() == 0);
        }
    }
    assert!(listed > 1000 && compared - listed > 1000, "{listed} of {compared} lists are of the form");
    println!("compared cuts and turned bits of rows: {compared}, {listed} of them of the form");
}

fn cuts_and_turns(bytes: &[u8]) -> Vec<Vec<u8>> {
    let cuts = (0..bytes.len()).map(|length| bytes[..length].to_vec());
    let turn = |bit: usize| {
        let mut turned = bytes.to_vec();
        turned[bit / 8] ^= 0x80 >> (bit % 8);
        turned
    };
    cuts.chain((0..bytes.len() * 8).map(turn)).collect()
}

#[test]
fn the_run_cases() {
    let library = Library::default();
    let (mut compared, mut left_out) = (0, 0);
    for group in groups() {
        for case in group.cases {
            match case.asked {
                Asked::Call(question, reply) if exports(question.call()) => {
                    assert_eq!(library.answer(&question), reply, "{}: {}", group.file, case.name);
                    compared += 1;
                }
                _ => left_out += 1,
            }
        }
    }
    println!("compared run cases: {compared} by the library, {left_out} of calls that it doesn't export");
}
