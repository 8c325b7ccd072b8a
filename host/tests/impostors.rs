//! The comparison sees each impostor, and makes its question small.

use fiddlecomet_host::compare::compare;
use fiddlecomet_host::compare::impostors::IMPOSTORS;
use fiddlecomet_host::making::questions::question;
use fiddlecomet_host::making::random::Random;
use fiddlecomet_host::question::{Answers, Reading};

const QUESTIONS: usize = 20_000;

#[test]
fn each_impostor_is_seen() {
    for impostor in &IMPOSTORS {
        let seen = compare(&Reading, impostor, impostor.call, 1, QUESTIONS);
        let difference = seen.expect_err(impostor.name);
        println!("{}\n{difference}", impostor.name);
        let length = difference.question.sheet().len();
        assert!(length <= 40, "{}: a sheet of {length} bytes is left\n{difference}", impostor.name);
    }
}

#[test]
fn the_reading_agrees_with_itself() {
    let compared = compare(&Reading, &Reading, "listing", 1, 2_000).expect("one and the same");
    assert_eq!(compared.questions(), 2_000);
    assert!(compared.answered() > 500, "{compared:?}");
}

/// The questions that the gate asks reach every refusal that there is, in every call that knows it.
#[test]
fn every_refusal_is_reached() {
    let known: [(&str, &[usize]); 6] = [
        ("branches", &[12]),
        ("dead", &[12, 13]),
        ("isolated", &[12, 13]),
        ("covers", &[12]),
        ("normal", &[14]),
        ("listing", &[12, 14, 15]),
    ];
    for (call, own) in known {
        let compared = compare(&Reading, &Reading, call, 1, QUESTIONS).expect("one and the same");
        let missed: Vec<usize> = (0..=11).chain(own.iter().copied()).filter(|&n| compared.by_refusal[n] == 0).collect();
        assert!(missed.is_empty(), "{call} never gets {missed:?}: {compared:?}");
    }
}

/// The questions bring out every kind of answer, not only refusals and the plainest ones.
#[test]
fn answers_vary() {
    let answers = |call: &str| -> Vec<Vec<u64>> {
        let mut random = Random::new(1);
        let replies = (0..QUESTIONS).map(|_| Reading.answer(&question(&mut random, call)).numbers);
        replies.filter(|numbers| numbers[0] == 0).collect()
    };
    let count =
        |answers: &[Vec<u64>], wanted: fn(&[u64]) -> bool| answers.iter().filter(|numbers| wanted(numbers)).count();
    let isolated = answers("isolated");
    let seen = [
        count(&isolated, |n| n[1] == 0),
        count(&isolated, |n| n[1] == 1 && n[2] == 0 && n[3] == 0),
        count(&isolated, |n| n[3] > n[2] && n[2] == 0),
        count(&isolated, |n| n[2] > 0),
        count(&isolated, |n| n[3] > n[2] && n[2] > 0),
    ];
    println!("isolated, leaks 0 0, 0 b, a .., a b with a below b: {seen:?}");
    assert!(seen.iter().all(|&times| times >= 20), "{seen:?}");
    for (call, least) in [("dead", 500), ("covers", 500)] {
        let given = answers(call);
        let (yes, no) = (count(&given, |n| n[1] == 1), count(&given, |n| n[1] == 0));
        println!("{call}: {yes} yes, {no} no");
        assert!(yes >= least && no >= least, "{call}: {yes} yes, {no} no");
    }
    let listed = answers("listing");
    let (some, none) = (count(&listed, |n| n[2] > 0), count(&listed, |n| n[2] == 0));
    println!("listing: {some} with rows, {none} without");
    assert!(some >= 1000 && none >= 1000, "{some} {none}");
}
