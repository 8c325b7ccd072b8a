//! The run cases: the reading gives each reply that was worked out by hand, and the files under
//! crates/cases/data hold exactly these cases.

use fiddlecomet_host::cases::{format, groups, Asked};
use fiddlecomet_host::question::{printed, Answers, Reading};
use std::path::Path;

#[test]
fn the_reading_gives_every_reply() {
    let mut wrong = Vec::new();
    let mut cases = 0;
    for group in groups() {
        for case in &group.cases {
            cases += 1;
            let fault = match &case.asked {
                Asked::Call(question, reply) => {
                    let read = Reading.answer(question);
                    (read != *reply).then(|| {
                        let words = format::question_words(question);
                        format!(
                            "{}\n  got {}\n  for {}",
                            &words[..words.len().min(400)],
                            format::reply_words(question, &read),
                            format::reply_words(question, reply)
                        )
                    })
                }
                Asked::Printed(sheet, text) => (printed(sheet) != *text).then(|| printed(sheet)),
            };
            wrong.extend(fault.map(|fault| format!("{}: {}\n  {fault}", group.file, case.name)));
        }
    }
    assert!(wrong.is_empty(), "{} of {cases} cases:\n{}", wrong.len(), wrong.join("\n"));
    assert!(cases >= 60);
    println!("{cases} cases");
}

#[test]
fn the_files_hold_these_cases() {
    let folder = Path::new(env!("CARGO_MANIFEST_DIR")).join("../crates/cases/data");
    for group in groups() {
        let text = std::fs::read_to_string(folder.join(group.file).with_extension("txt")).expect("a file of cases");
        assert!(text == format::text(&group), "{}: run `cargo run --bin write_cases`", group.file);
        assert_eq!(format::cases(&text).expect("the form of a case"), group.cases);
    }
}

#[test]
fn no_two_cases_of_a_file_have_one_name() {
    for group in groups() {
        let mut names: Vec<&str> = group.cases.iter().map(|case| case.name.as_str()).collect();
        names.sort_unstable();
        let count = names.len();
        names.dedup();
        assert_eq!(names.len(), count, "{}: {:?}", group.file, names);
    }
}
