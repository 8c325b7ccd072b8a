//! The read-out program against the reading: what it prints for random, damaged and known sheets.
//! The program is target/bin/readout of the repository, or FIDDLECOMET_READOUT. Without it nothing
//! is compared, and the test says so; host/run decides whether that may be.

use fiddlecomet_host::cases::format::hex;
use fiddlecomet_host::cases::{groups, Asked};
use fiddlecomet_host::making::questions::question;
use fiddlecomet_host::making::random::Random;
use fiddlecomet_host::reading::readout::readout;
use std::io::Write;
use std::path::{Path, PathBuf};
use std::process::{Command, Stdio};

const RANDOM_SHEETS: usize = 300;

fn program() -> PathBuf {
    let built = Path::new(env!("CARGO_MANIFEST_DIR")).join("../target/bin/readout");
    std::env::var_os("FIDDLECOMET_READOUT").map_or(built, PathBuf::from)
}

/// What the program prints, and whether it ended well.
fn printed(program: &Path, sheet: &[u8]) -> (String, bool) {
    let mut process = Command::new(program)
        .stdin(Stdio::piped())
        .stdout(Stdio::piped())
        .stderr(Stdio::piped())
        .spawn()
        .expect("the read-out starts");
    let mut input = process.stdin.take().expect("asked for");
    let sheet = sheet.to_vec();
    // The program may stop reading an over-long sheet early; that is its right.
    let writer = std::thread::spawn(move || drop(input.write_all(&sheet)));
    let output = process.wait_with_output().expect("the read-out ends");
    writer.join().expect("the writer ends");
    let silent = output.stderr.is_empty();
    (String::from_utf8_lossy(&output.stdout).into_owned(), output.status.code().is_some() && silent)
}

#[test]
fn the_program_prints_what_the_reading_reads() {
    let program = program();
    if !program.exists() {
        println!("compared read-outs: 0, the program isn't built");
        return;
    }
    let mut random = Random::new(9);
    let mut sheets: Vec<Vec<u8>> = (0..RANDOM_SHEETS).map(|_| question(&mut random, "dead").sheet().to_vec()).collect();
    for case in groups().into_iter().flat_map(|group| group.cases) {
        if let Asked::Printed(sheet, text) = case.asked {
            assert_eq!(readout(&sheet), text, "{}", case.name);
            sheets.push(sheet);
        }
    }
    for sheet in &sheets {
        let (text, ended_well) = printed(&program, sheet);
        assert!(
            text == readout(sheet) && ended_well,
            "for {}\nexpected {}\nprinted {text}",
            hex(sheet),
            readout(sheet)
        );
    }
    println!("compared read-outs: {}", sheets.len());
}
