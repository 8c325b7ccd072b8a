//! The measurements: `host/bench` runs this.

use fiddlecomet_host::bench::listings::listings;
use fiddlecomet_host::bench::report::{machine, Report};
use fiddlecomet_host::bench::sizes::{normals, readings};
use fiddlecomet_host::bench::stacks::stacks;
use fiddlecomet_host::bench::time::{FULL, QUICK};
use fiddlecomet_host::bench::verdicts::{random_verdicts, verdicts};
use std::io;
use std::path::PathBuf;

/// What may be measured alone.
const PARTS: [&str; 4] = ["listing", "verdicts", "sizes", "stack"];

fn main() -> io::Result<()> {
    let words: Vec<String> = std::env::args().skip(1).collect();
    let named = |word: &str| words.iter().any(|other| other == word);
    let quick = named("quick");
    let whole = !PARTS.iter().any(|part| named(part));
    let measures = |part: &str| whole || named(part);
    let is_folder = |word: &&String| *word != "quick" && !PARTS.contains(&word.as_str());
    let folder = words.iter().find(is_folder).map_or_else(|| PathBuf::from("results"), PathBuf::from);
    let effort = if quick { QUICK } else { FULL };
    let mut report = Report::new(folder)?;
    report.say("# Measurements");
    report.say(&format!(
        "\n{}. Every figure is the median of at least {} runs, warm, with least and most.",
        machine(),
        QUICK.runs
    ));
    report.say("Both sides are built for release. Buffers are not cleared between calls. Rust is the reading in");
    report.say("host/src/reading. A dash: not there, or left out in the short form.");
    if measures("listing") {
        listings(&mut report, effort)?;
    }
    if measures("verdicts") {
        verdicts(&mut report, effort, quick)?;
        random_verdicts(&mut report, quick);
    }
    if measures("sizes") {
        readings(&mut report, effort, quick)?;
        normals(&mut report, effort, quick)?;
    }
    if measures("stack") {
        stacks(&mut report);
    }
    report.finish()
}
