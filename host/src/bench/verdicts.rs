//! Verdicts: dead, isolated and covers beside z3 asked the same.

use super::figures::{by_library, cell, times_as};
use super::plot::Series;
use super::report::Report;
use super::sheets::{self, Apart, Leak};
use super::smt;
use super::time::{once, readable, time, Effort, Rounds, QUICK};
use crate::library::{self, exports};
use crate::making::random::Random;
use crate::making::sheets as random_sheets;
use crate::reading::sheet::Sheet;
use crate::reading::solve::{clause_covers, is_live};
use crate::reading::verdicts::{isolation, Isolation};
use crate::reading::{calls, pack, parse::parse};
use std::io;
use std::time::Instant;

/// Seconds that something takes.
fn seconds(ask: impl FnOnce()) -> f64 {
    let start = Instant::now();
    ask();
    start.elapsed().as_secs_f64()
}

/// Seconds that z3 takes for one of the repeated scripts, its start taken off.
fn by_z3(scripts: &str, repeats: usize) -> f64 {
    let ask = |script: &str| seconds(|| drop(smt::run(script)));
    ((ask(scripts) - ask("")) / repeats as f64).max(1e-6)
}

/// The library, plain Rust, z3 asked for a leak in one formula and z3 asked for the first pair, in turn.
fn in_turn(sheet: &Sheet, n: usize, leaks: bool, effort: Effort, quick: bool) -> Rounds {
    let packed = pack::sheet(sheet);
    let z3 = smt::is_installed();
    let often = if quick { 1 } else { 10 };
    let first = match isolation(sheet, 0, 0) {
        Isolation::Isolated => None,
        Isolation::Leaks(a, b) => Some((a as usize, b as usize)),
    };
    // In the short form z3 isn't asked for thousands of pairs.
    let few = first == Some((0, 0)) || n <= if quick { 16 } else { 256 };
    let repeats = if first == Some((0, 0)) || n <= 16 { often } else { 1 };
    let (whole, paired) = (smt::isolated(sheet, 0, 0), smt::pairs(sheet, 0, 0, first));
    for script in [Some(&whole), few.then_some(&paired)].into_iter().flatten() {
        if let Ok(found) = smt::run(script) {
            assert_eq!(found.contains(&true), leaks, "z3 differs");
        }
    }
    let (whole, paired) = (whole.repeat(often), paired.repeat(repeats));
    let mut rounds = Rounds::default();
    for _ in 0..QUICK.runs {
        let ours = || once(effort, || library::isolated(&packed, 0, 0));
        rounds.add(0, exports("isolated").then(ours));
        rounds.add(1, Some(once(effort, || calls::isolated(&packed, 0, 0))));
        rounds.add(2, z3.then(|| by_z3(&whole, often)));
        rounds.add(3, (z3 && few).then(|| by_z3(&paired, repeats)));
    }
    rounds
}

/// 2. Verdicts by the number of branches and the place of the leak.
pub fn verdicts(report: &mut Report, effort: Effort, quick: bool) -> io::Result<()> {
    report.table(
        "Verdicts: isolated",
        &[
            "kept apart by",
            "leak",
            "N",
            "library",
            "Rust",
            "z3, one formula",
            "z3, first pair",
            "first pair / library",
            "first pair / Rust",
        ],
    );
    let mut plots: [Vec<(f64, f64)>; 4] = Default::default();
    let mut totals = [0.0; 2];
    // In the short form only what is searched.
    let ways: &[Apart] = if quick { &[Apart::List] } else { &[Apart::Equality, Apart::List] };
    for &apart in ways {
        for (n, leak) in
            [1, 16, 64, 256].iter().flat_map(|&n| [Leak::First, Leak::Last, Leak::None].map(|leak| (n, leak)))
        {
            let sheet = sheets::branches(n, leak, apart);
            let rounds = in_turn(&sheet, n, leak != Leak::None, effort, quick);
            let times = [0, 1, 2, 3].map(|who| rounds.timing(who));
            let ratios = [0, 1].map(|other| times_as(rounds.ratio(3, other)));
            let [a, b, c, d] = times.map(|time| time.map(|time| time.median));
            if let (Some(a), Some(d)) = (a, d) {
                totals[0] += a;
                totals[1] += d;
            }
            let name = [format!("{apart:?}").to_lowercase(), format!("{leak:?}").to_lowercase(), n.to_string()];
            report.row(&[&name[..], &times.map(cell)[..], &ratios[..]].concat());
            if leak == Leak::None && apart == Apart::List {
                for (series, time) in plots.iter_mut().zip([a, b, c, d]) {
                    series.extend(time.map(|time| (n as f64, time)));
                }
            }
        }
    }
    let worst = sheets::worst();
    let packed = pack::sheet(&worst);
    // The worst sheet is left out in the short form: it takes seconds.
    let ours = (!quick).then(|| by_library(effort, "isolated", || library::isolated(&packed, 0, 0))).flatten();
    let rust = (!quick).then(|| {
        assert_eq!(calls::isolated(&packed, 0, 0), Ok(Isolation::Isolated));
        time(effort, || calls::isolated(&packed, 0, 0))
    });
    report.target("the worst sheet's verdict: under 5 s", ours.map(|time| (readable(time.median), time.median < 5.0)));
    let worst = format!("none; the worst sheet found, {} bytes", packed.len());
    let cells = ["list".into(), worst, "256".into(), cell(ours)];
    report.row(&[&cells[..], &[cell(rust)], &["-"; 4].map(String::from)].concat());
    let [ours, rust, whole, paired] = plots;
    let named = |name: &str, points| Series { name: name.into(), points };
    let series =
        [named("library", ours), named("Rust", rust), named("z3, one formula", whole), named("z3, first pair", paired)];
    let total = (totals[0] > 0.0).then(|| totals[1] / totals[0]);
    report.target(
        "verdicts by number of branches: at least 100 times as fast as z3 in total",
        total.map(|ratio| (format!("{ratio:.0}"), ratio >= 100.0)),
    );
    report.plot("verdicts.svg", "Isolated, no leak, no equality: N against time", "N", &series)
}

/// The questions dead, isolated and covers on random sheets; z3's answers must be the same.
pub fn random_verdicts(report: &mut Report, quick: bool) {
    let mut random = Random::new(10);
    let wanted = if quick { 40 } else { 300 };
    let mut made: Vec<Sheet> = Vec::new();
    while made.len() < wanted {
        let size = if random.once_in(3) { random_sheets::CROWDED } else { random_sheets::SMALL };
        let sheet = random_sheets::sheet(&mut random, size);
        let bytes = pack::sheet(&sheet);
        if sheet.policies.len() > 1 && parse(&bytes).is_ok() && calls::dead(&bytes, 0, 0).is_ok() {
            made.push(sheet);
        }
    }
    let mut script = String::new();
    let mut expected = Vec::new();
    for sheet in &made {
        let bytes = pack::sheet(sheet);
        script += &smt::dead(sheet, 0, 0);
        expected.push(calls::dead(&bytes, 0, 0) == Ok(false));
        script += &smt::isolated(sheet, 0, 0);
        expected.push(isolation(sheet, 0, 0) != Isolation::Isolated);
        for q in sheet.policies[1].clauses.iter().filter(|q| is_live(sheet, q)) {
            for p in &sheet.policies[0].clauses {
                script += &smt::clause_covers(sheet, p, q);
                expected.push(!clause_covers(sheet, p, q));
            }
        }
    }
    let packed: Vec<Vec<u8>> = made.iter().map(pack::sheet).collect();
    let all = ["dead", "isolated", "covers"].iter().all(|call| exports(call));
    if let Ok(found) = smt::run(&script) {
        assert_eq!(found, expected, "z3 differs from the reading");
    }
    let mut rounds = Rounds::default();
    for _ in 0..QUICK.runs {
        let ours = || {
            for sheet in &packed {
                let verdicts =
                    (library::dead(sheet, 0, 0), library::isolated(sheet, 0, 0), library::covers(sheet, 0, 1));
                std::hint::black_box(verdicts);
            }
        };
        let rust = || {
            for sheet in &packed {
                let verdicts = (calls::dead(sheet, 0, 0), calls::isolated(sheet, 0, 0), calls::covers(sheet, 0, 1));
                std::hint::black_box(verdicts).0.ok();
            }
        };
        let idle = seconds(|| drop(smt::run("")));
        let z3 = smt::is_installed().then(|| seconds(|| drop(smt::run(&script))) - idle);
        rounds.add(0, all.then(|| seconds(ours)));
        rounds.add(1, Some(seconds(rust)));
        rounds.add(2, z3);
    }
    let total = rounds.ratio(2, 0);
    report.target(
        "verdicts on random sheets: at least 100 times as fast as z3 in total",
        total.map(|ratio| (format!("{ratio:.0}"), ratio >= 100.0)),
    );
    report.table(
        "Verdicts on random sheets",
        &["sheets", "questions to z3", "library", "Rust", "z3", "z3 / library", "z3 / Rust"],
    );
    let counts = [made.len().to_string(), expected.len().to_string()];
    let times = [0, 1, 2].map(|who| cell(rounds.timing(who)));
    report.row(&[&counts[..], &times[..], &[times_as(total), times_as(rounds.ratio(2, 1))]].concat());
}
