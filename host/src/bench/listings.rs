//! Listing: rows a second, beside plain Rust and PostgreSQL filtering the same rows by the same
//! policies (the server's own execution time, warm, nothing sent to a client).

use super::figures::{cell, times_as};
use super::plot::Series;
use super::report::Report;
use super::sheets;
use super::time::{once, Effort, Rounds, Timing};
use crate::library::{self, exports};
use crate::postgres::{server, server::Server, sql};
use crate::reading::sheet::{Content, Sheet};
use crate::reading::{calls, pack};
use std::io;

/// Rows of a list that is at most so long, as PostgreSQL and the library take them.
pub struct Rows {
    pub contents: Vec<[Content; 16]>,
    pub bytes: Vec<u8>,
}

pub fn rows(count: usize) -> Rows {
    let rows = sheets::rows(count);
    let wide = |row: &[Content; 3]| std::array::from_fn(|n| row.get(n).copied().flatten());
    Rows {
        contents: rows.iter().map(wide).collect(),
        bytes: rows.iter().flat_map(|row| pack::contents(&row[..])).collect(),
    }
}

/// A server that has each sheet's table with each number of rows.
struct Filtering {
    server: Server,
    session: String,
}

impl Filtering {
    fn start(sheets: &[(&str, Sheet)], counts: &[usize]) -> Result<Filtering, String> {
        let server = Server::start()?;
        let mut script = "create role plain;\n".to_string();
        for (s, (_, sheet)) in sheets.iter().enumerate() {
            for &count in counts {
                let name = format!("t{s}_{count}");
                script += &sql::create_table(sheet, 0, &name);
                script += &sql::insert_rows(sheet, 0, &name, &rows(count).contents);
                script += &format!("analyze {name};\n");
            }
        }
        server.run(&script)?;
        let keys = sql::set_keys(&sheets[0].1, &[Some(1), Some(1)]);
        Ok(Filtering { server, session: format!("set jit = off;\n{keys}set role plain;\n") })
    }

    /// The server's own execution time, warm, for reading a table as a plain session of house 1.
    fn once(&self, sheet: usize, count: usize) -> Result<f64, String> {
        let ask = format!("explain (analyze, timing off, costs off) select c0, c1, c2 from t{sheet}_{count};\n");
        let printed = self.server.run(&(self.session.clone() + &ask.repeat(7)))?;
        let milliseconds = |line: &str| line.strip_prefix("Execution Time: ")?.strip_suffix(" ms")?.parse::<f64>().ok();
        let times: Vec<f64> = printed.lines().filter_map(milliseconds).map(|time| time / 1e3).collect();
        Ok(Timing::of(times[2..].to_vec()).median)
    }
}

/// 1. Rows listed.
pub fn listings(report: &mut Report, effort: Effort) -> io::Result<()> {
    let counts = [1, 100, 1000, sheets::full_list()];
    let sheets = sheets::listings();
    let postgres =
        if server::is_installed() { Filtering::start(&sheets, &counts) } else { Err("not installed".into()) };
    if let Err(fault) = &postgres {
        report.say(&format!("\nPostgreSQL: {fault}"));
    }
    let session = pack::contents(&[Some(1), Some(1)]);
    report.table(
        "Listing",
        &[
            "sheet",
            "rows",
            "bytes",
            "library",
            "Rust",
            "PostgreSQL",
            "PostgreSQL / library",
            "PostgreSQL / Rust",
            "library / Rust",
            "library rows/s",
        ],
    );
    let mut plots: Vec<Series> = Vec::new();
    let (mut to_postgres, mut to_rust): (Vec<f64>, Vec<f64>) = Default::default();
    for (s, (name, sheet)) in sheets.iter().enumerate() {
        let packed = pack::sheet(sheet);
        let mut series: [Vec<(f64, f64)>; 3] = Default::default();
        for &count in &counts {
            let bytes = rows(count).bytes;
            let mut out = vec![0; bytes.len()];
            let mut rounds = Rounds::default();
            for _ in 0..effort.runs {
                let ours = || once(effort, || library::listing(&packed, 0, 0, &session, &bytes, &mut out));
                rounds.add(0, exports("listing").then(ours));
                rounds.add(1, Some(once(effort, || calls::listing(&packed, 0, 0, &session, &bytes, &mut out))));
                rounds.add(2, postgres.as_ref().ok().and_then(|postgres| postgres.once(s, count).ok()));
            }
            let times = [0, 1, 2].map(|who| rounds.timing(who));
            let ratios = [(2, 0), (2, 1), (0, 1)].map(|(one, other)| rounds.ratio(one, other));
            let medians = times.map(|time| time.map(|time| time.median));
            let speed = medians[0].map_or("-".into(), |seconds| format!("{:.0}", count as f64 / seconds));
            let named = [name.to_string(), count.to_string(), bytes.len().to_string()];
            report.row(&[&named[..], &times.map(cell)[..], &ratios.map(times_as)[..], &[speed]].concat());
            to_postgres.extend(ratios[0]);
            to_rust.extend(ratios[2]);
            for (series, time) in series.iter_mut().zip(medians) {
                series.extend(time.map(|time| (count as f64, time)));
            }
        }
        if s == 1 || s == 3 {
            let [ours, rust, theirs] = series;
            let short = if s == 1 { "4 atoms" } else { "208 atoms" };
            plots.push(Series { name: format!("library, {short}"), points: ours });
            plots.push(Series { name: format!("Rust, {short}"), points: rust });
            plots.push(Series { name: format!("PostgreSQL, {short}"), points: theirs });
        }
    }
    let least = to_postgres.iter().copied().reduce(f64::min);
    let most = to_rust.iter().copied().reduce(f64::max);
    report.target(
        "listing: at least 3 times as fast as PostgreSQL, at its least",
        least.map(|least| (format!("{least:.1}"), least >= 3.0)),
    );
    report.target(
        "listing: within 3 times of the Rust, at its most",
        most.map(|most| (format!("{most:.1}"), most <= 3.0)),
    );
    report.plot("listing.svg", "Listing: rows against time", "rows in the list", &plots)
}
