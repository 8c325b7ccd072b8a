//! Peak stack of each call.

use super::listings::rows;
use super::report::Report;
use super::sheets::{self, Apart, Leak};
use super::stack;
use crate::cases::limits;
use crate::library::{self, exports};
use crate::reading::sheet::Selector;
use crate::reading::{calls, pack};

/// The most that reading nests: a selector of so many nodes one within another.
fn nested(nodes: usize) -> Vec<u8> {
    let selector = (1..nodes).fold(Selector::All, |inner, _| Selector::And(Box::new(Selector::All), Box::new(inner)));
    pack::sheet(&sheets::plain(selector))
}

/// 4. Peak stack of each call, with the worst inputs among those above.
pub fn stacks(report: &mut Report) {
    report.table("Peak stack in bytes (painted)", &["call", "library", "Rust (which also uses the heap)"]);
    let many = pack::sheet(&sheets::listings()[3].1);
    let bytes = rows(sheets::full_list()).bytes;
    let session = pack::contents(&[Some(1), Some(1)]);
    let inputs: Vec<Vec<u8>> = vec![
        many,
        pack::sheet(&limits::sheet_of(16_384)),
        pack::sheet(&sheets::branches(64, Leak::None, Apart::List)),
        pack::sheet(&sheets::branches(256, Leak::First, Apart::List)),
        pack::sheet(&sheets::of_bytes(16_000)),
        pack::sheet(&sheets::of_atoms(8)),
        nested(6),
        nested(7),
    ];
    let mut out = vec![0; 70_000];
    let mut peaks = Vec::new();
    for call in ["reading", "listing", "normal_form", "dead", "isolated", "covers", "branches"] {
        let (mut ours, mut rust) = (0, 0);
        for sheet in &inputs {
            if measured(call) {
                ours = ours.max(stack::peak(|| match call {
                    // A table that is not there: the whole sheet is read first.
                    "reading" => drop(library::branches(sheet, 99, 0)),
                    "listing" => drop(library::listing(sheet, 0, 0, &session, &bytes, &mut out)),
                    "normal_form" => drop(library::normal_form(sheet, &mut out)),
                    "dead" => drop(library::dead(sheet, 0, 0)),
                    "isolated" => drop(library::isolated(sheet, 0, 0)),
                    "covers" => drop(library::covers(sheet, 0, 1)),
                    _ => drop(library::branches(sheet, 0, 0)),
                }));
            }
            rust = rust.max(stack::peak(|| match call {
                "reading" => drop(calls::branches(sheet, 99, 0)),
                "listing" => drop(calls::listing(sheet, 0, 0, &session, &bytes, &mut out)),
                "normal_form" => drop(calls::normal_form(sheet, &mut out)),
                "dead" => drop(calls::dead(sheet, 0, 0)),
                "isolated" => drop(calls::isolated(sheet, 0, 0)),
                "covers" => drop(calls::covers(sheet, 0, 1)),
                _ => drop(calls::branches(sheet, 0, 0)),
            }));
        }
        report.row(&[call.into(), if measured(call) { ours.to_string() } else { "-".into() }, rust.to_string()]);
        if measured(call) {
            peaks.push((call, ours));
        }
    }
    for (call, what) in [("reading", "stack of reading: under 8 KiB"), ("listing", "stack of a listing: under 8 KiB")] {
        let peak = peaks.iter().find(|(name, _)| *name == call);
        report.target(what, peak.map(|(_, bytes)| (bytes.to_string(), *bytes < 8 * 1024)));
    }
    let most = peaks.iter().max_by_key(|(_, bytes)| *bytes);
    report.target(
        "stack of every call: under 64 KiB",
        most.map(|(call, bytes)| (format!("{bytes} ({call})"), *bytes < 64 * 1024)),
    );
}

/// Is the call there? Reading by itself is measured through `branches`.
fn measured(call: &str) -> bool {
    exports(if call == "reading" { "branches" } else { call })
}
