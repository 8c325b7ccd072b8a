//! Reading and normal form: how time grows with a sheet's bytes and with the atoms of a clause.

use super::figures::{by_library, cell, ratio};
use super::plot::Series;
use super::report::Report;
use super::sheets;
use super::time::{readable, time, Effort};
use crate::library;
use crate::reading::{calls, pack};
use std::io;

/// 3. Reading a sheet, by its size; `branches` reads it and counts.
pub fn readings(report: &mut Report, effort: Effort, quick: bool) -> io::Result<()> {
    report.table("Reading", &["bytes", "library", "library ns a byte", "Rust", "Rust ns a byte"]);
    let sizes: &[usize] = if quick { &[200, 1000, 16_000] } else { &[200, 500, 1000, 2000, 4000, 8000, 16_000] };
    let mut plots: [Vec<(f64, f64)>; 2] = Default::default();
    for &size in sizes {
        let packed = pack::sheet(&sheets::of_bytes(size));
        let ours = by_library(effort, "branches", || library::branches(&packed, 0, 0));
        let rust = time(effort, || calls::branches(&packed, 0, 0));
        let bytes = packed.len() as f64;
        if size == 16_000 {
            let wanted = "reading 16,000 bytes: well under a millisecond";
            report.target(wanted, ours.map(|time| (readable(time.median), time.median < 5e-4)));
        }
        let per_byte = |time: f64| format!("{:.2}", time / bytes * 1e9);
        report.row(&[
            packed.len().to_string(),
            cell(ours),
            ours.map_or("-".into(), |time| per_byte(time.median)),
            rust.to_string(),
            per_byte(rust.median),
        ]);
        plots[0].extend(ours.map(|time| (bytes, time.median)));
        plots[1].push((bytes, rust.median));
    }
    let [ours, rust] = plots;
    let named = |name: &str, points| Series { name: name.into(), points };
    report.plot(
        "reading.svg",
        "Reading: bytes against time",
        "bytes of the sheet",
        &[named("library", ours), named("Rust", rust)],
    )
}

/// 3. The normal form, by atoms a clause and by size.
pub fn normals(report: &mut Report, effort: Effort, quick: bool) -> io::Result<()> {
    report.table("Normal form", &["sheet", "bytes", "library", "Rust", "library / Rust"]);
    let mut plots: [Vec<(f64, f64)>; 2] = Default::default();
    let atoms: &[usize] = if quick { &[1, 4, 8] } else { &[1, 2, 3, 4, 5, 6, 7, 8] };
    let by_atoms =
        atoms.iter().map(|&atoms| (format!("64 clauses of {atoms} atoms"), Some(atoms), sheets::of_atoms(atoms)));
    let by_bytes = [1000, 4000, 16_000].map(|bytes| ("mixed".to_string(), None, sheets::of_bytes(bytes)));
    for (name, atoms, sheet) in by_atoms.chain(by_bytes) {
        let packed = pack::sheet(&sheet);
        let mut out = vec![0; packed.len()];
        let ours = by_library(effort, "normal", || library::normal_form(&packed, &mut out));
        let rust = time(effort, || calls::normal_form(&packed, &mut out));
        report.row(&[
            name,
            packed.len().to_string(),
            cell(ours),
            rust.to_string(),
            ratio(ours.map(|t| t.median), Some(rust.median)),
        ]);
        if let Some(atoms) = atoms {
            plots[0].extend(ours.map(|time| (atoms as f64, time.median)));
            plots[1].push((atoms as f64, rust.median));
        }
    }
    let [ours, rust] = plots;
    let named = |name: &str, points| Series { name: name.into(), points };
    report.plot(
        "normal.svg",
        "Normal form: atoms a clause against time",
        "atoms a clause",
        &[named("library", ours), named("Rust", rust)],
    )
}
