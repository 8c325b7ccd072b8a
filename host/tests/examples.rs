//! The example sheets are as their text says, and the files hold them.

use fiddlecomet_host::cases::format::hex;
use fiddlecomet_host::examples::{examples, fonts, mended};
use fiddlecomet_host::reading::{calls, pack, readout::readout};
use std::path::Path;

#[test]
fn the_read_outs_are_as_worked_out() {
    for (name, sheet, text) in examples() {
        assert_eq!(readout(&pack::sheet(&sheet)), text, "{name}");
    }
}

#[test]
fn the_files_hold_the_examples() {
    let folder = Path::new(env!("CARGO_MANIFEST_DIR")).join("../examples");
    for (name, sheet, text) in examples() {
        let bytes = pack::sheet(&sheet);
        let read = |ending: &str| std::fs::read(folder.join(name).with_extension(ending)).expect("an example's file");
        assert_eq!(read("sheet"), bytes);
        assert_eq!(read("hex"), (hex(&bytes) + "\n").into_bytes());
        assert_eq!(read("readout"), text.as_bytes());
    }
}

/// Tidying: the second policy is covered by the first, in both sheets, and not the other way round.
#[test]
fn own_rows_cover_own_rows_with_seats() {
    for sheet in [fonts(), mended()] {
        let bytes = pack::sheet(&sheet);
        assert_eq!((calls::covers(&bytes, 0, 1), calls::covers(&bytes, 1, 0)), (Ok(true), Ok(false)));
    }
}
