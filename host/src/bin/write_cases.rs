//! Writes the run cases to crates/cases/data of the repository.

use fiddlecomet_host::cases::{format, groups};
use std::path::Path;

fn main() -> std::io::Result<()> {
    let folder = Path::new(env!("CARGO_MANIFEST_DIR")).join("../crates/cases/data");
    std::fs::create_dir_all(&folder)?;
    for group in groups() {
        std::fs::write(folder.join(group.file).with_extension("txt"), format::text(&group))?;
        println!("{} {}", group.file, group.cases.len());
    }
    Ok(())
}
