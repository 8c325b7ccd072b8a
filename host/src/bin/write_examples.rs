//! Writes the example sheets to examples/ of the repository: the bytes, their hex, their read-out.

use fiddlecomet_host::cases::format::hex;
use fiddlecomet_host::examples::examples;
use fiddlecomet_host::reading::pack;
use std::path::Path;

fn main() -> std::io::Result<()> {
    let folder = Path::new(env!("CARGO_MANIFEST_DIR")).join("../examples");
    for (name, sheet, text) in examples() {
        let bytes = pack::sheet(&sheet);
        std::fs::write(folder.join(name).with_extension("hex"), hex(&bytes) + "\n")?;
        std::fs::write(folder.join(name).with_extension("readout"), text)?;
        std::fs::write(folder.join(name).with_extension("sheet"), bytes)?;
    }
    Ok(())
}
