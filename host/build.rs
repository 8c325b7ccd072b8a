//! Links libfiddlecomet.a where it stands, and says which of the six calls it exports. A call that
//! it doesn't export gets a stand-in that nobody is to call, so that the rest can be compared.
//! The archive's folder is FIDDLECOMET_LIB, or target/staticlib of the repository.

use std::path::{Path, PathBuf};
use std::process::Command;

/// Each call, its parameters and its reply.
const CALLS: [(&str, &str, &str); 6] = [
    ("listing", "*const u8, usize, u32, u32, *const u8, usize, *const u8, usize, *mut u8, usize", "Listed"),
    ("normal_form", "*const u8, usize, *mut u8, usize", "Written"),
    ("dead", "*const u8, usize, u32, u32", "Life"),
    ("isolated", "*const u8, usize, u32, u32", "Isolation"),
    ("covers", "*const u8, usize, u32, u32", "Cover"),
    ("branches", "*const u8, usize, u32, u32", "BranchCount"),
];

/// The names that the archive defines.
fn defined(archive: &Path) -> Vec<String> {
    let listed = Command::new("nm").args(["-g", "--defined-only"]).arg(archive).output().expect("nm is installed");
    let text = String::from_utf8_lossy(&listed.stdout).into_owned();
    text.lines().filter_map(|line| line.split(' ').nth(2).map(str::to_string)).collect()
}

fn main() {
    println!("cargo:rerun-if-env-changed=FIDDLECOMET_LIB");
    let folder = match std::env::var_os("FIDDLECOMET_LIB") {
        Some(folder) => PathBuf::from(folder),
        None => {
            PathBuf::from(std::env::var_os("CARGO_MANIFEST_DIR").expect("set by cargo")).join("../target/staticlib")
        }
    };
    let archive = folder.join("libfiddlecomet.a");
    println!("cargo:rerun-if-changed={}", archive.display());
    println!("cargo:rerun-if-changed=build.rs");
    let mut names = Vec::new();
    if archive.exists() {
        names = defined(&archive);
        println!("cargo:rustc-link-search=native={}", folder.display());
        println!("cargo:rustc-link-lib=static=fiddlecomet");
    }
    let is_exported = |call: &str| names.iter().any(|name| *name == format!("fiddlecomet_{call}"));
    let exported: Vec<&str> = CALLS.iter().map(|call| call.0).filter(|call| is_exported(call)).collect();
    let mut text = format!("/// The calls that the library exports.\npub const EXPORTED: &[&str] = &{exported:?};\n");
    for (call, parameters, reply) in CALLS.iter().filter(|call| !is_exported(call.0)) {
        let parameters = parameters.split(", ").map(|kind| format!("_: {kind}")).collect::<Vec<_>>().join(", ");
        text += &format!(
            "#[no_mangle]\nextern \"C\" fn fiddlecomet_{call}({parameters}) -> super::{reply} {{\n    \
             panic!(\"the library doesn't export {call}\")\n}}\n"
        );
    }
    let out = PathBuf::from(std::env::var_os("OUT_DIR").expect("set by cargo"));
    std::fs::write(out.join("exported.rs"), text).expect("the build's own folder");
}
