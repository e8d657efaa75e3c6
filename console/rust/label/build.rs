//! Finds the archive that the calls of this package reach, and has it linked.
//!
//! It is looked for in the folder that LABEL_LIB_DIR names; if that is not set, where it stands beside the installed
//! package (PREFIX/share/label/rust and PREFIX/lib), and where it is built (crates/console/out of the source tree).

use std::env;
use std::path::{Path, PathBuf};
use std::process::exit;

/// The archive's names: as it is installed, and as `tools/archive` has it made.
const NAMES: [&str; 2] = ["label", "console"];

/// The first of its names under which the archive stands in a folder.
fn found_in(folder: &Path) -> Option<&'static str> {
    NAMES
        .into_iter()
        .find(|name| folder.join(format!("lib{name}.a")).is_file())
}

fn main() {
    println!("cargo:rerun-if-changed=build.rs");
    println!("cargo:rerun-if-env-changed=LABEL_LIB_DIR");
    let folders: Vec<PathBuf> = match env::var_os("LABEL_LIB_DIR") {
        // a folder that was named is the only one: an archive from elsewhere would not be the one that was meant
        Some(named) => vec![named.into()],
        None => {
            let package = PathBuf::from(env::var_os("CARGO_MANIFEST_DIR").expect("cargo sets CARGO_MANIFEST_DIR"));
            let top = package.join("../../..");
            vec![top.join("lib"), top.join("crates/console/out")]
        }
    };
    for folder in &folders {
        if let Some(name) = found_in(folder) {
            println!("cargo:rerun-if-changed={}/lib{name}.a", folder.display());
            println!("cargo:rustc-link-search=native={}", folder.display());
            println!("cargo:rustc-link-lib=static={name}");
            return;
        }
    }
    eprintln!("label: there is no liblabel.a and no libconsole.a in");
    for folder in &folders {
        eprintln!("    {}", folder.display());
    }
    eprintln!("Set LABEL_LIB_DIR to the folder that the archive stands in, or build it in the");
    eprintln!("source tree by `tools/archive`.");
    exit(1);
}
