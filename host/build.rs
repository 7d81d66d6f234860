//! Links the proved calls of the check, of the reader and of epochs, `libcalls.a`, `libreader.a` and `libepochs.a`, from the folder that
//! TLZ_LIB_DIR names.

use std::path::{Path, PathBuf};

/// Where `make lib` puts them, seen from this package; other folders are seen from here too.
const DEFAULT: &str = "../target/staticlib";

/// Links one archive of the folder; ends the build if it is not there.
fn link(folder: &Path, name: &str) {
    let archive = folder.join(format!("lib{name}.a"));
    if !archive.is_file() {
        eprintln!("error: there is no {}", archive.display());
        eprintln!("Make it with `make lib` in the project's folder,");
        eprintln!("or name the folder that holds lib{name}.a in TLZ_LIB_DIR.");
        std::process::exit(1);
    }
    println!("cargo:rerun-if-changed={}", archive.display());
    println!("cargo:rustc-link-lib=static={name}");
}

fn main() {
    println!("cargo:rerun-if-env-changed=TLZ_LIB_DIR");
    let named = std::env::var_os("TLZ_LIB_DIR").unwrap_or_else(|| DEFAULT.into());
    let folder = Path::new(env!("CARGO_MANIFEST_DIR")).join(PathBuf::from(named));
    println!("cargo:rustc-link-search=native={}", folder.display());
    for name in ["calls", "reader", "epochs"] {
        link(&folder, name);
    }
}
