//! Links the library's archive: the one that CHIRPSTEEPLE_ARCHIVE names, or the one that the repository makes.

use std::env;
use std::path::{Path, PathBuf};

fn main() {
    let made = || Path::new("../../target/staticlib/libchirpsteeple.a").to_owned();
    let archive = env::var_os("CHIRPSTEEPLE_ARCHIVE").map_or_else(made, PathBuf::from);
    let out = PathBuf::from(env::var_os("OUT_DIR").unwrap());
    // A copy, since a linker finds libraries by their names, and the archive may have another.
    if let Err(e) = std::fs::copy(&archive, out.join("libchirpsteeple.a")) {
        panic!("{}: {e}; `.ci/archive chirpsteeple_c` makes the archive", archive.display());
    }
    println!("cargo:rustc-link-search=native={}", out.display());
    println!("cargo:rustc-link-lib=static=chirpsteeple");
    println!("cargo:rerun-if-env-changed=CHIRPSTEEPLE_ARCHIVE");
    println!("cargo:rerun-if-changed={}", archive.display());
}
