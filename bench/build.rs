//! Links the archive of the crate `measured`: the one that CHIRPSTEEPLE_MEASURED names, or the one that the repository makes.

use std::path::Path;

fn main() {
    let made = concat!(env!("CARGO_MANIFEST_DIR"), "/../target/staticlib/libmeasured.a");
    let archive = std::env::var("CHIRPSTEEPLE_MEASURED").unwrap_or_else(|_| made.into());
    assert!(Path::new(&archive).exists(), "{archive}: no such file; `.ci/archive measured` makes the archive");
    println!("cargo:rustc-link-arg={archive}");
    println!("cargo:rerun-if-env-changed=CHIRPSTEEPLE_MEASURED");
    println!("cargo:rerun-if-changed={archive}");
}
