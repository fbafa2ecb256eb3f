//! Links the proved library, `crates/cabi/out/libcabi.a` of the repository, into the tests.

use std::path::Path;

fn main() {
    let archive = Path::new(env!("CARGO_MANIFEST_DIR")).join("../../crates/cabi/out/libcabi.a");
    println!("cargo:rerun-if-changed={}", archive.display());
    println!("cargo:rustc-link-arg-tests={}", archive.display());
}
