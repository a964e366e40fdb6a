//! Links the proved archives to the programs: the one that is shipped, and the direct grid. The library and its unit
//! tests need no archive.
use std::{env, path::PathBuf};

fn main() {
    let here = PathBuf::from(env::var("CARGO_MANIFEST_DIR").expect("cargo sets it"));
    for archive in ["libengine.a", "libdirect_grid.a"] {
        let archive = here.join("../target/staticlib").join(archive);
        println!("cargo:rerun-if-changed={}", archive.display());
        println!("cargo:rustc-link-arg-bins={}", archive.display());
    }
}
