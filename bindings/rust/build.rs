//! Links the archive of the proved engine: `libparvusek.a` or `libengine.a` in the folder that PARVUSEK_LIB_DIR names,
//! or `libengine.a` where the repository builds it.

use std::env;
use std::path::{Path, PathBuf};

fn main() {
    println!("cargo:rerun-if-env-changed=PARVUSEK_LIB_DIR");
    let (folder, name) = archive();
    println!("cargo:rerun-if-changed={}", folder.join(format!("lib{name}.a")).display());
    println!("cargo:rustc-link-search=native={}", folder.display());
    println!("cargo:rustc-link-lib=static={name}");
}

fn archive() -> (PathBuf, &'static str) {
    let named = env::var_os("PARVUSEK_LIB_DIR").map(PathBuf::from);
    let folder = named.clone().unwrap_or_else(|| {
        let here = env::var_os("CARGO_MANIFEST_DIR").expect("cargo says where the crate is");
        Path::new(&here).join("../../target/staticlib")
    });
    for name in ["parvusek", "engine"] {
        if folder.join(format!("lib{name}.a")).is_file() {
            return (folder, name);
        }
    }
    let hint = match named {
        Some(_) => "PARVUSEK_LIB_DIR names this folder; './install PREFIX' puts the archive into PREFIX/lib",
        None => "make it with 'bindings/build' in the repository, or set PARVUSEK_LIB_DIR to its folder",
    };
    panic!("there is no libparvusek.a and no libengine.a in {}: {hint}", folder.display());
}
