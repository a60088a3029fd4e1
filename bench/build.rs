//! Puts the Rust, unchanged, where it can be built. The library is linked by the crate pamuklid
//! (`wrapper/rust`): `PAMUKLID_LIB_DIR` is its folder, by default `target/staticlib` in the repository.
//!
//! - `PAMUKLID_RUST_SRC`: the folder that holds `core/aetherd/src/regulatory/{mod,profile,
//!   occupancy}.rs`; by default `../shared/docs/src` from the repository's root. The three files
//!   are copied into cargo's own output folder, beside stand-ins for the two data files that they
//!   include.

use std::env;
use std::fs;
use std::path::PathBuf;

fn folder(name: &str, default: PathBuf) -> PathBuf {
    println!("cargo::rerun-if-env-changed={name}");
    env::var_os(name).map_or(default, PathBuf::from)
}

fn main() {
    println!("cargo::rerun-if-changed=build.rs");
    let here = PathBuf::from(env::var_os("CARGO_MANIFEST_DIR").unwrap());
    let root = here.parent().unwrap().to_path_buf();
    let out = PathBuf::from(env::var_os("OUT_DIR").unwrap());
    let rust = folder("PAMUKLID_RUST_SRC", root.join("../shared/docs/src"));
    let module = out.join("rust/src/regulatory");
    fs::create_dir_all(&module).unwrap();
    for file in ["mod.rs", "profile.rs", "occupancy.rs"] {
        let from = rust.join("core/aetherd/src/regulatory").join(file);
        println!("cargo::rerun-if-changed={}", from.display());
        let bytes = fs::read(&from).unwrap_or_else(|e| panic!("{}: {e}", from.display()));
        fs::write(module.join(file), bytes).unwrap();
    }
    fs::create_dir_all(out.join("rust/data/regulatory")).unwrap();
    fs::write(out.join("rust/data/occupancy.json"), "{\"airs\":{}}").unwrap();
    fs::write(out.join("rust/data/regulatory/us-fcc-part97.json"), "{}").unwrap();
    let text = format!(
        "#[allow(dead_code, unused_imports)]\n#[path = {:?}]\npub mod regulatory;\n",
        module.join("mod.rs")
    );
    fs::write(out.join("rust.rs"), text).unwrap();
}
