//! Puts the Rust, unchanged, where it can be built. The library is linked by the crate pamuklid
//! (`wrapper/rust`): `PAMUKLID_LIB_DIR` is its folder, by default `target/staticlib` in the repository.
//!
//! - `PAMUKLID_RUST_SRC`: the folder that holds `core/aetherd/src/regulatory/{mod,profile,
//!   occupancy}.rs`; by default `../shared/docs/src` from the repository's root. The three files
//!   are copied into cargo's own output folder, beside stand-ins for the two data files that they
//!   include and that aren't to be had. Nothing of the Rust is kept in the repository.
//! - Where a table is wrong is compared if the library has `pamuklid_fault_of` (cfg `fault`); else the
//!   driver links without it and says "fault: not compared".
//! - With the feature `unequal` the copy is no longer the Rust unchanged: it has an upper margin beside its
//!   own, by the edits of `PARTED` and nothing else. With the feature `watts` it has the 60 m power limits from
//!   its caller, by those of `AMENDED`.
//! - `PAMUKLID_STUB_SRC`, `PAMUKLID_STUB_OWN` (feature `stub` only): the Rust, and the folder of the
//!   files of `OWN` that the stub answers from, where they are to differ from the driver's.

use std::env;
use std::fs;
use std::path::{Path, PathBuf};

fn folder(name: &str, default: PathBuf) -> PathBuf {
    println!("cargo::rerun-if-env-changed={name}");
    env::var_os(name).map_or(default, PathBuf::from)
}

/// "a lower and an upper margin instead of one, each used at its own side everywhere, dial ranges included"
/// (document 02, 9): the Rust's margin is the lower one, and where it stands at the upper side of the air it
/// becomes the upper one. Each text, how often it stands in mod.rs, and what it becomes.
const PARTED: [(&str, usize, &str); 12] = [
    (
        "    /// The transmitter's power, watts, when the operator said.\n    pub power_w: Option<f64>,\n}\n",
        1,
        "    pub power_w: Option<f64>,\n    pub upper_hz: f64,\n}\n",
    ),
    ("    margin: f64,\n) -> Option", 1, "    margin: f64,\n    upper: f64,\n) -> Option"),
    ("segment.high_hz - audio_high - margin,", 1, "segment.high_hz - audio_high - upper,"),
    ("segment.high_hz + audio_low - margin,", 1, "segment.high_hz + audio_low - upper,"),
    ("a_lo, a_hi, s.margin_hz)", 1, "a_lo, a_hi, s.margin_hz, s.upper_hz)"),
    ("hi + s.margin_hz) {", 1, "hi + s.upper_hz) {"),
    ("ghi: hi + s.margin_hz,", 1, "ghi: hi + s.upper_hz,"),
    ("ghi - s.margin_hz),", 2, "ghi - s.upper_hz),"),
    ("c.s.margin_hz, rf_text)", 1, "(c.s.margin_hz, c.s.upper_hz), rf_text)"),
    ("    m: f64,\n", 1, "    (m, upper): (f64, f64),\n"),
    ("(lo - m, hi + m)", 1, "(lo - m, hi + upper)"),
    ("(c.lo - m, c.hi + m)", 1, "(c.lo - m, c.hi + c.s.upper_hz)"),
];

/// "The 60 m power limits are fixed figures in the gate, and trustees expect these to be amended." "With other
/// watts the notes and warnings are held to the same definition with those watts in it" (document 02, 6): the
/// two figures that the Rust compares with come with the situation. Its words keep 100 and 9.15.
const AMENDED: [(&str, usize, &str); 3] = [
    (
        "pub struct Situation {\n",
        1,
        "pub struct Situation {\n    pub channel_w: f64,\n    pub segment_w: f64,\n",
    ),
    ("c.s.power_w.filter(|&p| p > 100.0)", 1, "c.s.power_w.filter(|&p| p > c.s.channel_w)"),
    ("c.s.power_w.filter(|&p| p > 9.15)", 1, "c.s.power_w.filter(|&p| p > c.s.segment_w)"),
];

/// The driver's files that the stub has a copy of.
const OWN: [&str; 10] = [
    "expect",
    "adapter",
    "amendment",
    "distance",
    "edition",
    "nearest",
    "report",
    "airtime",
    "sixty",
    "walk",
];

fn copy(from: &Path, to: &Path) {
    println!("cargo::rerun-if-changed={}", from.display());
    let bytes = fs::read(from).unwrap_or_else(|e| panic!("{}: {e}", from.display()));
    fs::write(to, bytes).unwrap_or_else(|e| panic!("{}: {e}", to.display()));
}

fn edit(file: &Path, edits: &[(&str, usize, &str)]) {
    let mut text = fs::read_to_string(file).unwrap();
    for &(old, times, new) in edits {
        assert_eq!(text.matches(old).count(), times, "{old:?} in {}", file.display());
        text = text.replace(old, new);
    }
    fs::write(file, text).unwrap();
}

/// The module at `src`, as `OUT_DIR/name.rs` to be included.
fn place(src: &Path, out: &Path, name: &str) {
    let home = out.join(name);
    let module = home.join("src/regulatory");
    fs::create_dir_all(&module).unwrap();
    for file in ["mod.rs", "profile.rs", "occupancy.rs"] {
        copy(&src.join("core/aetherd/src/regulatory").join(file), &module.join(file));
    }
    if env::var_os("CARGO_FEATURE_UNEQUAL").is_some() {
        edit(&module.join("mod.rs"), &PARTED);
    }
    if env::var_os("CARGO_FEATURE_WATTS").is_some() {
        edit(&module.join("mod.rs"), &AMENDED);
    }
    fs::create_dir_all(home.join("data/regulatory")).unwrap();
    fs::write(home.join("data/occupancy.json"), "{\"airs\":{}}").unwrap();
    fs::write(home.join("data/regulatory/us-fcc-part97.json"), "{}").unwrap();
    include(&module.join("mod.rs"), "regulatory", &out.join(format!("{name}.rs")));
}

fn include(file: &Path, module: &str, into: &Path) {
    let text =
        format!("#[allow(dead_code, unused_imports)]\n#[path = {file:?}]\npub mod {module};\n");
    fs::write(into, text).unwrap();
}

fn main() {
    println!("cargo::rerun-if-changed=build.rs");
    println!("cargo::rustc-check-cfg=cfg(fault)");
    let here = PathBuf::from(env::var_os("CARGO_MANIFEST_DIR").unwrap());
    let root = here.parent().unwrap().to_path_buf();
    let out = PathBuf::from(env::var_os("OUT_DIR").unwrap());
    let rust = folder("PAMUKLID_RUST_SRC", root.join("../shared/docs/src"));
    place(&rust, &out, "oracle");
    let stub = env::var_os("CARGO_FEATURE_STUB").is_some();
    if stub || env::var_os("DEP_PAMUKLID_FAULT").is_some_and(|has| has == "1") {
        println!("cargo::rustc-cfg=fault");
    }
    if stub {
        place(&folder("PAMUKLID_STUB_SRC", rust), &out, "original");
        let own = folder("PAMUKLID_STUB_OWN", here.join("src"));
        for name in OWN {
            let file = out.join(format!("stub_{name}.rs"));
            copy(&own.join(format!("{name}.rs")), &file);
            include(&file, name, &out.join(format!("include_{name}.rs")));
        }
    }
}
