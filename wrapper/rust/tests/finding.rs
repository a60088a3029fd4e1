//! How the build finds the library, what it says where it doesn't, and that a library of another version
//! is noticed: seen from a crate that depends on this one. The library itself is not linked: for
//! `cargo check` a file that names the functions is enough, and with the feature `no-link` the crate
//! supplies them.

use std::env;
use std::fs;
use std::path::{Path, PathBuf};
use std::process::{Command, Output};

const FOLDER: &str = "PAMUKLID_LIB_DIR";

/// A folder of its own, with a crate in `user/` that depends on this one.
fn scene(name: &str) -> PathBuf {
    let program = "fn main() {\n    pamuklid::version();\n}\n";
    scene_with(name, "", program)
}

fn scene_with(name: &str, feature: &str, program: &str) -> PathBuf {
    let root = Path::new(env!("CARGO_TARGET_TMPDIR")).join(name);
    let _ = fs::remove_dir_all(&root);
    fs::create_dir_all(root.join("user/src")).unwrap();
    let manifest = format!(
        "[package]\nname = \"user\"\nversion = \"0.1.0\"\nedition = \"2021\"\n\n[workspace]\n\n\
         [dependencies]\npamuklid = {{ path = {:?}, features = [{feature}] }}\n",
        env!("CARGO_MANIFEST_DIR")
    );
    fs::write(root.join("user/Cargo.toml"), manifest).unwrap();
    fs::write(root.join("user/src/main.rs"), program).unwrap();
    root
}

/// A file that the build takes for the library, in a folder.
fn library(folder: &Path, names: &str) {
    fs::create_dir_all(folder).unwrap();
    fs::write(folder.join("libpamuklid.a"), names).unwrap();
}

/// Checks the crate, with cargo called from a folder.
fn check(root: &Path, called_in: &Path, folder: &str) -> Output {
    cargo("check", root, called_in, folder)
}

fn cargo(command: &str, root: &Path, called_in: &Path, folder: &str) -> Output {
    Command::new(env!("CARGO"))
        .args([command, "--offline", "--quiet", "--manifest-path"])
        .arg(root.join("user/Cargo.toml"))
        .current_dir(called_in)
        .env(FOLDER, folder)
        .env("PWD", called_in)
        .env("CARGO_TARGET_DIR", root.join("target"))
        .env_remove("RUST_BACKTRACE")
        .output()
        .unwrap()
}

fn said(output: &Output) -> String {
    String::from_utf8_lossy(&output.stderr).into_owned()
}

fn fails(output: &Output, with: &[&str]) {
    let said = said(output);
    assert!(!output.status.success(), "{said}");
    for text in with {
        assert!(said.contains(text), "{text:?} is not in:\n{said}");
    }
    for noise in ["panicked", "backtrace"] {
        assert!(!said.contains(noise), "{said}");
    }
}

#[test]
fn missing() {
    let root = scene("missing");
    let empty = root.join("empty");
    fs::create_dir(&empty).unwrap();
    let output = check(&root, &root, empty.to_str().unwrap());
    let looked = format!("libpamuklid.a is missing; looked for in {} (", empty.display());
    fails(&output, &[&looked, "build it with `tools/library`", FOLDER]);
    // then it is there
    library(&empty, "\0pamuklid_version\0");
    let output = check(&root, &root, empty.to_str().unwrap());
    assert!(output.status.success(), "{}", said(&output));
}

#[test]
fn relative() {
    let root = scene("relative");
    library(&root.join("here/lib"), "\0pamuklid_version\0");
    let (here, there) = (root.join("here/below"), root.join("there"));
    fs::create_dir_all(&here).unwrap();
    fs::create_dir_all(&there).unwrap();
    let output = check(&root, &here, "../lib");
    assert!(output.status.success(), "{}", said(&output));
    // the same words from elsewhere are another folder
    let output = check(&root, &there, "../lib");
    fails(&output, &["looked for in ", "/relative/there/../lib ("]);
    let output = check(&root, &here, "../lib");
    assert!(output.status.success(), "{}", said(&output));
}

#[test]
fn older() {
    let root = scene("older");
    library(&root.join("lib"), "\0pamuklid_check\0pamuklid_versions\0");
    let output = check(&root, &root, "lib");
    fails(&output, &["/lib/libpamuklid.a is older than this crate", "build it again"]);
}

/// A library that says 0.14.1: its version can be asked, and no other call goes to it.
#[test]
fn another_version() {
    let program = "
#[no_mangle]
extern \"C\" fn pamuklid_version() -> u32 {
    1401
}

#[no_mangle]
extern \"C\" fn pamuklid_check(_: *const u8, _: usize) -> u8 {
    println!(\"called\");
    0
}

fn main() {
    println!(\"{}\", pamuklid::version());
    let _ = pamuklid::check(&[]);
}
";
    let root = scene_with("another_version", "\"no-link\"", program);
    let output = cargo("run", &root, &root, "");
    assert!(!output.status.success());
    assert_eq!(String::from_utf8_lossy(&output.stdout), "0.14.1\n", "{}", said(&output));
    let why = "written for libpamuklid.a 0.14.0, and 0.14.1 is linked: build the library again";
    assert!(said(&output).contains(why), "{}", said(&output));
}
