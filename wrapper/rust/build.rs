//! Says where `libpamuklid.a` is: in the folder `PAMUKLID_LIB_DIR`, by default `target/staticlib` of the
//! repository, where `tools/library` puts it. A relative folder counts from where cargo is
//! called, whichever crate is built.
//!
//! A crate that depends on this one has, in its build script, `DEP_PAMUKLID_FAULT`: 1 where the library
//! has `pamuklid_fault_of`, else 0.

use std::env;
use std::fs;
use std::path::{Path, PathBuf};
use std::process::{exit, Command};

const LIBRARY: &str = "libpamuklid.a";
const FOLDER: &str = "PAMUKLID_LIB_DIR";

fn main() {
    println!("cargo:rerun-if-changed=build.rs");
    if env::var_os("CARGO_FEATURE_NO_LINK").is_some() {
        return;
    }
    println!("cargo:rerun-if-env-changed={FOLDER}");
    let folder = match env::var_os(FOLDER) {
        Some(name) if !name.is_empty() => named(Path::new(&name)),
        _ => {
            let here = PathBuf::from(env::var_os("CARGO_MANIFEST_DIR").unwrap_or_default());
            let root = here.join("../..");
            root.canonicalize().unwrap_or(root).join("target/staticlib")
        }
    };
    let library = folder.join(LIBRARY);
    println!("cargo:rerun-if-changed={}", library.display());
    let bytes = match fs::read(&library) {
        Ok(bytes) => bytes,
        Err(why) => stop(&[
            format!("{LIBRARY} is missing; looked for in {} ({why})", folder.display()),
            "build it with `tools/library` in the repository, which proves it first: that takes long"
                .to_owned(),
            format!(
                "or name its folder in {FOLDER} (a relative one counts from where cargo is called)"
            ),
        ]),
    };
    if !names(&bytes, "pamuklid_version") {
        let version = env::var("CARGO_PKG_VERSION").unwrap_or_default();
        stop(&[
            format!(
                "{} is older than this crate, {version}: no pamuklid_version",
                library.display()
            ),
            "build it again with `tools/library` in the repository".to_owned(),
        ]);
    }
    println!("cargo:fault={}", u8::from(names(&bytes, "pamuklid_fault_of")));
    println!("cargo:rustc-link-search=native={}", folder.display());
    println!("cargo:rustc-link-lib=static=pamuklid");
}

/// The folder of a name: absolute, or from where cargo is called. A build script is started in the
/// folder of its own crate; cargo, which started it, is where it was called.
fn named(name: &Path) -> PathBuf {
    if name.is_absolute() {
        return name.to_path_buf();
    }
    // the same name means another folder when cargo is called elsewhere
    println!("cargo:rerun-if-env-changed=PWD");
    let Some(called) = caller().or_else(|| env::var_os("PWD").map(PathBuf::from)) else {
        let name = name.display();
        stop(&[format!(
            "{FOLDER} is {name}, but where cargo was called is not known: name it from /"
        )]);
    };
    let folder = called.join(name);
    folder.canonicalize().unwrap_or(folder)
}

/// Where the program that started this one stands, on a system that says so.
#[cfg(unix)]
fn caller() -> Option<PathBuf> {
    fs::read_link(format!("/proc/{}/cwd", std::os::unix::process::parent_id())).ok()
}

#[cfg(not(unix))]
fn caller() -> Option<PathBuf> {
    None
}

/// Whether an archive names a symbol.
fn names(archive: &[u8], symbol: &str) -> bool {
    let name = format!("\0{symbol}\0");
    archive.windows(name.len()).any(|w| w == name.as_bytes())
}

/// Ends the build with an error. From 1.84 on cargo prints it plainly; before, it prints what a script
/// wrote that failed.
fn stop(lines: &[String]) -> ! {
    let plainly = minor_version() >= Some(84);
    for line in lines {
        if plainly {
            println!("cargo::error={line}");
        } else {
            eprintln!("{line}");
        }
    }
    exit(if plainly { 0 } else { 1 })
}

/// 84 of "rustc 1.84.0 (...)".
fn minor_version() -> Option<u32> {
    let said = Command::new(env::var_os("RUSTC")?).arg("--version").output().ok()?;
    let said = String::from_utf8(said.stdout).ok()?;
    said.strip_prefix("rustc 1.")?.split('.').next()?.parse().ok()
}
