//! Images that a command writes: to a file, whole or not at all, or to standard output.

use std::ffi::{OsStr, OsString};
use std::fs::{self, File, OpenOptions};
use std::io::{self, IsTerminal, Write};
use std::path::{Path, PathBuf};

use crate::answer::{Failure, Kind};
use crate::text::shown;

/// Where an image goes.
#[derive(clap::Args, Debug)]
pub struct Output {
    /// The file to write, whole or not at all; - is standard output
    #[arg(short, long, value_name = "OUT")]
    output: OsString,
}

impl Output {
    /// Whether it is standard output.
    pub fn is_standard(&self) -> bool {
        self.output == "-"
    }

    /// Its name for people.
    pub fn name(&self) -> String {
        shown(&self.output)
    }

    /// Asked before anything is read.
    pub fn not_a_terminal(&self) -> Result<(), Failure> {
        match self.is_standard() && io::stdout().is_terminal() {
            false => Ok(()),
            true => Err(Failure::arguments(
                "an image is not written to a terminal",
                "name a file with -o, or send standard output to one",
            )),
        }
    }

    pub fn write(&self, bytes: &[u8]) -> Result<(), Failure> {
        let failed =
            |message, what_to_do: &str| Failure { kind: Kind::Write, message, what_to_do: Some(what_to_do.to_owned()) };
        if self.is_standard() {
            let mut out = io::stdout().lock();
            return out.write_all(bytes).and_then(|()| out.flush()).map_err(|why| {
                failed(format!("the image could not be written: {why}"), "see where standard output goes")
            });
        }
        write_whole(&self.output, bytes).map_err(|why| {
            let message = format!("the image could not be written: {}: {why}", self.name());
            failed(message, "name a file that can be written with -o")
        })
    }
}

/// A file of its own beside the one that is to be written.
fn beside(path: &Path) -> Option<PathBuf> {
    let mut name = OsString::from(".");
    name.push(path.file_name()?);
    name.push(format!(".{}.part", std::process::id()));
    Some(path.with_file_name(name))
}

fn put(path: &Path, bytes: &[u8]) -> io::Result<()> {
    let mut file: File = OpenOptions::new().write(true).create_new(true).open(path)?;
    file.write_all(bytes)?;
    file.sync_all()
}

/// Writes a file whole, or leaves what was there: the bytes go to a file beside it, which then takes its name.
fn write_whole(name: &OsStr, bytes: &[u8]) -> io::Result<()> {
    let other = |why| io::Error::new(io::ErrorKind::Other, why);
    // a link stays one: what it leads to is written
    let path = fs::canonicalize(name).unwrap_or_else(|_| PathBuf::from(name));
    let before = fs::metadata(&path).ok();
    match &before {
        Some(found) if found.is_dir() => return Err(other("it is a folder")),
        Some(found) if !found.is_file() => return Err(other("it is not a file")),
        _ => {}
    }
    let part = beside(&path).ok_or_else(|| other("it is no file's name"))?;
    let written = put(&part, bytes)
        .and_then(|()| before.map_or(Ok(()), |found| fs::set_permissions(&part, found.permissions())))
        .and_then(|()| fs::rename(&part, &path));
    if matches!(&written, Err(why) if why.kind() != io::ErrorKind::AlreadyExists) {
        let _ = fs::remove_file(&part);
    }
    written
}
