//! The table that is judged by: the practice table, a file, or standard input.

use std::ffi::{OsStr, OsString};
use std::fs::File;
use std::io::{self, Read};

use pamuklid::raw::IMAGE_MOST;

use crate::answer::Failure;
use crate::text::shown;

/// Document 01's practice table.
const PRACTICE: &[u8] = include_bytes!("../../tools/reference/practice.bin");

/// Where a table comes from.
#[derive(Clone, Debug, PartialEq, Eq)]
pub enum Source {
    Practice,
    File(OsString),
    Input,
    /// The policy reads no table.
    Unread,
}

/// A table's image. Of a file that is too long for one it has the first bytes, one more than an image may have.
pub struct Table {
    pub source: Source,
    pub image: Vec<u8>,
}

impl Table {
    /// The table of the option `--table`, read where the policy reads one.
    pub fn load(name: Option<&OsStr>, read: bool) -> Result<Self, Failure> {
        match name {
            _ if !read => Ok(Self { source: Source::Unread, image: Vec::new() }),
            None => Ok(Self { source: Source::Practice, image: PRACTICE.to_vec() }),
            Some(name) => Self::file(name),
        }
    }

    /// The table of a file; `-` is standard input.
    pub fn file(name: &OsStr) -> Result<Self, Failure> {
        let image = read(name, "table", "the table's image", IMAGE_MOST + 1)?;
        let source = if name == "-" { Source::Input } else { Source::File(name.to_owned()) };
        Ok(Self { source, image })
    }

    /// Its name for people.
    pub fn name(&self) -> String {
        match &self.source {
            Source::Practice => "the practice table, made up: not the law".to_owned(),
            Source::File(name) => shown(name),
            Source::Input => "standard input".to_owned(),
            Source::Unread => "none is read under this policy".to_owned(),
        }
    }

    /// Its length for people.
    pub fn length(&self) -> String {
        match self.image.len() {
            0 => "no bytes".to_owned(),
            1 => "1 byte".to_owned(),
            n if n > IMAGE_MOST => "more than 65,552 bytes".to_owned(),
            n => format!("{} bytes", grouped(n)),
        }
    }
}

/// The bytes of a file, at most so many; `-` is standard input. `what` and `whole` name it for people.
pub fn read(name: &OsStr, what: &str, whole: &str, most: usize) -> Result<Vec<u8>, Failure> {
    if name == "-" {
        return bytes_of(io::stdin().lock(), most).map_err(|why| {
            Failure::read(
                format!("the {what} cannot be read from standard input: {}", reason(&why)),
                format!("give {whole} to standard input, or name its file"),
            )
        });
    }
    let failed = |why: io::Error| {
        let what_to_do = match why.kind() {
            io::ErrorKind::NotFound => "see that the file's name is right".to_owned(),
            io::ErrorKind::PermissionDenied => "see that you may read the file".to_owned(),
            _ if is_folder(&why) => format!("name the {what}'s file in it"),
            _ => "see that the file can be read".to_owned(),
        };
        let name = shown(name);
        Failure::read(format!("the {what} cannot be read: {name}: {}", reason(&why)), what_to_do)
    };
    File::open(name).and_then(|file| bytes_of(file, most)).map_err(failed)
}

fn bytes_of(from: impl Read, most: usize) -> io::Result<Vec<u8>> {
    let mut bytes = Vec::new();
    from.take(most as u64).read_to_end(&mut bytes)?;
    Ok(bytes)
}

fn is_folder(why: &io::Error) -> bool {
    const EISDIR: i32 = 21;
    why.raw_os_error() == Some(EISDIR)
}

/// What the system says, without its number.
fn reason(why: &io::Error) -> String {
    match why.kind() {
        io::ErrorKind::NotFound => "there is no such file".to_owned(),
        io::ErrorKind::PermissionDenied => "reading it is not permitted".to_owned(),
        _ if is_folder(why) => "it is a folder".to_owned(),
        _ => why.to_string(),
    }
}

/// A count with commas.
pub fn grouped(n: usize) -> String {
    let digits = n.to_string();
    let mut out = String::new();
    for (i, digit) in digits.chars().enumerate() {
        if i > 0 && (digits.len() - i) % 3 == 0 {
            out.push(',');
        }
        out.push(digit);
    }
    out
}
