//! Files in and out. A file that is written is never one that was read.
use crate::trouble::{number, Refused};
use std::ffi::OsStr;
use std::fs::{self, File};
use std::io::{self, Read};
use std::path::Path;

/// The longest file that is read, in bytes: about four times a full table of 512 routes with names of 64 letters.
const LONGEST: u64 = 64 << 20;

/// The bytes of a file.
pub fn read(path: &OsStr) -> Result<Vec<u8>, Refused> {
    let shown = path.to_string_lossy();
    let unread = |error: io::Error| Refused::at(number::FILE, &shown, format!("it cannot be read: {error}"));
    let mut bytes = Vec::new();
    File::open(path).and_then(|file| file.take(LONGEST + 1).read_to_end(&mut bytes)).map_err(unread)?;
    if bytes.len() as u64 > LONGEST {
        return Err(Refused::at(number::FILE, &shown, format!("it is longer than {LONGEST} bytes")));
    }
    Ok(bytes)
}

/// Writes a text to a file, unless it is one of those that were read.
pub fn write(path: &OsStr, text: &str, inputs: &[&OsStr]) -> Result<(), Refused> {
    let shown = path.to_string_lossy();
    if inputs.iter().any(|input| same(path, input)) {
        let words = "it is one of the files that were read, and is not written over";
        return Err(Refused::at(number::FILE, &shown, words));
    }
    fs::write(path, text).map_err(|error| unwritten(&shown, &error))
}

/// A file that cannot be written.
pub fn unwritten(shown: &str, error: &io::Error) -> Refused {
    Refused::at(number::FILE, shown, format!("it cannot be written: {error}"))
}

/// Whether both paths lead to one file that is there.
fn same(one: &OsStr, other: &OsStr) -> bool {
    match (fs::canonicalize(one), fs::canonicalize(other)) {
        (Ok(one), Ok(other)) => one == other,
        _ => false,
    }
}

/// The last part of a path, as it is printed over an answer.
pub fn short_name(path: &OsStr) -> String {
    let last = Path::new(path).file_name().unwrap_or(path);
    let printed = |c: char| if c.is_control() { char::REPLACEMENT_CHARACTER } else { c };
    last.to_string_lossy().chars().map(printed).collect()
}
