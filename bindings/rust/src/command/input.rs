//! Files, opened and read once.

use std::ffi::OsStr;
use std::fs::File;
use std::io::{self, ErrorKind, Read};

use chuntarek::TEXT_LIMIT;

use super::message;

/// A text and the name that messages give it.
pub struct Input {
    pub name: String,
    pub text: Vec<u8>,
}

/// Reads a file, or standard input for `-`; one that cannot be read gets one line.
pub fn open(file: &OsStr) -> Option<Input> {
    let name = shown(file);
    match bytes(file) {
        Ok(text) => Some(Input { name, text }),
        Err(error) => {
            message::say(&format!("chuntarek: {name}: {}", reason(&error)));
            None
        }
    }
}

fn bytes(file: &OsStr) -> io::Result<Vec<u8>> {
    if file == "-" {
        limited(io::stdin().lock())
    } else {
        limited(File::open(file)?)
    }
}

/// At most one byte more than can be read, which is enough to be refused for its length.
fn limited(source: impl Read) -> io::Result<Vec<u8>> {
    let mut text = Vec::new();
    source.take(TEXT_LIMIT as u64 + 1).read_to_end(&mut text)?;
    Ok(text)
}

/// The name on one line, whatever bytes it has.
fn shown(file: &OsStr) -> String {
    if file == "-" {
        return String::from("<stdin>");
    }
    let name = file.to_string_lossy();
    name.chars().map(message::printable).collect()
}

fn reason(error: &io::Error) -> String {
    match error.kind() {
        ErrorKind::NotFound => String::from("there is no such file"),
        ErrorKind::PermissionDenied => String::from("you have no permission to read this file"),
        ErrorKind::IsADirectory => String::from("this is a directory, not a file"),
        _ => format!("cannot be read: {error}"),
    }
}

#[cfg(test)]
mod tests {
    use super::*;

    #[test]
    fn no_more_is_read_than_one_byte_over_the_limit() {
        let text = limited(io::repeat(b'#')).expect("a source without end is read in part");
        assert_eq!(text.len(), 16_777_217);
    }

    #[test]
    fn names_stay_on_one_line() {
        assert_eq!(shown(OsStr::new("a\nb.cif")), "a\u{fffd}b.cif");
        assert_eq!(shown(OsStr::new("-")), "<stdin>");
    }
}
