//! `render`: the file again, from its records alone.

use std::ffi::OsStr;
use std::io::{self, Write};

use chuntarek::{Document, Reading};

use super::input;
use super::message;
use super::status::Status;

/// Reads a file and writes its rendering.
pub fn file(reading: Reading, file: &OsStr, out: &mut impl Write) -> io::Result<Status> {
    let Some(input) = input::open(file) else {
        return Ok(Status::Failed);
    };
    let read = Document::read_as(reading, &input.text);
    let message = match read.map(|document| document.render()) {
        Ok(Ok(text)) => return out.write_all(&text).map(|()| Status::Done),
        Ok(Err(refusal)) => message::not_rendered(&input, &refusal),
        Err(refusal) => message::refused(reading, &input, &refusal),
    };
    message::say(&message);
    Ok(Status::Refused)
}
