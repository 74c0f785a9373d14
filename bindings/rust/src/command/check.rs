//! `check`: what is wrong with each file.

use std::ffi::{OsStr, OsString};

use chuntarek::{Document, Reading};

use super::input;
use super::message;
use super::status::Status;

/// Checks the files in their order, and says nothing of those that are well.
pub fn files(reading: Reading, files: &[OsString]) -> Status {
    let all = files.iter().map(|name| file(reading, name));
    all.max().unwrap_or(Status::Done)
}

fn file(reading: Reading, name: &OsStr) -> Status {
    let Some(input) = input::open(name) else {
        return Status::Failed;
    };
    let message = match Document::read_as(reading, &input.text) {
        Err(refusal) => message::refused(reading, &input, &refusal),
        Ok(document) => match document.check_names() {
            Err(refusal) => {
                let records = refusal.records.unwrap_or_default();
                message::named_twice(&input, &document, records)
            }
            Ok(()) => return Status::Done,
        },
    };
    message::say(&message);
    Status::Refused
}
