//! `outline`: the kind and place of each record.

use std::ffi::OsString;
use std::io::{self, Write};

use chuntarek::{Document, Reading, Record, Refusal};

use super::input::{self, Input};
use super::message;
use super::status::Status;

/// Outlines the files in their order, under their names if there are several.
pub fn files(reading: Reading, files: &[OsString], out: &mut impl Write) -> io::Result<Status> {
    let mut status = Status::Done;
    for file in files {
        let Some(input) = input::open(file) else {
            status = Status::Failed;
            continue;
        };
        if files.len() > 1 {
            writeln!(out, "==> {} <==", input.name)?;
        }
        status = status.max(text(reading, &input, out)?);
    }
    Ok(status)
}

fn text(reading: Reading, input: &Input, out: &mut impl Write) -> io::Result<Status> {
    match Document::read_as(reading, &input.text) {
        Ok(document) => {
            for entry in document.records() {
                record(&entry, out)?;
            }
            writeln!(out, "end")?;
            Ok(Status::Done)
        }
        Err(refusal) => {
            refused(&refusal, out)?;
            out.flush()?;
            message::say(&message::refused(reading, input, &refusal));
            Ok(Status::Refused)
        }
    }
}

fn record(record: &Record, out: &mut impl Write) -> io::Result<()> {
    let kind = record.kind.number();
    match record.place {
        Some(place) => writeln!(
            out,
            "{kind} {} {} {} {}",
            place.offset, record.length, place.line, place.column
        ),
        None => writeln!(out, "{kind}"),
    }
}

/// A refusal without a place has zeros there.
fn refused(refusal: &Refusal, out: &mut impl Write) -> io::Result<()> {
    let (offset, line, column) = match refusal.place {
        Some(place) => (place.offset, place.line, place.column),
        None => (0, 0, 0),
    };
    writeln!(out, "refused {} {offset} {line} {column}", refusal.number)
}
