//! `compare`: what changed from one file to another.

use std::ffi::OsStr;
use std::io::{self, Write};

use chuntarek::{Document, Entries, Entry, Incomparable, Kind, Reading, Side};

use super::arguments::CompareWish;
use super::input::{self, Input};
use super::message;
use super::status::Status;
use super::wanted::Wanted;
use super::{changes, json};

/// Compares two files, and says nothing where nothing differs.
pub fn files(
    reading: Reading,
    old: &OsStr,
    new: &OsStr,
    wish: &CompareWish,
    out: &mut impl Write,
) -> io::Result<Status> {
    // Both are read whatever is wrong with the first, so that one run tells of both.
    let (Some(old), Some(new)) = (File::read(reading, old), File::read(reading, new)) else {
        return Ok(Status::Failed);
    };
    let entries = match old.document.compare(&new.document) {
        Ok(entries) => entries,
        Err(reason) => {
            message::say(&refused(&old, &new, reason));
            return Ok(Status::Failed);
        }
    };
    match wanted(&old, &new, wish) {
        Some(wanted) => changed(entries, &wanted, wish, out),
        None => Ok(Status::Failed),
    }
}

/// A file that was read.
struct File {
    input: Input,
    document: Document,
}

impl File {
    /// Reads a file; what is wrong with it is said.
    fn read(reading: Reading, name: &OsStr) -> Option<File> {
        let input = input::open(name)?;
        match Document::read_as(reading, &input.text) {
            Ok(document) => Some(File { input, document }),
            Err(refusal) => {
                message::say(&message::refused(reading, &input, &refusal));
                None
            }
        }
    }
}

fn refused(old: &File, new: &File, reason: Incomparable) -> String {
    let file = |side| match side {
        Side::Old => old,
        Side::New => new,
    };
    match reason {
        Incomparable::SeveralBlocks(side) => {
            let File { input, document } = file(side);
            message::several_blocks(input, document)
        }
        Incomparable::NameTwice(side, first, second) => {
            let File { input, document } = file(side);
            message::named_twice(input, document, (first, second))
        }
        _ => format!("{}: {reason}", new.input.name),
    }
}

/// The tags that are asked for. One that neither file has is said: it is mistyped, and must not look like
/// one that doesn't differ.
fn wanted(old: &File, new: &File, wish: &CompareWish) -> Option<Wanted> {
    let mut wanted = Wanted::new(&wish.tags);
    for file in [old, new] {
        let tags = file.document.records();
        for tag in tags.filter(|record| matches!(record.kind, Kind::Tag | Kind::LoopTag)) {
            wanted.takes(&tag);
        }
    }
    let missing = wanted.missing().inspect(|tag| {
        message::say(&format!("chuntarek: neither file has a tag {tag}"));
    });
    (missing.count() == 0).then_some(wanted)
}

fn changed(
    entries: Entries,
    wanted: &Wanted,
    wish: &CompareWish,
    out: &mut impl Write,
) -> io::Result<Status> {
    let is_wanted = |entry: &Entry| wanted.has(super::change::tag(entry).as_bytes());
    let mut entries = entries.filter(is_wanted).peekable();
    if entries.peek().is_none() {
        return Ok(Status::Done);
    }
    match wish.json {
        true => entries.try_for_each(|entry| json::write(&entry, out))?,
        false => changes::table(entries, wish.rewritten, out)?,
    }
    Ok(Status::Differs)
}
