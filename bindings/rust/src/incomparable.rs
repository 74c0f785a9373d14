//! Why two documents are not compared.

use std::error::Error;
use std::fmt;

use crate::answer::Answer;
use crate::document::Document;
use crate::record::{Kind, Record};
use crate::refusal::{number, Refusal};

/// One of the two documents of a comparison.
#[derive(Debug, Clone, Copy, PartialEq, Eq, Hash)]
pub enum Side {
    /// The one that is asked.
    Old,
    /// The one that it is compared with.
    New,
}

/// Why two documents are not compared.
#[derive(Debug, Clone, Copy, PartialEq, Eq, Hash)]
#[non_exhaustive]
pub enum Incomparable {
    /// They were read in different readings. In each of them other values are read, so what differs
    /// might be the reading alone. A refusal by 12.
    OtherReading,
    /// This one has several blocks, and one block is compared with one. A refusal by 12.
    SeveralBlocks(Side),
    /// In this one a tag stands twice in one scope, or a frame's name, in any letter case. A refusal by
    /// 13: the numbers of the name's first record, and of the one that repeats it.
    NameTwice(Side, u64, u64),
    /// What else the library refuses. None that this version knows is left.
    Refused(Refusal),
}

impl Incomparable {
    /// Why the library refused to compare these two.
    pub(crate) fn of(refusal: Refusal, old: &Document, new: &Document) -> Incomparable {
        match (refusal.number, refusal.records) {
            // Documents are sound, so it is for the blocks.
            (number::UNSOUND, _) if has_blocks(old) => Incomparable::SeveralBlocks(Side::Old),
            (number::UNSOUND, _) if has_blocks(new) => Incomparable::SeveralBlocks(Side::New),
            (number::NAME_TWICE, Some((first, second))) => {
                // The old one is judged first, so where it has this repetition it is the one refused.
                let side = match repeats(old, first, second) {
                    true => Side::Old,
                    false => Side::New,
                };
                Incomparable::NameTwice(side, first, second)
            }
            _ => Incomparable::Refused(refusal),
        }
    }

    /// The number of the refusal.
    pub fn number(&self) -> u64 {
        Refusal::from(*self).number
    }
}

fn has_blocks(document: &Document) -> bool {
    let mut blocks = document
        .records()
        .filter(|record| record.kind == Kind::Block);
    blocks.nth(1).is_some()
}

/// Whether two records of a document are tags of one scope, or frames, that have the same name.
fn repeats(document: &Document, first: u64, second: u64) -> bool {
    let mut frame = None;
    let mut names = Vec::new();
    for (number, record) in (0..=second).zip(document.records()) {
        if number == first || number == second {
            names.push(scoped_name(&record, frame));
        }
        match record.kind {
            Kind::FrameOpen => frame = Some(number),
            Kind::FrameClose => frame = None,
            _ => {}
        }
    }
    matches!(&names[..], [Some(before), Some(again)] if before == again)
}

/// What is told apart by names: whether it is a frame or a tag, the frame around it, the folded name.
fn scoped_name(record: &Record, frame: Option<u64>) -> Option<(bool, Option<u64>, Vec<u8>)> {
    let is_frame = record.kind == Kind::FrameOpen;
    let is_tag = matches!(record.kind, Kind::Tag | Kind::LoopTag);
    let name = record.content.filter(|_| is_frame || is_tag)?;
    Some((is_frame, frame, name.to_ascii_lowercase()))
}

impl From<Incomparable> for Refusal {
    fn from(reason: Incomparable) -> Refusal {
        match reason {
            Incomparable::OtherReading | Incomparable::SeveralBlocks(_) => {
                Refusal::bare(number::UNSOUND, 0)
            }
            Incomparable::NameTwice(_, first, second) => Refusal::of(Answer {
                number: number::NAME_TWICE,
                offset: first,
                line: second,
                column: 0,
                detail: 0,
                first_length: 0,
                second_length: 0,
            }),
            Incomparable::Refused(refusal) => refusal,
        }
    }
}

impl fmt::Display for Side {
    fn fmt(&self, out: &mut fmt::Formatter<'_>) -> fmt::Result {
        out.write_str(match self {
            Side::Old => "old",
            Side::New => "new",
        })
    }
}

impl fmt::Display for Incomparable {
    fn fmt(&self, out: &mut fmt::Formatter<'_>) -> fmt::Result {
        match self {
            Incomparable::OtherReading => {
                write!(out, "refused 12: the two documents were read in different readings: read both in one")
            }
            Incomparable::SeveralBlocks(side) => {
                write!(out, "refused 12: the {side} document has several blocks, and one block is compared with one")
            }
            Incomparable::NameTwice(side, first, second) => write!(
                out,
                "refused 13 at records {first} and {second} of the {side} document: \
                 the same tag, or the same frame, stands twice"
            ),
            Incomparable::Refused(refusal) => refusal.fmt(out),
        }
    }
}

impl Error for Incomparable {}
