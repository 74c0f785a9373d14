//! Values with what they belong to: frame, tag and row.

use crate::document::{Document, Records};
use crate::record::{Kind, Record};
use crate::services::record_at;

/// One value of a document, with what it belongs to.
#[derive(Debug, Clone, Copy, PartialEq, Eq, Hash)]
#[non_exhaustive]
pub struct Value<'a> {
    /// The number of its record, counted from 0.
    pub number: u64,
    /// Its record.
    pub record: Record<'a>,
    /// The name of the frame that it stands in; none in the block itself.
    pub frame: Option<&'a str>,
    /// The name of its tag, without the `_` and in the letter case of the file.
    pub tag: &'a str,
    /// The row of its loop, counted from 0. None for a single value, which matches row 0.
    pub row: Option<u64>,
    /// The first text of its row, by which people know the row. None for a single value, and in a row
    /// without texts.
    pub label: Option<&'a str>,
}

/// Where a value and what it belongs to stand in the store.
#[derive(Debug, Clone, Copy)]
pub(crate) struct Spot {
    number: u64,
    value: usize,
    frame: Option<usize>,
    tag: usize,
    row: Option<u64>,
    label: Option<usize>,
}

impl Spot {
    /// The value that stands there.
    fn value(self, document: &Document) -> Option<Value<'_>> {
        let text = |at: usize| record(document, at)?.text();
        Some(Value {
            number: self.number,
            record: record(document, self.value)?,
            frame: self.frame.and_then(text),
            tag: text(self.tag)?,
            row: self.row,
            label: self.label.and_then(text),
        })
    }
}

fn record(document: &Document, at: usize) -> Option<Record<'_>> {
    record_at(document.reading(), document.store(), document.area(), at).ok()
}

/// The spots of some values of a document, found in one walk.
#[derive(Debug)]
pub(crate) struct Spots<'a> {
    document: &'a Document,
    /// By their numbers.
    found: Vec<Spot>,
}

impl<'a> Spots<'a> {
    /// Finds the values of these numbers.
    pub fn find(document: &'a Document, mut numbers: Vec<u64>) -> Spots<'a> {
        numbers.sort_unstable();
        let found = Walk::over(document, &numbers).found;
        Spots { document, found }
    }

    /// The value of this number, if it is one of those that were looked for.
    pub fn value(&self, number: u64) -> Option<Value<'a>> {
        let at = self.found.binary_search_by_key(&number, |spot| spot.number);
        self.found.get(at.ok()?)?.value(self.document)
    }
}

/// A walk over the records of a document that notes the values looked for.
struct Walk<'w> {
    /// The numbers that are still looked for, the smallest first.
    wanted: &'w [u64],
    found: Vec<Spot>,
    frame: Option<usize>,
    /// The last single tag, or those of the loop that is open.
    tags: Vec<usize>,
    /// How many values of the open loop have passed; none outside of loops.
    passed: Option<u64>,
    /// The first text of the row, once a value of that row is looked for.
    label: Option<usize>,
}

impl<'w> Walk<'w> {
    fn over(document: &Document, wanted: &'w [u64]) -> Walk<'w> {
        let mut walk = Walk {
            wanted,
            found: Vec::with_capacity(wanted.len()),
            frame: None,
            tags: Vec::new(),
            passed: None,
            label: None,
        };
        let (mut records, mut number) = (document.records(), 0);
        while !walk.wanted.is_empty() {
            let here = records.clone();
            let Some(record) = records.next() else {
                break;
            };
            walk.step(number, here, &record);
            number += 1;
        }
        walk
    }

    /// Takes one record, with the walk's own place before it.
    fn step(&mut self, number: u64, here: Records, record: &Record) {
        match record.kind {
            Kind::FrameOpen => self.frame = Some(here.offset()),
            Kind::FrameClose => self.frame = None,
            Kind::Tag => self.tags = vec![here.offset()],
            Kind::Loop => {
                self.tags.clear();
                self.passed = Some(0);
            }
            Kind::LoopTag => self.tags.push(here.offset()),
            Kind::LoopEnd => self.passed = None,
            kind if kind.is_value() => self.value(number, here),
            _ => {}
        }
    }

    fn value(&mut self, number: u64, here: Records) {
        let width = self.tags.len().max(1) as u64;
        let column = self.passed.map_or(0, |passed| passed % width);
        let is_wanted = self.wanted.first() == Some(&number);
        if column == 0 {
            let row = number..number + width;
            let has_label = self.passed.is_some()
                && self.wanted.first().is_some_and(|first| row.contains(first));
            self.label = has_label.then(|| first_text(here.clone(), width)).flatten();
        }
        if is_wanted {
            let tag = self.tags.get(usize::try_from(column).unwrap_or(usize::MAX));
            self.found.extend(tag.map(|tag| Spot {
                number,
                value: here.offset(),
                frame: self.frame,
                tag: *tag,
                row: self.passed.map(|passed| passed / width),
                label: self.label,
            }));
            self.wanted = self.wanted.get(1..).unwrap_or_default();
        }
        self.passed = self.passed.map(|passed| passed + 1);
    }
}

/// Where the first text among so many records stands.
fn first_text(mut records: Records, count: u64) -> Option<usize> {
    (0..count).find_map(|_| {
        let at = records.offset();
        records.next()?.content.map(|_| at)
    })
}
