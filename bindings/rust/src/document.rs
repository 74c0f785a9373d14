//! A text that has been read, with its store and its area.

use std::iter::FusedIterator;

use crate::entries::Entries;
use crate::incomparable::Incomparable;
use crate::reading::Reading;
use crate::record::Record;
use crate::refusal::{number, Refusal};
use crate::services::{content, names, read, record_at, render};

/// The records of one CIF file, and the reading that it was read in. Its store and area are always
/// sound in that reading.
#[derive(Debug, Clone, PartialEq, Eq)]
pub struct Document {
    reading: Reading,
    store: Vec<u8>,
    area: Vec<u8>,
}

impl Document {
    /// Reads a text in the first reading, which takes one block. Asks for the room first, so store and
    /// area are one allocation each.
    pub fn read(text: &[u8]) -> Result<Document, Refusal> {
        Document::read_as(Reading::First, text)
    }

    /// Reads a text in this reading, as [`read`](Document::read) does in the first.
    pub fn read_as(reading: Reading, text: &[u8]) -> Result<Document, Refusal> {
        let (store_length, area_length) = read(reading, text, &mut [], &mut []).needed()?;
        let mut store = vec![0; store_length];
        let mut area = vec![0; area_length];
        read(reading, text, &mut store, &mut area).result()?;
        Ok(Document {
            reading,
            store,
            area,
        })
    }

    /// Takes up a store and its area that the first reading wrote and that were kept; refuses by 12
    /// what it could not have written.
    pub fn from_parts(store: Vec<u8>, area: Vec<u8>) -> Result<Document, Refusal> {
        Document::from_parts_as(Reading::First, store, area)
    }

    /// Takes up a store and its area that this reading wrote, as [`from_parts`](Document::from_parts)
    /// does for the first.
    pub fn from_parts_as(
        reading: Reading,
        store: Vec<u8>,
        area: Vec<u8>,
    ) -> Result<Document, Refusal> {
        // A store of so many records does not exist, so a sound one is refused by 14 and no other is.
        match content(reading, &store, &area, u64::MAX) {
            Err(refusal) if refusal.number != number::NO_CONTENT => Err(refusal),
            _ => Ok(Document {
                reading,
                store,
                area,
            }),
        }
    }

    /// The reading that it was read in, which goes with store and area where they are kept.
    pub fn reading(&self) -> Reading {
        self.reading
    }

    /// The store and the area, to be kept; which [`reading`](Document::reading) they are of is not in
    /// them.
    pub fn into_parts(self) -> (Vec<u8>, Vec<u8>) {
        (self.store, self.area)
    }

    /// The bytes of the records.
    pub fn store(&self) -> &[u8] {
        &self.store
    }

    /// The contents, one behind the other in record order.
    pub fn area(&self) -> &[u8] {
        &self.area
    }

    /// The records in the order of the text; the first has the number 0.
    pub fn records(&self) -> Records<'_> {
        Records {
            reading: self.reading,
            store: &self.store,
            area: &self.area,
            at: 0,
        }
    }

    /// The content of the record of this number, as its [`Record::content`]; refuses by 14.
    pub fn content(&self, record: u64) -> Result<&[u8], Refusal> {
        content(self.reading, &self.store, &self.area, record)
    }

    /// A text that reads as the same records in the same reading; refuses by 1.
    pub fn render(&self) -> Result<Vec<u8>, Refusal> {
        let (length, _) = render(self.reading, &self.store, &self.area, &mut []).needed()?;
        let mut text = vec![0; length];
        render(self.reading, &self.store, &self.area, &mut text).result()?;
        Ok(text)
    }

    /// Refuses by 13 where a name stands twice in one scope: `_Cell.length_a` and `_cell.length_a` are
    /// one name. The refusal's `records` are the first of that name and the earliest that repeats one.
    pub fn check_names(&self) -> Result<(), Refusal> {
        names(self.reading, &self.store, &self.area)
            .result()
            .map(|_| ())
    }

    /// What changed from this document to a new one: every value that only one of them has, or that
    /// differs. Values match where frame, tag and row do, in any letter case; the block's name may be
    /// another. Texts are compared without their marks, numbers as exact decimals.
    ///
    /// Both must have been read in the same reading, have one block each, and no tag and no frame twice.
    pub fn compare<'a>(&'a self, new: &'a Document) -> Result<Entries<'a>, Incomparable> {
        Entries::of(self, new)
    }
}

/// The records of a document, each found by the library's own walk.
#[derive(Debug, Clone)]
pub struct Records<'a> {
    reading: Reading,
    store: &'a [u8],
    area: &'a [u8],
    at: usize,
}

impl Records<'_> {
    /// The offset in the store of the record that comes next.
    pub(crate) fn offset(&self) -> usize {
        self.at
    }
}

impl<'a> Iterator for Records<'a> {
    type Item = Record<'a>;

    fn next(&mut self) -> Option<Record<'a>> {
        let record = record_at(self.reading, self.store, self.area, self.at).ok()?;
        self.at = record.next;
        Some(record)
    }
}

impl FusedIterator for Records<'_> {}
