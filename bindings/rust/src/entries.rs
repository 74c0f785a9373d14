//! What changed from one document to another, entry by entry.

use std::iter::FusedIterator;
use std::sync::Arc;

use crate::case::Case;
use crate::document::Document;
use crate::incomparable::Incomparable;
use crate::services::{compare, ENTRY_LENGTH};
use crate::value::{Spots, Value};

/// A value that only one of two documents has, or that differs between them.
#[derive(Debug, Clone, Copy, PartialEq, Eq, Hash)]
#[non_exhaustive]
pub struct Entry<'a> {
    /// What the two values are to each other.
    pub case: Case,
    /// The value of the old document, if it has one.
    pub old: Option<Value<'a>>,
    /// The value of the new document, if it has one.
    pub new: Option<Value<'a>>,
}

/// The entries of a comparison: those with an old value in the old document's order, then those of the
/// new document alone in its own.
#[derive(Debug, Clone)]
pub struct Entries<'a> {
    /// Shared by all who go over these entries, so that going over them again takes no room.
    listed: Arc<Listed<'a>>,
    /// How many bytes of the list have passed.
    at: usize,
}

/// The library's list, and where its values stand.
#[derive(Debug)]
struct Listed<'a> {
    list: Vec<u8>,
    old: Spots<'a>,
    new: Spots<'a>,
}

impl<'a> Entries<'a> {
    /// Compares two documents.
    pub(crate) fn of(old: &'a Document, new: &'a Document) -> Result<Entries<'a>, Incomparable> {
        if old.reading() != new.reading() {
            return Err(Incomparable::OtherReading);
        }
        let list = list(old, new)?;
        let spots = |document, number: fn(Raw) -> Option<u64>| {
            let raw = list.chunks_exact(ENTRY_LENGTH).filter_map(Raw::of);
            Spots::find(document, raw.filter_map(number).collect())
        };
        let listed = Listed {
            old: spots(old, |raw| raw.old),
            new: spots(new, |raw| raw.new),
            list,
        };
        Ok(Entries {
            listed: Arc::new(listed),
            at: 0,
        })
    }
}

/// The library's list.
fn list(old: &Document, new: &Document) -> Result<Vec<u8>, Incomparable> {
    // An entry takes no more bytes than the record of a value, so the list has room whatever differs.
    // Zeroed memory that is not written takes no place, and asking for the length would compare twice.
    let mut list = vec![0; old.store().len() + new.store().len()];
    let (before, after) = ((old.store(), old.area()), (new.store(), new.area()));
    let answer = compare(old.reading(), before, after, &mut list);
    let (length, _) = answer
        .result()
        .map_err(|refusal| Incomparable::of(refusal, old, new))?;
    list.truncate(length);
    list.shrink_to_fit();
    Ok(list)
}

/// An entry as it stands in the list.
struct Raw {
    case: Case,
    old: Option<u64>,
    new: Option<u64>,
}

impl Raw {
    fn of(entry: &[u8]) -> Option<Raw> {
        let (case, numbers) = entry.split_first()?;
        let (old, new) = numbers.split_first_chunk()?;
        let case = Case::of_number(u64::from(*case))?;
        let old = u64::from_le_bytes(*old);
        let new = u64::from_le_bytes(new.try_into().ok()?);
        Some(Raw {
            case,
            old: (case != Case::OnlyNew).then_some(old),
            new: (case != Case::OnlyOld).then_some(new),
        })
    }
}

impl<'a> Iterator for Entries<'a> {
    type Item = Entry<'a>;

    fn next(&mut self) -> Option<Entry<'a>> {
        let end = self.at + ENTRY_LENGTH;
        let Listed { list, old, new } = &*self.listed;
        let raw = Raw::of(list.get(self.at..end)?)?;
        self.at = end;
        Some(Entry {
            case: raw.case,
            old: raw.old.and_then(|number| old.value(number)),
            new: raw.new.and_then(|number| new.value(number)),
        })
    }

    fn size_hint(&self) -> (usize, Option<usize>) {
        let left = (self.listed.list.len() - self.at) / ENTRY_LENGTH;
        (left, Some(left))
    }
}

impl ExactSizeIterator for Entries<'_> {}

impl FusedIterator for Entries<'_> {}
