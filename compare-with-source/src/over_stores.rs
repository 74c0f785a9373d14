//! The library's services over a store that it has written, in its own reading and in the other, and
//! over one near it: Render, Name check, Content and the walk, held to the model.

use crate::alter;
use crate::answer::{Body, Record};
use crate::calls::{self, Called, Kept, Part, Walked};
use crate::library::NO_READINGS;
use crate::model::TEXT_LIMIT;
use crate::random::Random;
use crate::reading::Reading;
use crate::{model_sound, model_stores, over_pairs, stores, walks};

/// Of a longer store not every content is asked for, but so many: each question walks all of it.
const LONGEST: usize = 1000;
const SOME: usize = 40;

/// A store and its area, and the reading that they are looked at in.
#[derive(Clone, Copy)]
pub struct Stored<'a> {
    pub reading: Reading,
    pub store: &'a [u8],
    pub area: &'a [u8],
}

impl Stored<'_> {
    /// What is wrong with what the services make of the store that was written for these records, if
    /// anything.
    pub fn hold(self, records: &[Record]) -> Result<(), String> {
        let kept = self.kept();
        walks::over_records(records, kept)?;
        contents(records, kept)?;
        names(records, self)?;
        rendering(records, self)?;
        no_reading(self)?;
        let other = Stored {
            reading: self.reading.other(),
            ..self
        };
        any_store(other).map_err(|fault| format!("{fault}, in the other reading"))?;
        let seed = records.iter().map(|record| record.length as u64).sum();
        let (store, area) = alter::near(records, &mut Random::new(self.area.len() as u64, seed));
        let near = Stored {
            store: &store,
            area: &area,
            ..self
        };
        any_store(near).map_err(|fault| format!("{fault}, in a store near one that was read"))?;
        over_pairs::of_one(self.reading, (self.store, self.area), (&store, &area))
    }

    fn kept(&self) -> Kept<'_> {
        Kept {
            reading: self.reading.number(),
            store: self.store,
            area: self.area,
        }
    }

    fn is_sound(&self) -> bool {
        model_sound::is_sound(self.reading, self.store, self.area)
    }
}

/// A store that this reading need not have written: every service that judges it refuses it by 12 exactly
/// where the model finds it unsound, and the walk goes over it even so.
fn any_store(stored: Stored) -> Result<(), String> {
    let kept = stored.kept();
    let sound = stores::decode(stored.store, stored.area).filter(|_| stored.is_sound());
    match sound {
        Some(records) => {
            walks::over_records(&records, kept)?;
            contents(&records, kept)?;
            names(&records, stored)?;
            rendering(&records, stored)
        }
        None => {
            walks::over_bytes(stored.store, stored.area, kept)?;
            is_refused(kept, 12)
        }
    }
}

/// A number that names no reading is refused by 24, whatever the store.
fn no_reading(stored: Stored) -> Result<(), String> {
    let nothing = Walked {
        number: 24,
        ..Walked::default()
    };
    for reading in NO_READINGS {
        let kept = Kept {
            reading,
            ..stored.kept()
        };
        is_refused(kept, 24)?;
        must(kept.record_at(0) == nothing, "walk: not refused by 24")?;
    }
    Ok(())
}

/// Every service that judges a store answers by this number, and gives nothing out.
fn is_refused(kept: Kept, number: u64) -> Result<(), String> {
    let mut out = [0xA5; 64];
    let judged = [kept.names(), kept.render(&mut out)];
    let contents = RECORDS.map(|record| kept.content(record));
    for answer in judged.into_iter().chain(contents) {
        must(
            answer == refused(number),
            &format!("not refused by {number}"),
        )?;
    }
    must(out == [0xA5; 64], "render: a refusal wrote something")?;
    must(
        RECORDS.map(|record| kept.content_part(record)) == [Part::default(); 3],
        "content: a part where it is refused",
    )
}

/// Numbers of records that are asked for where the store is refused.
const RECORDS: [u64; 3] = [0, 1, u64::MAX];

pub fn must(holds: bool, what: &str) -> Result<(), String> {
    match holds {
        true => Ok(()),
        false => Err(format!("library, {what}")),
    }
}

fn refused(number: u64) -> Called {
    Called {
        number,
        ..Called::default()
    }
}

/// The content of each record, or of some, and of two that are not there.
fn contents(records: &[Record], kept: Kept) -> Result<(), String> {
    let step = match records.len() {
        ..=LONGEST => 1,
        longer => longer.div_ceil(SOME),
    };
    let mut start = 0;
    for (number, record) in records.iter().enumerate() {
        let content = match &record.body {
            Body::Content(content) => Some(content),
            _ => None,
        };
        if number % step == 0 {
            content_is(kept, number as u64, start, content)?;
        }
        start += content.map_or(0, Vec::len);
    }
    content_is(kept, records.len() as u64, 0, None)?;
    content_is(kept, u64::MAX, 0, None)
}

fn content_is(
    kept: Kept,
    number: u64,
    start: usize,
    content: Option<&Vec<u8>>,
) -> Result<(), String> {
    let (answer, part) = match content {
        Some(content) => (refused(0), (start, content.len())),
        None => (refused(14), (0, 0)),
    };
    must(
        kept.content(number) == answer,
        "content: the answer differs",
    )?;
    let part = Part {
        start: part.0 as u64,
        length: part.1 as u64,
    };
    must(
        kept.content_part(number) == part,
        "content: the part differs",
    )
}

/// The name check, of the names as they are and of some spelt otherwise.
fn names(records: &[Record], stored: Stored) -> Result<(), String> {
    must(
        stored.kept().names() == named(records, stored),
        "names: the answer differs",
    )?;
    let records = respelt(records);
    let (store, area) = stores::encode(&records);
    let stored = Stored {
        store: &store,
        area: &area,
        ..stored
    };
    must(
        stored.kept().names() == named(&records, stored),
        "names: the answer differs where some are spelt otherwise",
    )
}

fn named(records: &[Record], stored: Stored) -> Called {
    match model_stores::repeated_name(records) {
        _ if !stored.is_sound() => refused(12),
        None => refused(0),
        Some((first, second)) => Called {
            offset: first as u64,
            line: second as u64,
            ..refused(13)
        },
    }
}

/// The same records, but that in every fourth, where it has a name, the bit is turned that parts small
/// letters from capitals; it parts `[` from `{` as well, and those stay two names.
fn respelt(records: &[Record]) -> Vec<Record> {
    let mut records = records.to_vec();
    for record in records.iter_mut().skip(1).step_by(4) {
        if let (4 | 6, Body::Content(name)) = (record.kind, &mut record.body) {
            let turned = name.iter_mut().filter(|byte| **byte >= b'@');
            turned.for_each(|byte| *byte ^= 0x20);
        }
    }
    records
}

/// The rendering is the documents', in exact room and in no less, and reads as the same records.
fn rendering(records: &[Record], stored: Stored) -> Result<(), String> {
    let kept = stored.kept();
    let text = model_stores::rendering(stored.reading, records);
    if text.len() > TEXT_LIMIT {
        return must(
            kept.render(&mut []) == refused(1),
            "render: not refused by 1",
        );
    }
    let with_length = |number| Called {
        first_length: text.len() as u64,
        ..refused(number)
    };
    let mut out = vec![0xA5; text.len()];
    let room = text.len() - 1;
    must(
        kept.render(&mut out[..room]) == with_length(11),
        "render: the length differs",
    )?;
    must(
        out.iter().all(|byte| *byte == 0xA5),
        "render: too little room, and it wrote",
    )?;
    must(
        kept.render(&mut out) == with_length(0),
        "render: the answer differs",
    )?;
    must(out == text, "render: the bytes differ from the model's")?;
    read_back(records, kept, &text)
}

fn read_back(records: &[Record], kept: Kept, text: &[u8]) -> Result<(), String> {
    let (mut store, mut area) = (vec![0; kept.store.len()], vec![0; kept.area.len()]);
    let answer = Called {
        first_length: store.len() as u64,
        second_length: area.len() as u64,
        ..refused(0)
    };
    must(
        calls::read(kept.reading, text, &mut store, &mut area) == answer,
        "render: what is read back differs",
    )?;
    let again = stores::decode(&store, &area).unwrap_or_default();
    let same = again.len() == records.len()
        && again
            .iter()
            .zip(records)
            .all(|(one, other)| one.kind == other.kind && one.body == other.body);
    must(same, "render: the records read back differ")
}

#[cfg(test)]
mod tests {
    use super::*;
    use crate::model;

    /// The contents of one text's records, asked of the store of another.
    fn asked(text: &str, of: &str) -> Result<(), String> {
        let read = |text: &str| model::read(Reading::Strict, text.as_bytes()).expect("it is read");
        let (store, area) = stores::encode(&read(of));
        let stored = Stored {
            reading: Reading::Strict,
            store: &store,
            area: &area,
        };
        contents(&read(text), stored.kept())
    }

    #[test]
    fn another_content_is_seen() {
        let text = "data_x _a 'b' _c 1";
        assert_eq!(asked(text, text), Ok(()));
        for (of, fault) in [
            ("data_xy _a 'b' _c 1", "the part"),
            ("data_x _ab 'b' _c 1", "the part"),
            ("data_x _a 'bc' _c 1", "the part"),
            ("data_x _a 1 _c 1", "the answer"),
            ("data_x _a 'b' _c d", "the answer"),
            ("data_x _a 'b'", "the answer"),
            ("data_x _a 'b' _c 1 data_y", "the answer"),
        ] {
            let expected = format!("library, content: {fault} differs");
            assert_eq!(asked(text, of), Err(expected), "{of}");
        }
    }

    #[test]
    fn the_last_content_of_a_long_store_is_asked_for() {
        // A block, a loop, its tag, a quoted value and the loop's end stand there too.
        let values = " d".repeat(LONGEST - 5);
        let text = |last: &str| format!("data_x loop_ _a{values} {last}");
        assert_eq!(asked(&text("'b'"), &text("'b'")), Ok(()));
        assert!(asked(&text("'b'"), &text("'bc'")).is_err());
    }
}
