//! What several tests use: the sample of document 01, refusals in one line, documents of each reading.
#![allow(dead_code)]

use chuntarek::{content, names, outline, read, record_at, render};
use chuntarek::{Answer, Document, Reading, Record};

/// The sample of document 01, and what Read gives for it.
pub const SAMPLE: &[u8] = b"data_t\n_a 1.50(2)\nloop_ _b _c\nx ?\n";
pub const SAMPLE_STORE: usize = 183;
pub const SAMPLE_AREA: &[u8] = b"tabcx";
/// Eight records of 17 bytes, and the end of the loop.
pub const SAMPLE_OUTLINE: usize = 137;
pub const SAMPLE_RENDERED: &[u8] = b"data_t\n_a\n1.50(2)\nloop_\n_b\n_c\nx\n?\n";

/// Bytes that no service leaves behind by accident.
pub const FILL: u8 = 0xA5;

/// An answer by its number and lengths, without a place.
pub fn answer(number: u64, first_length: u64, second_length: u64) -> Answer {
    Answer {
        number,
        offset: 0,
        line: 0,
        column: 0,
        detail: 0,
        first_length,
        second_length,
    }
}

/// A refusal of a text: number, offset, line, column, detail.
pub fn refusal(number: u64, offset: u64, line: u64, column: u64, detail: u64) -> Answer {
    Answer {
        offset,
        line,
        column,
        detail,
        ..answer(number, 0, 0)
    }
}

/// Both services refuse a text so, with any room, and write nothing.
pub fn is_refused(reading: Reading, text: &[u8], expected: Answer) {
    let shown = String::from_utf8_lossy(text);
    assert_eq!(read(reading, text, &mut [], &mut []), expected, "{shown}");
    let (mut store, mut area) = ([FILL; 512], [FILL; 512]);
    let answer = read(reading, text, &mut store, &mut area);
    assert_eq!(answer, expected, "{shown}");
    assert_eq!(outline(reading, text, &mut []), expected, "{shown}");
    assert_eq!(outline(reading, text, &mut store), expected, "{shown}");
    assert_eq!((store, area), ([FILL; 512], [FILL; 512]), "{shown}");
    let refusal = Document::read_as(reading, text).expect_err("both services refuse it");
    assert_eq!(
        (refusal.number, refusal.detail),
        (expected.number, expected.detail),
        "{shown}"
    );
}

pub fn document(text: &[u8]) -> Document {
    Document::read(text).expect("the text is read")
}

/// A document of the strict reading.
pub fn strict(text: &[u8]) -> Document {
    let read = Document::read_as(Reading::Strict, text);
    read.unwrap_or_else(|refusal| panic!("{}: {refusal}", String::from_utf8_lossy(text)))
}

pub fn kinds(document: &Document) -> Vec<u64> {
    let kind = |record: Record| record.kind.number();
    document.records().map(kind).collect()
}

/// What two readings of one content have in common, whatever the places.
pub fn without_places(document: &Document) -> Vec<String> {
    let told = |record: Record| {
        format!(
            "{:?} {:?} {:?} {:?}",
            record.kind, record.content, record.tags, record.decimal
        )
    };
    document.records().map(told).collect()
}

/// Whether a store is sound in a reading, which every service that takes one has to say alike.
pub fn is_sound(reading: Reading, store: &[u8], area: &[u8]) -> bool {
    let named = names(reading, store, area);
    let mut out = [FILL; 48];
    let rendered = render(reading, store, area, &mut out);
    let found = content(reading, store, area, u64::MAX).expect_err("no store is that long");
    let refused = [named.number, rendered.number, found.number].map(|number| number == 12);
    assert!(refused == [true; 3] || refused == [false; 3], "{refused:?}");
    if named.number == 12 {
        assert_eq!([named, rendered], [answer(12, 0, 0); 2]);
        assert_eq!(out, [FILL; 48]);
        assert_eq!(content(reading, store, area, 0), Err(found));
    }
    named.number != 12
}

/// What holds of any bytes: walks end within the store, contents stay within the area.
pub fn walk(reading: Reading, store: &[u8], area: &[u8]) {
    let mut at = 0;
    while let Ok(record) = record_at(reading, store, area, at) {
        assert!(record.next > at && record.next <= store.len());
        assert!(record.content.unwrap_or_default().len() <= area.len());
        at = record.next;
    }
}

/// A sound store, changed or not, renders to a text that reads as the same records.
pub fn round_trip(reading: Reading, store: &[u8], area: &[u8]) {
    let kept = Document::from_parts_as(reading, store.to_vec(), area.to_vec());
    let kept = kept.expect("the store is sound");
    let text = kept.render().expect("the rendering is short");
    let again = Document::read_as(reading, &text).expect("a rendering is read");
    assert_eq!(without_places(&again), without_places(&kept));
    assert_eq!(again.area(), kept.area());
    assert_eq!(again.render(), Ok(text));
}

/// Every store that differs from this one in one byte.
pub fn each_damage(bytes: &[u8], mut action: impl FnMut(usize, u8, &[u8])) {
    let mut damaged = bytes.to_vec();
    for at in 0..bytes.len() {
        for byte in 0..=255 {
            if byte != bytes[at] {
                damaged[at] = byte;
                action(at, byte, &damaged);
            }
        }
        damaged[at] = bytes[at];
    }
}
