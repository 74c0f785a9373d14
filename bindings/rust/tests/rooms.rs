//! Room: none, one byte short, exactly enough, more than enough. A refusal writes nothing, success
//! only the bytes counted.

mod common;

use chuntarek::{outline, read, render, Answer, Document, Reading, Refusal, TEXT_LIMIT};
use common::*;

const FIRST: Reading = Reading::First;

/// A buffer of which the first bytes are lent.
struct Lent {
    bytes: Vec<u8>,
    room: usize,
}

impl Lent {
    fn new(room: usize) -> Lent {
        Lent {
            bytes: vec![FILL; room + 32],
            room,
        }
    }

    fn lend(&mut self) -> &mut [u8] {
        &mut self.bytes[..self.room]
    }

    /// Only so many bytes, from the first on, are other than before.
    fn only_changed(&self, count: usize) {
        assert!(self.bytes[count..].iter().all(|byte| *byte == FILL));
    }
}

fn read_into(store_room: usize, area_room: usize) -> (Answer, Lent, Lent) {
    let (mut store, mut area) = (Lent::new(store_room), Lent::new(area_room));
    let answer = read(FIRST, SAMPLE, store.lend(), area.lend());
    (answer, store, area)
}

fn sample() -> Document {
    document(SAMPLE)
}

#[test]
fn read_fills_what_it_counts() {
    for spare in [0, 1, 16] {
        let (done, store, area) = read_into(SAMPLE_STORE + spare, SAMPLE_AREA.len() + spare);
        assert_eq!(done, answer(0, 183, 5));
        assert!(area.bytes.starts_with(SAMPLE_AREA));
        assert!(store.bytes.starts_with(sample().store()));
        store.only_changed(SAMPLE_STORE);
        area.only_changed(SAMPLE_AREA.len());
    }
}

#[test]
fn read_without_room_tells_both_lengths_and_writes_nothing() {
    let rooms = [
        (0, 0, 10),
        (182, 5, 10),
        (182, 4, 10),
        (0, 5, 10),
        (183, 4, 11),
        (183, 0, 11),
        (400, 4, 11),
    ];
    for (store_room, area_room, number) in rooms {
        let (refused, store, area) = read_into(store_room, area_room);
        assert_eq!(refused, answer(number, 183, 5));
        store.only_changed(0);
        area.only_changed(0);
    }
}

#[test]
fn an_empty_area_is_enough_where_no_content_is() {
    let mut store = [0; 21];
    assert_eq!(read(FIRST, b"data_", &mut store, &mut []), answer(0, 21, 0));
    assert_eq!(
        read(FIRST, b"data_", &mut store[..20], &mut []),
        answer(10, 21, 0)
    );
}

#[test]
fn outline_fills_what_it_counts() {
    for spare in [0, 1, 16] {
        let mut store = Lent::new(SAMPLE_OUTLINE + spare);
        assert_eq!(outline(FIRST, SAMPLE, store.lend()), answer(0, 137, 0));
        store.only_changed(SAMPLE_OUTLINE);
    }
    for room in [0, 1, SAMPLE_OUTLINE - 1] {
        let mut store = Lent::new(room);
        assert_eq!(outline(FIRST, SAMPLE, store.lend()), answer(10, 137, 0));
        store.only_changed(0);
    }
}

#[test]
fn outline_writes_kinds_and_places() {
    let mut store = [0; SAMPLE_OUTLINE];
    outline(FIRST, SAMPLE, &mut store);
    let block = [1, 0, 0, 0, 0, 6, 0, 0, 0, 1, 0, 0, 0, 1, 0, 0, 0];
    let unknown_and_end = [9, 32, 0, 0, 0, 1, 0, 0, 0, 4, 0, 0, 0, 3, 0, 0, 0, 7];
    assert!(store.starts_with(&block));
    assert!(store.ends_with(&unknown_and_end));
}

#[test]
fn render_fills_what_it_counts() {
    let sample = sample();
    let length = SAMPLE_RENDERED.len();
    for spare in [0, 1, 16] {
        let mut out = Lent::new(length + spare);
        let done = render(FIRST, sample.store(), sample.area(), out.lend());
        assert_eq!(done, answer(0, length as u64, 0));
        assert!(out.bytes.starts_with(SAMPLE_RENDERED));
        out.only_changed(length);
    }
    for room in [0, 1, length - 1] {
        let mut out = Lent::new(room);
        let refused = render(FIRST, sample.store(), sample.area(), out.lend());
        assert_eq!(refused, answer(11, length as u64, 0));
        out.only_changed(0);
    }
}

/// A text of this length: a block, a tag and one text field.
fn field_text(length: usize) -> Vec<u8> {
    let mut text = vec![b'x'; length];
    text[..11].copy_from_slice(b"data_x _a ;");
    text[length - 2..].copy_from_slice(b"\n;");
    text
}

#[test]
fn a_text_over_the_limit_is_refused_whatever_it_holds() {
    let refused = answer(1, 0, 0);
    for text in [field_text(TEXT_LIMIT + 1), vec![0xFF; TEXT_LIMIT + 1]] {
        let (mut store, mut area) = (Lent::new(64), Lent::new(64));
        assert_eq!(read(FIRST, &text, store.lend(), area.lend()), refused);
        assert_eq!(outline(FIRST, &text, store.lend()), refused);
        store.only_changed(0);
        area.only_changed(0);
        let refusal = Document::read(&text).map(|_| ()).map_err(place_and_number);
        assert_eq!(refusal, Err((1, false)));
    }
}

fn place_and_number(refusal: Refusal) -> (u64, bool) {
    (refusal.number, refusal.place.is_some())
}

/// The rendering has one byte more than the text, the line end behind the field.
#[test]
fn a_text_at_the_limit_is_read_and_its_rendering_may_be_over_it() {
    let text = field_text(TEXT_LIMIT);
    let document = document(&text);
    assert_eq!(document.store().len(), 63);
    assert_eq!(document.area().len(), TEXT_LIMIT - 10);
    let mut out = Lent::new(64);
    let refused = render(FIRST, document.store(), document.area(), out.lend());
    assert_eq!(refused, answer(1, 0, 0));
    out.only_changed(0);
    assert_eq!(document.render().map_err(place_and_number), Err((1, false)));
    let shorter = common::document(&field_text(TEXT_LIMIT - 1));
    assert_eq!(shorter.render().map(|text| text.len()), Ok(TEXT_LIMIT));
}
