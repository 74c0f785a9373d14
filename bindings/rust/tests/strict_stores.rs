//! Stores of the strict reading, and what each reading makes of the other's: soundness, contents,
//! names and rendering (document 02, Three).

mod common;

use chuntarek::{names, record_at, render, Document, Kind, Reading, TEXT_LIMIT};
use common::*;

const FIRST: Reading = Reading::First;
const STRICT: Reading = Reading::Strict;

/// A store and its area, made record by record.
#[derive(Clone, Default)]
struct Made {
    store: Vec<u8>,
    area: Vec<u8>,
}

impl Made {
    /// A block of this name.
    fn block(name: &[u8]) -> Made {
        Made::default().with(1, name)
    }

    /// A block, and a tag whose value is to follow.
    fn tagged() -> Made {
        Made::block(b"x").with(4, b"a")
    }

    /// Adds a record with content; its place is of no account.
    fn with(mut self, kind: u8, content: &[u8]) -> Made {
        let marks = match kind {
            1 | 2 => 5,
            4 | 6 | 21 => 1,
            11..=13 => 2,
            _ => 0,
        };
        self.token(kind, content.len() + marks);
        self.put(self.area.len());
        self.area.extend(content);
        self
    }

    /// Adds a record without content: the close of a frame, `.` or `?`.
    fn plain(mut self, kind: u8) -> Made {
        self.token(kind, 1);
        self
    }

    /// Adds a loop of so many tags, which are to follow, as are its values and its end.
    fn opening(mut self, tags: usize) -> Made {
        self.token(5, 5);
        self.put(tags);
        self
    }

    fn end(mut self) -> Made {
        self.store.push(7);
        self
    }

    fn token(&mut self, kind: u8, length: usize) {
        self.store.push(kind);
        for field in [0, length, 1, 1] {
            self.put(field);
        }
    }

    fn put(&mut self, field: usize) {
        self.store.extend((field as u32).to_le_bytes());
    }

    fn is_sound(&self, reading: Reading) -> bool {
        let sound = is_sound(reading, &self.store, &self.area);
        if sound {
            round_trip(reading, &self.store, &self.area);
        }
        sound
    }

    /// Whether it is sound in the first reading, and in the strict one.
    fn soundness(&self) -> (bool, bool) {
        (self.is_sound(FIRST), self.is_sound(STRICT))
    }
}

#[test]
fn quoted_values_are_sound_in_their_own_reading() {
    assert_eq!(Made::tagged().with(11, b"b").soundness(), (true, false));
    assert_eq!(Made::tagged().with(12, b"b").soundness(), (true, false));
    assert_eq!(Made::tagged().with(21, b"'b").soundness(), (false, true));
    assert_eq!(Made::tagged().with(21, b"\"b").soundness(), (false, true));
    assert_eq!(Made::tagged().with(13, b"b\n").soundness(), (true, true));
    assert_eq!(Made::tagged().with(10, b"b").soundness(), (true, true));
}

/// The opening mark stands first; no line end and no control byte follows, and the mark not before space.
#[test]
fn a_quoted_content_could_be_read() {
    let sound = |content: &[u8]| Made::tagged().with(21, content).is_sound(STRICT);
    for content in [
        &b"'"[..],
        b"\"",
        b"''",
        b"'a'",
        b"'a'b",
        b"'\tb c",
        b"\"it's a",
        b"'\"b\" c",
        b"'#;_[",
    ] {
        assert!(sound(content), "{content:?}");
    }
    for content in [
        &b""[..],
        b"a",
        b";a",
        b"'a' b",
        b"'' ",
        b"\"a\"\tb",
        b"'a\nb",
        b"'a\r",
        b"'a\x0c",
        b"'\x00",
        b"'\x7f",
        b"'\xc3\xa9",
    ] {
        assert!(!sound(content), "{content:?}");
    }
}

#[test]
fn a_bare_content_could_be_read() {
    for (content, first, strict) in [
        (&b"b"[..], true, true),
        (b"1e", true, true),
        (b"a[", true, true),
        (b"a#;'", true, true),
        (b";", false, true),
        (b";b", false, true),
        (b".x", false, true),
        (b"?x", false, true),
        (b"..", false, true),
        (b"1e+", false, true),
        (b"1()", false, true),
        (b"1234567890e+", false, true),
        (b"loop_x", false, true),
        (b"Stop_x", false, true),
        (b"a\x01", true, false),
        (b"a\x7f", true, false),
        (b"loop_", false, false),
        (b"GLOBAL_", false, false),
        (b"data_", false, false),
        (b"save_x", false, false),
        (b".", false, false),
        (b"?", false, false),
        (b"1", false, false),
        (b"1.5(2)", false, false),
        (b"1234567890", false, false),
        (b"'a", false, false),
        (b"_a", false, false),
        (b"[a", false, false),
        (b"#a", false, false),
        (b"a b", false, false),
        (b"", false, false),
        (b"\xc3", false, false),
    ] {
        let made = Made::tagged().with(10, content);
        assert_eq!(made.soundness(), (first, strict), "{content:?}");
    }
}

/// A token has to fit a line as it is rendered.
#[test]
fn texts_fit_their_lines() {
    let bytes = |count: usize| vec![b'x'; count];
    let sound = |kind: u8, content: &[u8]| Made::tagged().with(kind, content).soundness();
    assert_eq!(sound(10, &bytes(2048)), (true, true));
    assert_eq!(sound(10, &bytes(2049)), (true, false));
    let semicolon = |count: usize| [b";", &bytes(count - 1)[..]].concat();
    assert_eq!(sound(10, &semicolon(2047)), (false, true));
    assert_eq!(sound(10, &semicolon(2048)), (false, false));
    let quoted = |count: usize| [b"'", &bytes(count - 1)[..]].concat();
    assert_eq!(sound(21, &quoted(2047)), (false, true));
    assert_eq!(sound(21, &quoted(2048)), (false, false));
    let lines = |first: usize, second: usize| {
        let lines = [bytes(first), bytes(second)];
        lines.map(|line| [&line[..], b"\n"].concat()).concat()
    };
    assert_eq!(sound(13, &lines(2047, 2048)), (true, true));
    assert_eq!(sound(13, &lines(2048, 0)), (true, false));
    assert_eq!(sound(13, &lines(0, 2049)), (true, false));
    assert_eq!(sound(13, b"a\x0c\n"), (true, false));
}

#[test]
fn names_have_their_lengths_and_bytes() {
    let value = |made: Made| made.plain(9);
    let block = |name: &[u8]| Made::block(name).soundness();
    let frame = |name: &[u8]| Made::block(b"x").with(2, name).plain(3).soundness();
    let tag = |name: &[u8]| value(Made::block(b"x").with(4, name)).soundness();
    let loop_tag = |name: &[u8]| {
        let tags = Made::block(b"x").opening(1).with(6, name);
        value(tags).end().soundness()
    };
    for (length, heading, name) in [(0, false, false), (1, true, true), (74, true, true)]
        .into_iter()
        .chain([(75, true, false), (76, false, false)])
    {
        let bytes = vec![b'n'; length];
        for found in [block(&bytes), frame(&bytes)] {
            assert_eq!(found, (true, heading), "{length}");
        }
        for found in [tag(&bytes), loop_tag(&bytes)] {
            assert_eq!(found, (true, name), "{length}");
        }
    }
    for byte in 0..=255 {
        let first = byte < 128 && !matches!(byte, 9 | 10 | 12 | 13 | 32);
        let expected = (first, (33..=126).contains(&byte));
        for found in [block(&[byte]), frame(&[byte]), tag(&[byte])] {
            assert_eq!(found, expected, "{byte}");
        }
    }
}

#[test]
fn blocks_stand_outside_frames_and_loops_have_rows() {
    let two = Made::block(b"x").with(1, b"x");
    assert_eq!(two.soundness(), (false, true));
    let items = two.with(4, b"a").plain(8).with(1, b"y").with(4, b"a");
    assert_eq!(items.plain(9).soundness(), (false, true));
    let frame = Made::block(b"x").with(2, b"f");
    let behind = frame.clone().plain(3).with(1, b"y");
    assert_eq!(behind.soundness(), (false, true));
    assert_eq!(
        frame.clone().with(1, b"y").plain(3).soundness(),
        (false, false)
    );
    assert_eq!(frame.with(1, b"y").soundness(), (false, false));
    let tags = Made::block(b"x").opening(1).with(6, b"a");
    assert_eq!(tags.clone().end().soundness(), (true, false));
    assert_eq!(tags.clone().plain(9).end().soundness(), (true, true));
    let behind = tags.clone().plain(9).end().with(1, b"y");
    assert_eq!(behind.soundness(), (false, true));
    assert_eq!(
        tags.plain(9).with(1, b"y").end().soundness(),
        (false, false)
    );
}

#[test]
fn each_reading_refuses_the_others_texts() {
    let first = document(b"data_x _a 'b'");
    let (store, area) = first.clone().into_parts();
    let taken = Document::from_parts_as(STRICT, store.clone(), area.clone());
    assert_eq!(taken.map_err(|refusal| refusal.number), Err(12));
    assert_eq!(Document::from_parts(store, area), Ok(first));
    let second = strict(b"data_x _a 'b'");
    let (store, area) = second.clone().into_parts();
    let taken = Document::from_parts(store.clone(), area.clone());
    let refusal = taken.expect_err("it is of the other reading");
    assert_eq!(refusal.number, 12);
    assert!(refusal
        .sentence()
        .ends_with("or it was written in another reading"));
    assert_eq!(Document::from_parts_as(STRICT, store, area), Ok(second));
}

/// Whatever reading is named, the walk knows all kinds.
#[test]
fn records_are_walked_in_any_reading() {
    for document in [
        strict(b"data_x _a 'b' data_y _a ;c"),
        document(b"data_x _a 'b'"),
    ] {
        for at in 0..=document.store().len() {
            let [first, second] = [FIRST, STRICT]
                .map(|reading| record_at(reading, document.store(), document.area(), at));
            assert_eq!(first, second);
        }
    }
    let document = strict(b"data_x _a 'b'");
    let record = record_at(FIRST, document.store(), document.area(), 42).expect("a value");
    assert_eq!((record.kind, record.text()), (Kind::Quoted, Some("b")));
}

const RENDERED_FROM: &[u8] =
    b"data_x _a ;b loop_ _c 'd' \"e' f\" '' ''' . ?x 1.50(2) data_y _a\n;g\n; save_f save_";
const RENDERED: &[u8] =
    b"data_x\n_a\n ;b\nloop_\n_c\n'd'\n\"e' f\"\n''\n'''\n.\n?x\n1.50(2)\ndata_y\n_a\n;g\n;\nsave_f\nsave_\n";

#[test]
fn strict_records_are_rendered_and_read_back() {
    let document = strict(RENDERED_FROM);
    assert_eq!(document.render().as_deref(), Ok(RENDERED));
    round_trip(STRICT, document.store(), document.area());
}

/// The space before a bare `;` is counted.
#[test]
fn a_rendering_takes_the_room_it_counts() {
    let document = strict(RENDERED_FROM);
    let (store, area) = (document.store(), document.area());
    let mut out = [FILL; 256];
    let length = RENDERED.len();
    let refused = answer(11, length as u64, 0);
    assert_eq!(render(STRICT, store, area, &mut out[..length - 1]), refused);
    assert_eq!(out, [FILL; 256]);
    let done = answer(0, length as u64, 0);
    assert_eq!(render(STRICT, store, area, &mut out[..length]), done);
    assert!(out.starts_with(RENDERED) && out[length..].iter().all(|byte| *byte == FILL));
    let mut out = [FILL; 256];
    assert_eq!(render(FIRST, store, area, &mut out), answer(12, 0, 0));
    assert_eq!(out, [FILL; 256]);
}

/// A text of this length with a bare `;` and one text field. Its rendering has a space and a line end
/// more.
fn field_text(length: usize) -> Vec<u8> {
    let mut text = b"data_x _a ;b _c\n;".to_vec();
    while text.len() + 2 < length {
        let line = (length - text.len() - 2).min(1000);
        text.extend(vec![b'x'; line - 1]);
        text.push(b'\n');
    }
    text.truncate(length - 2);
    text.extend(b"\n;");
    text
}

#[test]
fn the_space_counts_for_the_limit() {
    let most = strict(&field_text(TEXT_LIMIT - 2));
    assert_eq!(most.render().map(|text| text.len()), Ok(TEXT_LIMIT));
    let over = strict(&field_text(TEXT_LIMIT - 1));
    assert_eq!(over.render().map_err(|refusal| refusal.number), Err(1));
}

#[test]
fn each_block_has_its_own_names() {
    let checked = |text: &[u8]| {
        strict(text)
            .check_names()
            .map_err(|refusal| refusal.records)
    };
    assert_eq!(checked(b"data_x _a 1 data_x _A 2"), Ok(()));
    assert_eq!(
        checked(b"data_x save_f _a 1 save_ data_y save_f _a 2 save_ _a 3"),
        Ok(())
    );
    assert_eq!(checked(b"data_x _a 1 data_y _b 1 _B 2"), Err(Some((4, 6))));
    assert_eq!(
        checked(b"data_x _a 1 save_f _b 1 save_ _A 2"),
        Err(Some((1, 7)))
    );
    assert_eq!(
        checked(b"data_x _a 1 data_y loop_ _b _c 1 2 save_f _d 1 _D 2 save_ _B 3"),
        Err(Some((11, 13)))
    );
    let document = strict(b"data_x _a 1 data_x _a 2");
    assert_eq!(
        names(FIRST, document.store(), document.area()),
        answer(12, 0, 0)
    );
}

/// Blocks by the thousand, each with the same names; then a name twice in the last.
#[test]
fn names_of_many_blocks_are_checked() {
    let mut text = String::new();
    for number in 0..5_000 {
        text += &format!("data_b{number} _a 1 _b 2\n");
    }
    assert_eq!(strict(text.as_bytes()).check_names(), Ok(()));
    text += "loop_ _c _A 1 2";
    let refusal = strict(text.as_bytes())
        .check_names()
        .expect_err("_a is twice");
    // Each block has five records, and the loop's second tag is the third behind the last.
    assert_eq!(refusal.records, Some((4_999 * 5 + 1, 5_000 * 5 + 2)));
}

/// A store with each kind that the strict reading has of its own, any byte of it changed.
#[test]
fn every_byte_of_a_strict_store_may_be_wrong() {
    let document = strict(b"data_x _a 'b' data_y _c ;d");
    let sound_in = |store: &[u8], area: &[u8]| {
        for reading in [FIRST, STRICT] {
            walk(reading, store, area);
            if is_sound(reading, store, area) {
                round_trip(reading, store, area);
            }
        }
    };
    each_damage(document.store(), |_, _, store| {
        sound_in(store, document.area())
    });
    each_damage(document.area(), |_, _, area| {
        sound_in(document.store(), area)
    });
}
