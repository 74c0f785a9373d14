//! Which stores are sound in a reading: whole records whose contents fill the area, each of which could
//! be read as its kind, nested as a text of that reading nests them. A test aid, as the model is.

use crate::answer::{Body, Decimal, Record};
use crate::model::{
    ends_word, is_control, is_keyword, is_line_end, is_space, longest_name, number, starts_bare,
    Number, LONGEST_LINE, RESERVED,
};
use crate::reading::Reading;
use crate::stores;

/// Whether a store and its area are sound.
pub fn is_sound(reading: Reading, store: &[u8], area: &[u8]) -> bool {
    let records = stores::decode(store, area).unwrap_or_default();
    is_exact(&records, store, area)
        && records.iter().all(|record| could_be_read(reading, record))
        && are_blocks(reading, &records)
}

/// Only contents that follow one another, filling the area, and sign bytes of 0 and 1 are written again
/// as they stood.
fn is_exact(records: &[Record], store: &[u8], area: &[u8]) -> bool {
    let (store_again, area_again) = stores::encode(records);
    store_again == store && area_again == area
}

/// Whether a record's content, or its decimal, could have been read as its kind.
fn could_be_read(reading: Reading, record: &Record) -> bool {
    match (record.kind, &record.body, reading) {
        (1 | 2 | 4 | 6, Body::Content(name), _) => is_name(reading, record.kind, name),
        (10, Body::Content(word), _) => is_bare(reading, word),
        (11, Body::Content(inside), Reading::First) => is_between(b'\'', inside),
        (12, Body::Content(inside), Reading::First) => is_between(b'"', inside),
        (13, Body::Content(lines), _) => is_field(reading, lines),
        (21, Body::Content(opened), Reading::Strict) => is_quoted(opened),
        (_, Body::Content(_), _) => false,
        (_, Body::Number(decimal), _) => keeps_limits(decimal),
        (_, Body::Nothing | Body::Tags(_), _) => true,
    }
}

/// Whether a text of this reading may hold this byte.
fn is_allowed(reading: Reading, byte: u8) -> bool {
    match reading {
        Reading::First => byte < 128,
        Reading::Strict => byte < 127 && !is_control(byte),
    }
}

fn all_allowed(reading: Reading, bytes: &[u8]) -> bool {
    bytes.iter().all(|byte| is_allowed(reading, *byte))
}

fn is_word(reading: Reading, bytes: &[u8]) -> bool {
    all_allowed(reading, bytes) && !bytes.iter().any(|byte| ends_word(*byte))
}

fn is_name(reading: Reading, kind: u8, name: &[u8]) -> bool {
    let sized = match reading {
        Reading::First => true,
        Reading::Strict => (1..=longest_name(kind)).contains(&name.len()),
    };
    sized && is_word(reading, name)
}

/// A word that is read as bare text: no other value, no reserved word, and short enough for its line.
fn is_bare(reading: Reading, word: &[u8]) -> bool {
    let starts = match (reading, word.first()) {
        (_, None) => false,
        (Reading::First, Some(first)) => starts_bare(*first) && !b".?".contains(first),
        (Reading::Strict, Some(first)) => starts_bare(*first) || *first == b';',
    };
    let reserved = RESERVED
        .iter()
        .any(|keyword| is_keyword(reading, keyword, word));
    let other = word == b"." || word == b"?" || !matches!(number(reading, word), Number::No);
    starts && !reserved && !other && is_word(reading, word) && fits_a_line(reading, word)
}

/// The strict reading's lines are limited, and before `;` rendering puts a space.
fn fits_a_line(reading: Reading, word: &[u8]) -> bool {
    let space = usize::from(word.starts_with(b";"));
    reading == Reading::First || word.len() + space <= LONGEST_LINE
}

/// The first reading's text between two quote marks.
fn is_between(mark: u8, inside: &[u8]) -> bool {
    let ends = |byte: &u8| *byte == mark || is_line_end(*byte);
    all_allowed(Reading::First, inside) && !inside.iter().any(ends)
}

/// The strict reading's text behind its opening mark: one line, no mark in it before space. The closing
/// mark has to fit the line too.
fn is_quoted(opened: &[u8]) -> bool {
    let Some((mark, inside)) = opened.split_first() else {
        return false;
    };
    let closes_early = |pair: &[u8]| pair[0] == *mark && is_space(pair[1]);
    b"'\"".contains(mark)
        && all_allowed(Reading::Strict, inside)
        && !inside.iter().any(|byte| is_line_end(*byte))
        && !inside.windows(2).any(closes_early)
        && opened.len() < LONGEST_LINE
}

/// The text of a field: whole lines, none of which starts with `;` but the first. Its opening mark counts
/// on the first line.
fn is_field(reading: Reading, content: &[u8]) -> bool {
    let closes = |pair: &[u8]| is_line_end(pair[0]) && pair[1] == b';';
    let whole = content.last().is_some_and(|byte| is_line_end(*byte));
    all_allowed(reading, content)
        && whole
        && !content.windows(2).any(closes)
        && (reading == Reading::First || has_short_lines(content))
}

fn has_short_lines(content: &[u8]) -> bool {
    let mut lines = content.split(|byte| is_line_end(*byte));
    let first_fits = lines.next().is_some_and(|line| line.len() < LONGEST_LINE);
    first_fits && lines.all(|line| line.len() <= LONGEST_LINE)
}

/// Nine digits, eighteen behind the point.
fn keeps_limits(decimal: &Decimal) -> bool {
    const NINE_DIGITS: u32 = 999_999_999;
    decimal.integer <= NINE_DIGITS
        && decimal.fraction_digits <= 18
        && decimal.fraction < 10u64.pow(decimal.fraction_digits.into())
        && decimal.exponent.unsigned_abs() <= NINE_DIGITS
        && decimal.uncertainty.unwrap_or(0) <= NINE_DIGITS
}

/// A block, then frames and items; in the strict reading further blocks.
fn are_blocks(reading: Reading, records: &[Record]) -> bool {
    let Some((Record { kind: 1, .. }, mut rest)) = records.split_first() else {
        return false;
    };
    while let Some(next) = rest.first() {
        let behind = match next.kind {
            1 if reading == Reading::Strict => Some(&rest[1..]),
            2 => behind_frame(reading, rest),
            _ => behind_item(reading, rest),
        };
        let Some(behind) = behind else {
            return false;
        };
        rest = behind;
    }
    true
}

/// What stands behind a whole frame, if one stands first.
fn behind_frame(reading: Reading, records: &[Record]) -> Option<&[Record]> {
    let mut rest = &records[1..];
    while rest.first()?.kind != 3 {
        rest = behind_item(reading, rest)?;
    }
    Some(&rest[1..])
}

/// What stands behind a whole item, if one stands first.
fn behind_item(reading: Reading, records: &[Record]) -> Option<&[Record]> {
    let (first, rest) = records.split_first()?;
    match (first.kind, &first.body) {
        (4, _) => is_value(rest.first()?).then(|| &rest[1..]),
        (5, Body::Tags(tags)) => behind_loop(reading, *tags as usize, rest),
        _ => None,
    }
}

/// What stands behind a loop of so many tags whose `loop_` is gone over.
fn behind_loop(reading: Reading, tags: usize, rest: &[Record]) -> Option<&[Record]> {
    let names = rest.iter().take_while(|record| record.kind == 6).count();
    let values = rest[names..].iter().take_while(|record| is_value(record));
    let values = values.count();
    let (end, behind) = rest[names + values..].split_first()?;
    let whole = names == tags && tags > 0 && values % tags == 0;
    (whole && end.kind == 7 && (values > 0 || may_be_empty(reading, behind))).then_some(behind)
}

/// A loop without rows: never in the strict reading, and not before a tag, which would be one of its own.
fn may_be_empty(reading: Reading, behind: &[Record]) -> bool {
    let tag = behind.first().is_some_and(|record| record.kind == 4);
    reading == Reading::First && !tag
}

fn is_value(record: &Record) -> bool {
    matches!(record.kind, 8..=15 | 21)
}

#[cfg(test)]
mod tests {
    use super::*;
    use crate::answer::{mark_bytes, Place};
    use crate::laws::comes_back;
    use crate::random::Random;

    const READINGS: [Reading; 2] = [Reading::First, Reading::Strict];

    fn record(kind: u8, body: Body) -> Record {
        let content = match &body {
            Body::Content(content) => content.len(),
            _ => 0,
        };
        Record {
            kind,
            place: Place::NONE,
            length: content + mark_bytes(kind),
            body,
        }
    }

    fn plain(kind: u8) -> Record {
        record(kind, Body::Nothing)
    }

    fn text(kind: u8, content: &[u8]) -> Record {
        record(kind, Body::Content(content.to_vec()))
    }

    fn opening(tags: u32) -> Record {
        record(5, Body::Tags(tags))
    }

    /// The least store in which this record may stand.
    fn around(middle: Record) -> Vec<Record> {
        let block = text(1, b"x");
        match middle.kind {
            1 => vec![middle],
            2 => vec![block, middle, plain(3)],
            4 => vec![block, middle, plain(8)],
            6 => vec![block, opening(1), middle, plain(8), Record::LOOP_END],
            _ => vec![block, text(4, b"a"), middle],
        }
    }

    fn sound(reading: Reading, records: &[Record]) -> bool {
        let (store, area) = stores::encode(records);
        is_sound(reading, &store, &area)
    }

    /// Whether a record of this kind and content is sound where it may stand: in the first reading, and
    /// in the strict one.
    fn by_reading(kind: u8, content: &[u8]) -> [bool; 2] {
        READINGS.map(|reading| sound(reading, &around(text(kind, content))))
    }

    const BOTH: [bool; 2] = [true, true];
    const FIRST: [bool; 2] = [true, false];
    const STRICT: [bool; 2] = [false, true];
    const NEITHER: [bool; 2] = [false, false];

    #[test]
    fn quoted_kinds_belong_to_one_reading() {
        for (kind, content, expected) in [
            (11, "a b", FIRST),
            (12, "", FIRST),
            (11, "a'", NEITHER),
            (12, "a\n", NEITHER),
            (21, "'", STRICT),
            (21, "'a'b", STRICT),
            (21, "'a'", STRICT),
            (21, "\"a' b\tc", STRICT),
            (21, "' a", STRICT),
            (21, "'a' b", NEITHER),
            (21, "'a'\tb", NEITHER),
            (21, "'a\nb", NEITHER),
            (21, "'a\x0c", NEITHER),
            (21, "'a\x7f", NEITHER),
            (21, "", NEITHER),
            (21, "a", NEITHER),
            (21, ";a", NEITHER),
        ] {
            assert_eq!(
                by_reading(kind, content.as_bytes()),
                expected,
                "{content:?}"
            );
        }
    }

    #[test]
    fn bare_contents() {
        for (word, expected) in [
            ("a", BOTH),
            ("a'b", BOTH),
            ("a;", BOTH),
            ("1e", BOTH),
            ("1234567890x", BOTH),
            (".x", STRICT),
            ("?x", STRICT),
            (";", STRICT),
            (";b", STRICT),
            ("1e+", STRICT),
            ("1()", STRICT),
            ("1234567890e+", STRICT),
            ("loop_x", STRICT),
            ("Stop_x", STRICT),
            ("a\x01", FIRST),
            ("a\x7f", FIRST),
            ("a\x0c", NEITHER),
            ("", NEITHER),
            (".", NEITHER),
            ("?", NEITHER),
            ("1", NEITHER),
            ("1234567890", NEITHER),
            ("loop_", NEITHER),
            ("data_x", NEITHER),
            ("save_", NEITHER),
            ("'a", NEITHER),
            ("_a", NEITHER),
            ("#", NEITHER),
            ("a b", NEITHER),
            ("a\n", NEITHER),
        ] {
            assert_eq!(by_reading(10, word.as_bytes()), expected, "{word:?}");
        }
        assert_eq!(by_reading(10, b"a\x80"), NEITHER);
    }

    #[test]
    fn fields() {
        for (lines, expected) in [
            ("\n", BOTH),
            ("a\r", BOTH),
            (";a\r\n", BOTH),
            ("a\n ;\n", BOTH),
            ("a\x0c\n", FIRST),
            ("", NEITHER),
            ("a", NEITHER),
            ("a\n;\n", NEITHER),
            ("\r;\n", NEITHER),
        ] {
            assert_eq!(by_reading(13, lines.as_bytes()), expected, "{lines:?}");
        }
    }

    #[test]
    fn tokens_fit_a_line_as_rendered() {
        let long = |before: &str, letters: usize, behind: &str| {
            format!("{before}{}{behind}", "x".repeat(letters))
        };
        for (kind, before, longest, behind) in [
            (10, "", 2048, ""),
            (10, ";", 2046, ""),
            (13, "", 2047, "\n"),
            (13, "\n", 2048, "\n"),
            (13, "\r\n", 2048, "\r\n"),
        ] {
            let sized = |letters| by_reading(kind, long(before, letters, behind).as_bytes());
            assert!(sized(longest)[1], "{kind} {before:?}");
            assert!(!sized(longest + 1)[1], "{kind} {before:?}");
            assert_eq!(sized(longest + 1)[0], before != ";", "{kind} {before:?}");
        }
        assert_eq!(by_reading(21, long("'", 2046, "").as_bytes()), STRICT);
        assert_eq!(by_reading(21, long("'", 2047, "").as_bytes()), NEITHER);
    }

    #[test]
    fn names() {
        for (kind, longest) in [(1, 75), (2, 75), (4, 74), (6, 74)] {
            let sized = |length: usize| by_reading(kind, &vec![b'n'; length]);
            assert_eq!(sized(0), FIRST);
            assert_eq!(sized(1), BOTH);
            assert_eq!(sized(longest), BOTH);
            assert_eq!(sized(longest + 1), FIRST);
            for byte in 0..=255 {
                let expected = match byte {
                    33..=126 => BOTH,
                    9 | 10 | 12 | 13 | 32 | 128.. => NEITHER,
                    _ => FIRST,
                };
                assert_eq!(by_reading(kind, &[byte]), expected, "{kind} {byte}");
            }
        }
    }

    #[test]
    fn records_are_nested_as_read() {
        let block = || text(1, b"x");
        let frame = || text(2, b"f");
        let close = || plain(3);
        let single = || vec![text(4, b"a"), plain(9)];
        let loops = |counted: u32, names: usize, values: usize| {
            let mut records = vec![opening(counted)];
            records.extend(vec![text(6, b"a"); names]);
            records.extend(vec![plain(9); values]);
            records.push(Record::LOOP_END);
            records
        };
        let with = |parts: &[&[Record]]| [&[block()], parts.concat().as_slice()].concat();
        for (records, expected) in [
            (vec![], NEITHER),
            (single(), NEITHER),
            (with(&[]), BOTH),
            (with(&[&single(), &single()]), BOTH),
            (with(&[&[text(4, b"a")]]), NEITHER),
            (with(&[&[plain(9)]]), NEITHER),
            (with(&[&single(), &[plain(9)]]), NEITHER),
            (with(&[&[text(6, b"a"), plain(9)]]), NEITHER),
            (with(&[&[block()]]), STRICT),
            (with(&[&single(), &[block()], &single()]), STRICT),
            (with(&[&[text(4, b"a"), block()]]), NEITHER),
            (with(&[&[frame(), close()]]), BOTH),
            (with(&[&[frame()], &single(), &[close(), block()]]), STRICT),
            (with(&[&[frame(), block(), close()]]), NEITHER),
            (with(&[&[frame()], &single()]), NEITHER),
            (with(&[&[close()]]), NEITHER),
            (with(&[&[frame(), frame(), close(), close()]]), NEITHER),
            (with(&[&loops(2, 2, 4)]), BOTH),
            (with(&[&[frame()], &loops(1, 1, 1), &[close()]]), BOTH),
            (with(&[&loops(2, 2, 3)]), NEITHER),
            (with(&[&loops(1, 2, 2)]), NEITHER),
            (with(&[&loops(0, 0, 0)]), NEITHER),
            (with(&[&loops(1, 1, 1)[..3]]), NEITHER),
            (with(&[&[Record::LOOP_END]]), NEITHER),
            (with(&[&loops(1, 1, 0)]), FIRST),
            (with(&[&loops(1, 1, 0), &loops(1, 1, 0)]), FIRST),
            (with(&[&loops(1, 1, 0), &single()]), NEITHER),
            (with(&[&loops(1, 1, 1), &single()]), BOTH),
        ] {
            let found = READINGS.map(|reading| sound(reading, &records));
            let kinds: Vec<_> = records.iter().map(|record| record.kind).collect();
            assert_eq!(found, expected, "{kinds:?}");
        }
    }

    #[test]
    fn bytes_are_whole_and_exact() {
        let (store, area) = stores::encode(&around(text(10, b"b")));
        let damaged = |change: fn(&mut Vec<u8>, &mut Vec<u8>)| {
            let (mut store, mut area) = (store.clone(), area.clone());
            change(&mut store, &mut area);
            READINGS.map(|reading| is_sound(reading, &store, &area))
        };
        assert_eq!(damaged(|_, _| {}), BOTH);
        assert_eq!(damaged(|store, _| store[1] ^= 255), BOTH); // a place is not judged,
        assert_eq!(damaged(|store, _| store[5] += 1), NEITHER); // but a length is,
        assert_eq!(damaged(|store, _| store[5] = 4), NEITHER); // and is not below the marks
        assert_eq!(damaged(|store, _| store[21 + 17] += 1), NEITHER); // the area's offset
        assert_eq!(damaged(|store, _| store[42] = 16), NEITHER); // no kind
        assert_eq!(damaged(|store, _| store.push(7)), NEITHER);
        assert_eq!(damaged(|store, _| store.truncate(62)), NEITHER);
        assert_eq!(damaged(|_, area| area.push(b'b')), NEITHER);
        assert_eq!(damaged(|_, area| area.truncate(2)), NEITHER);
    }

    #[test]
    fn decimals_keep_the_limits() {
        let largest = Decimal {
            minus: true,
            integer: 999_999_999,
            fraction: 99,
            fraction_digits: 2,
            exponent: -999_999_999,
            uncertainty: Some(999_999_999),
        };
        let changed = |change: fn(&mut Decimal)| {
            let mut decimal = largest;
            change(&mut decimal);
            let kind = 14 + u8::from(decimal.uncertainty.is_some());
            let records = around(record(kind, Body::Number(decimal)));
            READINGS.map(|reading| sound(reading, &records))
        };
        assert_eq!(changed(|_| {}), BOTH);
        assert_eq!(changed(|decimal| decimal.uncertainty = None), BOTH);
        assert_eq!(changed(|decimal| decimal.fraction_digits = 18), BOTH);
        assert_eq!(changed(|decimal| decimal.fraction_digits = 19), NEITHER);
        assert_eq!(changed(|decimal| decimal.integer += 1), NEITHER);
        assert_eq!(changed(|decimal| decimal.fraction += 1), NEITHER);
        assert_eq!(changed(|decimal| decimal.exponent -= 1), NEITHER);
        assert_eq!(changed(|decimal| decimal.exponent = i32::MIN), NEITHER);
        assert_eq!(
            changed(|decimal| decimal.uncertainty = Some(1_000_000_000)),
            NEITHER
        );
        let (mut store, area) = stores::encode(&around(record(15, Body::Number(largest))));
        store[42 + 17] = 2; // the sign
        assert!(!is_sound(Reading::First, &store, &area));
    }

    /// Bytes that the rules tell apart, in a row; seldom many letters more.
    fn some_content(random: &mut Random) -> Vec<u8> {
        const TELLING: &[u8] = b"ab1.?'\";_#[ \t\n\re+()\x00\x0c\x7f\x80";
        const STARTS: [&str; 10] = ["", "", "", "", "loop_", "stop_", "data_", "save_", "'", ";"];
        let mut content = random.pick(&STARTS).as_bytes().to_vec();
        for _ in 0..random.below(6) {
            content.push(TELLING[random.below(TELLING.len())]);
        }
        match random.below(40) {
            0 => content.resize(72 + random.below(5), b'x'),
            1 => content.resize(2045 + random.below(5), b'x'),
            _ => {}
        }
        if random.once_in(4) {
            content.push(b'\n');
        }
        content
    }

    #[test]
    fn a_content_is_sound_exactly_if_it_is_read_back() {
        const KINDS: [u8; 9] = [1, 2, 4, 6, 10, 11, 12, 13, 21];
        let mut counts = [0; 2];
        for number in 0..20_000 {
            let mut random = Random::new(17, number);
            let kind = KINDS[random.below(KINDS.len())];
            let middle = text(kind, &some_content(&mut random));
            for reading in READINGS {
                let readable = could_be_read(reading, &middle);
                let read_back = comes_back(reading, &around(middle.clone()));
                assert_eq!(readable, read_back, "{reading:?} {middle:?}");
                counts[usize::from(readable)] += 1;
            }
        }
        assert!(counts.iter().all(|count| *count > 2000), "{counts:?}");
    }
}
