//! What changed from one document to another: the library's list, and the entries over it.

mod common;

use std::cmp::Ordering;

use chuntarek::{compare, number, Answer, Case, Decimal, Document, Entry, Incomparable, Reading};
use chuntarek::{Refusal, Side, Value, ENTRY_LENGTH};
use common::{answer, document, refusal, strict, FILL};

/// A value in one word: frame, tag, row and label, then number of its record and its token.
fn told_value(value: Option<Value>) -> String {
    let Some(value) = value else {
        return String::from("-");
    };
    let frame = value
        .frame
        .map_or(String::new(), |frame| format!("{frame}/"));
    let row = value.row.map_or(String::new(), |row| format!("[{row}]"));
    let label = value
        .label
        .map_or(String::new(), |label| format!("{{{label}}}"));
    let token = match (value.record.decimal, value.record.text()) {
        (Some(decimal), _) => decimal.to_string(),
        (None, Some(text)) => format!("{text:?}"),
        (None, None) => format!("{:?}", value.record.kind),
    };
    format!("{frame}{}{row}{label}={}:{token}", value.tag, value.number)
}

fn told(entry: Entry) -> String {
    format!(
        "{:?} {} {}",
        entry.case,
        told_value(entry.old),
        told_value(entry.new)
    )
}

/// What changed between two documents, entry by entry.
fn changes(old: &Document, new: &Document) -> Vec<String> {
    old.compare(new)
        .expect("they can be compared")
        .map(told)
        .collect()
}

fn changed(old: &str, new: &str) -> Vec<String> {
    changes(&document(old.as_bytes()), &document(new.as_bytes()))
}

/// The case of two words as values of one tag, in both directions; none where they are equal.
fn cases_as(reading: Reading, old: &str, new: &str) -> [Option<Case>; 2] {
    let read = |word: &str| {
        let text = format!("data_x _a\n{word}\n");
        Document::read_as(reading, text.as_bytes()).expect("the text is read")
    };
    let case = |old: &Document, new: &Document| {
        let mut entries = old.compare(new).expect("they can be compared");
        let first = entries.next().map(|entry| entry.case);
        assert_eq!(entries.next(), None);
        first
    };
    let (old, new) = (read(old), read(new));
    [case(&old, &new), case(&new, &old)]
}

fn cases(old: &str, new: &str) -> [Option<Case>; 2] {
    let first = cases_as(Reading::First, old, new);
    assert_eq!(cases_as(Reading::Strict, old, new), first, "{old} {new}");
    first
}

#[test]
fn entries_have_values_tags_rows_and_labels() {
    let old = "data_x _a 1.5(2) _gone ? loop_ _n _l 1 C1 2 C2";
    let new = "data_y loop_ _n _l 1.0 C1 3 C2 4 'H 1' _a 1.4(2) _come .";
    assert_eq!(
        changed(old, new),
        [
            "OldLarger a=2:1.5(2) a=12:1.4(2)",
            "OnlyOld gone=4:Unknown -",
            "Rewritten n[0]{C1}=8:1 n[0]{C1}=4:1.0",
            "NewLarger n[1]{C2}=10:2 n[1]{C2}=6:3",
            "OnlyNew - n[2]{H 1}=8:4",
            "OnlyNew - l[2]{H 1}=9:\"H 1\"",
            "OnlyNew - come=14:Inapplicable",
        ]
    );
}

#[test]
fn a_document_does_not_differ_from_itself() {
    for text in [
        &b"data_"[..],
        b"data_x loop_ _a",
        common::SAMPLE,
        b"data_x save_f _a 1 save_",
    ] {
        let document = document(text);
        let mut entries = document.compare(&document).expect("it can be compared");
        assert_eq!(
            (entries.len(), entries.next(), entries.next()),
            (0, None, None)
        );
        let again = Document::read(&document.render().expect("it is short")).expect("it is read");
        assert_eq!(changes(&document, &again), Vec::<String>::new());
    }
}

/// Scope, name and row alone decide what matches.
#[test]
fn values_match_by_frame_tag_and_row() {
    assert_eq!(
        changed("data_x _a 1 _B 2", "data_y _b 2 _A 1"),
        Vec::<String>::new()
    );
    assert_eq!(
        changed(
            "data_x save_F _a 1 save_ _a 2",
            "data_x _a 1 save_f _A 2 save_"
        ),
        ["NewLarger F/a=3:1 f/A=5:2", "OldLarger a=6:2 a=2:1"]
    );
    assert_eq!(
        changed("data_x save_f _a 1 save_", "data_x save_g _a 1 save_"),
        ["OnlyOld f/a=3:1 -", "OnlyNew - g/a=3:1"]
    );
    // A single value is row 0, and a column may stand in another loop.
    assert_eq!(
        changed("data_x _a 1", "data_x loop_ _a 1"),
        Vec::<String>::new()
    );
    assert_eq!(
        changed("data_x _a 1", "data_x loop_ _b _a x 2 y 3"),
        [
            "NewLarger a=2:1 a[0]{x}=5:2",
            "OnlyNew - b[0]{x}=4:\"x\"",
            "OnlyNew - b[1]{y}=6:\"y\"",
            "OnlyNew - a[1]{y}=7:3"
        ]
    );
    assert_eq!(
        changed(
            "data_x loop_ _a _b 1 2 3 4",
            "data_x loop_ _b 2 5 loop_ _a 1 3"
        ),
        ["NewLarger b[1]=7:4 b[1]=4:5"]
    );
    // Frames and tags of one name are not alike.
    assert_eq!(
        changed("data_x save_a save_ _a 1", "data_x _a 1"),
        Vec::<String>::new()
    );
}

#[test]
fn numbers_are_compared_by_value() {
    let larger = [Some(Case::OldLarger), Some(Case::NewLarger)];
    for (old, new) in [
        ("2", "1"),
        ("0", "-1"),
        ("-1", "-2"),
        ("0.1", "-0.1"),
        ("1.51", "1.5"),
        ("1.500000000000000001", "1.5"),
        ("1e999999999", "1e-999999999"),
        ("1e-999999999", "0"),
        ("-1e-999999999", "-1e999999999"),
        ("2(1)", "1(2)"),
        ("10", "9.999999999999999999"),
    ] {
        assert_eq!(cases(old, new), larger, "{old} {new}");
    }
    for (old, new) in [
        ("1.50", "1.5"),
        ("15e-1", "1.5"),
        ("-0", "0"),
        ("0e999999999", "0"),
        ("1.5(1)", "1.50(10)"),
        ("1.5", "1.5(0)"),
        ("100", "1e2"),
    ] {
        assert_eq!(cases(old, new), [Some(Case::Rewritten); 2], "{old} {new}");
    }
    for (old, new) in [
        ("1.5(1)", "1.50(1)"),
        ("1.5", "1.5(1)"),
        ("1e2(1)", "100(1)"),
        ("-0(1)", "0(2)"),
    ] {
        assert_eq!(cases(old, new), [Some(Case::Uncertainty); 2], "{old} {new}");
    }
    for (old, new) in [
        ("1e5", "1E+5"),
        ("+1", "1"),
        ("01.5", "1.5"),
        (".5", "0.5"),
        ("-.5e1(02)", "-0.5e+01(2)"),
    ] {
        assert_eq!(cases(old, new), [None; 2], "{old} {new}");
    }
}

#[test]
fn texts_are_compared_without_marks() {
    for (old, new) in [
        ("a", "'a'"),
        ("'a'", "\"a\""),
        ("''", "\"\""),
        (".", "."),
        ("?", "?"),
    ] {
        assert_eq!(cases(old, new), [None; 2], "{old} {new}");
    }
    for (old, new) in [
        ("a", "b"),
        ("a", "A"),
        ("a", "'a '"),
        ("'a'", ";a\n;"),
        ("1", "'1'"),
        (".", "'.'"),
        ("?", "'?'"),
        (".", "?"),
        (".", "0"),
        ("''", "."),
    ] {
        assert_eq!(cases(old, new), [Some(Case::Different); 2], "{old} {new}");
    }
    // The strict reading's quotes may hold their own mark, and no mark counts.
    let strict_cases = |old, new| cases_as(Reading::Strict, old, new);
    assert_eq!(strict_cases("'a'b'", "\"a'b\""), [None; 2]);
    assert_eq!(strict_cases("\"'a\"", "'a'"), [Some(Case::Different); 2]);
}

#[test]
fn labels_are_the_first_text_of_the_row() {
    let old = "data_x loop_ _x _l _m 1 . ? 2 'b c' d 3 e . 4 . f";
    let new = "data_x loop_ _x _l _m 5 . ? 6 'b c' d 7 e . 8 . f";
    assert_eq!(
        changed(old, new),
        [
            "NewLarger x[0]=5:1 x[0]=5:5",
            "NewLarger x[1]{b c}=8:2 x[1]{b c}=8:6",
            "NewLarger x[2]{e}=11:3 x[2]{e}=11:7",
            "NewLarger x[3]{f}=14:4 x[3]{f}=14:8"
        ]
    );
    // Each side has the label of its own row.
    assert_eq!(
        changed("data_x loop_ _l _x a 1", "data_x loop_ _x _l 2 b"),
        [
            "Different l[0]{a}=4:\"a\" l[0]{b}=5:\"b\"",
            "NewLarger x[0]{a}=5:1 x[0]{b}=4:2"
        ]
    );
}

#[test]
fn entries_may_be_counted_and_walked_again() {
    let (old, new) = (
        document(b"data_x _a 1 _b 2 _c 3"),
        document(b"data_x _a 2 _b 2 _d 3"),
    );
    let mut entries = old.compare(&new).expect("they can be compared");
    assert_eq!(entries.len(), 3);
    let again = entries.clone();
    assert_eq!(
        entries.next().map(|entry| entry.case),
        Some(Case::NewLarger)
    );
    assert_eq!((entries.len(), entries.size_hint()), (2, (2, Some(2))));
    assert_eq!(
        again.map(|entry| entry.case.number()).collect::<Vec<_>>(),
        [5, 1, 2]
    );
}

/// One reading for both, even where the stores happen to be sound in either.
#[test]
fn documents_of_two_readings_are_not_compared() {
    let text = b"data_x _a 1";
    let (first, strict) = (document(text), strict(text));
    for (old, new) in [(&first, &strict), (&strict, &first)] {
        assert_eq!(old.compare(new).err(), Some(Incomparable::OtherReading));
    }
    assert_eq!(
        Incomparable::OtherReading.to_string(),
        "refused 12: the two documents were read in different readings: read both in one"
    );
}

#[test]
fn several_blocks_are_not_compared() {
    let (one, two) = (strict(b"data_x _a 1"), strict(b"data_x _a 1 data_y _a 1"));
    for (old, new, side) in [
        (&two, &one, Side::Old),
        (&one, &two, Side::New),
        (&two, &two, Side::Old),
    ] {
        let reason = old.compare(new).expect_err("one has two blocks");
        assert_eq!(
            (reason, reason.number()),
            (Incomparable::SeveralBlocks(side), 12)
        );
        assert_eq!(
            reason.to_string(),
            format!("refused 12: the {side} document has several blocks, and one block is compared with one")
        );
    }
}

#[test]
fn names_that_stand_twice_are_not_compared() {
    let good = document(b"data_x _a 1 save_f _a 2 save_ _b 1 save_a _b 1 save_");
    let bad: [(&[u8], u64, u64); 5] = [
        (b"data_x _a 1 _A 2", 1, 3),
        (b"data_x _a 1 save_f _a 2 save_ loop_ _c _A 3 4", 1, 9),
        (b"data_x save_f loop_ _b _B 1 2 save_", 3, 4),
        (b"data_x save_f save_ save_F save_", 1, 3),
        (
            b"data_x _a 1 save_f _b 2 save_ save_F _a 1 _a 2 save_",
            3,
            7,
        ),
    ];
    for (text, first, second) in bad {
        let bad = document(text);
        for (old, new, side) in [
            (&bad, &good, Side::Old),
            (&good, &bad, Side::New),
            (&bad, &bad, Side::Old),
        ] {
            let reason = old.compare(new).expect_err("a name stands twice");
            assert_eq!(reason, Incomparable::NameTwice(side, first, second));
            let refusal = Refusal::from(reason);
            assert_eq!(
                (refusal.number, refusal.records),
                (13, Some((first, second)))
            );
            let start =
                format!("refused 13 at records {first} and {second} of the {side} document: ");
            assert!(reason.to_string().starts_with(&start), "{reason}");
        }
    }
    // The old one is judged first, and in it the earliest record that repeats a name.
    let (old, new) = (
        document(b"data_x _a 1 _b 2 _b 3 _a 4"),
        document(b"data_x _a 1 _a 2"),
    );
    assert_eq!(
        old.compare(&new).err(),
        Some(Incomparable::NameTwice(Side::Old, 3, 5))
    );
    assert_eq!(
        new.compare(&old).err(),
        Some(Incomparable::NameTwice(Side::Old, 1, 3))
    );
}

type Stored<'a> = (&'a [u8], &'a [u8]);

fn stored(document: &Document) -> Stored<'_> {
    (document.store(), document.area())
}

/// The answer with so much room, and the list afterwards with some bytes behind it.
fn listed(reading: Reading, old: Stored, new: Stored, room: usize) -> (Answer, Vec<u8>) {
    let mut list = vec![FILL; room + 8];
    let answer = compare(reading, old, new, &mut list[..room]);
    (answer, list)
}

#[test]
fn the_list_is_written_to_the_byte() {
    let (old, new) = (document(b"data_x _a 1 _b 2"), document(b"data_x _c 3 _a 2"));
    let (old, new) = (stored(&old), stored(&new));
    let entry = |case: u8, old: u64, new: u64| {
        [&[case][..], &old.to_le_bytes(), &new.to_le_bytes()].concat()
    };
    let expected = [entry(5, 2, 4), entry(1, 4, 0), entry(2, 0, 2)].concat();
    assert_eq!(expected.len(), 3 * ENTRY_LENGTH);
    for room in 0..=60 {
        let (got, list) = listed(Reading::First, old, new, room);
        if room < 51 {
            assert_eq!(got, answer(10, 51, 0));
            assert_eq!(list, vec![FILL; room + 8]);
        } else {
            assert_eq!(got, answer(0, 51, 0));
            assert_eq!(list[..51], expected);
            assert_eq!(list[51..], vec![FILL; room + 8 - 51]);
        }
    }
    assert_eq!(
        listed(Reading::First, old, old, 0),
        (answer(0, 0, 0), vec![FILL; 8])
    );
}

/// 12 of the old store, 12 of the new, 13 of the old, 13 of the new, 10; and nothing is written.
#[test]
fn refusals_come_in_their_order() {
    let (good, other) = (document(b"data_x _a 1"), document(b"data_x _a 2"));
    let (twice, again) = (
        document(b"data_x _a 1 _a 1"),
        document(b"data_x _b 1 save_f save_ save_F save_"),
    );
    let (good, other, twice, again) = (
        stored(&good),
        stored(&other),
        stored(&twice),
        stored(&again),
    );
    let unsound: [Stored; 3] = [(b"", b""), (good.0, b""), (b"\x02", b"")];
    let is_refused = |old, new, expected| {
        for room in [0, 17, 40] {
            let (got, list) = listed(Reading::First, old, new, room);
            assert_eq!(got, expected);
            assert_eq!(list, vec![FILL; room + 8]);
        }
    };
    for bad in unsound {
        for (old, new) in [
            (bad, good),
            (good, bad),
            (bad, twice),
            (twice, bad),
            (bad, bad),
        ] {
            is_refused(old, new, answer(12, 0, 0));
        }
    }
    let (twice_at, again_at) = (refusal(13, 1, 3, 0, 0), refusal(13, 3, 5, 0, 0));
    for (old, new, at) in [
        (twice, good, twice_at),
        (good, twice, twice_at),
        (twice, again, twice_at),
        (again, twice, again_at),
        (good, again, again_at),
    ] {
        is_refused(old, new, at);
    }
    assert_eq!(
        listed(Reading::First, good, other, 16).0,
        answer(number::STORE_FULL, 17, 0)
    );
    // Stores of the other reading are none of this one where their kinds are not.
    let (first, second) = (document(b"data_x _a 'b'"), strict(b"data_x _a 'b'"));
    for (reading, bad, good) in [
        (Reading::First, &second, &first),
        (Reading::Strict, &first, &second),
    ] {
        assert_eq!(listed(reading, stored(bad), stored(good), 17).0.number, 12);
        assert_eq!(listed(reading, stored(good), stored(bad), 17).0.number, 12);
        assert_eq!(
            listed(reading, stored(good), stored(good), 17).0,
            answer(0, 0, 0)
        );
    }
}

/// The same numbers in each run.
struct Dice(u64);

impl Dice {
    fn below(&mut self, most: u64) -> u64 {
        self.0 ^= self.0 << 13;
        self.0 ^= self.0 >> 7;
        self.0 ^= self.0 << 17;
        self.0 % most
    }

    fn pick<'a>(&mut self, words: &[&'a str]) -> &'a str {
        words[self.below(words.len() as u64) as usize]
    }

    /// Some digits, many of them 0 or 9.
    fn digits(&mut self, most: u64) -> String {
        let count = match self.below(4) {
            0 => 1 + self.below(most),
            _ => 1 + self.below(most.min(3)),
        };
        (0..count)
            .map(|_| self.pick(&["0", "0", "0", "1", "9", "5", "2"]))
            .collect()
    }

    /// A number as a file may have it, often one that is equal to another in other digits.
    fn word(&mut self) -> String {
        let mut word = format!("{}{}", self.pick(&["", "", "-", "+"]), self.digits(9));
        if self.below(3) > 0 {
            word = format!("{word}.{}", self.digits(18));
        }
        if self.below(2) == 0 {
            let exponent = self.pick(&[
                "0",
                "1",
                "-1",
                "2",
                "-2",
                "3",
                "-3",
                "17",
                "-18",
                "27",
                "-26",
                "999999999",
                "-999999999",
                "999999980",
                "-999999981",
            ]);
            word = format!("{word}e{exponent}");
        }
        match self.below(3) {
            0 => format!("{word}({})", self.digits(9)),
            _ => word,
        }
    }
}

/// What the decimals themselves say of two numbers.
fn case_of(old: &Decimal, new: &Decimal) -> Option<Case> {
    match (old.compare(new), old.compare_uncertainties(new)) {
        (Ordering::Greater, _) => Some(Case::OldLarger),
        (Ordering::Less, _) => Some(Case::NewLarger),
        (Ordering::Equal, Ordering::Less | Ordering::Greater) => Some(Case::Uncertainty),
        (Ordering::Equal, Ordering::Equal) => (old != new).then_some(Case::Rewritten),
    }
}

/// The order of decimals is the library's, on random pairs.
#[test]
fn decimals_have_the_librarys_order() {
    let mut dice = Dice(2_463_534_242);
    let mut seen = [0; 8];
    for _ in 0..200 {
        let pairs: Vec<[String; 2]> = (0..100).map(|_| [dice.word(), dice.word()]).collect();
        let [old, new] = [0, 1].map(|side| {
            let words: Vec<&str> = pairs.iter().map(|pair| pair[side].as_str()).collect();
            document(format!("data_x loop_ _a {}", words.join(" ")).as_bytes())
        });
        let decimals = |document: &Document| {
            document
                .records()
                .filter_map(|record| record.decimal)
                .collect::<Vec<Decimal>>()
        };
        let expected = decimals(&old).into_iter().zip(decimals(&new)).enumerate();
        let expected: Vec<(u64, Case)> = expected
            .filter_map(|(row, (old, new))| Some((row as u64, case_of(&old, &new)?)))
            .collect();
        let entries = old.compare(&new).expect("they can be compared");
        let listed: Vec<(u64, Case)> = entries
            .map(|entry| {
                (
                    entry.old.and_then(|value| value.row).expect("a row"),
                    entry.case,
                )
            })
            .collect();
        assert_eq!(listed, expected);
        for (_, case) in listed {
            seen[case.number() as usize] += 1;
        }
    }
    assert!(seen[4..].iter().all(|count| *count > 50), "{seen:?}");
}
