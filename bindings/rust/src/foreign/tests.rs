//! Every function with the numbers of all readings and with numbers that name none, on any bytes: what is
//! refused writes nothing, what is done writes the bytes counted, and exactly enough room is room.

use super::*;
use crate::TEXT_LIMIT;

/// Numbers that name no reading. The last two have the lower half of one that does.
const NONE: [u64; 7] = [0, 3, 24, 255, u64::MAX, (1 << 32) + 1, (1 << 63) + 2];

/// Bytes that no function leaves behind by accident.
const FILL: u8 = 0xA5;
const GUARD: usize = 8;

const TEXT: &[u8] = b"data_t\n_a 1.50(2)\nloop_ _b _c\nx ?\n";

const DONE: Answer = Answer {
    number: 0,
    offset: 0,
    line: 0,
    column: 0,
    detail: 0,
    first_length: 0,
    second_length: 0,
};

/// What a call that names no reading is answered, whatever else it is lent.
const NO_READING: Answer = Answer { number: 24, ..DONE };

/// A buffer of which the first bytes are lent.
fn room(length: usize) -> Vec<u8> {
    vec![FILL; length + GUARD]
}

fn untouched(buffer: &[u8]) -> bool {
    buffer.iter().all(|byte| *byte == FILL)
}

/// Read with so much room, and the buffers afterwards.
fn read_into(reading: u64, text: &[u8], rooms: (usize, usize)) -> (Answer, Vec<u8>, Vec<u8>) {
    let (mut store, mut area) = (room(rooms.0), room(rooms.1));
    let answer = read(reading, text, &mut store[..rooms.0], &mut area[..rooms.1]);
    (answer, store, area)
}

fn outline_into(reading: u64, text: &[u8], length: usize) -> (Answer, Vec<u8>) {
    let mut store = room(length);
    let answer = outline(reading, text, &mut store[..length]);
    (answer, store)
}

/// Store and area of a text that is read.
fn stored(reading: u64, text: &[u8]) -> Option<(Vec<u8>, Vec<u8>)> {
    let needed = read(reading, text, &mut [], &mut []);
    let (store_length, area_length) = needed.needed().ok()?;
    let (mut store, mut area) = (vec![0; store_length], vec![0; area_length]);
    let answer = read(reading, text, &mut store, &mut area);
    assert_eq!(answer.result(), Ok((store_length, area_length)));
    Some((store, area))
}

#[test]
fn a_number_that_names_no_reading_is_refused_before_all_else() {
    let too_long = vec![b' '; TEXT_LIMIT + 1];
    let (store, area) = stored(1, TEXT).expect("the text is read");
    let nothing = Walked {
        number: 24,
        ..Walked::default()
    };
    for number in NONE {
        for text in [TEXT, b"", b"\xff", b"data_x _a 'b", &too_long] {
            for rooms in [(0, 0), (183, 5), (400, 400)] {
                let (answer, store, area) = read_into(number, text, rooms);
                assert_eq!(answer, NO_READING, "{number}");
                assert!(untouched(&store) && untouched(&area));
                let (answer, store) = outline_into(number, text, rooms.0);
                assert_eq!(answer, NO_READING, "{number}");
                assert!(untouched(&store));
            }
        }
        for (store, area) in [(&store[..], &area[..]), (&store[1..], b""), (b"", b"")] {
            let mut out = room(64);
            assert_eq!(render(number, store, area, &mut out), NO_READING);
            assert!(untouched(&out));
            assert_eq!(names(number, store, area), NO_READING);
            for other in [(store, area), (b"", b"")] {
                for (old, new) in [((store, area), other), (other, (store, area))] {
                    assert_eq!(compare(number, old, new, &mut out), NO_READING);
                    assert!(untouched(&out));
                }
            }
            for record in [0, 1, 9, u64::MAX] {
                assert_eq!(content(number, store, area, record), NO_READING);
                assert_eq!(content_part(number, store, area, record), Part::default());
                assert_eq!(record_at(number, store, area, record), nothing);
            }
        }
    }
}

/// Holds Read and Outline of a text to each other and to their promises on room.
fn holds_rooms(reading: u64, text: &[u8]) {
    let needed = read(reading, text, &mut [], &mut []);
    if needed.number != 10 {
        let (answer, store, area) = read_into(reading, text, (64, 64));
        assert_eq!(answer, needed, "{text:?}");
        assert!(untouched(&store) && untouched(&area), "{text:?}");
        let (answer, store) = outline_into(reading, text, 64);
        assert_eq!(answer, needed, "{text:?}");
        assert!(untouched(&store), "{text:?}");
        return;
    }
    let (first, second) = needed.needed().expect("a 10 tells both lengths");
    let (answer, store, area) = read_into(reading, text, (first, second));
    let done = Answer {
        number: 0,
        ..needed
    };
    assert_eq!(answer, done, "{text:?}");
    assert!(untouched(&store[first..]) && untouched(&area[second..]));
    let (answer, store, area) = read_into(reading, text, (first - 1, second));
    assert_eq!(answer, needed, "{text:?}");
    assert!(untouched(&store) && untouched(&area));
    if let Some(short) = second.checked_sub(1) {
        let (answer, store, area) = read_into(reading, text, (first, short));
        let no_area = Answer {
            number: 11,
            ..needed
        };
        assert_eq!(answer, no_area, "{text:?}");
        assert!(untouched(&store) && untouched(&area));
    }
    let needed = outline(reading, text, &mut []);
    let (length, _) = needed.needed().expect("what is read has an outline");
    let (answer, store) = outline_into(reading, text, length);
    let done = Answer {
        number: 0,
        ..needed
    };
    assert_eq!(answer, done, "{text:?}");
    assert!(untouched(&store[length..]));
    let (answer, store) = outline_into(reading, text, length - 1);
    assert_eq!((answer, needed.number), (needed, 10), "{text:?}");
    assert!(untouched(&store));
}

/// Holds the services over stores, of any bytes, to each other and to their promises on room.
fn holds_stores(reading: u64, store: &[u8], area: &[u8]) {
    let named = names(reading, store, area).number;
    let needed = render(reading, store, area, &mut []);
    let asked = content(reading, store, area, u64::MAX).number;
    let refused = [12, 24].contains(&named);
    assert_eq!([named, needed.number] == [asked; 2], refused, "{store:?}");
    assert_eq!(asked, if refused { named } else { 14 }, "{store:?}");
    let mut out = room(64);
    if needed.number != 11 {
        assert_eq!(render(reading, store, area, &mut out), needed, "{store:?}");
        assert!(untouched(&out), "{store:?}");
    }
    if let Ok((length, 0)) = needed.needed() {
        let mut out = room(length);
        assert_eq!(
            render(reading, store, area, &mut out[..length - 1]),
            needed,
            "{store:?}"
        );
        assert!(untouched(&out), "{store:?}");
        let done = Answer {
            number: 0,
            ..needed
        };
        assert_eq!(render(reading, store, area, &mut out[..length]), done);
        assert!(untouched(&out[length..]), "{store:?}");
    }
    holds_itself(reading, store, area, named);
    for record in 0..3 {
        let found = content(reading, store, area, record).number == 0;
        let part = content_part(reading, store, area, record);
        assert!(found || part == Part::default(), "{store:?}");
        assert!(part.start + part.length <= area.len() as u64, "{store:?}");
        let walked = record_at(reading, store, area, record);
        assert!(walked.next <= store.len() as u64, "{store:?}");
        assert!(walked.start + walked.content <= area.len() as u64);
    }
}

/// A store does not differ from itself. To be compared, it is sound, has one block, and no tag and no frame
/// twice; what the name check says of it is known.
fn holds_itself(reading: u64, store: &[u8], area: &[u8], named: u64) {
    let mut list = room(64);
    let compared = compare(reading, (store, area), (store, area), &mut list);
    assert!(untouched(&list), "{store:?}");
    let possible: &[u64] = match named {
        0 => &[0, 12, 13],
        13 => &[12, 13],
        _ => &[named],
    };
    assert!(possible.contains(&compared.number), "{store:?}");
    let lengths = (compared.first_length, compared.second_length);
    assert_eq!(lengths, (0, 0), "{store:?}");
}

/// Every byte string of up to two bytes: as a text, behind a tag, as a store and as an area.
#[test]
fn every_short_text_and_store_gets_an_answer() {
    let pairs = (0..=u16::MAX).map(|pair| pair.to_be_bytes().to_vec());
    let singles = (0..=u8::MAX).map(|byte| vec![byte]);
    for bytes in pairs.chain(singles).chain([Vec::new()]) {
        for reading in 0..=3 {
            holds_rooms(reading, &bytes);
            holds_rooms(reading, &[b"data_x _a ", &bytes[..]].concat());
            holds_stores(reading, &bytes, b"");
            holds_stores(reading, b"", &bytes);
        }
    }
}

/// The same numbers in each run.
struct Dice(u64);

impl Dice {
    fn below(&mut self, most: usize) -> usize {
        self.0 ^= self.0 << 13;
        self.0 ^= self.0 >> 7;
        self.0 ^= self.0 << 17;
        (self.0 % most as u64) as usize
    }
}

/// What texts are made of, at random.
const PIECES: [&[u8]; 30] = [
    b" ", b" ", b"\n", b"\n", b"\r", b"\t", b"data_x ", b"data_", b"save_f ", b"save_ ", b"loop_ ",
    b"_a ", b"_b ", b"_", b"1.5(2) ", b"1e+", b".", b"?", b"'", b"\"", b"';", b"\n;", b"\n;\n",
    b"stop_", b"#", b"x", b"[", b"\x0c", b"\x01", b"\xc3",
];

#[test]
fn random_texts_and_damaged_stores_get_an_answer() {
    let mut dice = Dice(88_172_645_463_325_252);
    let mut read_by = [0; 4];
    for _ in 0..4000 {
        let mut text = b"data_x _a 1 ".to_vec();
        for _ in 0..dice.below(14) {
            text.extend(PIECES[dice.below(PIECES.len())]);
        }
        for reading in 0..=3 {
            holds_rooms(reading, &text);
            let Some((mut store, area)) = stored(reading, &text) else {
                continue;
            };
            read_by[reading as usize] += 1;
            for other in 0..=3 {
                holds_stores(other, &store, &area);
            }
            let at = dice.below(store.len());
            store[at] = dice.below(256) as u8;
            for other in 0..=3 {
                holds_stores(other, &store, &area);
            }
        }
    }
    let [none, first, strict, third] = read_by;
    assert_eq!([none, third], [0, 0]);
    assert!(first > 400 && strict > 200, "{first} and {strict}");
}
