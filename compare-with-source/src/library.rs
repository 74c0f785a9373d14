//! The proved library's answer to a text in a reading, through its C functions. The store and the area
//! that come back are held, byte for byte, to what the model writes, lent to every other service of the
//! library, and cut into records again. Numbers that name no reading are tried on each text too.

use crate::answer::{Answer, Refusal};
use crate::calls::{self, Called};
use crate::over_stores::Stored;
use crate::reading::Reading;
use crate::{model, stores};

/// Numbers that name no reading; the last has the lower half of one that does.
pub const NO_READINGS: [u64; 4] = [0, 3, u64::MAX, (1 << 32) + 1];

/// Outline has no area; the one given is left alone.
fn outline(reading: u64, text: &[u8], store: &mut [u8], _area: &mut [u8]) -> Called {
    calls::outline(reading, text, store)
}

/// The library's answer in a reading, or what is wrong with it whatever the source says.
pub fn read(reading: Reading, text: &[u8]) -> Result<Answer, String> {
    let service = |name, call| Service {
        name,
        call,
        reading: reading.number(),
        text,
    };
    let (read, outline) = (service("read", calls::read), service("outline", outline));
    read.needs_a_reading()?;
    outline.needs_a_reading()?;
    match model::read(reading, text) {
        Err(refusal) => {
            outline.refuses(&refusal)?;
            read.refuses(&refusal)?;
            Ok(Err(refusal))
        }
        Ok(records) => {
            outline.writes(&stores::encode_outline(&records), &[])?;
            let (store, area) = stores::encode(&records);
            let written = read.writes(&store, &area)?;
            let stored = Stored {
                reading,
                store: written.store(),
                area: written.area(),
            };
            stored.hold(&records)?;
            let decoded = stores::decode(written.store(), written.area());
            Ok(Ok(decoded.ok_or("library, read: no whole records")?))
        }
    }
}

type Call = fn(u64, &[u8], &mut [u8], &mut [u8]) -> Called;

/// One service of the library, asked about one text in one reading.
struct Service<'a> {
    name: &'static str,
    call: Call,
    reading: u64,
    text: &'a [u8],
}

impl Service<'_> {
    fn lend(&self, store: usize, area: usize) -> Lent {
        self.lend_as(self.reading, store, area)
    }

    fn lend_as(&self, reading: u64, store_room: usize, area_room: usize) -> Lent {
        let mut store = vec![FILL; store_room + GUARD];
        let mut area = vec![FILL; area_room + GUARD];
        let rooms = (&mut store[..store_room], &mut area[..area_room]);
        let called = (self.call)(reading, self.text, rooms.0, rooms.1);
        Lent {
            store,
            area,
            called,
        }
    }

    /// A number that names no reading is refused by 24, with room and without, and nothing is written.
    fn needs_a_reading(&self) -> Result<(), String> {
        for reading in NO_READINGS {
            for room in [0, 64] {
                let lent = self.lend_as(reading, room, room);
                let refused = lent.called == lengths_call(24, 0, 0) && lent.holds(&[], &[]);
                self.must(
                    refused,
                    "a number that names no reading is not refused by 24",
                )?;
            }
        }
        Ok(())
    }

    /// No fault if this holds.
    fn must(&self, holds: bool, what: &str) -> Result<(), String> {
        if holds {
            Ok(())
        } else {
            Err(format!("library, {}: {what}", self.name))
        }
    }

    /// The refusal is given, and nothing is written, without room and with some.
    fn refuses(&self, refusal: &Refusal) -> Result<(), String> {
        for room in [0, 64] {
            let lent = self.lend(room, room);
            let same = lent.called == refusal_call(refusal);
            self.must(same, "the refusal differs from the model's")?;
            self.must(lent.holds(&[], &[]), "a refusal wrote something")?;
        }
        Ok(())
    }

    /// These bytes and no others are written, wherever there is room and nowhere else.
    fn writes(&self, store: &[u8], area: &[u8]) -> Result<Lent, String> {
        self.wants_room(store.len(), area.len())?;
        self.written(store, area, 9)?;
        self.written(store, area, 0)
    }

    fn written(&self, store: &[u8], area: &[u8], spare: usize) -> Result<Lent, String> {
        let lent = self.lend(store.len() + spare, area.len() + spare);
        let done = lent.called == lengths_call(0, store.len(), area.len());
        self.must(done, "the lengths differ from the model's")?;
        self.must(
            lent.holds(store, area),
            "the bytes written differ from the model's",
        )?;
        Ok(lent)
    }

    /// With no room, or one byte too little, the needed lengths are told and nothing is written.
    fn wants_room(&self, store: usize, area: usize) -> Result<(), String> {
        let mut rooms = vec![(10, 0, 0), (10, store - 1, area)];
        if area > 0 {
            rooms.push((11, store, area - 1));
        }
        for (number, store_room, area_room) in rooms {
            let lent = self.lend(store_room, area_room);
            let told = lent.called == lengths_call(number, store, area);
            self.must(told, "the needed lengths differ from the model's")?;
            self.must(lent.holds(&[], &[]), "too little room, and it wrote")?;
        }
        Ok(())
    }
}

/// The answer that has no place.
fn lengths_call(number: u64, first: usize, second: usize) -> Called {
    Called {
        number,
        first_length: first as u64,
        second_length: second as u64,
        ..Called::default()
    }
}

/// The answer that stands for a refusal.
fn refusal_call(refusal: &Refusal) -> Called {
    Called {
        offset: refusal.place.offset as u64,
        line: refusal.place.line as u64,
        column: refusal.place.column as u64,
        detail: refusal.detail as u64,
        ..lengths_call(refusal.number.into(), 0, 0)
    }
}

/// Two buffers after a call to which a part of each was lent.
struct Lent {
    store: Vec<u8>,
    area: Vec<u8>,
    called: Called,
}

/// What the buffers are filled with before, and how much of them is not lent.
const FILL: u8 = 0xA5;
const GUARD: usize = 16;

impl Lent {
    /// The part of the store that the answer counts.
    fn store(&self) -> &[u8] {
        &self.store[..self.called.first_length as usize]
    }

    /// The part of the area that the answer counts.
    fn area(&self) -> &[u8] {
        &self.area[..self.called.second_length as usize]
    }

    /// Whether these bytes stand first and all others are as they were.
    fn holds(&self, store: &[u8], area: &[u8]) -> bool {
        begins(&self.store, store) && begins(&self.area, area)
    }
}

fn begins(buffer: &[u8], written: &[u8]) -> bool {
    let (first, rest) = buffer.split_at(written.len());
    first == written && rest.iter().all(|byte| *byte == FILL)
}

#[cfg(test)]
mod tests {
    use super::*;
    use crate::generate;
    use crate::report::escaped;

    fn is_the_models(text: &str) {
        for reading in [Reading::First, Reading::Strict] {
            let answer = model::read(reading, text.as_bytes());
            assert_eq!(read(reading, text.as_bytes()), Ok(answer), "{text:?}");
        }
    }

    #[test]
    fn the_library_answers() {
        is_the_models("data_x _a 1");
        is_the_models("");
    }

    #[test]
    fn the_library_tells_the_models_reasons() {
        for text in [
            "data_x _a",
            "data_x _a stop_x",
            "data_x _a _b 1",
            "data_x _a\x0c1",
            "data_x _a 'b",
            "data_x _a ;b",
            "data_x loop_ _a 1 'b",
            "data_x loop_ _a 'b",
            "data_x loop_ _a 1 data_y",
            "data_x loop_ _a 1 [",
            "data_x loop_ _a 1 ;b",
            "data_x loop_ _a 1 save_f save_ $",
            "data_x loop_ _a 1 _b 2 $",
        ] {
            is_the_models(text);
        }
    }

    /// What the two readings take otherwise, and what the strict one alone refuses.
    #[test]
    fn the_library_answers_in_both_readings() {
        for text in [
            "data_x _a 'O'Neill H St C'",
            "data_x _a ''' _b \"\" _c 'd'e",
            "data_x _a\n;b\n; _c ;d _e\n;f",
            "data_x _a\n;b\n;_c 1",
            "data_x loop_ _a .x ?y 1e+ 1() 1234567890e+ loop_x",
            "data_x loop__a 1",
            "data_x loop_ _a loop_ _b 1",
            "data_",
            "data_x save_ save_",
            "data_x _ 1",
            "data_x data_y _a 1 data_y _a 2",
            "data_x save_f _a save_",
            "data_x save_f save_g",
            "data_x save_f 1 save_",
            "data_x _a b\x0c",
            "data_x _a 'b\x7f'",
        ] {
            is_the_models(text);
        }
        let name = "n".repeat(75);
        is_the_models(&format!("data_{name} _{} 1 save_{name} save_", &name[1..]));
        is_the_models(&format!("data_x _{name} 1"));
        let line = "#".repeat(2048);
        is_the_models(&format!("data_x\n{line}\n"));
        is_the_models(&format!("data_x\n{line}#\n"));
        is_the_models(&format!("{line}\x01"));
    }

    #[test]
    fn the_library_answers_to_random_texts_in_both_readings() {
        for reading in [Reading::First, Reading::Strict] {
            for mix in [Reading::First, Reading::Strict] {
                for number in 0..2000 {
                    let text = generate::text(mix, 20, number);
                    let answer = model::read(reading, &text);
                    assert_eq!(read(reading, &text), Ok(answer), "{}", escaped(&text));
                }
            }
        }
    }
}
