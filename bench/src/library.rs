//! Two functions of the library without what the crate adds: its `content` asks twice, and its walk
//! turns each record into another.

use chuntarek::{Answer, Reading};

/// The header's `chuntarek_record`: seventeen numbers.
#[repr(C)]
struct Walked([u64; 17]);

impl Walked {
    fn number(&self) -> u64 {
        self.0[0]
    }

    fn next(&self) -> u64 {
        self.0[16]
    }
}

mod c {
    use super::{Answer, Walked};

    extern "C" {
        pub fn chuntarek_content(
            reading: u64,
            store: *const u8,
            store_len: usize,
            area: *const u8,
            area_len: usize,
            record: u64,
        ) -> Answer;
        pub fn chuntarek_record_at(
            reading: u64,
            store: *const u8,
            store_len: usize,
            area: *const u8,
            area_len: usize,
            at: u64,
        ) -> Walked;
    }
}

/// Whether store and area are sound: record 0 is the block's, which always has content.
pub fn sound(reading: Reading, store: &[u8], area: &[u8]) -> Answer {
    let record = 0;
    // SAFETY: the pointers and lengths are those of slices. So below.
    unsafe {
        c::chuntarek_content(
            reading.number(),
            store.as_ptr(),
            store.len(),
            area.as_ptr(),
            area.len(),
            record,
        )
    }
}

/// How many records a walk over the whole store meets. It is the same in every reading.
pub fn walk(store: &[u8], area: &[u8]) -> usize {
    let reading = Reading::First.number();
    let (mut at, mut met) = (0, 0);
    loop {
        let record = unsafe {
            c::chuntarek_record_at(
                reading,
                store.as_ptr(),
                store.len(),
                area.as_ptr(),
                area.len(),
                at,
            )
        };
        if record.number() != 0 {
            return met;
        }
        at = record.next();
        met += 1;
    }
}
