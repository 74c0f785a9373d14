//! The proved library's C functions over slices. Each takes the number of a reading first.
//!
//! What the header asks of a caller holds for every slice: its pointer is never null, has its length
//! of bytes behind it and lives through the call, and what is written overlaps nothing else.

/// The header's `chuntarek_answer`.
#[repr(C)]
#[derive(Debug, Clone, Copy, Default, PartialEq, Eq)]
pub struct Called {
    pub number: u64,
    pub offset: u64,
    pub line: u64,
    pub column: u64,
    pub detail: u64,
    pub first_length: u64,
    pub second_length: u64,
}

/// The header's `chuntarek_part`.
#[repr(C)]
#[derive(Debug, Clone, Copy, Default, PartialEq, Eq)]
pub struct Part {
    pub start: u64,
    pub length: u64,
}

/// The header's `chuntarek_record`.
#[repr(C)]
#[derive(Debug, Clone, Copy, Default, PartialEq, Eq)]
pub struct Walked {
    pub number: u64,
    pub kind: u64,
    pub offset: u64,
    pub length: u64,
    pub line: u64,
    pub column: u64,
    pub start: u64,
    pub content: u64,
    pub tags: u64,
    pub sign: u64,
    pub integer: u64,
    pub fraction: u64,
    pub digits: u64,
    pub exponent_sign: u64,
    pub exponent: u64,
    pub uncertainty: u64,
    pub next: u64,
}

/// A slice as the functions take it: a pointer and a length.
type Bytes = *const u8;
type Room = *mut u8;

extern "C" {
    fn chuntarek_read(_: u64, _: Bytes, _: usize, _: Room, _: usize, _: Room, _: usize) -> Called;
    fn chuntarek_outline(_: u64, _: Bytes, _: usize, _: Room, _: usize) -> Called;
    fn chuntarek_render(
        _: u64,
        _: Bytes,
        _: usize,
        _: Bytes,
        _: usize,
        _: Room,
        _: usize,
    ) -> Called;
    fn chuntarek_names(_: u64, _: Bytes, _: usize, _: Bytes, _: usize) -> Called;
    fn chuntarek_content(_: u64, _: Bytes, _: usize, _: Bytes, _: usize, _: u64) -> Called;
    fn chuntarek_content_part(_: u64, _: Bytes, _: usize, _: Bytes, _: usize, _: u64) -> Part;
    fn chuntarek_record_at(_: u64, _: Bytes, _: usize, _: Bytes, _: usize, _: u64) -> Walked;
    fn chuntarek_compare(
        _: u64,
        _: Bytes,
        _: usize,
        _: Bytes,
        _: usize,
        _: Bytes,
        _: usize,
        _: Bytes,
        _: usize,
        _: Room,
        _: usize,
    ) -> Called;
}

/// Compares two stores; the reading is the old one's.
pub fn compare(old: Kept, new: Kept, list: &mut [u8]) -> Called {
    let ((old_store, old_store_len), (old_area, old_area_len)) = (old.store(), old.area());
    let ((new_store, new_store_len), (new_area, new_area_len)) = (new.store(), new.area());
    let (list, list_len) = (list.as_mut_ptr(), list.len());
    // SAFETY: what the header asks holds for every slice, as said above. So below.
    unsafe {
        chuntarek_compare(
            old.reading,
            old_store,
            old_store_len,
            old_area,
            old_area_len,
            new_store,
            new_store_len,
            new_area,
            new_area_len,
            list,
            list_len,
        )
    }
}

pub fn read(reading: u64, text: &[u8], store: &mut [u8], area: &mut [u8]) -> Called {
    let (text, text_len) = (text.as_ptr(), text.len());
    let (store, store_len) = (store.as_mut_ptr(), store.len());
    let (area, area_len) = (area.as_mut_ptr(), area.len());
    unsafe { chuntarek_read(reading, text, text_len, store, store_len, area, area_len) }
}

pub fn outline(reading: u64, text: &[u8], store: &mut [u8]) -> Called {
    let (text, text_len) = (text.as_ptr(), text.len());
    let (store, store_len) = (store.as_mut_ptr(), store.len());
    unsafe { chuntarek_outline(reading, text, text_len, store, store_len) }
}

/// A store and its area, as the services after reading take them, with the number of a reading.
#[derive(Clone, Copy)]
pub struct Kept<'a> {
    pub reading: u64,
    pub store: &'a [u8],
    pub area: &'a [u8],
}

impl Kept<'_> {
    fn store(&self) -> (Bytes, usize) {
        (self.store.as_ptr(), self.store.len())
    }

    fn area(&self) -> (Bytes, usize) {
        (self.area.as_ptr(), self.area.len())
    }

    pub fn render(&self, out: &mut [u8]) -> Called {
        let ((store, store_len), (area, area_len)) = (self.store(), self.area());
        let (out, out_len) = (out.as_mut_ptr(), out.len());
        unsafe { chuntarek_render(self.reading, store, store_len, area, area_len, out, out_len) }
    }

    pub fn names(&self) -> Called {
        let ((store, store_len), (area, area_len)) = (self.store(), self.area());
        unsafe { chuntarek_names(self.reading, store, store_len, area, area_len) }
    }

    pub fn content(&self, record: u64) -> Called {
        let ((store, store_len), (area, area_len)) = (self.store(), self.area());
        unsafe { chuntarek_content(self.reading, store, store_len, area, area_len, record) }
    }

    pub fn content_part(&self, record: u64) -> Part {
        let ((store, store_len), (area, area_len)) = (self.store(), self.area());
        unsafe { chuntarek_content_part(self.reading, store, store_len, area, area_len, record) }
    }

    pub fn record_at(&self, at: u64) -> Walked {
        let ((store, store_len), (area, area_len)) = (self.store(), self.area());
        unsafe { chuntarek_record_at(self.reading, store, store_len, area, area_len, at) }
    }
}
