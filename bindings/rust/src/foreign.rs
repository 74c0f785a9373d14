//! The library's C functions over slices: the only module with unsafe code.
//!
//! What the header asks of a caller holds for every slice: its pointer is never null, also where it
//! is empty, has its length of bytes behind it, and lives through the call. A buffer that is written
//! comes as `&mut`, so it overlaps no other.
#![allow(unsafe_code)]

use crate::answer::Answer;

/// The header's `chuntarek_part`.
#[repr(C)]
#[derive(Debug, Clone, Copy, Default, PartialEq, Eq)]
pub struct Part {
    pub start: u64,
    pub length: u64,
}

/// The header's `chuntarek_record`.
#[repr(C)]
#[derive(Debug, Clone, Copy, Default, PartialEq, Eq)]
pub struct Walked {
    pub number: u64,
    pub kind: u64,
    pub offset: u64,
    pub length: u64,
    pub line: u64,
    pub column: u64,
    pub start: u64,
    pub content: u64,
    pub tags: u64,
    pub sign: u64,
    pub integer: u64,
    pub fraction: u64,
    pub digits: u64,
    pub exponent_sign: u64,
    pub exponent: u64,
    pub uncertainty: u64,
    pub next: u64,
}

mod c {
    use super::{Answer, Part, Walked};

    extern "C" {
        pub fn chuntarek_read(
            reading: u64,
            text: *const u8,
            text_len: usize,
            store: *mut u8,
            store_len: usize,
            area: *mut u8,
            area_len: usize,
        ) -> Answer;
        pub fn chuntarek_outline(
            reading: u64,
            text: *const u8,
            text_len: usize,
            store: *mut u8,
            store_len: usize,
        ) -> Answer;
        pub fn chuntarek_render(
            reading: u64,
            store: *const u8,
            store_len: usize,
            area: *const u8,
            area_len: usize,
            out: *mut u8,
            out_len: usize,
        ) -> Answer;
        pub fn chuntarek_names(
            reading: u64,
            store: *const u8,
            store_len: usize,
            area: *const u8,
            area_len: usize,
        ) -> Answer;
        pub fn chuntarek_compare(
            reading: u64,
            old_store: *const u8,
            old_store_len: usize,
            old_area: *const u8,
            old_area_len: usize,
            new_store: *const u8,
            new_store_len: usize,
            new_area: *const u8,
            new_area_len: usize,
            list: *mut u8,
            list_len: usize,
        ) -> Answer;
        pub fn chuntarek_content(
            reading: u64,
            store: *const u8,
            store_len: usize,
            area: *const u8,
            area_len: usize,
            record: u64,
        ) -> Answer;
        pub fn chuntarek_content_part(
            reading: u64,
            store: *const u8,
            store_len: usize,
            area: *const u8,
            area_len: usize,
            record: u64,
        ) -> Part;
        pub fn chuntarek_record_at(
            reading: u64,
            store: *const u8,
            store_len: usize,
            area: *const u8,
            area_len: usize,
            at: u64,
        ) -> Walked;
    }
}

pub fn read(reading: u64, text: &[u8], store: &mut [u8], area: &mut [u8]) -> Answer {
    // SAFETY: what the header asks holds for every slice, as said above. So below.
    unsafe {
        c::chuntarek_read(
            reading,
            text.as_ptr(),
            text.len(),
            store.as_mut_ptr(),
            store.len(),
            area.as_mut_ptr(),
            area.len(),
        )
    }
}

pub fn outline(reading: u64, text: &[u8], store: &mut [u8]) -> Answer {
    unsafe {
        c::chuntarek_outline(
            reading,
            text.as_ptr(),
            text.len(),
            store.as_mut_ptr(),
            store.len(),
        )
    }
}

pub fn render(reading: u64, store: &[u8], area: &[u8], out: &mut [u8]) -> Answer {
    unsafe {
        c::chuntarek_render(
            reading,
            store.as_ptr(),
            store.len(),
            area.as_ptr(),
            area.len(),
            out.as_mut_ptr(),
            out.len(),
        )
    }
}

pub fn names(reading: u64, store: &[u8], area: &[u8]) -> Answer {
    unsafe {
        c::chuntarek_names(
            reading,
            store.as_ptr(),
            store.len(),
            area.as_ptr(),
            area.len(),
        )
    }
}

/// A store and its area.
pub type Stored<'a> = (&'a [u8], &'a [u8]);

pub fn compare(reading: u64, old: Stored, new: Stored, list: &mut [u8]) -> Answer {
    unsafe {
        c::chuntarek_compare(
            reading,
            old.0.as_ptr(),
            old.0.len(),
            old.1.as_ptr(),
            old.1.len(),
            new.0.as_ptr(),
            new.0.len(),
            new.1.as_ptr(),
            new.1.len(),
            list.as_mut_ptr(),
            list.len(),
        )
    }
}

pub fn content(reading: u64, store: &[u8], area: &[u8], record: u64) -> Answer {
    unsafe {
        c::chuntarek_content(
            reading,
            store.as_ptr(),
            store.len(),
            area.as_ptr(),
            area.len(),
            record,
        )
    }
}

pub fn content_part(reading: u64, store: &[u8], area: &[u8], record: u64) -> Part {
    unsafe {
        c::chuntarek_content_part(
            reading,
            store.as_ptr(),
            store.len(),
            area.as_ptr(),
            area.len(),
            record,
        )
    }
}

pub fn record_at(reading: u64, store: &[u8], area: &[u8], at: u64) -> Walked {
    unsafe {
        c::chuntarek_record_at(
            reading,
            store.as_ptr(),
            store.len(),
            area.as_ptr(),
            area.len(),
            at,
        )
    }
}

#[cfg(test)]
mod tests;
