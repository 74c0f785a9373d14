//! gemmi, where it is installed.

/// Why it is not in this build, where it is not.
pub const MISSING: Option<&str> = option_env!("BENCH_WITHOUT_GEMMI");

#[cfg(gemmi)]
mod c {
    use std::ffi::c_void;

    extern "C" {
        pub fn shim_read(text: *const u8, length: usize) -> *mut c_void;
        pub fn shim_free(document: *mut c_void);
        pub fn shim_check(text: *const u8, length: usize) -> i32;
    }
}

/// A document of gemmi's.
#[cfg(gemmi)]
pub struct Document(*mut std::ffi::c_void);

#[cfg(gemmi)]
impl Drop for Document {
    fn drop(&mut self) {
        // SAFETY: the pointer came from `shim_read` and is given back once.
        unsafe { c::shim_free(self.0) }
    }
}

/// The document, or nothing where gemmi refuses the text.
#[cfg(gemmi)]
pub fn read(text: &[u8]) -> Option<Document> {
    // SAFETY: the slice lives through the call, and the document keeps no part of it.
    let document = unsafe { c::shim_read(text.as_ptr(), text.len()) };
    (!document.is_null()).then_some(Document(document))
}

/// Whether gemmi's check accepts the text.
#[cfg(gemmi)]
pub fn check(text: &[u8]) -> bool {
    // SAFETY: the slice lives through the call.
    unsafe { c::shim_check(text.as_ptr(), text.len()) == 1 }
}

#[cfg(not(gemmi))]
pub fn read(_: &[u8]) -> Option<()> {
    None
}

#[cfg(not(gemmi))]
pub fn check(_: &[u8]) -> bool {
    false
}
