//! The seven calls of libscl, as they are in C (`scl.h` has what a caller owes). The crate `scl` makes them safe.
//!
//! Where libscl is: `SCL_LIB_DIR`, or `pkg-config`. `libscl.a` is linked if it is there, unless `SCL_DYNAMIC` is set.
#![no_std]

/// The protocol of these declarations.
pub const PROTOCOL: u32 = 1;

/// Answered; `wanted` is the length of the text.
pub const OK: i32 = 0;
/// The room is too short; `wanted` is the length of the text.
pub const SHORT: i32 = 1;
/// A line is bad; `wanted` is its number, from 1.
pub const BAD: i32 = 2;
/// Memory was refused.
pub const NO_MEMORY: i32 = 3;
/// A line `setting` is not known; `wanted` is its number.
pub const NEWER: i32 = 5;
/// A line of the catalogue is wrong; `wanted` is its number.
pub const BAD_CATALOGUE: i32 = 6;

/// A catalogue that was read.
#[repr(C)]
pub struct Catalogue {
    _private: [u8; 0],
}

extern "C" {
    /// The protocol of the library.
    pub fn scl_version() -> u32;

    /// Answers a request's text by an answer's text.
    ///
    /// # Safety
    /// Each pointer points at as many bytes as its length says, and is not null; the room overlaps nothing else that is passed.
    pub fn scl_run(
        request: *const u8,
        request_len: usize,
        room: *mut u8,
        room_len: usize,
        wanted: *mut usize,
    ) -> i32;

    /// Answers a request's text by a description's text.
    ///
    /// # Safety
    /// As of [`scl_run`].
    pub fn scl_describe(
        request: *const u8,
        request_len: usize,
        room: *mut u8,
        room_len: usize,
        wanted: *mut usize,
    ) -> i32;

    /// The same by a catalogue whose text is passed, over the built-in one.
    ///
    /// # Safety
    /// As of [`scl_run`].
    pub fn scl_describe_with(
        catalogue: *const u8,
        catalogue_len: usize,
        request: *const u8,
        request_len: usize,
        room: *mut u8,
        room_len: usize,
        wanted: *mut usize,
    ) -> i32;

    /// Reads the catalogue that is built in, and that of a text over it. Where the status is `OK`, `handle` is made.
    ///
    /// # Safety
    /// As of [`scl_run`].
    pub fn scl_catalogue_new(
        text: *const u8,
        text_len: usize,
        handle: *mut *mut Catalogue,
        wanted: *mut usize,
    ) -> i32;

    /// `scl_describe` by the catalogue of a handle, which any number of threads may ask at once.
    ///
    /// # Safety
    /// As of [`scl_run`]; the handle is one that was made and is not freed.
    pub fn scl_catalogue_describe(
        handle: *const Catalogue,
        request: *const u8,
        request_len: usize,
        room: *mut u8,
        room_len: usize,
        wanted: *mut usize,
    ) -> i32;

    /// Frees the catalogue of a handle.
    ///
    /// # Safety
    /// The handle is one that was made and is not freed, and no call asks it.
    pub fn scl_catalogue_drop(handle: *mut Catalogue);
}

#[cfg(test)]
mod tests {
    #[test]
    fn the_library_has_this_protocol() {
        assert_eq!(unsafe { super::scl_version() }, super::PROTOCOL);
    }
}
