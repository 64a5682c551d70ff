//! A list that the library made.

use std::ffi::c_void;
use std::slice;

unsafe extern "C" {
    fn free(block: *mut c_void);
}

/// A list of the record: where it stands, and how many items it has.
#[repr(C)]
pub(crate) struct List<T> {
    at: *const T,
    len: usize,
}

impl<T> Default for List<T> {
    /// No item, at a pointer that is not null.
    fn default() -> Self {
        List { at: std::ptr::NonNull::dangling().as_ptr(), len: 0 }
    }
}

impl<T> List<T> {

    pub(crate) fn as_slice(&self) -> &[T] {
        // SAFETY: the list is empty, or as the library made it, and is not freed while it can be borrowed.
        unsafe { slice::from_raw_parts(self.at, self.len) }
    }

    /// The items of a list that this library alone refers to.
    pub(crate) fn as_mut_slice(&mut self) -> &mut [T] {
        // SAFETY: as of `as_slice`; the library has given the block away.
        unsafe { slice::from_raw_parts_mut(self.at.cast_mut(), self.len) }
    }

    /// Gives back the block of a list that the library made.
    ///
    /// # Safety
    /// Nothing borrows the list, and no other list has its block.
    pub(crate) unsafe fn free(&mut self) {
        if self.len > 0 {
            // SAFETY: the library took the block of each list that is not empty from malloc.
            unsafe { free(self.at.cast_mut().cast()) }
        }
        *self = List::default();
    }
}

impl List<u8> {
    /// Bytes that the library only reads. The list is neither freed nor kept longer than they are
    /// borrowed.
    pub(crate) fn lent(bytes: &[u8]) -> Self {
        List { at: bytes.as_ptr(), len: bytes.len() }
    }

    /// A text of the library's own, which is ASCII and never freed.
    pub(crate) fn as_text(&self) -> &'static str {
        // SAFETY: the text stands in the library itself.
        let bytes: &'static [u8] = unsafe { &*std::ptr::from_ref(self.as_slice()) };
        std::str::from_utf8(bytes).unwrap_or("")
    }
}
