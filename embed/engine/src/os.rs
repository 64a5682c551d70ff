//! The calls of the system: addresses that are reserved, opened and mapped, and files in memory.

use crate::error::Error;
use std::ffi::{c_char, c_int, c_uint, c_void};
use std::fs::File;
use std::io;
use std::os::fd::{AsRawFd, FromRawFd};
use std::os::unix::fs::FileExt;
use std::ptr::{self, NonNull};

unsafe extern "C" {
    fn mmap(
        at: *mut c_void,
        len: usize,
        access: c_int,
        flags: c_int,
        file: c_int,
        offset: i64,
    ) -> *mut c_void;
    fn munmap(at: *mut c_void, len: usize) -> c_int;
    fn mprotect(at: *mut c_void, len: usize, access: c_int) -> c_int;
    fn memfd_create(name: *const c_char, flags: c_uint) -> c_int;
    fn fcntl(file: c_int, command: c_int, ...) -> c_int;
    fn getpagesize() -> c_int;
}

const NO_ACCESS: c_int = 0;
const READ_WRITE: c_int = 1 | 2;
const PRIVATE: c_int = 0x2;
const FIXED: c_int = 0x10;
const ANONYMOUS: c_int = 0x20;
const NO_RESERVE: c_int = 0x4000;
const CLOSE_ON_EXEC: c_uint = 1;
const ALLOW_SEALING: c_uint = 2;
const ADD_SEALS: c_int = 1033;
const SEALS: c_int = 1 | 2 | 4 | 8; // no further seals, no shrinking, no growing, no writing

/// The bytes of a page of the system.
pub(crate) fn page_size() -> usize {
    // SAFETY: it takes nothing and always answers.
    let size = unsafe { getpagesize() };
    usize::try_from(size).unwrap_or(4096)
}

fn failed(call: &'static str) -> Error {
    Error::System(call, io::Error::last_os_error())
}

/// A file in memory that nobody can change any more.
#[derive(Debug)]
pub(crate) struct ImageFile(File);

impl ImageFile {
    /// A file with these bytes, each at its offset.
    pub(crate) fn new<'b>(parts: impl Iterator<Item = (u64, &'b [u8])>) -> Result<Self, Error> {
        // SAFETY: the name ends with a zero, and the call keeps no pointer.
        let file = unsafe { memfd_create(c"memory images".as_ptr(), CLOSE_ON_EXEC | ALLOW_SEALING) };
        if file < 0 {
            return Err(failed("memfd_create"));
        }
        // SAFETY: the descriptor is new and nobody else's.
        let file = unsafe { File::from_raw_fd(file) };
        for (offset, bytes) in parts {
            file.write_all_at(bytes, offset).map_err(|error| Error::System("write", error))?;
        }
        // SAFETY: the descriptor is open, and the command takes a number.
        if unsafe { fcntl(file.as_raw_fd(), ADD_SEALS, SEALS) } != 0 {
            return Err(failed("fcntl"));
        }
        Ok(ImageFile(file))
    }
}

/// A range of addresses that nobody else has. At first none of it can be touched.
#[derive(Debug)]
pub(crate) struct Reservation {
    begin: NonNull<u8>,
    len: usize,
}

impl Reservation {
    /// Reserves this many bytes of addresses, not 0.
    pub(crate) fn new(len: usize) -> Result<Self, Error> {
        // SAFETY: the system chooses where, so no address in use is touched.
        let at = unsafe { mmap(ptr::null_mut(), len, NO_ACCESS, PRIVATE | ANONYMOUS | NO_RESERVE, -1, 0) };
        match NonNull::new(at.cast()) {
            Some(begin) if at.addr() != usize::MAX => Ok(Reservation { begin, len }),
            _ => Err(failed("mmap")),
        }
    }

    /// The address of a byte of the range, or of its end.
    ///
    /// # Panics
    /// Where the range has no such byte.
    pub(crate) fn at(&self, from: usize) -> *mut u8 {
        assert!(from <= self.len, "a byte of the reservation");
        // SAFETY: it is in the range, or its end.
        unsafe { self.begin.as_ptr().add(from) }
    }

    fn checked(&self, from: usize, len: usize) -> *mut c_void {
        assert!(len <= self.len && from <= self.len - len, "a part of the reservation");
        self.at(from).cast()
    }

    /// Lets whole pages be read and written; they begin as zeros.
    pub(crate) fn open(&self, from: usize, len: usize) -> Result<(), Error> {
        let at = self.checked(from, len);
        // SAFETY: the pages are this reservation's.
        if len > 0 && unsafe { mprotect(at, len, READ_WRITE) } != 0 {
            return Err(failed("mprotect"));
        }
        Ok(())
    }

    /// Has whole pages begin as those of a file from an offset on. What is written to them stays here.
    pub(crate) fn map(&self, from: usize, len: usize, file: &ImageFile, offset: u64) -> Result<(), Error> {
        let at = self.checked(from, len);
        let offset = i64::try_from(offset).map_err(|_| Error::TooLarge("an image"))?;
        // SAFETY: the pages are this reservation's, and whoever maps them holds no reference to their bytes.
        let mapped = unsafe { mmap(at, len, READ_WRITE, PRIVATE | FIXED, file.0.as_raw_fd(), offset) };
        if mapped != at { Err(failed("mmap")) } else { Ok(()) }
    }
}

impl Drop for Reservation {
    fn drop(&mut self) {
        // SAFETY: the range is this reservation's, which nothing outlives.
        unsafe { munmap(self.begin.as_ptr().cast(), self.len) };
    }
}
