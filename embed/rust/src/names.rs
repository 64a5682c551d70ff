//! The names that a module gives.

use crate::error::Error;
use crate::records::NameMapsRecord;
use crate::rows::NameEntry as EntryRow;

unsafe extern "C" {
    fn bobbinazure_names(bytes: *const u8, len: usize, list: *mut NameMapsRecord) -> u32;
}

impl Drop for NameMapsRecord {
    fn drop(&mut self) {
        // SAFETY: the list is this record's alone.
        unsafe { self.entries.free() };
    }
}

/// A name, and what it names.
///
/// ```
/// let names = bobbinazure::names(b"\0asm\x01\0\0\0\x00\x0D\x04name\x02\x06\x01\x03\x01\x00\x01x")?;
/// let [entry] = names.entries()[..] else { panic!("it has one") };
/// assert_eq!((entry.index, entry.inner, entry.name), (3, Some(0), "x")); // local 0 of function 3
/// # Ok::<(), bobbinazure::Error>(())
/// ```
#[derive(Clone, Copy, Debug, PartialEq, Eq, Hash)]
pub struct NameEntry<'a> {
    /// What is named, as [`numbers::NAME_GLOBAL`](crate::numbers::NAME_GLOBAL).
    pub subsection: u32,
    /// Its index; 0 of the module. Of a local or a label that of its function, of a field that of
    /// its type.
    pub index: u32,
    /// The index of a local, a label or a field.
    pub inner: Option<u32>,
    /// The name.
    pub name: &'a str,
}

/// The names that a module gives, in the order of its bytes. Of several for one index, the last one
/// counts.
///
/// ```
/// let names = bobbinazure::names(b"\0asm\x01\0\0\0\x00\x0A\x04name\x00\x03\x02ab")?;
/// assert_eq!(names.entries()[0].name, "ab"); // the module
/// # Ok::<(), bobbinazure::Error>(())
/// ```
#[derive(Clone, Debug, Default, PartialEq, Eq)]
pub struct Names<'a> {
    entries: Vec<NameEntry<'a>>,
}

impl<'a> Names<'a> {
    /// All names.
    ///
    /// ```
    /// let names = bobbinazure::names(b"\0asm\x01\0\0\0")?;
    /// assert!(names.entries().is_empty());
    /// # Ok::<(), bobbinazure::Error>(())
    /// ```
    pub fn entries(&self) -> &[NameEntry<'a>] {
        &self.entries
    }

    /// The names of one subsection, as of globals.
    ///
    /// ```
    /// use bobbinazure::numbers::{NAME_GLOBAL, NAME_TABLE};
    /// let names = bobbinazure::names(b"\0asm\x01\0\0\0\x00\x0E\x04name\x07\x07\x02\x00\x01a\x01\x01b")?;
    /// let globals: Vec<_> = names.of(NAME_GLOBAL).map(|entry| (entry.index, entry.name)).collect();
    /// assert_eq!(globals, [(0, "a"), (1, "b")]);
    /// assert_eq!(names.of(NAME_TABLE).count(), 0);
    /// # Ok::<(), bobbinazure::Error>(())
    /// ```
    pub fn of(&self, subsection: u32) -> impl Iterator<Item = &NameEntry<'a>> {
        self.entries.iter().filter(move |entry| entry.subsection == subsection)
    }
}

/// The entries of all name maps and indirect name maps of the bytes' name sections, also where the
/// bytes are no module: the sections are those of [`sections`](crate::sections()). Of a name section
/// with a fault these are the names before it.
///
/// # Errors
/// No memory.
///
/// ```
/// let module = b"\0asm\x01\0\0\0\x00\x0E\x04name\x07\x07\x02\x00\x01a\x01\x05b"; // the second name has a wrong length
/// let names = bobbinazure::names(module)?;
/// assert_eq!(names.entries().len(), 1);
/// assert_eq!(names.entries()[0].name, "a");
/// # Ok::<(), bobbinazure::Error>(())
/// ```
pub fn names(bytes: &[u8]) -> Result<Names<'_>, Error> {
    let mut record = NameMapsRecord::default();
    // SAFETY: the pointers are those of borrowed values, and the record is one.
    match unsafe { bobbinazure_names(bytes.as_ptr(), bytes.len(), &mut record) } {
        // SAFETY: each name is in the bytes, which are borrowed for as long as the result.
        0 => Ok(Names { entries: record.entries.as_slice().iter().map(|row| unsafe { entry(row) }).collect() }),
        _ => Err(Error::OutOfMemory),
    }
}

/// # Safety
/// The name of the row is valid for `'a`.
unsafe fn entry<'a>(row: &EntryRow) -> NameEntry<'a> {
    // SAFETY: as the caller promises.
    let name: &'a [u8] = unsafe { &*std::ptr::from_ref(row.name.as_slice()) };
    NameEntry {
        subsection: row.subsection,
        index: row.index,
        inner: (row.has_inner != 0).then_some(row.inner),
        name: std::str::from_utf8(name).unwrap_or(""),
    }
}
