//! The sections of a module.

use crate::error::Error;
use crate::records::SectionsRecord;
use crate::rows::Section as SectionRow;

unsafe extern "C" {
    fn bobbinazure_sections(bytes: *const u8, len: usize, list: *mut SectionsRecord) -> u32;
}

impl Drop for SectionsRecord {
    fn drop(&mut self) {
        // SAFETY: the list is this record's alone.
        unsafe { self.sections.free() };
    }
}

/// A section of a module. Offsets count the bytes of the module, from 0 on.
///
/// ```
/// let [section] = bobbinazure::sections(b"\0asm\x01\0\0\0\x00\x03\x01ab")?[..] else { panic!("it has one") };
/// assert_eq!((section.name, section.contents, section.size), (Some("a"), 10, 3)); // the contents begin with the name
/// # Ok::<(), bobbinazure::Error>(())
/// ```
#[derive(Clone, Copy, Debug, PartialEq, Eq, Hash)]
pub struct Section<'a> {
    /// The id; no section of a module has one above 13.
    pub id: u32,
    /// The offset of the section, which begins with its id.
    pub start: u32,
    /// The offset of its contents.
    pub contents: u32,
    /// The length of its contents, in bytes.
    pub size: u32,
    /// The name of a custom section; `None` for another section, and where the contents begin with
    /// no name.
    pub name: Option<&'a str>,
}

/// The sections of the bytes in order, as far as each has an id, a size and all its contents, also
/// where the bytes are no module. Empty where the header is wrong, and where there are 2^30 bytes
/// or more.
///
/// # Errors
/// No memory.
///
/// ```
/// let module = b"\0asm\x01\0\0\0\x00\x03\x01a\x05\x05\x03\x01\x00\x01"; // a custom section "a", and a memory section
/// let sections = bobbinazure::sections(module)?;
/// assert_eq!(sections.len(), 2);
/// assert_eq!((sections[0].id, sections[0].start, sections[0].name), (0, 8, Some("a")));
/// assert_eq!((sections[1].id, sections[1].contents, sections[1].size), (5, 15, 3));
/// # Ok::<(), bobbinazure::Error>(())
/// ```
pub fn sections(bytes: &[u8]) -> Result<Vec<Section<'_>>, Error> {
    let mut record = SectionsRecord::default();
    // SAFETY: the pointers are those of borrowed values, and the record is one.
    match unsafe { bobbinazure_sections(bytes.as_ptr(), bytes.len(), &mut record) } {
        // SAFETY: each name is in the bytes, which are borrowed for as long as the result.
        0 => Ok(record.sections.as_slice().iter().map(|row| unsafe { section(row) }).collect()),
        _ => Err(Error::OutOfMemory),
    }
}

/// # Safety
/// The name of the row is valid for `'a`.
unsafe fn section<'a>(row: &SectionRow) -> Section<'a> {
    // SAFETY: as the caller promises.
    let name: &'a [u8] = unsafe { &*std::ptr::from_ref(row.name.as_slice()) };
    Section {
        id: row.id,
        start: row.start,
        contents: row.contents,
        size: row.size,
        name: if row.has_name == 0 { None } else { std::str::from_utf8(name).ok() },
    }
}
