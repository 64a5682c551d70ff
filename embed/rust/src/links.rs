//! Two modules that are linked.

use crate::error::{Error, refusal};
use crate::records::{ImportAnswer, LinkRecord};
use crate::rows::Options;
use std::fmt;

unsafe extern "C" {
    fn bobbinazure_link(
        exporter: *const u8,
        exporter_len: usize,
        importer: *const u8,
        importer_len: usize,
        as_module: *const u8,
        as_module_len: usize,
        options: *const Options,
        links: *mut LinkRecord,
    ) -> u32;
}

impl Drop for LinkRecord {
    fn drop(&mut self) {
        // SAFETY: the list is this record's alone.
        unsafe { self.answers.free() };
    }
}

/// What an import is given.
///
/// ```
/// use bobbinazure::{Answer, Options, link};
/// let exporter = b"\0asm\x01\0\0\0\x05\x03\x01\x00\x01\x07\x05\x01\x01m\x02\x00"; // (module (memory (export "m") 1))
/// let importer = b"\0asm\x01\0\0\0\x02\x08\x01\x01e\x01m\x02\x00\x02"; // (module (import "e" "m" (memory 2)))
/// let [Answer::Mismatch { line, .. }] = link(exporter, importer, "e", &Options::default())?[..] else { panic!("it is too small") };
/// assert_eq!(line, "the memory is too small");
/// # Ok::<(), bobbinazure::LinkError>(())
/// ```
#[derive(Clone, Copy, Debug, PartialEq, Eq)]
pub enum Answer {
    /// The export of this number.
    Given(u32),
    /// No export stands under its names.
    Missing,
    /// The first rule that the export breaks, from 1 to 14, and its text.
    Mismatch {
        /// From [`numbers::MISMATCH_KIND`](crate::numbers::MISMATCH_KIND) on.
        rule: u32,
        /// As `the memory is too small`.
        line: &'static str,
    },
}

/// Why two modules have no answers.
///
/// ```
/// use bobbinazure::{Options, link};
/// let error = link(b"\0asm\x01\0\0\0", b"", "e", &Options::default()).unwrap_err();
/// assert_eq!(error.to_string(), "second module: refused malformed");
/// ```
#[derive(Clone, Copy, Debug, PartialEq, Eq)]
pub enum LinkError {
    /// The first module has no plan.
    Exporter(Error),
    /// The first has one, the second has none.
    Importer(Error),
    /// The options are wrong.
    WrongOptions,
    /// Memory ended.
    OutOfMemory,
}

impl fmt::Display for LinkError {
    fn fmt(&self, f: &mut fmt::Formatter<'_>) -> fmt::Result {
        match self {
            LinkError::Exporter(error) => write!(f, "first module: {error}"),
            LinkError::Importer(error) => write!(f, "second module: {error}"),
            LinkError::WrongOptions => Error::WrongOptions.fmt(f),
            LinkError::OutOfMemory => Error::OutOfMemory.fmt(f),
        }
    }
}

impl std::error::Error for LinkError {}

fn answer(row: &ImportAnswer) -> Answer {
    match row.answer {
        0 => Answer::Given(row.detail),
        1 => Answer::Missing,
        _ => Answer::Mismatch { rule: row.detail, line: row.line.as_text() },
    }
}

/// What each import of the second module is given by the exports of the first, which stand under
/// the name of a module.
///
/// # Errors
/// Which module is refused, the first where both are; wrong options; no memory.
///
/// ```
/// use bobbinazure::{Answer, Options, link};
/// let exporter = b"\0asm\x01\0\0\0\x05\x03\x01\x00\x01\x07\x05\x01\x01m\x02\x00"; // (module (memory (export "m") 1))
/// let importer = b"\0asm\x01\0\0\0\x02\x08\x01\x01e\x01m\x02\x00\x01"; // (module (import "e" "m" (memory 1)))
/// assert_eq!(link(exporter, importer, "e", &Options::default())?, [Answer::Given(0)]);
/// assert_eq!(link(exporter, importer, "f", &Options::default())?, [Answer::Missing]);
/// # Ok::<(), bobbinazure::LinkError>(())
/// ```
pub fn link(exporter: &[u8], importer: &[u8], as_module: &str, options: &Options) -> Result<Vec<Answer>, LinkError> {
    let mut links = LinkRecord::default();
    // SAFETY: the pointers are those of borrowed values, and each list of the record is one.
    let status = unsafe {
        bobbinazure_link(
            exporter.as_ptr(),
            exporter.len(),
            importer.as_ptr(),
            importer.len(),
            as_module.as_ptr(),
            as_module.len(),
            options,
            &mut links,
        )
    };
    match status {
        0 => Ok(links.answers.as_slice().iter().map(answer).collect()),
        1 => {
            let cause = refusal(links.refusal, links.refusal_detail, &links.refusal_line);
            Err(if links.refused == 1 { LinkError::Exporter(cause) } else { LinkError::Importer(cause) })
        }
        2 => Err(LinkError::WrongOptions),
        _ => Err(LinkError::OutOfMemory),
    }
}
