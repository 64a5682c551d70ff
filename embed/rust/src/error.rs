//! Why there is no plan.

use crate::list::List;
use std::fmt;

/// Why a module is refused.
///
/// ```
/// use bobbinazure::{Error, Options, Plan, Reason};
/// let limits = b"\0asm\x01\0\0\0\x05\x04\x01\x01\x03\x02"; // a memory of 3 pages and at most 2
/// let error = Plan::new(limits, &Options::default()).unwrap_err();
/// assert!(matches!(error, Error::Refused { reason: Reason::Invalid(4), .. }));
/// ```
#[derive(Clone, Copy, Debug, PartialEq, Eq, Hash)]
pub enum Reason {
    /// The bytes spell no module.
    Malformed,
    /// The module breaks a listed rule: the first one that it breaks, from 1 to 10.
    Invalid(u32),
    /// The module has what is not taken, from [`numbers::COMPONENT`](crate::numbers::COMPONENT) on.
    Unsupported(u32),
    /// The module is too large.
    TooLarge,
    /// The context or an object has more bytes than 32 bits count.
    OffsetOverflow,
}

/// Why there is no plan. A refusal displays its line.
///
/// ```
/// use bobbinazure::{Error, Options, Plan, Reason};
/// let error = Plan::new(b"\0asm", &Options::default()).unwrap_err();
/// assert!(matches!(error, Error::Refused { reason: Reason::Malformed, .. }));
/// let boxed: Box<dyn std::error::Error> = error.into();
/// assert_eq!(boxed.to_string(), "refused malformed");
/// ```
#[derive(Clone, Copy, Debug, PartialEq, Eq, Hash)]
pub enum Error {
    /// The module is refused: its reason, and its line, as the program prints it.
    Refused {
        /// Why.
        reason: Reason,
        /// Its line, as `refused malformed`.
        line: &'static str,
    },
    /// The options are wrong: a pointer of other than 4 or 8 bytes, a collector above 1, or a page
    /// size that is no power of two.
    WrongOptions,
    /// Memory ended.
    OutOfMemory,
}

/// The refusal that a record tells.
pub(crate) fn refusal(kind: u32, detail: u32, line: &List<u8>) -> Error {
    let reason = match kind {
        1 => Reason::Malformed,
        2 => Reason::Invalid(detail),
        3 => Reason::Unsupported(detail),
        4 => Reason::TooLarge,
        _ => Reason::OffsetOverflow,
    };
    Error::Refused { reason, line: line.as_text().trim_end() }
}

impl fmt::Display for Error {
    fn fmt(&self, f: &mut fmt::Formatter<'_>) -> fmt::Result {
        f.write_str(match self {
            Error::Refused { line, .. } => line,
            Error::WrongOptions => "wrong options",
            Error::OutOfMemory => "out of memory",
        })
    }
}

impl std::error::Error for Error {}
