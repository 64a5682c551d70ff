//! Why there is no instance.

use std::fmt;
use std::io;

/// A phase of instantiation in which a module can trap before its start function.
#[derive(Clone, Copy, Debug, PartialEq, Eq, Hash)]
pub enum Phase {
    /// Element segments are written to tables.
    Elements,
    /// Data segments are written to memories.
    Data,
}

/// Why there is no template, or no instance.
#[derive(Debug)]
pub enum Error {
    /// The module has no plan.
    Plan(bobbinazure::Error),
    /// Two modules have no answers.
    Link(bobbinazure::LinkError),
    /// No exporter has an import, which is shown as `"env" "memory" memory 0`.
    Missing {
        /// The import.
        import: String,
    },
    /// An export does not match an import.
    Mismatch {
        /// The import.
        import: String,
        /// The rule that the export breaks, as `the memory is too small`.
        rule: &'static str,
    },
    /// The instances are not of the modules that were linked.
    WrongInstances,
    /// A segment does not fit in its table or memory. The instance is not made.
    Trap {
        /// Whether it is an element or a data segment.
        phase: Phase,
        /// Its number among those that the plan leaves to be written.
        segment: usize,
    },
    /// The module needs what this allocator lacks.
    Unsupported(&'static str),
    /// The module asks for more than the limits of the engine allow.
    TooLarge(&'static str),
    /// A call of the system failed.
    System(&'static str, io::Error),
}

impl fmt::Display for Phase {
    fn fmt(&self, f: &mut fmt::Formatter<'_>) -> fmt::Result {
        f.write_str(match self {
            Phase::Elements => "element",
            Phase::Data => "data",
        })
    }
}

impl fmt::Display for Error {
    fn fmt(&self, f: &mut fmt::Formatter<'_>) -> fmt::Result {
        match self {
            Error::Plan(error) => error.fmt(f),
            Error::Link(error) => error.fmt(f),
            Error::Missing { import } => write!(f, "import {import} is missing"),
            Error::Mismatch { import, rule } => write!(f, "import {import}: {rule}"),
            Error::WrongInstances => f.write_str("the instances are not of the modules that were linked"),
            Error::Trap { phase, segment } => {
                write!(f, "trap: {phase} segment {segment} of those left does not fit")
            }
            Error::Unsupported(what) => write!(f, "not supported: {what}"),
            Error::TooLarge(what) => write!(f, "too large: {what}"),
            Error::System(call, error) => write!(f, "{call}: {error}"),
        }
    }
}

impl std::error::Error for Error {
    fn source(&self) -> Option<&(dyn std::error::Error + 'static)> {
        match self {
            Error::Plan(error) => Some(error),
            Error::Link(error) => Some(error),
            Error::System(_, error) => Some(error),
            _ => None,
        }
    }
}

impl From<bobbinazure::Error> for Error {
    fn from(error: bobbinazure::Error) -> Self {
        Error::Plan(error)
    }
}

impl From<bobbinazure::LinkError> for Error {
    fn from(error: bobbinazure::LinkError) -> Self {
        Error::Link(error)
    }
}
