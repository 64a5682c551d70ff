//! A program: modules that are linked in order.

use crate::error::{Error, refusal};
use crate::list::List;
use crate::records::{NamedModule, ProgramAnswer, ProgramRecord};
use crate::rows::{Options, Span};
use std::fmt;

unsafe extern "C" {
    fn bobbinazure_link_program(modules: *const NamedModule, count: usize, options: *const Options, program: *mut ProgramRecord) -> u32;
}

impl Drop for ProgramRecord {
    fn drop(&mut self) {
        // SAFETY: the lists are this record's alone.
        unsafe {
            self.modules.free();
            self.types.free();
            self.answers.free();
        }
    }
}

/// Modules that are linked in order: [`link_program`] makes one.
pub struct Program(ProgramRecord);

// SAFETY: the record owns its lists, and no call changes them.
unsafe impl Send for Program {}
// SAFETY: as of `Send`.
unsafe impl Sync for Program {}

/// What an import of a program is given.
#[derive(Clone, Copy, Debug, PartialEq, Eq, Hash)]
pub enum ProgramImport {
    /// An export of an earlier module.
    Given {
        /// The number of that module, from 0 on.
        module: usize,
        /// The number of the export among those of that module, from 0 on.
        export: usize,
    },
    /// No export of an earlier module has its names.
    Missing,
    /// The first rule that the export with its names breaks, from 1 to 14, and its text.
    Mismatch {
        /// From [`numbers::MISMATCH_KIND`](crate::numbers::MISMATCH_KIND) on.
        rule: u32,
        /// As `the memory is too small`.
        line: &'static str,
    },
}

/// A module of a program.
#[derive(Clone, Copy)]
pub struct ProgramModule<'a> {
    /// The engine's index of each interned type, in order. Two types of the program have one index
    /// exactly where they are equal.
    pub types: &'a [u32],
    /// How many exports the modules before it have.
    pub first_export: usize,
    answers: &'a [ProgramAnswer],
}

/// Why a program is refused. Modules are counted from 0.
#[derive(Clone, Copy, Debug, PartialEq, Eq)]
pub enum ProgramError {
    /// A module has no plan. Each module before it has one.
    Module {
        /// Which one.
        module: usize,
        /// Why.
        error: Error,
    },
    /// An export of this module has the two names of an export of an earlier module.
    Duplicate(usize),
    /// With the types of this module, the program has more than 4,294,967,294.
    TooManyTypes(usize),
    /// The options are wrong.
    WrongOptions,
    /// Memory ended.
    OutOfMemory,
}

impl fmt::Display for ProgramError {
    fn fmt(&self, f: &mut fmt::Formatter<'_>) -> fmt::Result {
        match self {
            ProgramError::Module { module, error } => write!(f, "module {module}: {error}"),
            ProgramError::Duplicate(module) => write!(f, "module {module}: an export has the names of an earlier one"),
            ProgramError::TooManyTypes(module) => write!(f, "module {module}: too many types"),
            ProgramError::WrongOptions => Error::WrongOptions.fmt(f),
            ProgramError::OutOfMemory => Error::OutOfMemory.fmt(f),
        }
    }
}

impl std::error::Error for ProgramError {}

fn import(row: &ProgramAnswer) -> ProgramImport {
    match row.answer {
        0 => ProgramImport::Given { module: row.module, export: row.export_number },
        1 => ProgramImport::Missing,
        _ => ProgramImport::Mismatch { rule: row.rule, line: row.line.as_text() },
    }
}

fn part<T>(list: &List<T>, span: Span) -> &[T] {
    &list.as_slice()[span.begin..span.begin + span.len]
}

impl Program {
    /// The modules, in order.
    pub fn modules(&self) -> impl ExactSizeIterator<Item = ProgramModule<'_>> {
        let record = &self.0;
        record.modules.as_slice().iter().map(|row| ProgramModule {
            types: part(&record.types, row.types),
            first_export: row.first_export,
            answers: part(&record.answers, row.answers),
        })
    }
}

impl<'a> ProgramModule<'a> {
    /// What each import is given, in order.
    pub fn imports(&self) -> impl ExactSizeIterator<Item = ProgramImport> + use<'a> {
        self.answers.iter().map(import)
    }
}

impl fmt::Debug for ProgramModule<'_> {
    fn fmt(&self, f: &mut fmt::Formatter<'_>) -> fmt::Result {
        let imports: Vec<_> = self.imports().collect();
        f.debug_struct("ProgramModule")
            .field("types", &self.types)
            .field("first_export", &self.first_export)
            .field("imports", &imports)
            .finish()
    }
}

impl fmt::Debug for Program {
    fn fmt(&self, f: &mut fmt::Formatter<'_>) -> fmt::Result {
        f.debug_list().entries(self.modules()).finish()
    }
}

/// Links modules in order. Each has a name and its bytes, and its imports are given by the exports
/// of those before it, under their names. An import that is not given refuses nothing.
///
/// # Errors
/// The first module that has no plan; else the first with too many types; else the first with an
/// export that has the two names of an earlier one. Wrong options; no memory.
///
/// ```
/// use bobbinazure::{Options, ProgramImport, link_program};
/// let exporter = b"\0asm\x01\0\0\0\x05\x03\x01\x00\x01\x07\x05\x01\x01m\x02\x00"; // (module (memory (export "m") 1))
/// let importer = b"\0asm\x01\0\0\0\x02\x08\x01\x01e\x01m\x02\x00\x01"; // (module (import "e" "m" (memory 1)))
/// let program = link_program(&[("d", exporter), ("e", exporter), ("", importer)], &Options::default())?;
/// let last = program.modules().last().expect("there are three");
/// assert_eq!(last.imports().collect::<Vec<_>>(), [ProgramImport::Given { module: 1, export: 0 }]);
/// # Ok::<(), bobbinazure::ProgramError>(())
/// ```
pub fn link_program(modules: &[(&str, &[u8])], options: &Options) -> Result<Program, ProgramError> {
    let inputs: Vec<NamedModule> =
        modules.iter().map(|(name, bytes)| NamedModule { name: List::lent(name.as_bytes()), bytes: List::lent(bytes) }).collect();
    let mut record = ProgramRecord::default();
    // SAFETY: the pointers are those of borrowed values, and each list of the record is one.
    let status = unsafe { bobbinazure_link_program(inputs.as_ptr(), inputs.len(), options, &mut record) };
    match (status, record.cause) {
        (0, _) => Ok(Program(record)),
        (1, 2) => Err(ProgramError::Duplicate(record.refused)),
        (1, 3) => Err(ProgramError::TooManyTypes(record.refused)),
        (1, _) => Err(ProgramError::Module {
            module: record.refused,
            error: refusal(record.refusal, record.refusal_detail, &record.refusal_line),
        }),
        (2, _) => Err(ProgramError::WrongOptions),
        _ => Err(ProgramError::OutOfMemory),
    }
}
