//! The plan of a module, and the calls that make it.

use crate::error::{Error, refusal};
use crate::records::{PlanRecord, Text};
use crate::rows::{Context, Entities, Operator, Options, Span, Structs};
use std::fmt;

unsafe extern "C" {
    fn bobbinazure_make_plan(bytes: *const u8, len: usize, options: *const Options, plan: *mut PlanRecord) -> u32;
    fn bobbinazure_make_text(bytes: *const u8, len: usize, options: *const Options, text: *mut Text) -> u32;
    fn bobbinazure_make_plan_and_text(bytes: *const u8, len: usize, options: *const Options, plan: *mut PlanRecord, text: *mut Text) -> u32;
}

impl Drop for PlanRecord {
    fn drop(&mut self) {
        for data in self.runtime.as_mut_slice() {
            if data.made != 0 {
                // SAFETY: the bytes that the plan made are this row's alone.
                unsafe { data.bytes.free() };
            }
        }
        // SAFETY: each list is this record's alone.
        unsafe { self.free_lists() };
    }
}

impl Drop for Text {
    fn drop(&mut self) {
        if self.made != 0 {
            // SAFETY: the text is this record's alone.
            unsafe { self.text.free() };
        }
    }
}

/// The plan of a module, whose bytes it borrows.
///
/// Its methods have the words of wasmtime-environ. Indices are those of the module: imported
/// entities come before defined ones, and types are the interned ones unless a method says
/// otherwise. A plan is plain data: it can be sent to another thread and shared.
///
/// ```
/// let module = b"\0asm\x01\0\0\0\x05\x03\x01\x00\x02"; // (module (memory 2))
/// let plan = bobbinazure::Plan::new(module, &Default::default())?;
/// std::thread::scope(|scope| scope.spawn(|| assert_eq!(plan.memories()[0].minimum, 2)).join()).unwrap();
/// # Ok::<(), bobbinazure::Error>(())
/// ```
pub struct Plan<'d> {
    pub(crate) record: Box<PlanRecord>,
    pub(crate) module: &'d [u8],
}

// SAFETY: a plan is plain data that nothing writes.
unsafe impl Send for Plan<'_> {}
// SAFETY: as of `Send`.
unsafe impl Sync for Plan<'_> {}

fn checked(status: u32, record: Box<PlanRecord>) -> Result<Box<PlanRecord>, Error> {
    match status {
        0 => Ok(record),
        1 => Err(refusal(record.refusal, record.refusal_detail, &record.refusal_line)),
        2 => Err(Error::WrongOptions),
        _ => Err(Error::OutOfMemory),
    }
}

impl<'d> Plan<'d> {
    /// The plan of the module that the bytes spell.
    ///
    /// # Errors
    /// [`Error::Refused`] where they spell none, or one that breaks a listed rule;
    /// [`Error::WrongOptions`], [`Error::OutOfMemory`].
    ///
    /// ```
    /// use bobbinazure::{Options, Plan};
    /// let plan = Plan::new(b"\0asm\x01\0\0\0", &Options::default())?;
    /// assert_eq!(plan.entities().functions, 0);
    /// assert_eq!(Plan::new(b"\0asm", &Options::default()).unwrap_err().to_string(), "refused malformed");
    /// # Ok::<(), bobbinazure::Error>(())
    /// ```
    pub fn new(bytes: &'d [u8], options: &Options) -> Result<Self, Error> {
        let mut record = Box::new(PlanRecord::default());
        // SAFETY: the pointers are those of borrowed values, and each list of the record is one.
        let status = unsafe { bobbinazure_make_plan(bytes.as_ptr(), bytes.len(), options, &mut *record) };
        Ok(Plan { record: checked(status, record)?, module: bytes })
    }

    /// The bytes of the module, from which the plan was made.
    ///
    /// ```
    /// # let bytes = std::fs::read(concat!(env!("CARGO_MANIFEST_DIR"), "/../../examples/linked.wasm"))?;
    /// let plan = bobbinazure::Plan::new(&bytes, &Default::default())?;
    /// assert_eq!(plan.module_bytes(), bytes);
    /// # Ok::<(), Box<dyn std::error::Error>>(())
    /// ```
    pub fn module_bytes(&self) -> &'d [u8] {
        self.module
    }
}

impl Plan<'_> {
    /// How many entities of each kind there are, and how many of them are imported.
    ///
    /// ```
    /// # let bytes = std::fs::read(concat!(env!("CARGO_MANIFEST_DIR"), "/../../examples/linked.wasm"))?;
    /// # let options = bobbinazure::Options { cow: true, lazy_tables: true, ..Default::default() };
    /// # let plan = bobbinazure::Plan::new(&bytes, &options)?;
    /// assert_eq!((plan.entities().functions, plan.entities().imported_functions), (2, 0));
    /// # Ok::<(), Box<dyn std::error::Error>>(())
    /// ```
    pub fn entities(&self) -> &Entities {
        &self.record.entities
    }

    /// Where the parts of the context begin, and its size.
    ///
    /// ```
    /// # let bytes = std::fs::read(concat!(env!("CARGO_MANIFEST_DIR"), "/../../examples/linked.wasm"))?;
    /// # let options = bobbinazure::Options { cow: true, lazy_tables: true, ..Default::default() };
    /// # let plan = bobbinazure::Plan::new(&bytes, &options)?;
    /// assert_eq!(plan.offsets().size, 220);
    /// # Ok::<(), Box<dyn std::error::Error>>(())
    /// ```
    pub fn offsets(&self) -> &Context {
        &self.record.context
    }

    /// The structs that compiled code reads: the size of each, which is the stride of its array in
    /// the context, and where its fields begin.
    ///
    /// ```
    /// # let bytes = std::fs::read(concat!(env!("CARGO_MANIFEST_DIR"), "/../../examples/linked.wasm"))?;
    /// # let options = bobbinazure::Options { cow: true, lazy_tables: true, ..Default::default() };
    /// # let plan = bobbinazure::Plan::new(&bytes, &options)?;
    /// let layout = &plan.structs().func_ref;
    /// assert_eq!((layout.size, layout.wasm_call, layout.vmctx), (32, 8, 24));
    /// # Ok::<(), Box<dyn std::error::Error>>(())
    /// ```
    pub fn structs(&self) -> &Structs {
        &self.record.structs
    }

    /// The bytes of a pointer of the target.
    ///
    /// ```
    /// # let bytes = std::fs::read(concat!(env!("CARGO_MANIFEST_DIR"), "/../../examples/linked.wasm"))?;
    /// # let plan = bobbinazure::Plan::new(&bytes, &Default::default())?;
    /// assert_eq!(plan.pointer_size(), 8);
    /// # Ok::<(), Box<dyn std::error::Error>>(())
    /// ```
    pub fn pointer_size(&self) -> u32 {
        self.record.pointer
    }

    /// Where in the context the reference to the startup function begins, where there is such a
    /// function.
    ///
    /// ```
    /// # let bytes = std::fs::read(concat!(env!("CARGO_MANIFEST_DIR"), "/../../examples/linked.wasm"))?;
    /// # let options = bobbinazure::Options { cow: true, lazy_tables: true, ..Default::default() };
    /// # let plan = bobbinazure::Plan::new(&bytes, &options)?;
    /// let region = plan.regions().find(|region| region.name == "startup funcref").unwrap();
    /// assert_eq!(plan.startup_func_ref(), Some(region.begin));
    /// # Ok::<(), Box<dyn std::error::Error>>(())
    /// ```
    pub fn startup_func_ref(&self) -> Option<u32> {
        index(self.record.context.startup_func_ref)
    }

    /// How many functions escape.
    ///
    /// ```
    /// # let bytes = std::fs::read(concat!(env!("CARGO_MANIFEST_DIR"), "/../../examples/linked.wasm"))?;
    /// # let options = bobbinazure::Options { cow: true, lazy_tables: true, ..Default::default() };
    /// # let plan = bobbinazure::Plan::new(&bytes, &options)?;
    /// assert_eq!(plan.num_escaped_funcs(), 2);
    /// # Ok::<(), Box<dyn std::error::Error>>(())
    /// ```
    pub fn num_escaped_funcs(&self) -> u64 {
        self.record.escaped_functions
    }

    /// Whether the module has sections of debug information, none of which is read.
    ///
    /// ```
    /// # let bytes = std::fs::read(concat!(env!("CARGO_MANIFEST_DIR"), "/../../examples/linked.wasm"))?;
    /// # let plan = bobbinazure::Plan::new(&bytes, &Default::default())?;
    /// assert!(!plan.has_unparsed_debuginfo());
    /// # Ok::<(), Box<dyn std::error::Error>>(())
    /// ```
    pub fn has_unparsed_debuginfo(&self) -> bool {
        self.record.has_unparsed_debuginfo != 0
    }

    /// Where the module begins in the bytes that were read.
    ///
    /// ```
    /// # let bytes = std::fs::read(concat!(env!("CARGO_MANIFEST_DIR"), "/../../examples/linked.wasm"))?;
    /// # let plan = bobbinazure::Plan::new(&bytes, &Default::default())?;
    /// assert_eq!(plan.wasm_module_offset(), 0);
    /// # Ok::<(), Box<dyn std::error::Error>>(())
    /// ```
    pub fn wasm_module_offset(&self) -> u64 {
        self.record.module_offset
    }

    /// Where the contents of the code section begin in the module, in bytes; 0 without a code
    /// section.
    ///
    /// ```
    /// # let bytes = std::fs::read(concat!(env!("CARGO_MANIFEST_DIR"), "/../../examples/linked.wasm"))?;
    /// # let plan = bobbinazure::Plan::new(&bytes, &Default::default())?;
    /// let code = bobbinazure::sections(&bytes)?.into_iter().find(|section| section.id == 10).unwrap();
    /// assert_eq!(plan.code_section_offset(), u64::from(code.contents));
    /// # Ok::<(), Box<dyn std::error::Error>>(())
    /// ```
    pub fn code_section_offset(&self) -> u64 {
        self.record.code_section_offset
    }

    /// Whether a defined table can hold references that are collected. Where not, imported tables,
    /// globals and code may still need a heap.
    ///
    /// ```
    /// # let bytes = std::fs::read(concat!(env!("CARGO_MANIFEST_DIR"), "/../../examples/linked.wasm"))?;
    /// # let options = bobbinazure::Options { cow: true, lazy_tables: true, ..Default::default() };
    /// # let plan = bobbinazure::Plan::new(&bytes, &options)?;
    /// assert!(!plan.needs_gc_heap());
    /// # Ok::<(), Box<dyn std::error::Error>>(())
    /// ```
    pub fn needs_gc_heap(&self) -> bool {
        self.record.needs_gc_heap != 0
    }

    /// The alignment of memory images in bytes, where memories begin as images.
    ///
    /// ```
    /// # let bytes = std::fs::read(concat!(env!("CARGO_MANIFEST_DIR"), "/../../examples/linked.wasm"))?;
    /// # let options = bobbinazure::Options { cow: true, lazy_tables: true, ..Default::default() };
    /// # let plan = bobbinazure::Plan::new(&bytes, &options)?;
    /// assert_eq!(plan.data_align(), Some(4096));
    /// # Ok::<(), Box<dyn std::error::Error>>(())
    /// ```
    pub fn data_align(&self) -> Option<u64> {
        (self.record.data_align != 0).then_some(self.record.data_align)
    }

    /// The start function.
    ///
    /// ```
    /// # let bytes = std::fs::read(concat!(env!("CARGO_MANIFEST_DIR"), "/../../examples/linked.wasm"))?;
    /// # let options = bobbinazure::Options { cow: true, lazy_tables: true, ..Default::default() };
    /// # let plan = bobbinazure::Plan::new(&bytes, &options)?;
    /// assert_eq!(plan.start_func(), None);
    /// # Ok::<(), Box<dyn std::error::Error>>(())
    /// ```
    pub fn start_func(&self) -> Option<u32> {
        index(self.record.start)
    }
}

impl fmt::Debug for Plan<'_> {
    /// The counts of the entities, and the size of the context: a plan is large.
    fn fmt(&self, f: &mut fmt::Formatter<'_>) -> fmt::Result {
        f.debug_struct("Plan").field("entities", self.entities()).field("types", &self.record.types).field("context", &self.record.context.size).finish_non_exhaustive()
    }
}

/// An index, where there is one.
pub(crate) fn index(number: u32) -> Option<u32> {
    (number != u32::MAX).then_some(number)
}

/// A part of a list.
pub(crate) fn part<T>(list: &[T], span: Span) -> &[T] {
    &list[span.begin..span.begin + span.len]
}

/// A name that the library gave: it is UTF-8, as the module's names are.
pub(crate) fn name(text: &[u8]) -> &str {
    std::str::from_utf8(text).unwrap_or("")
}

/// The operators of one of several expressions.
pub(crate) fn operators<'p>(record: &'p crate::records::ExpressionsRecord, place: usize) -> &'p [Operator] {
    part(record.operators.as_slice(), record.parts.as_slice()[place])
}

/// The text of the plan of the module that the bytes spell.
///
/// # Errors
/// As of [`Plan::new`].
///
/// ```
/// let text = bobbinazure::text(b"\0asm\x01\0\0\0", &bobbinazure::Options::default())?;
/// assert!(text.starts_with("types 0\n"));
/// # Ok::<(), bobbinazure::Error>(())
/// ```
pub fn text(bytes: &[u8], options: &Options) -> Result<String, Error> {
    let mut text = Text::default();
    // SAFETY: as of `Plan::new`.
    let status = unsafe { bobbinazure_make_text(bytes.as_ptr(), bytes.len(), options, &mut text) };
    match status {
        0 => Ok(name(text.text.as_slice()).to_owned()),
        1 => Err(Plan::new(bytes, options).err().unwrap_or(Error::OutOfMemory)), // the refusal of the same bytes
        2 => Err(Error::WrongOptions),
        _ => Err(Error::OutOfMemory),
    }
}

/// The plan and its text by one call, which plans once.
///
/// # Errors
/// As of [`Plan::new`].
///
/// ```
/// let (plan, text) = bobbinazure::plan_and_text(b"\0asm\x01\0\0\0", &bobbinazure::Options::default())?;
/// assert!(text.ends_with(&format!("context {}\n", plan.offsets().size)));
/// # Ok::<(), bobbinazure::Error>(())
/// ```
pub fn plan_and_text<'d>(bytes: &'d [u8], options: &Options) -> Result<(Plan<'d>, String), Error> {
    let (mut record, mut text) = (Box::new(PlanRecord::default()), Text::default());
    // SAFETY: as of `Plan::new`.
    let status = unsafe { bobbinazure_make_plan_and_text(bytes.as_ptr(), bytes.len(), options, &mut *record, &mut text) };
    let record = checked(status, record)?;
    Ok((Plan { record, module: bytes }, name(text.text.as_slice()).to_owned()))
}
