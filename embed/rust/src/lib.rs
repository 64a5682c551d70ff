//! Safe Rust over the planner's C interface: prepares a core WebAssembly module before any code is
//! generated.
//!
//! ```
//! use bobbinazure::{Options, Plan};
//! # let bytes = std::fs::read(concat!(env!("CARGO_MANIFEST_DIR"), "/../../examples/linked.wasm"))?;
//! let plan = Plan::new(&bytes, &Options { cow: true, ..Default::default() })?;
//! for image in plan.memory_images() {
//!     println!("memory {} begins as {} bytes at {}", image.memory, image.bytes.len(), image.offset);
//! }
//! for export in plan.exports() {
//!     println!("export {export}");
//! }
//! # Ok::<(), Box<dyn std::error::Error>>(())
//! ```
//!
//! A [`Plan`] borrows the module's bytes, as in the planner itself, and gives its tables back when
//! it is dropped. [`link`] says of two modules what each import of the second is given by the
//! exports of the first, and [`link_program`] of many modules what each import is given by those
//! before.
//!
//! The library is proved; this crate is not: it holds the calls, the layout and `Drop`. It makes no
//! global state, and calls in several threads do not meet. It has no dependencies.
#![warn(missing_debug_implementations, missing_docs)]

mod bodies;
mod canonical;
mod debug;
mod entities;
mod error;
mod expressions;
mod interned;
mod layout;
mod links;
mod list;
mod module_segments;
mod names;
pub mod numbers;
mod offsets;
mod options;
mod places;
mod plan;
mod program;
mod records;
mod rows;
mod sections;
mod segments;
mod startup;
mod types;

pub use bodies::Body;
pub use canonical::CanonicalGroup;
pub use debug::FunctionMetadata;
pub use entities::{EntityIndex, Export, Function, Import};
pub use error::{Error, Reason};
pub use expressions::{ConstExpr, ConstOp};
pub use interned::{GcLayout, GcLayoutKind};
pub use links::{Answer, LinkError, link};
pub use module_segments::{DataKind, ElementKind, ModuleData, ModuleElement, ModuleSegments, module_segments};
pub use names::{NameEntry, Names, names};
pub use places::{BrokenRule, EntryPlace, Excess, Place, locate, locate_excess, locate_rule};
pub use plan::{Plan, plan_and_text, text};
pub use program::{Program, ProgramError, ProgramImport, ProgramModule, link_program};
pub use rows::{
    BranchHint, Context, Entities, Field, FuncRefLayout, FunctionImportLayout, Global, GlobalDefinitionLayout, GlobalImportLayout, LayoutField, Memory,
    MemoryDefinitionLayout, MemoryImportLayout, Operator, Options, StaticContextLayout, StoreContextLayout, Structs, Table, TableDefinitionLayout,
    TableImportLayout, Tag, TagDefinitionLayout, TagImportLayout, Trampoline, Value,
};
pub use sections::{Section, sections};
pub use segments::{ElementSegment, Expressions, Items, PassiveData, PassiveElements};
pub use startup::{DataSegment, GlobalInit, MemoryImage, ModuleStartup, Region, SegmentOffset};
pub use types::{CompositeType, FieldType, Fields, HeapType, RefType, StorageType, SubType, TypeIndex, ValType};

unsafe extern "C" {
    safe fn bobbinazure_version() -> u32;
}

/// The version of the library, as `10000 * major + 100 * minor + patch`.
///
/// ```
/// let library = bobbinazure::version();
/// assert_eq!(format!("{}.{}.{}", library / 10000, library / 100 % 100, library % 100), env!("CARGO_PKG_VERSION"));
/// ```
pub fn version() -> u32 {
    bobbinazure_version()
}
