//! The entities of a module, its imports, exports and names.

use crate::plan::{Plan, index, name, part};
use crate::rows::{self, Global, Memory, Table, Tag};
use crate::types::{RefType, StorageType};
use std::fmt;

unsafe extern "C" {
    safe fn bobbinazure_memory_may_move(memory: &Memory, reservation: u64, may_move: u32) -> u32;
    safe fn bobbinazure_can_elide_bounds_check(memory: &Memory, reservation: u64, guard_size: u64, host_page_size_log2: u32) -> u32;
    safe fn bobbinazure_memory_allows_growth_to(memory: &Memory, size: u64) -> u32;
}

/// An entity, by its kind and its index.
///
/// ```
/// assert_eq!(bobbinazure::EntityIndex::Memory(0).to_string(), "memory 0");
/// ```
#[derive(Clone, Copy, Debug, PartialEq, Eq, Hash)]
pub enum EntityIndex {
    /// A function.
    Function(u32),
    /// A table.
    Table(u32),
    /// A memory.
    Memory(u32),
    /// A global.
    Global(u32),
    /// A tag.
    Tag(u32),
}

impl EntityIndex {
    fn of(kind: u32, index: u32) -> Self {
        match kind {
            0 => EntityIndex::Function(index),
            1 => EntityIndex::Table(index),
            2 => EntityIndex::Memory(index),
            3 => EntityIndex::Global(index),
            _ => EntityIndex::Tag(index),
        }
    }
}

impl fmt::Display for EntityIndex {
    fn fmt(&self, f: &mut fmt::Formatter<'_>) -> fmt::Result {
        match self {
            EntityIndex::Function(index) => write!(f, "function {index}"),
            EntityIndex::Table(index) => write!(f, "table {index}"),
            EntityIndex::Memory(index) => write!(f, "memory {index}"),
            EntityIndex::Global(index) => write!(f, "global {index}"),
            EntityIndex::Tag(index) => write!(f, "tag {index}"),
        }
    }
}

/// An import (core specification, 2.5, imports). It displays as `"env" "memory" memory 0`.
///
/// ```
/// use bobbinazure::{EntityIndex, Import};
/// let import = Import { module: "env", name: "memory", index: EntityIndex::Memory(0) };
/// assert_eq!(import.to_string(), r#""env" "memory" memory 0"#);
/// ```
#[derive(Clone, Copy, Debug, PartialEq, Eq, Hash)]
pub struct Import<'p> {
    /// The name of the module that it comes from.
    pub module: &'p str,
    /// Its name there.
    pub name: &'p str,
    /// The entity that it is in this module.
    pub index: EntityIndex,
}

impl fmt::Display for Import<'_> {
    fn fmt(&self, f: &mut fmt::Formatter<'_>) -> fmt::Result {
        write!(f, "{:?} {:?} {}", self.module, self.name, self.index)
    }
}

/// An export (core specification, 2.5, exports). It displays as `"memory" memory 0`.
///
/// ```
/// use bobbinazure::{EntityIndex, Export};
/// assert_eq!(Export { name: "memory", index: EntityIndex::Memory(0) }.to_string(), r#""memory" memory 0"#);
/// ```
#[derive(Clone, Copy, Debug, PartialEq, Eq, Hash)]
pub struct Export<'p> {
    /// Its name, which no other export has.
    pub name: &'p str,
    /// The entity that it gives.
    pub index: EntityIndex,
}

impl fmt::Display for Export<'_> {
    fn fmt(&self, f: &mut fmt::Formatter<'_>) -> fmt::Result {
        write!(f, "{:?} {}", self.name, self.index)
    }
}

/// A function, imported or defined.
///
/// ```
/// # let bytes = std::fs::read(concat!(env!("CARGO_MANIFEST_DIR"), "/../../examples/linked.wasm"))?;
/// # let options = bobbinazure::Options { cow: true, lazy_tables: true, ..Default::default() };
/// # let plan = bobbinazure::Plan::new(&bytes, &options)?;
/// let add = plan.function(1).unwrap();
/// assert_eq!((add.imported, add.signature, add.func_ref), (false, 1, Some(1)));
/// # Ok::<(), Box<dyn std::error::Error>>(())
/// ```
#[derive(Clone, Copy, Debug, PartialEq, Eq, Hash)]
pub struct Function {
    /// Its index.
    pub index: u32,
    /// Whether it is imported.
    pub imported: bool,
    /// Its interned type.
    pub signature: u32,
    /// Its number among the functions that escape: which of the references of the context is its
    /// own.
    pub func_ref: Option<u32>,
}

impl Memory {
    /// The greatest size in pages, if it has one.
    ///
    /// ```
    /// # use bobbinazure::Memory;
    /// assert_eq!(Memory { maximum: 3, bounded: true, ..Default::default() }.max(), Some(3));
    /// assert_eq!(Memory { maximum: u64::MAX, ..Default::default() }.max(), None);
    /// ```
    pub fn max(&self) -> Option<u64> {
        self.bounded.then_some(self.maximum)
    }

    /// The bytes of a page.
    ///
    /// ```
    /// # use bobbinazure::Memory;
    /// assert_eq!(Memory { page_size_log2: 16, ..Default::default() }.page_size(), 65536);
    /// ```
    pub fn page_size(&self) -> u64 {
        1 << self.page_size_log2
    }

    /// The least size in bytes; `None` past `u64::MAX`.
    ///
    /// ```
    /// # use bobbinazure::Memory;
    /// assert_eq!(Memory { minimum: 2, page_size_log2: 16, ..Default::default() }.minimum_byte_size(), Some(131072));
    /// assert_eq!(Memory { minimum: 1 << 48, page_size_log2: 16, ..Default::default() }.minimum_byte_size(), None);
    /// ```
    pub fn minimum_byte_size(&self) -> Option<u64> {
        self.minimum.checked_mul(self.page_size())
    }

    /// The greatest size in bytes: without one in pages the greater of the least size and what
    /// addresses reach; `None` past `u64::MAX`.
    ///
    /// ```
    /// # use bobbinazure::Memory;
    /// assert_eq!(Memory { minimum: 1, maximum: u64::MAX, page_size_log2: 16, ..Default::default() }.maximum_byte_size(), Some(1 << 32));
    /// ```
    pub fn maximum_byte_size(&self) -> Option<u64> {
        match self.max() {
            Some(max) => max.checked_mul(self.page_size()),
            None => Some(self.minimum_byte_size()?.max(self.reach())),
        }
    }

    /// The bytes that addresses reach, in whole pages where addresses have 64 bits.
    fn reach(&self) -> u64 {
        if self.wide { 0u64.wrapping_sub(self.page_size()) } else { 1 << 32 }
    }

    /// The size in bytes of a memory that neither grows nor shrinks.
    ///
    /// ```
    /// # use bobbinazure::Memory;
    /// let memory = Memory { minimum: 2, maximum: 2, bounded: true, page_size_log2: 16, ..Default::default() };
    /// assert_eq!(memory.static_heap_size(), Some(131072));
    /// assert_eq!(Memory { maximum: 3, ..memory }.static_heap_size(), None);
    /// ```
    pub fn static_heap_size(&self) -> Option<u64> {
        self.minimum_byte_size().filter(|minimum| self.maximum_byte_size() == Some(*minimum))
    }

    /// Whether the memory may be moved as it grows, where `reservation` bytes are reserved for it at
    /// first. It may not where `may_move` is false, threads share it, it cannot grow, or all that it
    /// can grow to is reserved.
    ///
    /// ```
    /// # use bobbinazure::Memory;
    /// let memory = Memory { minimum: 1, maximum: 4, bounded: true, maximum_bytes: 4 << 16, page_size_log2: 16, ..Default::default() };
    /// assert!(memory.memory_may_move(65536, true) && !memory.memory_may_move(4 << 16, true));
    /// ```
    pub fn memory_may_move(&self, reservation: u64, may_move: bool) -> bool {
        bobbinazure_memory_may_move(self, reservation, u32::from(may_move)) != 0
    }

    /// Whether the engine can leave out the bounds check of an address. It can where the memory has
    /// addresses of 32 bits, `reservation` and `guard_size` together cover 2^32 bytes, and the pages
    /// of the memory are no smaller than the host's. The `guard_size` bytes of guard pages follow
    /// the reservation, and the host turns their faults into traps. The host's page size is given as
    /// an exponent of 2. The answer covers the address alone: the engine must still check that the
    /// static offset plus the width of an access fits behind any such address, within reservation
    /// and guard.
    ///
    /// ```
    /// # use bobbinazure::Memory;
    /// let memory = Memory { minimum: 1, maximum: 4, page_size_log2: 16, ..Default::default() };
    /// assert!(memory.can_elide_bounds_check(1 << 32, 0, 12) && !memory.can_elide_bounds_check(1 << 31, 65536, 12));
    /// ```
    pub fn can_elide_bounds_check(&self, reservation: u64, guard_size: u64, host_page_size_log2: u8) -> bool {
        bobbinazure_can_elide_bounds_check(self, reservation, guard_size, u32::from(host_page_size_log2)) != 0
    }

    /// Whether a size in bytes is one that `memory.grow` can tell from a failure. It fails with
    /// 4294967295, so a memory of pages of one byte and addresses of 32 bits may not reach that size.
    /// The maximum is not looked at: compare `maximum_bytes` as well.
    ///
    /// ```
    /// # use bobbinazure::Memory;
    /// let memory = Memory { minimum: 1, maximum: u64::MAX, page_size_log2: 0, ..Default::default() };
    /// assert!(memory.allow_growth_to(4294967294) && !memory.allow_growth_to(4294967295));
    /// ```
    pub fn allow_growth_to(&self, size: u64) -> bool {
        bobbinazure_memory_allows_growth_to(self, size) != 0
    }
}

impl Table {
    /// The greatest size in cells, if it has one.
    ///
    /// ```
    /// # use bobbinazure::Table;
    /// assert_eq!(Table { maximum: 3, bounded: 1, ..Default::default() }.max(), Some(3));
    /// ```
    pub fn max(&self) -> Option<u64> {
        (self.bounded != 0).then_some(self.maximum)
    }

    /// The type of its elements.
    ///
    /// ```
    /// # let bytes = std::fs::read(concat!(env!("CARGO_MANIFEST_DIR"), "/../../examples/linked.wasm"))?;
    /// # let options = bobbinazure::Options { cow: true, lazy_tables: true, ..Default::default() };
    /// # let plan = bobbinazure::Plan::new(&bytes, &options)?;
    /// assert!(plan.tables()[0].ref_type().nullable);
    /// # Ok::<(), Box<dyn std::error::Error>>(())
    /// ```
    pub fn ref_type(&self) -> RefType {
        self.element.into()
    }
}

impl Global {
    /// The type of its value.
    ///
    /// ```
    /// # let bytes = std::fs::read(concat!(env!("CARGO_MANIFEST_DIR"), "/../../examples/linked.wasm"))?;
    /// # let options = bobbinazure::Options { cow: true, lazy_tables: true, ..Default::default() };
    /// # let plan = bobbinazure::Plan::new(&bytes, &options)?;
    /// assert_eq!(plan.globals()[0].ty(), bobbinazure::ValType::I32.into());
    /// # Ok::<(), Box<dyn std::error::Error>>(())
    /// ```
    pub fn ty(&self) -> StorageType {
        self.value.into()
    }

    /// Whether it can be written.
    ///
    /// ```
    /// # let bytes = std::fs::read(concat!(env!("CARGO_MANIFEST_DIR"), "/../../examples/linked.wasm"))?;
    /// # let options = bobbinazure::Options { cow: true, lazy_tables: true, ..Default::default() };
    /// # let plan = bobbinazure::Plan::new(&bytes, &options)?;
    /// assert!(plan.globals()[0].mutability()); // the stack pointer
    /// # Ok::<(), Box<dyn std::error::Error>>(())
    /// ```
    pub fn mutability(&self) -> bool {
        self.writable != 0
    }
}

impl Plan<'_> {
    /// The functions, imported ones first.
    ///
    /// ```
    /// # let bytes = std::fs::read(concat!(env!("CARGO_MANIFEST_DIR"), "/../../examples/linked.wasm"))?;
    /// # let options = bobbinazure::Options { cow: true, lazy_tables: true, ..Default::default() };
    /// # let plan = bobbinazure::Plan::new(&bytes, &options)?;
    /// let escaping: Vec<u32> = plan.functions().filter(|f| f.func_ref.is_some()).map(|f| f.index).collect();
    /// assert_eq!(escaping, [0, 1]);
    /// # Ok::<(), Box<dyn std::error::Error>>(())
    /// ```
    pub fn functions(&self) -> impl ExactSizeIterator<Item = Function> {
        let imported = self.record.entities.imported_functions;
        let rows = self.record.functions.as_slice().iter().zip(self.record.escapes.as_slice());
        (0..rows.len()).zip(rows).map(move |(place, (signature, escape))| Function {
            index: place as u32,
            imported: (place as u64) < imported,
            signature: *signature,
            func_ref: index(*escape),
        })
    }

    /// A function, by its index.
    ///
    /// ```
    /// # let bytes = std::fs::read(concat!(env!("CARGO_MANIFEST_DIR"), "/../../examples/linked.wasm"))?;
    /// # let plan = bobbinazure::Plan::new(&bytes, &Default::default())?;
    /// assert_eq!(plan.function(1), plan.functions().nth(1));
    /// assert_eq!(plan.function(2), None);
    /// # Ok::<(), Box<dyn std::error::Error>>(())
    /// ```
    pub fn function(&self, function: u32) -> Option<Function> {
        let (signature, escape) = (self.record.functions.as_slice(), self.record.escapes.as_slice());
        Some(Function {
            index: function,
            imported: u64::from(function) < self.record.entities.imported_functions,
            signature: *signature.get(function as usize)?,
            func_ref: index(*escape.get(function as usize)?),
        })
    }

    /// The memories, imported ones first.
    ///
    /// ```
    /// # let bytes = std::fs::read(concat!(env!("CARGO_MANIFEST_DIR"), "/../../examples/linked.wasm"))?;
    /// # let options = bobbinazure::Options { cow: true, lazy_tables: true, ..Default::default() };
    /// # let plan = bobbinazure::Plan::new(&bytes, &options)?;
    /// assert_eq!(plan.memories()[0].minimum_byte_size(), Some(17 << 16));
    /// # Ok::<(), Box<dyn std::error::Error>>(())
    /// ```
    pub fn memories(&self) -> &[Memory] {
        self.record.memories.as_slice()
    }

    /// The tables, imported ones first.
    ///
    /// ```
    /// # let bytes = std::fs::read(concat!(env!("CARGO_MANIFEST_DIR"), "/../../examples/linked.wasm"))?;
    /// # let options = bobbinazure::Options { cow: true, lazy_tables: true, ..Default::default() };
    /// # let plan = bobbinazure::Plan::new(&bytes, &options)?;
    /// assert_eq!(plan.tables()[0].ref_type().to_string(), "funcref");
    /// # Ok::<(), Box<dyn std::error::Error>>(())
    /// ```
    pub fn tables(&self) -> &[Table] {
        self.record.tables.as_slice()
    }

    /// The globals, imported ones first.
    ///
    /// ```
    /// # let bytes = std::fs::read(concat!(env!("CARGO_MANIFEST_DIR"), "/../../examples/linked.wasm"))?;
    /// # let options = bobbinazure::Options { cow: true, lazy_tables: true, ..Default::default() };
    /// # let plan = bobbinazure::Plan::new(&bytes, &options)?;
    /// assert_eq!(plan.globals()[0].ty().to_string(), "i32");
    /// # Ok::<(), Box<dyn std::error::Error>>(())
    /// ```
    pub fn globals(&self) -> &[Global] {
        self.record.globals.as_slice()
    }

    /// The tags, imported ones first.
    ///
    /// ```
    /// # let bytes = std::fs::read(concat!(env!("CARGO_MANIFEST_DIR"), "/../../examples/linked.wasm"))?;
    /// # let options = bobbinazure::Options { cow: true, lazy_tables: true, ..Default::default() };
    /// # let plan = bobbinazure::Plan::new(&bytes, &options)?;
    /// assert!(plan.tags().is_empty());
    /// # Ok::<(), Box<dyn std::error::Error>>(())
    /// ```
    pub fn tags(&self) -> &[Tag] {
        self.record.tags.as_slice()
    }

    /// The imports, in order.
    ///
    /// ```
    /// # let bytes = std::fs::read(concat!(env!("CARGO_MANIFEST_DIR"), "/../../examples/linked.wasm"))?;
    /// # let options = bobbinazure::Options { cow: true, lazy_tables: true, ..Default::default() };
    /// # let plan = bobbinazure::Plan::new(&bytes, &options)?;
    /// assert_eq!(plan.imports().len(), 0);
    /// # Ok::<(), Box<dyn std::error::Error>>(())
    /// ```
    pub fn imports(&self) -> impl ExactSizeIterator<Item = Import<'_>> {
        let names = self.record.import_names.as_slice();
        self.record.imports.as_slice().iter().map(move |row| Import {
            module: name(part(names, row.from)),
            name: name(part(names, row.name)),
            index: EntityIndex::of(row.kind, row.index),
        })
    }

    /// The exports, in order.
    ///
    /// ```
    /// # let bytes = std::fs::read(concat!(env!("CARGO_MANIFEST_DIR"), "/../../examples/linked.wasm"))?;
    /// # let options = bobbinazure::Options { cow: true, lazy_tables: true, ..Default::default() };
    /// # let plan = bobbinazure::Plan::new(&bytes, &options)?;
    /// let names: Vec<String> = plan.exports().map(|export| export.to_string()).collect();
    /// assert_eq!(names, [r#""memory" memory 0"#, r#""_start" function 0"#]);
    /// # Ok::<(), Box<dyn std::error::Error>>(())
    /// ```
    pub fn exports(&self) -> impl ExactSizeIterator<Item = Export<'_>> {
        let names = self.record.export_names.as_slice();
        let export = move |row: &rows::Export| Export { name: name(part(names, row.name)), index: EntityIndex::of(row.kind, row.index) };
        self.record.exports.as_slice().iter().map(export)
    }

    /// The export of a name, in a walk over all of them.
    ///
    /// ```
    /// # let bytes = std::fs::read(concat!(env!("CARGO_MANIFEST_DIR"), "/../../examples/linked.wasm"))?;
    /// # let options = bobbinazure::Options { cow: true, lazy_tables: true, ..Default::default() };
    /// # let plan = bobbinazure::Plan::new(&bytes, &options)?;
    /// assert_eq!(plan.export("memory"), Some(bobbinazure::EntityIndex::Memory(0)));
    /// # Ok::<(), Box<dyn std::error::Error>>(())
    /// ```
    pub fn export(&self, wanted: &str) -> Option<EntityIndex> {
        self.exports().find(|export| export.name == wanted).map(|export| export.index)
    }

    /// The module's name.
    ///
    /// ```
    /// # let bytes = std::fs::read(concat!(env!("CARGO_MANIFEST_DIR"), "/../../examples/linked.wasm"))?;
    /// # let options = bobbinazure::Options { cow: true, lazy_tables: true, ..Default::default() };
    /// # let plan = bobbinazure::Plan::new(&bytes, &options)?;
    /// assert_eq!(plan.name(), None);
    /// # Ok::<(), Box<dyn std::error::Error>>(())
    /// ```
    pub fn name(&self) -> Option<&str> {
        self.record.module_names.as_slice().first().map(|span| name(part(self.record.module_text.as_slice(), *span)))
    }

    /// The names of functions, by the index of each, in order.
    ///
    /// ```
    /// # let bytes = std::fs::read(concat!(env!("CARGO_MANIFEST_DIR"), "/../../examples/linked.wasm"))?;
    /// # let options = bobbinazure::Options { cow: true, lazy_tables: true, ..Default::default() };
    /// # let plan = bobbinazure::Plan::new(&bytes, &options)?;
    /// assert_eq!(plan.func_names().collect::<Vec<_>>(), [(0, "_start"), (1, "add")]);
    /// # Ok::<(), Box<dyn std::error::Error>>(())
    /// ```
    pub fn func_names(&self) -> impl ExactSizeIterator<Item = (u32, &str)> {
        self.record.function_names.as_slice().iter().map(|row| (row.function, name(row.name.as_slice())))
    }
}
