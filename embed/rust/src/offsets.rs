//! Where the entries of a context stand, in bytes from its begin. Indices of imports count the
//! imports of a kind, indices of definitions the defined entities of a kind. The names are those of
//! wasmtime-environ. Made by embed/generate.

use crate::plan::Plan;

/// An entry of an array that begins at a byte.
fn entry(begin: u32, stride: u32, index: u32) -> u32 {
    begin + stride * index
}

impl Plan<'_> {
    /// Each array of a context: its region, what its index counts, and where an entry begins.
    pub const ARRAYS: [(&'static str, &'static str, fn(&Plan, u32) -> u32); 13] = [
        ("imported memories", "import", |plan, import| plan.vmctx_vmmemory_import(import)),
        ("defined memories", "defined", |plan, defined| plan.vmctx_vmmemory_pointer(defined)),
        ("owned memories", "owned", |plan, owned| plan.vmctx_vmmemory_definition(owned)),
        ("imported functions", "import", |plan, import| plan.vmctx_vmfunction_import(import)),
        ("imported tables", "import", |plan, import| plan.vmctx_vmtable_import(import)),
        ("imported globals", "import", |plan, import| plan.vmctx_vmglobal_import(import)),
        ("imported tags", "import", |plan, import| plan.vmctx_vmtag_import(import)),
        ("defined tables", "defined", |plan, defined| plan.vmctx_vmtable_definition(defined)),
        ("defined globals", "defined", |plan, defined| plan.vmctx_vmglobal_definition(defined)),
        ("defined tags", "defined", |plan, defined| plan.vmctx_vmtag_definition(defined)),
        ("module functions", "escaping", |plan, escaping| plan.vmctx_vmfunc_ref(escaping)),
        ("runtime data base pointers", "runtime", |plan, runtime| plan.vmctx_runtime_data_base(runtime)),
        ("runtime data lengths", "runtime", |plan, runtime| plan.vmctx_runtime_data_length(runtime)),
    ];

    /// The import of a memory.
    ///
    /// ```
    /// # let bytes = std::fs::read(concat!(env!("CARGO_MANIFEST_DIR"), "/../../examples/linked.wasm"))?;
    /// # let options = bobbinazure::Options { cow: true, lazy_tables: true, ..Default::default() };
    /// # let plan = bobbinazure::Plan::new(&bytes, &options)?;
    /// assert_eq!(plan.vmctx_vmmemory_import(1), plan.offsets().imported_memories + plan.structs().memory_import.size);
    /// # Ok::<(), Box<dyn std::error::Error>>(())
    /// ```
    pub fn vmctx_vmmemory_import(&self, import: u32) -> u32 {
        entry(self.offsets().imported_memories, self.structs().memory_import.size, import)
    }

    /// The pointer to the definition of a memory.
    ///
    /// ```
    /// # let bytes = std::fs::read(concat!(env!("CARGO_MANIFEST_DIR"), "/../../examples/linked.wasm"))?;
    /// # let options = bobbinazure::Options { cow: true, lazy_tables: true, ..Default::default() };
    /// # let plan = bobbinazure::Plan::new(&bytes, &options)?;
    /// assert_eq!(plan.vmctx_vmmemory_pointer(1), plan.offsets().memories + 8);
    /// # Ok::<(), Box<dyn std::error::Error>>(())
    /// ```
    pub fn vmctx_vmmemory_pointer(&self, defined: u32) -> u32 {
        entry(self.offsets().memories, self.pointer_size(), defined)
    }

    /// The definition of a memory that is not shared, by its number among those that the module
    /// defines.
    ///
    /// ```
    /// # let bytes = std::fs::read(concat!(env!("CARGO_MANIFEST_DIR"), "/../../examples/linked.wasm"))?;
    /// # let options = bobbinazure::Options { cow: true, lazy_tables: true, ..Default::default() };
    /// # let plan = bobbinazure::Plan::new(&bytes, &options)?;
    /// assert_eq!(plan.vmctx_vmmemory_definition(1), plan.offsets().owned_memories + plan.structs().memory_definition.size);
    /// # Ok::<(), Box<dyn std::error::Error>>(())
    /// ```
    pub fn vmctx_vmmemory_definition(&self, owned: u32) -> u32 {
        entry(self.offsets().owned_memories, self.structs().memory_definition.size, owned)
    }

    /// The import of a function.
    ///
    /// ```
    /// # let bytes = std::fs::read(concat!(env!("CARGO_MANIFEST_DIR"), "/../../examples/linked.wasm"))?;
    /// # let options = bobbinazure::Options { cow: true, lazy_tables: true, ..Default::default() };
    /// # let plan = bobbinazure::Plan::new(&bytes, &options)?;
    /// assert_eq!(plan.vmctx_vmfunction_import(1), plan.offsets().imported_functions + plan.structs().function_import.size);
    /// # Ok::<(), Box<dyn std::error::Error>>(())
    /// ```
    pub fn vmctx_vmfunction_import(&self, import: u32) -> u32 {
        entry(self.offsets().imported_functions, self.structs().function_import.size, import)
    }

    /// The import of a table.
    ///
    /// ```
    /// # let bytes = std::fs::read(concat!(env!("CARGO_MANIFEST_DIR"), "/../../examples/linked.wasm"))?;
    /// # let options = bobbinazure::Options { cow: true, lazy_tables: true, ..Default::default() };
    /// # let plan = bobbinazure::Plan::new(&bytes, &options)?;
    /// assert_eq!(plan.vmctx_vmtable_import(1), plan.offsets().imported_tables + plan.structs().table_import.size);
    /// # Ok::<(), Box<dyn std::error::Error>>(())
    /// ```
    pub fn vmctx_vmtable_import(&self, import: u32) -> u32 {
        entry(self.offsets().imported_tables, self.structs().table_import.size, import)
    }

    /// The import of a global.
    ///
    /// ```
    /// # let bytes = std::fs::read(concat!(env!("CARGO_MANIFEST_DIR"), "/../../examples/linked.wasm"))?;
    /// # let options = bobbinazure::Options { cow: true, lazy_tables: true, ..Default::default() };
    /// # let plan = bobbinazure::Plan::new(&bytes, &options)?;
    /// assert_eq!(plan.vmctx_vmglobal_import(1), plan.offsets().imported_globals + plan.structs().global_import.size);
    /// # Ok::<(), Box<dyn std::error::Error>>(())
    /// ```
    pub fn vmctx_vmglobal_import(&self, import: u32) -> u32 {
        entry(self.offsets().imported_globals, self.structs().global_import.size, import)
    }

    /// The import of a tag.
    ///
    /// ```
    /// # let bytes = std::fs::read(concat!(env!("CARGO_MANIFEST_DIR"), "/../../examples/linked.wasm"))?;
    /// # let options = bobbinazure::Options { cow: true, lazy_tables: true, ..Default::default() };
    /// # let plan = bobbinazure::Plan::new(&bytes, &options)?;
    /// assert_eq!(plan.vmctx_vmtag_import(1), plan.offsets().imported_tags + plan.structs().tag_import.size);
    /// # Ok::<(), Box<dyn std::error::Error>>(())
    /// ```
    pub fn vmctx_vmtag_import(&self, import: u32) -> u32 {
        entry(self.offsets().imported_tags, self.structs().tag_import.size, import)
    }

    /// The definition of a table.
    ///
    /// ```
    /// # let bytes = std::fs::read(concat!(env!("CARGO_MANIFEST_DIR"), "/../../examples/linked.wasm"))?;
    /// # let options = bobbinazure::Options { cow: true, lazy_tables: true, ..Default::default() };
    /// # let plan = bobbinazure::Plan::new(&bytes, &options)?;
    /// assert_eq!(plan.vmctx_vmtable_definition(1), plan.offsets().tables + plan.structs().table_definition.size);
    /// # Ok::<(), Box<dyn std::error::Error>>(())
    /// ```
    pub fn vmctx_vmtable_definition(&self, defined: u32) -> u32 {
        entry(self.offsets().tables, self.structs().table_definition.size, defined)
    }

    /// The definition of a global.
    ///
    /// ```
    /// # let bytes = std::fs::read(concat!(env!("CARGO_MANIFEST_DIR"), "/../../examples/linked.wasm"))?;
    /// # let options = bobbinazure::Options { cow: true, lazy_tables: true, ..Default::default() };
    /// # let plan = bobbinazure::Plan::new(&bytes, &options)?;
    /// assert_eq!(plan.vmctx_vmglobal_definition(0), plan.offsets().globals);
    /// assert_eq!(plan.vmctx_vmglobal_definition(1), plan.offsets().globals + 16);
    /// # Ok::<(), Box<dyn std::error::Error>>(())
    /// ```
    pub fn vmctx_vmglobal_definition(&self, defined: u32) -> u32 {
        entry(self.offsets().globals, self.structs().global_definition.size, defined)
    }

    /// The definition of a tag.
    ///
    /// ```
    /// # let bytes = std::fs::read(concat!(env!("CARGO_MANIFEST_DIR"), "/../../examples/linked.wasm"))?;
    /// # let options = bobbinazure::Options { cow: true, lazy_tables: true, ..Default::default() };
    /// # let plan = bobbinazure::Plan::new(&bytes, &options)?;
    /// assert_eq!(plan.vmctx_vmtag_definition(1), plan.offsets().tags + plan.structs().tag_definition.size);
    /// # Ok::<(), Box<dyn std::error::Error>>(())
    /// ```
    pub fn vmctx_vmtag_definition(&self, defined: u32) -> u32 {
        entry(self.offsets().tags, self.structs().tag_definition.size, defined)
    }

    /// A reference to a function, by its number among the functions that escape.
    ///
    /// ```
    /// # let bytes = std::fs::read(concat!(env!("CARGO_MANIFEST_DIR"), "/../../examples/linked.wasm"))?;
    /// # let options = bobbinazure::Options { cow: true, lazy_tables: true, ..Default::default() };
    /// # let plan = bobbinazure::Plan::new(&bytes, &options)?;
    /// assert_eq!(plan.vmctx_vmfunc_ref(1), plan.offsets().func_refs + plan.structs().func_ref.size);
    /// # Ok::<(), Box<dyn std::error::Error>>(())
    /// ```
    pub fn vmctx_vmfunc_ref(&self, escaping: u32) -> u32 {
        entry(self.offsets().func_refs, self.structs().func_ref.size, escaping)
    }

    /// The pointer to the bytes of a runtime data.
    ///
    /// ```
    /// # let bytes = std::fs::read(concat!(env!("CARGO_MANIFEST_DIR"), "/../../examples/linked.wasm"))?;
    /// # let options = bobbinazure::Options { cow: true, lazy_tables: true, ..Default::default() };
    /// # let plan = bobbinazure::Plan::new(&bytes, &options)?;
    /// assert_eq!(plan.vmctx_runtime_data_base(1), plan.offsets().runtime_data_bases + 8);
    /// # Ok::<(), Box<dyn std::error::Error>>(())
    /// ```
    pub fn vmctx_runtime_data_base(&self, runtime: u32) -> u32 {
        entry(self.offsets().runtime_data_bases, self.pointer_size(), runtime)
    }

    /// The length of a runtime data, a number of 32 bits.
    ///
    /// ```
    /// # let bytes = std::fs::read(concat!(env!("CARGO_MANIFEST_DIR"), "/../../examples/linked.wasm"))?;
    /// # let options = bobbinazure::Options { cow: true, lazy_tables: true, ..Default::default() };
    /// # let plan = bobbinazure::Plan::new(&bytes, &options)?;
    /// assert_eq!(plan.vmctx_runtime_data_length(1), plan.offsets().runtime_data_lengths + 4);
    /// # Ok::<(), Box<dyn std::error::Error>>(())
    /// ```
    pub fn vmctx_runtime_data_length(&self, runtime: u32) -> u32 {
        entry(self.offsets().runtime_data_lengths, 4, runtime)
    }
}
