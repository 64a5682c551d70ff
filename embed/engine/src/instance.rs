//! An instance: its region, and where its entities are defined.

use crate::region::{Region, load};
use crate::template::Template;
use bobbinazure::Plan;

/// An instance. Those that it imports from stay as long as its store.
#[derive(Debug)]
pub(crate) struct Instance<'t> {
    pub(crate) template: &'t Template<'t>,
    pub(crate) region: Region,
    /// The items of its passive element segments.
    pub(crate) passive: Vec<Vec<u64>>,
}

/// Where a table, a memory, a global or a tag is defined, as an import says it.
#[derive(Clone, Copy, Debug)]
pub(crate) struct Definition {
    /// The address of its definition.
    pub(crate) from: usize,
    /// The address of the context that has it.
    pub(crate) vmctx: usize,
    /// Its number there.
    pub(crate) index: u32,
}

/// How a function is called.
#[derive(Clone, Copy, Debug)]
pub(crate) struct Callee {
    pub(crate) wasm_call: usize,
    pub(crate) array_call: usize,
    pub(crate) vmctx: usize,
}

impl Instance<'_> {
    pub(crate) fn plan(&self) -> &Plan<'_> {
        self.template.plan()
    }

    /// The address of its context.
    pub(crate) fn context(&self) -> usize {
        self.region.address(0)
    }

    fn defined(&self, offset: u32, index: u32) -> Definition {
        Definition { from: self.region.address(offset as usize), vmctx: self.context(), index }
    }

    /// What stands at these offsets of an import, in bytes.
    fn imported(&self, import: u32, from: u32, vmctx: u32, index: u32) -> Definition {
        let at = |field: u32| (import + field) as usize;
        let (from, vmctx) = (self.region.get(at(from)), self.region.get(at(vmctx)));
        Definition { from, vmctx, index: self.region.get(at(index)) }
    }

    pub(crate) fn table(&self, index: u32) -> Definition {
        let (plan, layout) = (self.plan(), self.plan().structs().table_import);
        match index.checked_sub(plan.entities().imported_tables as u32) {
            Some(defined) => self.defined(plan.vmctx_vmtable_definition(defined), defined),
            None => self.imported(plan.vmctx_vmtable_import(index), layout.from, layout.vmctx, layout.index),
        }
    }

    pub(crate) fn memory(&self, index: u32) -> Definition {
        let (plan, layout) = (self.plan(), self.plan().structs().memory_import);
        match index.checked_sub(plan.entities().imported_memories as u32) {
            Some(defined) => self.defined(plan.vmctx_vmmemory_definition(defined), defined),
            None => self.imported(plan.vmctx_vmmemory_import(index), layout.from, layout.vmctx, layout.index),
        }
    }

    pub(crate) fn global(&self, index: u32) -> Definition {
        let (plan, layout) = (self.plan(), self.plan().structs().global_import);
        match index.checked_sub(plan.entities().imported_globals as u32) {
            Some(defined) => self.defined(plan.vmctx_vmglobal_definition(defined), defined),
            // The kind is two numbers, of which the second is the index.
            None => {
                self.imported(plan.vmctx_vmglobal_import(index), layout.from, layout.vmctx, layout.kind + 4)
            }
        }
    }

    pub(crate) fn tag(&self, index: u32) -> Definition {
        let (plan, layout) = (self.plan(), self.plan().structs().tag_import);
        match index.checked_sub(plan.entities().imported_tags as u32) {
            Some(defined) => self.defined(plan.vmctx_vmtag_definition(defined), defined),
            None => self.imported(plan.vmctx_vmtag_import(index), layout.from, layout.vmctx, layout.index),
        }
    }

    pub(crate) fn function(&self, index: u32) -> Callee {
        let (plan, layout) = (self.plan(), self.plan().structs().function_import);
        match index.checked_sub(plan.entities().imported_functions as u32) {
            Some(defined) => {
                let code = self.template.codes[defined as usize];
                Callee { wasm_call: code, array_call: code, vmctx: self.context() }
            }
            None => {
                let get = |field| self.region.get((plan.vmctx_vmfunction_import(index) + field) as usize);
                let (wasm_call, array_call) = (get(layout.wasm_call), get(layout.array_call));
                Callee { wasm_call, array_call, vmctx: get(layout.vmctx) }
            }
        }
    }

    /// The reference to a function that escapes: what a cell or a global holds of it.
    pub(crate) fn func_ref(&self, function: u32) -> u64 {
        let number = self.plan().function(function).and_then(|function| function.func_ref);
        number.map_or(0, |number| self.region.address(self.plan().vmctx_vmfunc_ref(number) as usize) as u64)
    }

    /// The address of the first cell of a table, and how many it has.
    pub(crate) fn cells(&self, table: u32) -> (usize, usize) {
        let (layout, from) = (self.plan().structs().table_definition, self.table(table).from);
        // SAFETY: the definition is this context's, or that of an instance that stays as long as the store.
        unsafe { (load(from + layout.base as usize), load(from + layout.current_elements as usize)) }
    }

    /// The address of the first byte of a memory, and how many it has.
    pub(crate) fn bytes(&self, memory: u32) -> (usize, usize) {
        let (layout, from) = (self.plan().structs().memory_definition, self.memory(memory).from);
        // SAFETY: as of `cells`.
        unsafe { (load(from + layout.base as usize), load(from + layout.current_length as usize)) }
    }

    /// The address and the length of a runtime data.
    pub(crate) fn runtime_data(&self, runtime: u32) -> (usize, usize) {
        let length: u32 = self.region.get(self.plan().vmctx_runtime_data_length(runtime) as usize);
        (self.region.get(self.plan().vmctx_runtime_data_base(runtime) as usize), length as usize)
    }

    /// The engine's index of the type of a tag.
    pub(crate) fn tag_type(&self, tag: u32) -> u32 {
        let layout = self.plan().structs().tag_definition;
        // SAFETY: as of `cells`.
        unsafe { load(self.tag(tag).from + layout.type_index as usize) }
    }

    /// The bits of a global: a number or a vector, or a reference as in a cell.
    pub(crate) fn value(&self, global: u32) -> u128 {
        let storage = self.plan().structs().global_definition.storage as usize;
        // SAFETY: as of `cells`.
        unsafe { load(self.global(global).from + storage) }
    }
}
