//! What the context of an instance holds before its startup: all that compiled code reads, at the
//! plan's offsets.

use crate::instance::{Callee, Definition, Instance};
use crate::links::Linked;
use bobbinazure::EntityIndex;

/// The number by which a context is known.
const MAGIC: u32 = u32::from_le_bytes(*b"core");

impl Instance<'_> {
    /// Writes the context. What only running code reads stays null: the store, the built-in
    /// functions, the epoch and the collector.
    pub(crate) fn write_context(&self, linked: &Linked<'_>, exporters: &[&Instance<'_>]) {
        let layout = self.plan().structs().static_context;
        self.region.put(layout.magic as usize, MAGIC);
        self.region.put(layout.type_ids as usize, self.template.types.as_ptr().expose_provenance());
        for (import, (exporter, export)) in self.plan().imports().zip(&linked.given) {
            self.write_import(import.index, exporters[*exporter], *export);
        }
        self.write_tables();
        self.write_memories();
        self.write_tags();
        self.write_func_refs();
        self.write_passive_data();
    }

    fn write_import(&self, import: EntityIndex, exporter: &Instance<'_>, export: EntityIndex) {
        let (plan, structs) = (self.plan(), self.plan().structs());
        match (import, export) {
            (EntityIndex::Function(index), EntityIndex::Function(export)) => {
                self.write_callee(plan.vmctx_vmfunction_import(index), exporter.function(export));
            }
            (EntityIndex::Table(index), EntityIndex::Table(export)) => {
                let (at, layout) = (plan.vmctx_vmtable_import(index), structs.table_import);
                self.write_definition(at, [layout.from, layout.vmctx, layout.index], exporter.table(export));
            }
            (EntityIndex::Memory(index), EntityIndex::Memory(export)) => {
                let (at, layout) = (plan.vmctx_vmmemory_import(index), structs.memory_import);
                self.write_definition(at, [layout.from, layout.vmctx, layout.index], exporter.memory(export));
            }
            (EntityIndex::Global(index), EntityIndex::Global(export)) => {
                let (at, layout) = (plan.vmctx_vmglobal_import(index), structs.global_import);
                self.write_definition(
                    at,
                    [layout.from, layout.vmctx, layout.kind + 4],
                    exporter.global(export),
                );
            }
            (EntityIndex::Tag(index), EntityIndex::Tag(export)) => {
                let (at, layout) = (plan.vmctx_vmtag_import(index), structs.tag_import);
                self.write_definition(at, [layout.from, layout.vmctx, layout.index], exporter.tag(export));
            }
            _ => {} // an export of another kind matches no import
        }
    }

    fn write_callee(&self, at: u32, callee: Callee) {
        let layout = self.plan().structs().function_import;
        self.region.put((at + layout.wasm_call) as usize, callee.wasm_call);
        self.region.put((at + layout.array_call) as usize, callee.array_call);
        self.region.put((at + layout.vmctx) as usize, callee.vmctx);
    }

    fn write_definition(&self, at: u32, [from, vmctx, index]: [u32; 3], definition: Definition) {
        self.region.put((at + from) as usize, definition.from);
        self.region.put((at + vmctx) as usize, definition.vmctx);
        self.region.put((at + index) as usize, definition.index);
    }

    fn write_tables(&self) {
        let layout = self.plan().structs().table_definition;
        for (defined, place) in (0..).zip(&self.template.layout.tables) {
            let at = self.plan().vmctx_vmtable_definition(defined);
            self.region.put((at + layout.base) as usize, self.region.address(place.begin));
            self.region.put((at + layout.current_elements) as usize, place.cells);
        }
    }

    /// No memory is shared: the definition of each stands in the context, and its pointer leads there.
    fn write_memories(&self) {
        let layout = self.plan().structs().memory_definition;
        for (defined, place) in (0..).zip(&self.template.layout.memories) {
            let at = self.plan().vmctx_vmmemory_definition(defined);
            self.region.put((at + layout.base) as usize, self.region.address(place.begin));
            self.region.put((at + layout.current_length) as usize, place.len);
            let pointer = self.plan().vmctx_vmmemory_pointer(defined);
            self.region.put(pointer as usize, self.region.address(at as usize));
        }
    }

    fn write_tags(&self) {
        let layout = self.plan().structs().tag_definition;
        let imported = self.plan().entities().imported_tags as usize;
        for (defined, tag) in (0..).zip(&self.plan().tags()[imported..]) {
            let at = self.plan().vmctx_vmtag_definition(defined) + layout.type_index;
            self.region.put(at as usize, self.template.types[tag.signature as usize]);
        }
    }

    fn write_func_refs(&self) {
        let layout = self.plan().structs().func_ref;
        for function in self.plan().functions() {
            let Some(number) = function.func_ref else { continue };
            let (at, callee) = (self.plan().vmctx_vmfunc_ref(number), self.function(function.index));
            self.region.put((at + layout.array_call) as usize, callee.array_call);
            self.region.put((at + layout.wasm_call) as usize, callee.wasm_call);
            self.region
                .put((at + layout.type_index) as usize, self.template.types[function.signature as usize]);
            self.region.put((at + layout.vmctx) as usize, callee.vmctx);
        }
    }

    /// What `memory.init` reads. The length of other data stays 0: an active segment is dropped
    /// when it is written.
    fn write_passive_data(&self) {
        for data in self.plan().passive_data() {
            let address = data.bytes.as_ptr().expose_provenance();
            self.region.put(self.plan().vmctx_runtime_data_base(data.runtime) as usize, address);
            let length = self.plan().vmctx_runtime_data_length(data.runtime);
            self.region.put(length as usize, data.bytes.len() as u32);
        }
    }
}
