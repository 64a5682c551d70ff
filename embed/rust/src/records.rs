//! The records that the library fills. Made by embed/generate.

use crate::list::List;
use crate::rows::*;

/// Constant expressions.
#[repr(C)]
#[derive(Default)]
pub(crate) struct ExpressionsRecord {
    /// The part of the operators that each is.
    pub(crate) parts: List<Span>,
    /// The operators of all, end to end.
    pub(crate) operators: List<Operator>,
}

/// The items of element segments.
#[repr(C)]
#[derive(Default)]
pub(crate) struct ElementItemsRecord {
    /// The items of each segment, in order.
    pub(crate) rows: List<Items>,
    /// The items that are functions, by their indices, end to end.
    pub(crate) functions: List<u32>,
    /// The items that are constant expressions, end to end.
    pub(crate) expressions: ExpressionsRecord,
}

/// A plan, or why there is none.
#[repr(C)]
#[derive(Default)]
pub(crate) struct PlanRecord {
    /// Why the module is refused, from [`numbers::MALFORMED`](crate::numbers::MALFORMED) on; 0 of a
    /// plan.
    pub(crate) refusal: u32,
    /// Of an invalid module the rule that it breaks, from 1 to 10; of an unsupported one what is
    /// not supported, from [`numbers::COMPONENT`](crate::numbers::COMPONENT) on.
    pub(crate) refusal_detail: u32,
    /// The line of the refusal, as the program prints it, with its line feed. It is never freed.
    pub(crate) refusal_line: List<u8>,
    /// How many entities there are.
    pub(crate) entities: Entities,
    /// When the startup function runs, from [`numbers::STARTUP_NONE`](crate::numbers::STARTUP_NONE)
    /// on: never, always, or where a memory does not begin as its image. The engine makes that
    /// function.
    pub(crate) startup: u32,
    /// The interned type of the startup function. Read it only where one may run: 0 is a type too.
    pub(crate) startup_type: u32,
    /// Whether memories begin as images. There may be no image all the same.
    pub(crate) images_made: u32,
    /// How many interned types there are.
    pub(crate) types: u32,
    /// The alignment of images, in bytes; 0 where `images_made` is 0.
    pub(crate) data_align: u64,
    /// The index of the start function; `u32::MAX` where there is none.
    pub(crate) start: u32,
    /// Whether a defined table has elements other than references to functions and continuations;
    /// those to i31 count. Where it is 0, imported tables, globals and code may still need a heap.
    pub(crate) needs_gc_heap: u32,
    /// How many functions escape, so that the context has a reference to each.
    pub(crate) escaped_functions: u64,
    /// Where the contents of the code section begin in the module, in bytes; 0 without a code
    /// section.
    pub(crate) code_section_offset: u64,
    /// Where the module begins in the bytes that were read: 0.
    pub(crate) module_offset: u64,
    /// Whether the module has sections of debug information (DWARF), none of which is read.
    pub(crate) has_unparsed_debuginfo: u32,
    /// The bytes of a pointer of the target: 4 or 8.
    pub(crate) pointer: u32,
    /// Where the parts of the context begin. Align a context to 16 bytes.
    pub(crate) context: Context,
    /// The interned type of each type of the type section.
    pub(crate) declared: List<u32>,
    /// The recursion groups of interned types.
    pub(crate) groups: List<Range>,
    /// The interned type of each function, imported ones first.
    pub(crate) functions: List<u32>,
    /// The index of each function among those that escape; `u32::MAX` of one that does not.
    pub(crate) escapes: List<u32>,
    /// The interned types of the functions that escape, each once.
    pub(crate) signatures: List<u32>,
    /// The memories, imported ones first. The next three lists are of the other kinds, likewise.
    pub(crate) memories: List<Memory>,
    pub(crate) tables: List<Table>,
    pub(crate) globals: List<Global>,
    pub(crate) tags: List<Tag>,
    /// The runtime data: images or the bytes of active segments, then those of passive ones.
    pub(crate) runtime: List<Runtime>,
    /// The range of each runtime data; the ranges are end to end from 0. Images have whole pages,
    /// so each of their ranges begins at a multiple of `data_align`.
    pub(crate) runtime_ranges: List<Range>,
    /// The images of memories, by ascending memory.
    pub(crate) images: List<Image>,
    /// What startup writes to memories, in order: data segments, or, where images are made, each of
    /// the images. An engine leaves out an image that it maps.
    pub(crate) segments: List<Segment>,
    /// The passive data segments, by ascending segment.
    pub(crate) passive: List<Passive>,
    /// The image of each defined table, a part of the next list.
    pub(crate) table_images: List<Span>,
    /// Functions by their indices; `u32::MAX` for the null reference.
    pub(crate) cells: List<u32>,
    /// The element segments that remain to be written, in order.
    pub(crate) elements: List<Elements>,
    /// The regions of the context, the last one first.
    pub(crate) regions: List<Region>,
    /// The passive element segments, in order.
    pub(crate) passive_elements: List<PassiveElements>,
    /// The names of functions, ascending, for each the last one. A function has a name only where
    /// it is declared before the section of names; `bobbinazure_names` gives all.
    pub(crate) function_names: List<FunctionName>,
    /// The functions that have an entry in the hints of branches, ascending. The last section
    /// without a fault counts, and in it the first entry of each.
    pub(crate) hints: List<Hints>,
    /// The branch hints, function by function, those of a function in the order of the section.
    pub(crate) branch_hints: List<BranchHint>,
    /// Which segments of the element section are passive, in order.
    pub(crate) passive_segments: List<PassiveSegment>,
    /// The defined globals that begin as a known value.
    pub(crate) global_values: List<GlobalValue>,
    /// The defined globals that begin as the value of an expression, each by its number among the
    /// defined ones.
    pub(crate) expressed_globals: List<u32>,
    /// The expression of each of `expressed_globals`.
    pub(crate) global_expressions: ExpressionsRecord,
    /// The offset of each of `segments`, as an expression; it has no operators where the offset is
    /// planned.
    pub(crate) segment_places: ExpressionsRecord,
    /// The offset of each of `elements`, as an expression.
    pub(crate) element_places: ExpressionsRecord,
    /// The initialiser of each defined table. It has no operators where the table declares none, or
    /// where `lazy_tables` made it an image, even of no cells; plan without that option to
    /// see it.
    pub(crate) table_values: ExpressionsRecord,
    /// The imports, in order.
    pub(crate) imports: List<Import>,
    /// The names of imports, end to end, in UTF-8.
    pub(crate) import_names: List<u8>,
    /// The exports, in order.
    pub(crate) exports: List<Export>,
    /// The names of exports, end to end, in UTF-8.
    pub(crate) export_names: List<u8>,
    /// The module's name, if it has one, a part of `module_text`.
    pub(crate) module_names: List<Span>,
    /// The layouts of the objects of interned types that have some, by ascending type.
    pub(crate) layouts: List<Layout>,
    /// The fields of layouts, end to end.
    pub(crate) layout_fields: List<LayoutField>,
    /// The interned types.
    pub(crate) interned: List<Type>,
    /// The fields of interned types, end to end.
    pub(crate) fields: List<Field>,
    /// The interned types that have a trampoline, in order.
    pub(crate) trampolines: List<Trampoline>,
    /// The text of the module's name, in UTF-8.
    pub(crate) module_text: List<u8>,
    /// The sizes of the structs that compiled code reads, and where their fields begin.
    pub(crate) structs: Structs,
    /// The items of each of `elements`.
    pub(crate) element_items: ElementItemsRecord,
    /// The items of each of `passive_elements`.
    pub(crate) passive_items: ElementItemsRecord,
    /// The body of each defined function, in order.
    pub(crate) bodies: List<Body>,
    /// The locals of bodies, end to end, in runs of one type.
    pub(crate) locals: List<Locals>,
    /// How many functions are imported.
    pub(crate) imported_func_count: u32,
    /// The names of locals from the custom section `name`, by functions and then by locals, as far
    /// as the function is declared before that section; `bobbinazure_names` gives all. This list
    /// and the next two are empty without `native_debug`.
    pub(crate) local_names: List<LocalName>,
    /// The locals of each defined function, a part of the next list. Its parameters are those of
    /// its type, which `functions` names.
    pub(crate) function_metadata: List<Span>,
    /// The locals of functions, end to end, in runs of one interned type.
    pub(crate) metadata_locals: List<Locals>,
}

impl PlanRecord {
    /// Gives back the block of each list.
    ///
    /// # Safety
    /// Nothing borrows a list, and no other record has its block.
    pub(crate) unsafe fn free_lists(&mut self) {
        // SAFETY: as the caller promises.
        unsafe {
            self.declared.free();
            self.groups.free();
            self.functions.free();
            self.escapes.free();
            self.signatures.free();
            self.memories.free();
            self.tables.free();
            self.globals.free();
            self.tags.free();
            self.runtime.free();
            self.runtime_ranges.free();
            self.images.free();
            self.segments.free();
            self.passive.free();
            self.table_images.free();
            self.cells.free();
            self.elements.free();
            self.regions.free();
            self.passive_elements.free();
            self.function_names.free();
            self.hints.free();
            self.branch_hints.free();
            self.passive_segments.free();
            self.global_values.free();
            self.expressed_globals.free();
            self.global_expressions.parts.free();
            self.global_expressions.operators.free();
            self.segment_places.parts.free();
            self.segment_places.operators.free();
            self.element_places.parts.free();
            self.element_places.operators.free();
            self.table_values.parts.free();
            self.table_values.operators.free();
            self.imports.free();
            self.import_names.free();
            self.exports.free();
            self.export_names.free();
            self.module_names.free();
            self.layouts.free();
            self.layout_fields.free();
            self.interned.free();
            self.fields.free();
            self.trampolines.free();
            self.module_text.free();
            self.element_items.rows.free();
            self.element_items.functions.free();
            self.element_items.expressions.parts.free();
            self.element_items.expressions.operators.free();
            self.passive_items.rows.free();
            self.passive_items.functions.free();
            self.passive_items.expressions.parts.free();
            self.passive_items.expressions.operators.free();
            self.bodies.free();
            self.locals.free();
            self.local_names.free();
            self.function_metadata.free();
            self.metadata_locals.free();
        }
    }
}

/// The segments of a module, and what `ref.func` in its bodies may name.
#[repr(C)]
#[derive(Default)]
pub(crate) struct SegmentsRecord {
    /// The data segments, in order.
    pub(crate) data_segments: List<DataSegment>,
    /// The element segments, in order.
    pub(crate) element_segments: List<ElementSegment>,
    /// The items of element segments that are functions, by their indices, end to end.
    pub(crate) functions: List<u32>,
    /// The offset and the items of each element segment, and then the offsets of the data segments.
    /// A type of the module is named by the type section, as in `element`.
    pub(crate) expressions: ExpressionsRecord,
    /// The functions that `ref.func` in a body may name, ascending: those that occur in the module
    /// outside of its bodies and its start function.
    pub(crate) references: List<u32>,
}

/// The text of a plan, or the line of a refusal.
#[repr(C)]
#[derive(Default)]
pub(crate) struct Text {
    /// In UTF-8, without a zero at the end.
    pub(crate) text: List<u8>,
    /// Whether the text is in memory of its own, which `bobbinazure_text_free` frees.
    pub(crate) made: u32,
}

/// What an import is given.
#[repr(C)]
#[derive(Default)]
pub(crate) struct ImportAnswer {
    /// What it is, from [`numbers::GIVEN`](crate::numbers::GIVEN) on: 0 given, 1 missing, 2 a
    /// mismatch.
    pub(crate) answer: u32,
    /// Where it is given, the number of the export, from 0 on; of a mismatch the rule that it
    /// breaks, from [`numbers::MISMATCH_KIND`](crate::numbers::MISMATCH_KIND) on; else 0.
    pub(crate) detail: u32,
    /// The text of a mismatch, without a line feed; else empty. It is never freed.
    pub(crate) line: List<u8>,
}

/// What each import of a module is given, or which module is refused.
#[repr(C)]
#[derive(Default)]
pub(crate) struct LinkRecord {
    /// 1 where the first module is refused, 2 where the second is; 0 where both are planned.
    pub(crate) refused: u32,
    /// Why that module is refused: this field and the next two are those of a plan.
    pub(crate) refusal: u32,
    pub(crate) refusal_detail: u32,
    /// The line of the refusal, as the program prints it, with its line feed. It is never freed.
    pub(crate) refusal_line: List<u8>,
    /// The answer to each import of the second module, in order.
    pub(crate) answers: List<ImportAnswer>,
}

/// A module of a program, and its name.
#[repr(C)]
#[derive(Default)]
pub(crate) struct NamedModule {
    /// The name under which later modules import its exports, in UTF-8.
    pub(crate) name: List<u8>,
    /// The bytes of the module.
    pub(crate) bytes: List<u8>,
}

/// What an import of a program is given.
#[repr(C)]
#[derive(Default)]
pub(crate) struct ProgramAnswer {
    /// What it is, from [`numbers::GIVEN`](crate::numbers::GIVEN) on: 0 given, 1 missing, 2 a
    /// mismatch.
    pub(crate) answer: u32,
    /// Of a mismatch the rule that it breaks, from
    /// [`numbers::MISMATCH_KIND`](crate::numbers::MISMATCH_KIND) on; else 0.
    pub(crate) rule: u32,
    /// Where it is given, the number of the module that exports it, from 0 on; else 0.
    pub(crate) module: usize,
    /// Where it is given, the number of the export in that module, from 0 on; else 0.
    pub(crate) export_number: usize,
    /// The text of a mismatch, without a line feed; else empty. It is never freed.
    pub(crate) line: List<u8>,
}

/// A module of a program that is linked.
#[repr(C)]
#[derive(Clone, Copy, Debug, PartialEq, Eq, Hash, Default)]
pub(crate) struct LinkedModule {
    /// The indices of its interned types, in order, a part of the program's list `types`.
    pub(crate) types: Span,
    /// The answer to each of its imports, in order, a part of the program's list `answers`.
    pub(crate) answers: Span,
    /// How many exports the modules before it have.
    pub(crate) first_export: usize,
}

/// A program of modules that are linked, or why it is refused.
#[repr(C)]
#[derive(Default)]
pub(crate) struct ProgramRecord {
    /// Why the program is refused, from [`numbers::CAUSE_MODULE`](crate::numbers::CAUSE_MODULE) on;
    /// 0 where it is linked.
    pub(crate) cause: u32,
    /// Where the cause is a module, why it is refused: this field and the next two are those of a
    /// plan.
    pub(crate) refusal: u32,
    pub(crate) refusal_detail: u32,
    /// Where the cause is a module, the line of its refusal, with its line feed; else empty. It is
    /// never freed.
    pub(crate) refusal_line: List<u8>,
    /// The number of the module at which the program is refused, from 0 on; 0 where it is linked.
    pub(crate) refused: usize,
    /// The modules, in order.
    pub(crate) modules: List<LinkedModule>,
    /// The index of each interned type in the registry of the call, module by module; another call
    /// counts anew. Two types have one index exactly
    /// where they are equal.
    pub(crate) types: List<u32>,
    /// The answer to each import, module by module.
    pub(crate) answers: List<ProgramAnswer>,
}

/// The names that a module gives.
#[repr(C)]
#[derive(Default)]
pub(crate) struct NameMapsRecord {
    /// In the order of the bytes. Of several for one index, the last one counts.
    pub(crate) entries: List<NameEntry>,
}

/// The sections of a module.
#[repr(C)]
#[derive(Default)]
pub(crate) struct SectionsRecord {
    /// In order, as far as each has an id, a size and all its contents.
    pub(crate) sections: List<Section>,
}
