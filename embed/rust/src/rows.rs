//! The rows of a plan's tables. Made by embed/generate.

use crate::list::List;

/// What a caller may choose; of a flag 0 is no.
#[repr(C)]
#[derive(Clone, Copy, Debug, PartialEq, Eq, Hash)]
pub struct Options {
    /// Whether memories begin as images. One active data segment that does not allow it prevents
    /// all images. A module can otherwise require `max_image` bytes with each memory that it
    /// defines, in some fifteen bytes of its own.
    pub cow: bool,
    /// Whether tables begin as images, as far as their elements allow it.
    /// A module can then require 1,048,576 cells of four bytes with each table that it defines, in
    /// ten bytes of its own.
    pub lazy_tables: bool,
    /// Whether hints of branches are read.
    pub branch_hints: bool,
    /// Whether names of locals and the metadata of functions are kept too.
    pub native_debug: bool,
    /// Whether references can be made to every function.
    pub guest_debug: bool,
    /// The bytes of a pointer of the target: 4 or 8.
    pub pointer: u8,
    /// How objects are collected: 0 by counts (drc), 1 not at all (null).
    pub collector: u8,
    /// The page size of images, in bytes: a power of two.
    pub page_size: u64,
    /// Data of a memory with this extent or more, in bytes, must fill more than half of it; else no
    /// memory begins as an image.
    pub max_image: u64,
}

impl Options {
    /// Each field is zero.
    pub(crate) const ZERO: Options = Options {
        cow: false,
        lazy_tables: false,
        branch_hints: false,
        native_debug: false,
        guest_debug: false,
        pointer: 0,
        collector: 0,
        page_size: 0,
        max_image: 0,
    };

    /// Each flag, by the program's word for it.
    pub const FLAGS: [(&'static str, fn(&mut Options) -> &mut bool); 5] = [
        ("--cow", |options| &mut options.cow),
        ("--lazy-tables", |options| &mut options.lazy_tables),
        ("--branch-hints", |options| &mut options.branch_hints),
        ("--native-debug", |options| &mut options.native_debug),
        ("--guest-debug", |options| &mut options.guest_debug),
    ];
}

/// How many entities of each kind there are, imported ones among them, and how many are
/// imported.
#[repr(C)]
#[derive(Clone, Copy, Debug, PartialEq, Eq, Hash, Default)]
pub struct Entities {
    /// All functions.
    pub functions: u64,
    /// Those that are imported; they come first.
    pub imported_functions: u64,
    /// All tables.
    pub tables: u64,
    /// Those that are imported.
    pub imported_tables: u64,
    /// All memories.
    pub memories: u64,
    /// Those that are imported.
    pub imported_memories: u64,
    /// All globals.
    pub globals: u64,
    /// Those that are imported.
    pub imported_globals: u64,
    /// All tags.
    pub tags: u64,
    /// Those that are imported.
    pub imported_tags: u64,
}

/// Where the parts of a context begin, in bytes. A part has an entry for each thing that it is of,
/// in order: a struct of `structs`, a pointer or a number. Those of `func_refs` are numbered by
/// `escapes`.
#[repr(C)]
#[derive(Clone, Copy, Debug, PartialEq, Eq, Hash, Default)]
pub struct Context {
    /// The size of the complete context.
    pub size: u32,
    /// The imported memories, each a `memory_import`.
    pub imported_memories: u32,
    /// The defined memories, each a pointer to its definition.
    pub memories: u32,
    /// The owned memories, each a `memory_definition`: the defined ones that are not shared.
    pub owned_memories: u32,
    /// The imported functions, each a `function_import`.
    pub imported_functions: u32,
    /// The imported tables, each a `table_import`.
    pub imported_tables: u32,
    /// The imported globals, each a `global_import`.
    pub imported_globals: u32,
    /// The imported tags, each a `tag_import`.
    pub imported_tags: u32,
    /// The defined tables, each a `table_definition`.
    pub tables: u32,
    /// The defined globals, each a `global_definition` of 16 bytes.
    pub globals: u32,
    /// The defined tags, each a `tag_definition`.
    pub tags: u32,
    /// The module functions, each a `func_ref`: those that escape.
    pub func_refs: u32,
    /// The runtime data base pointers, each a pointer to bytes.
    pub runtime_data_bases: u32,
    /// The runtime data lengths, each a number of 4 bytes: a length in bytes.
    pub runtime_data_lengths: u32,
    /// The reference to the startup function, a `func_ref` behind `func_refs`; `u32::MAX` where
    /// there is none.
    pub startup_func_ref: u32,
}

/// From one number up to another, the second not included.
#[repr(C)]
#[derive(Clone, Copy, Debug, PartialEq, Eq, Hash, Default)]
pub struct Range {
    /// The first number.
    pub begin: u32,
    /// The number behind the last one.
    pub end: u32,
}

/// A part of a list of the plan.
#[repr(C)]
#[derive(Clone, Copy, Debug, PartialEq, Eq, Hash, Default)]
pub struct Span {
    /// The number of its first item.
    pub begin: usize,
    /// How many items it has.
    pub len: usize,
}

/// The type of a value or a field.
#[repr(C)]
#[derive(Clone, Copy, Debug, PartialEq, Eq, Hash, Default)]
pub struct Value {
    /// What it is, from [`numbers::I32`](crate::numbers::I32) on: 0 to 4 a number or a vector, 5 a
    /// reference, 6 and 7 a packed integer.
    pub kind: u8,
    /// Whether the reference may be null.
    pub nullable: bool,
    /// What the reference is to, from [`numbers::HEAP_EXTERN`](crate::numbers::HEAP_EXTERN) on.
    pub heap: u8,
    /// Which list the index is of, from [`numbers::NO_INDEX`](crate::numbers::NO_INDEX) on.
    pub list: u8,
    /// The index of the type that the reference is to; 0 where it has none.
    pub index: u32,
}

/// A memory.
#[repr(C)]
#[derive(Clone, Copy, Debug, PartialEq, Eq, Hash, Default)]
pub struct Memory {
    /// The least size, in pages.
    pub minimum: u64,
    /// The greatest size, in pages; `u64::MAX` where none is declared.
    pub maximum: u64,
    /// The least size, in bytes; `u64::MAX` where it has more bytes than that.
    pub minimum_bytes: u64,
    /// The greatest size, in bytes; `u64::MAX` where it has more bytes than that. Without a
    /// greatest size in pages it is what addresses reach (2^32, or a page less than 2^64), or the
    /// least size if that is more.
    pub maximum_bytes: u64,
    /// The page size as an exponent of 2: 0 or 16.
    pub page_size_log2: u8,
    /// Whether threads may share it.
    pub shared: bool,
    /// Whether addresses have 64 bits.
    pub wide: bool,
    /// Whether a greatest size is declared, which may be `u64::MAX` too.
    pub bounded: bool,
}

/// A table.
#[repr(C)]
#[derive(Clone, Copy, Debug, PartialEq, Eq, Hash, Default)]
pub struct Table {
    /// The least size, in cells.
    pub minimum: u64,
    /// The greatest size, in cells; `u64::MAX` where none is declared.
    pub maximum: u64,
    /// The type of its elements, a reference.
    pub element: Value,
    /// Whether indices have 64 bits.
    pub wide: u32,
    /// Whether a greatest size is declared, which may be `u64::MAX` too.
    pub bounded: u32,
}

/// A global.
#[repr(C)]
#[derive(Clone, Copy, Debug, PartialEq, Eq, Hash, Default)]
pub struct Global {
    /// The type of its value.
    pub value: Value,
    /// Whether it is mutable.
    pub writable: u32,
}

/// A tag.
#[repr(C)]
#[derive(Clone, Copy, Debug, PartialEq, Eq, Hash, Default)]
pub struct Tag {
    /// The interned type of its function.
    pub signature: u32,
    /// The interned type of its exceptions.
    pub exception: u32,
}

/// The image of a memory.
#[repr(C)]
#[derive(Clone, Copy, Debug, PartialEq, Eq, Hash, Default)]
pub struct Image {
    /// The memory, by its index.
    pub memory: u32,
    /// The runtime data that holds it.
    pub runtime: u32,
    /// Its address in the memory, in bytes: a multiple of `data_align`, as its length is.
    pub offset: u64,
}

/// A data segment that remains to be written. One of kind
/// [`numbers::AT_BYTE`](crate::numbers::AT_BYTE) is an image, which is among `images` too.
#[repr(C)]
#[derive(Clone, Copy, Debug, PartialEq, Eq, Hash, Default)]
pub struct Segment {
    /// The memory that it writes, by its index.
    pub memory: u32,
    /// The runtime data that it writes.
    pub runtime: u32,
    /// How `offset` gives its address, from [`numbers::AT_BYTE`](crate::numbers::AT_BYTE) on: 0 as
    /// a planned address, 1 as a constant, 2 as a global, 3 not at all.
    pub kind: u32,
    /// The address in bytes, or the index of the global that holds it; 0 where another expression
    /// gives it.
    pub offset: u64,
}

/// A passive data segment, also an empty one.
#[repr(C)]
#[derive(Clone, Copy, Debug, PartialEq, Eq, Hash, Default)]
pub struct Passive {
    /// Its number in the data section.
    pub segment: u32,
    /// The runtime data that holds its bytes.
    pub runtime: u32,
}

/// An element segment that remains to be written.
#[repr(C)]
#[derive(Clone, Copy, Debug, PartialEq, Eq, Hash, Default)]
pub struct Elements {
    /// The table that it writes.
    pub table: u32,
    /// How `offset` gives its cell, as of a data segment; never 0.
    pub kind: u32,
    /// The cell at which it begins, or the index of the global that holds it; 0 where another
    /// expression gives it.
    pub offset: u64,
    /// How many elements it has.
    pub count: u64,
}

/// The items of an element segment, of which one of the two lists is empty.
#[repr(C)]
#[derive(Clone, Copy, Debug, PartialEq, Eq, Hash, Default)]
pub struct Items {
    /// The type of each item, a reference.
    pub element: Value,
    /// The items that are functions, a part of `functions` of the list of items.
    pub functions: Span,
    /// The items that are constant expressions, a part of `expressions.parts` of the same list.
    pub expressions: Span,
}

/// Locals of one type.
#[repr(C)]
#[derive(Clone, Copy, Debug, PartialEq, Eq, Hash, Default)]
pub struct Locals {
    /// How many there are.
    pub count: u32,
    /// Their type. In `locals` a type of the module is named by the type section: `list` is
    /// [`numbers::OF_SECTION`](crate::numbers::OF_SECTION), and `heap` is
    /// [`numbers::HEAP_DECLARED`](crate::numbers::HEAP_DECLARED). In `metadata_locals` it is an
    /// interned type.
    pub value: Value,
}

/// An operator of a constant expression.
#[repr(C)]
#[derive(Clone, Copy, Debug, PartialEq, Eq, Hash, Default)]
pub struct Operator {
    /// Which one, from [`numbers::I32_CONST`](crate::numbers::I32_CONST) on.
    pub code: u8,
    /// What a null reference is to, from [`numbers::HEAP_EXTERN`](crate::numbers::HEAP_EXTERN) on.
    pub heap: u8,
    /// Which list the index of a null reference is of, from
    /// [`numbers::NO_INDEX`](crate::numbers::NO_INDEX) on.
    pub list: u8,
    /// The global, the function or the type that it names. An operator that makes an object names
    /// its type by the type section; a null reference by `list`.
    pub index: u32,
    /// The bits of a constant, of a vector the lower half; of `array.new_fixed` the number of
    /// elements.
    pub low: u64,
    /// The upper half of the bits of a vector.
    pub high: u64,
}

/// A defined global that begins as a known value.
#[repr(C)]
#[derive(Clone, Copy, Debug, PartialEq, Eq, Hash, Default)]
pub struct GlobalValue {
    /// The global, by its number among the defined ones.
    pub global: u32,
    /// The constant that makes the value: a number or a vector.
    pub value: Operator,
}

/// How many hints of branches a function has.
#[repr(C)]
#[derive(Clone, Copy, Debug, PartialEq, Eq, Hash, Default)]
pub struct Hints {
    /// The function, by its index.
    pub function: u32,
    /// How many hints it has.
    pub count: u64,
}

/// A branch hint.
#[repr(C)]
#[derive(Clone, Copy, Debug, PartialEq, Eq, Hash, Default)]
pub struct BranchHint {
    /// The function, by its index. Hints of a function that the module has not are left out;
    /// nothing checks the offset.
    pub function: u32,
    /// Where the branch is, in bytes from the beginning of the function's body, which begins with
    /// its locals.
    pub offset: u32,
    /// Whether it is likely to be taken.
    pub taken: u32,
}

/// Which passive element segment a segment of the module is.
#[repr(C)]
#[derive(Clone, Copy, Debug, PartialEq, Eq, Hash, Default)]
pub struct PassiveSegment {
    /// Its number in the element section.
    pub segment: u32,
    /// Its index among the passive ones: in `passive_elements`, and in `passive_items`.
    pub passive: u32,
}

/// A passive element segment.
#[repr(C)]
#[derive(Clone, Copy, Debug, PartialEq, Eq, Hash, Default)]
pub struct PassiveElements {
    /// The type of its elements, a reference.
    pub element: Value,
    /// How many elements it has.
    pub count: u64,
}

/// An import.
#[repr(C)]
#[derive(Clone, Copy, Debug, PartialEq, Eq, Hash, Default)]
pub struct Import {
    /// The kind of its entity, from [`numbers::FUNCTION`](crate::numbers::FUNCTION) on.
    pub kind: u32,
    /// The index of its entity, among those of its kind.
    pub index: u32,
    /// The name of the module that it comes from, a part of `import_names`.
    pub from: Span,
    /// Its name there, a part of `import_names`.
    pub name: Span,
}

/// An export.
#[repr(C)]
#[derive(Clone, Copy, Debug, PartialEq, Eq, Hash, Default)]
pub struct Export {
    /// The kind of its entity, from [`numbers::FUNCTION`](crate::numbers::FUNCTION) on.
    pub kind: u32,
    /// The index of its entity, among those of its kind.
    pub index: u32,
    /// Its name, a part of `export_names`.
    pub name: Span,
}

/// The layout of the objects of an interned type.
#[repr(C)]
#[derive(Clone, Copy, Debug, PartialEq, Eq, Hash, Default)]
pub struct Layout {
    /// The interned type.
    pub ty: u32,
    /// What its objects are, from [`numbers::ARRAY_OBJECT`](crate::numbers::ARRAY_OBJECT) on: 0 an
    /// array, 1 a struct, 2 an exception.
    pub kind: u32,
    /// The size of an object in bytes; of an array, the bytes before its elements.
    pub size: u32,
    /// The alignment of an object, in bytes.
    pub align: u32,
    /// The bytes of an element of an array.
    pub element: u32,
    /// Whether the collector follows the elements of an array, as `is_ref` of a field.
    pub refs: u32,
    /// Its fields, a part of `layout_fields`.
    pub fields: Span,
}

/// A field of a layout.
#[repr(C)]
#[derive(Clone, Copy, Debug, PartialEq, Eq, Hash, Default)]
pub struct LayoutField {
    /// Where in the object it begins, in bytes.
    pub offset: u32,
    /// Whether the collector follows it: a reference, but not to `i31`, functions or continuations.
    /// Any reference has four bytes.
    pub is_ref: u32,
}

/// An interned type.
#[repr(C)]
#[derive(Clone, Copy, Debug, PartialEq, Eq, Hash, Default)]
pub struct Type {
    /// What it is, from [`numbers::ARRAY`](crate::numbers::ARRAY) on: 0 an array, 1 a function, 2 a
    /// struct, 3 a continuation, 4 an exception.
    pub kind: u8,
    /// Whether it can have no subtypes.
    pub is_final: bool,
    /// Whether threads may share what is of it.
    pub shared: bool,
    /// Which list the supertype is of, from [`numbers::NO_INDEX`](crate::numbers::NO_INDEX) on,
    /// which says that there is none.
    pub supertype_list: u8,
    /// Which list the function type is of, from [`numbers::NO_INDEX`](crate::numbers::NO_INDEX) on,
    /// which says that there is none.
    pub function_list: u8,
    /// The supertype.
    pub supertype: u32,
    /// The function type of a continuation or an exception.
    pub function: u32,
    /// Its fields, or its parameters and then its results: a part of the plan's `fields`.
    pub fields: Span,
    /// How many of them are results.
    pub results: usize,
}

/// A field, a parameter or a result.
#[repr(C)]
#[derive(Clone, Copy, Debug, PartialEq, Eq, Hash, Default)]
pub struct Field {
    /// The type of its value.
    pub value: Value,
    /// Whether it is mutable; 0 of a parameter or a result.
    pub writable: u32,
}

/// An interned type that has a trampoline.
#[repr(C)]
#[derive(Clone, Copy, Debug, PartialEq, Eq, Hash, Default)]
pub struct Trampoline {
    /// The interned type.
    pub ty: u32,
    /// The interned type of its trampoline.
    pub trampoline: u32,
}

/// Where the fields of an imported function begin,
/// and their sizes, in bytes.
#[repr(C)]
#[derive(Clone, Copy, Debug, PartialEq, Eq, Hash, Default)]
pub struct FunctionImportLayout {
    /// Its size.
    pub size: u32,
    /// The pointer to its code for calls from compiled code.
    pub wasm_call: u32,
    /// The size of `wasm_call`.
    pub wasm_call_size: u32,
    /// The pointer to its code for calls with an array of values.
    pub array_call: u32,
    /// The size of `array_call`.
    pub array_call_size: u32,
    /// The pointer to its context.
    pub vmctx: u32,
    /// The size of `vmctx`.
    pub vmctx_size: u32,
}

/// Where the fields of an imported table begin,
/// and their sizes, in bytes.
#[repr(C)]
#[derive(Clone, Copy, Debug, PartialEq, Eq, Hash, Default)]
pub struct TableImportLayout {
    /// Its size.
    pub size: u32,
    /// The pointer to its definition.
    pub from: u32,
    /// The size of `from`.
    pub from_size: u32,
    /// The pointer to the context that has it.
    pub vmctx: u32,
    /// The size of `vmctx`.
    pub vmctx_size: u32,
    /// Its index in that context.
    pub index: u32,
    /// The size of `index`.
    pub index_size: u32,
}

/// Where the fields of an imported memory begin,
/// and their sizes, in bytes.
#[repr(C)]
#[derive(Clone, Copy, Debug, PartialEq, Eq, Hash, Default)]
pub struct MemoryImportLayout {
    /// Its size.
    pub size: u32,
    /// The pointer to its definition.
    pub from: u32,
    /// The size of `from`.
    pub from_size: u32,
    /// The pointer to the context that has it.
    pub vmctx: u32,
    /// The size of `vmctx`.
    pub vmctx_size: u32,
    /// Its index in that context.
    pub index: u32,
    /// The size of `index`.
    pub index_size: u32,
}

/// Where the fields of an imported tag begin,
/// and their sizes, in bytes.
#[repr(C)]
#[derive(Clone, Copy, Debug, PartialEq, Eq, Hash, Default)]
pub struct TagImportLayout {
    /// Its size.
    pub size: u32,
    /// The pointer to its definition.
    pub from: u32,
    /// The size of `from`.
    pub from_size: u32,
    /// The pointer to the context that has it.
    pub vmctx: u32,
    /// The size of `vmctx`.
    pub vmctx_size: u32,
    /// Its index in that context.
    pub index: u32,
    /// The size of `index`.
    pub index_size: u32,
}

/// Where the fields of an imported global begin,
/// and their sizes, in bytes.
#[repr(C)]
#[derive(Clone, Copy, Debug, PartialEq, Eq, Hash, Default)]
pub struct GlobalImportLayout {
    /// Its size.
    pub size: u32,
    /// The pointer to its definition.
    pub from: u32,
    /// The size of `from`.
    pub from_size: u32,
    /// The pointer to the context that has it.
    pub vmctx: u32,
    /// The size of `vmctx`.
    pub vmctx_size: u32,
    /// What that context is, a number of 32 bits of the engine's choice, and a payload of 32 bits.
    pub kind: u32,
    /// The size of `kind`.
    pub kind_size: u32,
}

/// Where the fields of a memory begin,
/// and their sizes, in bytes.
#[repr(C)]
#[derive(Clone, Copy, Debug, PartialEq, Eq, Hash, Default)]
pub struct MemoryDefinitionLayout {
    /// Its size.
    pub size: u32,
    /// The pointer to its first byte.
    pub base: u32,
    /// The size of `base`.
    pub base_size: u32,
    /// The number of its bytes, as wide as a pointer.
    pub current_length: u32,
    /// The size of `current_length`.
    pub current_length_size: u32,
}

/// Where the fields of a table begin,
/// and their sizes, in bytes.
#[repr(C)]
#[derive(Clone, Copy, Debug, PartialEq, Eq, Hash, Default)]
pub struct TableDefinitionLayout {
    /// Its size.
    pub size: u32,
    /// The pointer to its first cell.
    pub base: u32,
    /// The size of `base`.
    pub base_size: u32,
    /// The number of its cells, as wide as a pointer.
    pub current_elements: u32,
    /// The size of `current_elements`.
    pub current_elements_size: u32,
}

/// Where the fields of a global begin,
/// and their sizes, in bytes.
#[repr(C)]
#[derive(Clone, Copy, Debug, PartialEq, Eq, Hash, Default)]
pub struct GlobalDefinitionLayout {
    /// Its size.
    pub size: u32,
    /// Its value, in 16 bytes.
    pub storage: u32,
    /// The size of `storage`.
    pub storage_size: u32,
}

/// Where the fields of a tag begin,
/// and their sizes, in bytes.
#[repr(C)]
#[derive(Clone, Copy, Debug, PartialEq, Eq, Hash, Default)]
pub struct TagDefinitionLayout {
    /// Its size.
    pub size: u32,
    /// Its type, by the index of the engine.
    pub type_index: u32,
    /// The size of `type_index`.
    pub type_index_size: u32,
}

/// Where the fields of a reference to a function begin,
/// and their sizes, in bytes.
#[repr(C)]
#[derive(Clone, Copy, Debug, PartialEq, Eq, Hash, Default)]
pub struct FuncRefLayout {
    /// Its size.
    pub size: u32,
    /// The pointer to its code for calls with an array of values.
    pub array_call: u32,
    /// The size of `array_call`.
    pub array_call_size: u32,
    /// The pointer to its code for calls from compiled code.
    pub wasm_call: u32,
    /// The size of `wasm_call`.
    pub wasm_call_size: u32,
    /// Its type, by the index of the engine.
    pub type_index: u32,
    /// The size of `type_index`.
    pub type_index_size: u32,
    /// The pointer to its context.
    pub vmctx: u32,
    /// The size of `vmctx`.
    pub vmctx_size: u32,
}

/// Where the fields of the context of a store begin,
/// and their sizes, in bytes.
#[repr(C)]
#[derive(Clone, Copy, Debug, PartialEq, Eq, Hash, Default)]
pub struct StoreContextLayout {
    /// Its size.
    pub size: u32,
    /// The fuel that was consumed.
    pub fuel_consumed: u32,
    /// The size of `fuel_consumed`.
    pub fuel_consumed_size: u32,
    /// The deadline, a number of epochs.
    pub epoch_deadline: u32,
    /// The size of `epoch_deadline`.
    pub epoch_deadline_size: u32,
    /// The limit of the stack.
    pub stack_limit: u32,
    /// The size of `stack_limit`.
    pub stack_limit_size: u32,
    /// The memory of the collected heap, as `memory_definition`.
    pub gc_heap: u32,
    /// The size of `gc_heap`.
    pub gc_heap_size: u32,
    /// The frame pointer of the last trampoline out of compiled code.
    pub last_wasm_exit_trampoline_fp: u32,
    /// The size of `last_wasm_exit_trampoline_fp`.
    pub last_wasm_exit_trampoline_fp_size: u32,
}

/// Where the fields of the part of a context that all modules have begin,
/// and their sizes, in bytes.
#[repr(C)]
#[derive(Clone, Copy, Debug, PartialEq, Eq, Hash, Default)]
pub struct StaticContextLayout {
    /// Where what depends on the module begins.
    pub size: u32,
    /// The number by which the engine recognises a context, of its choice.
    pub magic: u32,
    /// The size of `magic`.
    pub magic_size: u32,
    /// The pointer to the context of the store.
    pub store_context: u32,
    /// The size of `store_context`.
    pub store_context_size: u32,
    /// The pointer to the built-in functions.
    pub builtin_functions: u32,
    /// The size of `builtin_functions`.
    pub builtin_functions_size: u32,
    /// The pointer to the current epoch.
    pub epoch_ptr: u32,
    /// The size of `epoch_ptr`.
    pub epoch_ptr_size: u32,
    /// The pointer to the data of the collector.
    pub gc_heap_data: u32,
    /// The size of `gc_heap_data`.
    pub gc_heap_data_size: u32,
    /// The pointer to the indices of the types.
    pub type_ids: u32,
    /// The size of `type_ids`.
    pub type_ids_size: u32,
}

/// The structs that compiled code reads.
#[repr(C)]
#[derive(Clone, Copy, Debug, PartialEq, Eq, Hash, Default)]
pub struct Structs {
    /// Where the fields of an imported function begin,
    /// and their sizes, in bytes.
    pub function_import: FunctionImportLayout,
    /// Where the fields of an imported table begin,
    /// and their sizes, in bytes.
    pub table_import: TableImportLayout,
    /// Where the fields of an imported memory begin,
    /// and their sizes, in bytes.
    pub memory_import: MemoryImportLayout,
    /// Where the fields of an imported tag begin,
    /// and their sizes, in bytes.
    pub tag_import: TagImportLayout,
    /// Where the fields of an imported global begin,
    /// and their sizes, in bytes.
    pub global_import: GlobalImportLayout,
    /// Where the fields of a memory begin,
    /// and their sizes, in bytes.
    pub memory_definition: MemoryDefinitionLayout,
    /// Where the fields of a table begin,
    /// and their sizes, in bytes.
    pub table_definition: TableDefinitionLayout,
    /// Where the fields of a global begin,
    /// and their sizes, in bytes.
    pub global_definition: GlobalDefinitionLayout,
    /// Where the fields of a tag begin,
    /// and their sizes, in bytes.
    pub tag_definition: TagDefinitionLayout,
    /// Where the fields of a reference to a function begin,
    /// and their sizes, in bytes.
    pub func_ref: FuncRefLayout,
    /// Where the fields of the context of a store begin,
    /// and their sizes, in bytes.
    pub store_context: StoreContextLayout,
    /// Where the fields of the part of a context that all modules have begin,
    /// and their sizes, in bytes.
    pub static_context: StaticContextLayout,
}

/// Bytes that a plan refers to, of the module or made by the plan.
#[repr(C)]
#[derive(Default)]
pub struct Runtime {
    /// Whether the plan made the bytes; 0 where they are those of the module, which must outlive
    /// the plan.
    pub made: u32,
    /// The bytes.
    pub(crate) bytes: List<u8>,
}

/// A region of the context.
#[repr(C)]
#[derive(Default)]
pub struct Region {
    /// Where in the context it begins, in bytes.
    pub begin: u32,
    /// Its size, in bytes.
    pub size: u32,
    /// Its name, which says what it holds, in ASCII.
    pub(crate) name: List<u8>,
}

/// The name of a function.
#[repr(C)]
#[derive(Default)]
pub struct FunctionName {
    /// The function, by its index.
    pub function: u32,
    /// Its name, in the module's bytes, in UTF-8.
    pub(crate) name: List<u8>,
}

/// The body of a function.
#[repr(C)]
#[derive(Default)]
pub struct Body {
    /// Its bytes, which follow its size: its locals, then its code. A part of the module's bytes.
    pub(crate) bytes: List<u8>,
    /// Its code, behind its locals, up to the end of the body: a part of the module's bytes.
    pub(crate) code: List<u8>,
    /// Its locals, a part of the plan's list `locals`.
    pub locals: Span,
}

/// The name of a local.
#[repr(C)]
#[derive(Default)]
pub struct LocalName {
    /// The function, by its index.
    pub function: u32,
    /// The local, by its index; the parameters come first.
    pub local: u32,
    /// Its name, in the module's bytes, in UTF-8.
    pub(crate) name: List<u8>,
}

/// A data segment of a module.
#[repr(C)]
#[derive(Default)]
pub struct DataSegment {
    /// What it is, from [`numbers::PASSIVE_SEGMENT`](crate::numbers::PASSIVE_SEGMENT) on: 0
    /// passive, 1 active.
    pub kind: u32,
    /// The memory that an active one writes, by its index; 0 of a passive one.
    pub memory: u32,
    /// Which of `expressions` gives the offset of an active one, in bytes; 0 of a passive one.
    pub offset: usize,
    /// Its bytes, in the bytes of the module. They are never freed.
    pub(crate) bytes: List<u8>,
}

/// An element segment of a module.
#[repr(C)]
#[derive(Clone, Copy, Debug, PartialEq, Eq, Hash, Default)]
pub struct ElementSegment {
    /// What it is, from [`numbers::PASSIVE_SEGMENT`](crate::numbers::PASSIVE_SEGMENT) on: 0
    /// passive, 1 active, 2 declarative.
    pub kind: u32,
    /// The table that an active one writes, by its index; 0 of another one.
    pub table: u32,
    /// Which of `expressions` gives the offset of an active one, in cells; 0 of another one.
    pub offset: usize,
    /// The type of each item, a reference; of function indices `funcref`, as in a plan. A type of
    /// the module is named by the type section: `list` is
    /// [`numbers::OF_SECTION`](crate::numbers::OF_SECTION), and `heap` is
    /// [`numbers::HEAP_DECLARED`](crate::numbers::HEAP_DECLARED).
    pub element: Value,
    /// Whether its items are written as constant expressions; else as function indices, and then
    /// none is null: the segment fits a table of `(ref func)` too.
    pub expressed: u32,
    /// The items that are functions, a part of `functions`.
    pub functions: Span,
    /// The items that are constant expressions, a part of `expressions.parts`.
    pub expressions: Span,
}

/// Where and why a module is malformed or not supported. Offsets count the bytes of the module,
/// from 0 on.
#[repr(C)]
#[derive(Default)]
pub struct Place {
    /// The id of the section; `u32::MAX` in the header, and where no section has the id.
    pub section: u32,
    /// The offset of the section, which begins with its id; 0 in the header.
    pub section_start: u32,
    /// The entry of the section, from 0 on, where an entry is wrong; else `u32::MAX`.
    pub entry: u32,
    /// Where the wrong entry or part begins; the length of the module where it ends inside its
    /// header or a section.
    pub byte: u32,
    /// How many bytes decide that the module is refused, whatever follows them; with other bytes
    /// behind them the cause may differ. `u32::MAX` where the module ends too early.
    pub decided: u32,
    /// What is wrong: a number from [`numbers::FAULT_HEADER`](crate::numbers::FAULT_HEADER) on.
    pub fault: u32,
    /// A sentence for people, in UTF-8, without a zero at the end.
    pub(crate) sentence: List<u8>,
    /// Whether the sentence is in memory of its own, which `bobbinazure_place_free` frees.
    pub made: u32,
}

/// The first rule that a module breaks, and the first entry that breaks it, in the first of the
/// lists of the rule that has one.
#[repr(C)]
#[derive(Default)]
pub struct BrokenRule {
    /// The rule, from 1 to 10.
    pub rule: u32,
    /// The list that has the entry: a number from [`numbers::IN_TYPES`](crate::numbers::IN_TYPES)
    /// on.
    pub list: u32,
    /// The index of the entry in that list, from 0 on.
    pub entry: u32,
    /// The id of the section that has it: of an import, the import section.
    pub section: u32,
    /// The entry of that section, from 0 on: of a type, its group. 0 in a start or data count
    /// section.
    pub section_entry: u32,
    /// The offset at which the section's entry begins.
    pub byte: u32,
    /// A sentence for people, in UTF-8, without a zero at the end.
    pub(crate) sentence: List<u8>,
    /// Whether the sentence is in memory of its own, which `bobbinazure_broken_rule_free` frees.
    pub made: u32,
}

/// What makes a module too large to be planned, and where it is.
#[repr(C)]
#[derive(Default)]
pub struct Excess {
    /// What it is: a number from [`numbers::EXCESS_INPUT`](crate::numbers::EXCESS_INPUT) on.
    pub kind: u32,
    /// The index of the memory, the type or the tag; `u32::MAX` of the input and the context.
    pub index: u32,
    /// The id of the section that has it: of an import, the import section; `u32::MAX` of the input
    /// and the context.
    pub section: u32,
    /// The entry of that section, from 0 on: of a type, its group. 0 of the input and the context.
    pub section_entry: u32,
    /// The offset at which the section's entry begins; 0 of the input and the context.
    pub byte: u32,
    /// A sentence for people, in UTF-8, without a zero at the end.
    pub(crate) sentence: List<u8>,
    /// Whether the sentence is in memory of its own, which `bobbinazure_excess_free` frees.
    pub made: u32,
}

/// A name, and what it names.
#[repr(C)]
#[derive(Default)]
pub struct NameEntry {
    /// What is named, as [`numbers::NAME_GLOBAL`](crate::numbers::NAME_GLOBAL).
    pub subsection: u32,
    /// Its index; 0 of the module. Of a local or a label that of its function, of a field that of
    /// its type.
    pub index: u32,
    /// Whether it is a local, a label or a field.
    pub has_inner: u32,
    /// The index of the local, the label or the field; else 0.
    pub inner: u32,
    /// The name, which is UTF-8, in the bytes of the module. It is never freed.
    pub(crate) name: List<u8>,
}

/// A section of a module. Offsets count the bytes of the module, from 0 on.
#[repr(C)]
#[derive(Default)]
pub struct Section {
    /// The id; no section of a module has one above 13.
    pub id: u32,
    /// The offset of the section, which begins with its id.
    pub start: u32,
    /// The offset of its contents. Where `has_name` is 1 they begin with the name; the rest goes
    /// from the end of the name up to `contents + size`.
    pub contents: u32,
    /// The length of its contents, in bytes.
    pub size: u32,
    /// Whether it is a custom section that begins with a name.
    pub has_name: u32,
    /// The name, in the bytes of the module. Without a name it is empty, and not in those bytes. It
    /// is never freed.
    pub(crate) name: List<u8>,
}
