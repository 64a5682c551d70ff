//! The numbers in a plan's tables, as the C header names them. Made by embed/generate.

// What a call returns. The program ends with the same numbers.

/// planned
pub const PLANNED: u32 = 0;
/// refused
pub const REFUSED: u32 = 1;
/// wrong options
pub const WRONG_OPTIONS: u32 = 2;
/// no memory
pub const NO_MEMORY: u32 = 5;

// Why a module is refused: the field `refusal`.

/// the bytes are no module by the grammar of the format
pub const MALFORMED: u32 = 1;
/// refusal_detail: the first of the ten rules that is broken, from 1
pub const INVALID: u32 = 2;
/// refusal_detail: a number of the next enum
pub const UNSUPPORTED: u32 = 3;
/// the module has 2^30 bytes or more, or the runtime data pass 2^32 - 1
pub const TOO_LARGE: u32 = 4;
/// an object or the context has more than 4,294,967,295 bytes
pub const OFFSET_OVERFLOW: u32 = 5;

// Which part of a module is not supported.

/// component
pub const COMPONENT: u32 = 1;
/// shared
pub const SHARED: u32 = 2;
/// supertypes
pub const SUPERTYPES: u32 = 3;
/// operator
pub const OPERATOR: u32 = 4;
/// exact import
pub const EXACT_IMPORT: u32 = 5;
/// interface types
pub const INTERFACE_TYPES: u32 = 6;

// What is wrong at a place: the field `fault`.

/// the input has no header of a core module; it may be a component
pub const FAULT_HEADER: u32 = 1;
/// no section has the id
pub const FAULT_UNKNOWN_SECTION: u32 = 2;
/// the section may not follow those before it
pub const FAULT_SECTION_ORDER: u32 = 3;
/// its size is no unsigned number of 32 bits
pub const FAULT_SECTION_SIZE: u32 = 4;
/// the module ends before the section does
pub const FAULT_SECTION_END: u32 = 5;
/// the section is not the one number that it should be
pub const FAULT_NUMBER: u32 = 6;
/// a custom section without a name
pub const FAULT_NAME: u32 = 7;
/// the number of entries is no unsigned number of 32 bits
pub const FAULT_COUNT: u32 = 8;
/// the entry is malformed
pub const FAULT_ENTRY: u32 = 9;
/// bytes follow the last entry of the section
pub const FAULT_REMAINDER: u32 = 10;
/// well formed, and not supported
pub const FAULT_UNSUPPORTED: u32 = 11;

// The lists of which a rule speaks: the field `list`.

/// the declared types
pub const IN_TYPES: u32 = 0;
/// the index space, imports first; so are the next three lists
pub const IN_FUNCTIONS: u32 = 1;
/// in table types
pub const IN_TABLE_TYPES: u32 = 2;
/// in memories
pub const IN_MEMORIES: u32 = 3;
/// in tags
pub const IN_TAGS: u32 = 4;
/// all imports
pub const IN_IMPORTS: u32 = 5;
/// the entries of the section, from here on
pub const IN_TABLES: u32 = 6;
/// in globals
pub const IN_GLOBALS: u32 = 7;
/// in exports
pub const IN_EXPORTS: u32 = 8;
/// in starts
pub const IN_STARTS: u32 = 9;
/// in elements
pub const IN_ELEMENTS: u32 = 10;
/// in data counts
pub const IN_DATA_COUNTS: u32 = 11;
/// in bodies
pub const IN_BODIES: u32 = 12;
/// in segments
pub const IN_SEGMENTS: u32 = 13;

// What a name names: the field `subsection`, an id of the name section.

/// the module
pub const NAME_MODULE: u32 = 0;
/// the function `index`
pub const NAME_FUNCTION: u32 = 1;
/// the local `inner` of the function `index`
pub const NAME_LOCAL: u32 = 2;
/// the label `inner` of the function `index`
pub const NAME_LABEL: u32 = 3;
/// the type `index`
pub const NAME_TYPE: u32 = 4;
/// the table `index`
pub const NAME_TABLE: u32 = 5;
/// the memory `index`
pub const NAME_MEMORY: u32 = 6;
/// the global `index`
pub const NAME_GLOBAL: u32 = 7;
/// the element segment `index`
pub const NAME_ELEMENT: u32 = 8;
/// the data segment `index`
pub const NAME_DATA: u32 = 9;
/// the field `inner` of the type `index`
pub const NAME_FIELD: u32 = 10;
/// the tag `index`
pub const NAME_TAG: u32 = 11;

// What makes a module too large: the field `kind`.

/// the module has 2^30 bytes or more
pub const EXCESS_INPUT: u32 = 1;
/// with the image of a memory, runtime data pass 4294967295 bytes
pub const EXCESS_IMAGE: u32 = 2;
/// an object of a type has more than 4294967295 bytes
pub const EXCESS_OBJECT: u32 = 3;
/// an exception of a tag has more than 4294967295 bytes
pub const EXCESS_EXCEPTION: u32 = 4;
/// the context of an instance has more than 4294967295 bytes
pub const EXCESS_CONTEXT: u32 = 5;

// How the offset of a segment is given: the field `kind`.

/// offset: the offset itself, which the planner computed
pub const AT_BYTE: u32 = 0;
/// offset: the bits of the constant; 32 bits are zero-extended
pub const AT_CONSTANT: u32 = 1;
/// offset: the index of the global that holds it
pub const AT_GLOBAL: u32 = 2;
/// another expression: its operators are in segment_places or element_places
pub const AT_EXPRESSION: u32 = 3;

// What a segment of a module is: the field `kind` of a data or an element segment.

/// passive segment
pub const PASSIVE_SEGMENT: u32 = 0;
/// active segment
pub const ACTIVE_SEGMENT: u32 = 1;
/// an element segment alone
pub const DECLARATIVE_SEGMENT: u32 = 2;

/// startup none
pub const STARTUP_NONE: u32 = 0;
/// startup always
pub const STARTUP_ALWAYS: u32 = 1;
/// where the engine did not map the images
pub const STARTUP_IF_MEMORIES_NEED_INIT: u32 = 2;

// The kinds of entities.

/// function
pub const FUNCTION: u32 = 0;
/// table
pub const TABLE: u32 = 1;
/// memory
pub const MEMORY: u32 = 2;
/// global
pub const GLOBAL: u32 = 3;
/// tag
pub const TAG: u32 = 4;

/// no index
pub const NO_INDEX: u32 = 0;
/// of engine
pub const OF_ENGINE: u32 = 1;
/// of module
pub const OF_MODULE: u32 = 2;
/// of group
pub const OF_GROUP: u32 = 3;
/// the type section, `declared`: in locals of bodies and segments alone
pub const OF_SECTION: u32 = 4;
/// types by ids, which no plan has
pub const OF_IDS: u32 = 5;

// The type of a value, an element or a field: the field `kind`.

/// i32
pub const I32: u32 = 0;
/// i64
pub const I64: u32 = 1;
/// f32
pub const F32: u32 = 2;
/// f64
pub const F64: u32 = 3;
/// v128
pub const V128: u32 = 4;
/// ref
pub const REF: u32 = 5;
/// only in a field, as BOBBINAZURE_I16
pub const I8: u32 = 6;
/// i16
pub const I16: u32 = 7;

// The heap type of a reference. A concrete one has an index.

/// heap extern
pub const HEAP_EXTERN: u32 = 0;
/// heap no extern
pub const HEAP_NO_EXTERN: u32 = 1;
/// heap func
pub const HEAP_FUNC: u32 = 2;
/// heap concrete func
pub const HEAP_CONCRETE_FUNC: u32 = 3;
/// heap no func
pub const HEAP_NO_FUNC: u32 = 4;
/// heap exn
pub const HEAP_EXN: u32 = 5;
/// heap concrete exn
pub const HEAP_CONCRETE_EXN: u32 = 6;
/// heap no exn
pub const HEAP_NO_EXN: u32 = 7;
/// heap cont
pub const HEAP_CONT: u32 = 8;
/// heap concrete cont
pub const HEAP_CONCRETE_CONT: u32 = 9;
/// heap no cont
pub const HEAP_NO_CONT: u32 = 10;
/// heap any
pub const HEAP_ANY: u32 = 11;
/// heap eq
pub const HEAP_EQ: u32 = 12;
/// heap i31
pub const HEAP_I31: u32 = 13;
/// heap array
pub const HEAP_ARRAY: u32 = 14;
/// heap concrete array
pub const HEAP_CONCRETE_ARRAY: u32 = 15;
/// heap struct
pub const HEAP_STRUCT: u32 = 16;
/// heap concrete struct
pub const HEAP_CONCRETE_STRUCT: u32 = 17;
/// heap none
pub const HEAP_NONE: u32 = 18;
/// a type of the type section: in locals of bodies and segments alone
pub const HEAP_DECLARED: u32 = 19;

// The kinds of composite types.

/// array
pub const ARRAY: u32 = 0;
/// func
pub const FUNC: u32 = 1;
/// struct
pub const STRUCT: u32 = 2;
/// cont
pub const CONT: u32 = 3;
/// exn
pub const EXN: u32 = 4;

// The operators of constant expressions: the field `code`.

/// low: the bits, also for the next three
pub const I32_CONST: u32 = 0;
/// i64 const
pub const I64_CONST: u32 = 1;
/// f32 const
pub const F32_CONST: u32 = 2;
/// f64 const
pub const F64_CONST: u32 = 3;
/// low and high: the bits
pub const V128_CONST: u32 = 4;
/// index: the global
pub const GLOBAL_GET: u32 = 5;
/// ref i31
pub const REF_I31: u32 = 6;
/// heap, and list and index of a concrete one
pub const REF_NULL: u32 = 7;
/// index: the function
pub const REF_FUNC: u32 = 8;
/// i32 add
pub const I32_ADD: u32 = 9;
/// i32 sub
pub const I32_SUB: u32 = 10;
/// i32 mul
pub const I32_MUL: u32 = 11;
/// i64 add
pub const I64_ADD: u32 = 12;
/// i64 sub
pub const I64_SUB: u32 = 13;
/// i64 mul
pub const I64_MUL: u32 = 14;
/// index: the type in the type section, also for the next four
pub const STRUCT_NEW: u32 = 15;
/// struct new default
pub const STRUCT_NEW_DEFAULT: u32 = 16;
/// array new
pub const ARRAY_NEW: u32 = 17;
/// array new default
pub const ARRAY_NEW_DEFAULT: u32 = 18;
/// low: the number of elements
pub const ARRAY_NEW_FIXED: u32 = 19;
/// extern convert any
pub const EXTERN_CONVERT_ANY: u32 = 20;
/// any convert extern
pub const ANY_CONVERT_EXTERN: u32 = 21;

// The kinds of objects.

/// array object
pub const ARRAY_OBJECT: u32 = 0;
/// struct object
pub const STRUCT_OBJECT: u32 = 1;
/// exn object
pub const EXN_OBJECT: u32 = 2;

/// drc header size
pub const DRC_HEADER_SIZE: u32 = 24;
/// drc array length
pub const DRC_ARRAY_LENGTH: u32 = 24;
/// drc tag instance
pub const DRC_TAG_INSTANCE: u32 = 24;
/// drc tag defined
pub const DRC_TAG_DEFINED: u32 = 28;
/// null header size
pub const NULL_HEADER_SIZE: u32 = 8;
/// null array length
pub const NULL_ARRAY_LENGTH: u32 = 8;
/// null tag instance
pub const NULL_TAG_INSTANCE: u32 = 8;
/// null tag defined
pub const NULL_TAG_DEFINED: u32 = 12;
/// in the header: the kind of the object, a number of 32 bits of the engine's choice
pub const HEADER_KIND: u32 = 0;
/// in the header: its type, by the index of the engine
pub const HEADER_TYPE_INDEX: u32 = 4;

// The answer to an import: the field `answer`.

/// detail: the number of the export, from 0
pub const GIVEN: u32 = 0;
/// no export has its names
pub const MISSING: u32 = 1;
/// detail: the first broken rule, of the next enum; line: its text
pub const MISMATCH: u32 = 2;

/// mismatch kind
pub const MISMATCH_KIND: u32 = 1;
/// mismatch func type
pub const MISMATCH_FUNC_TYPE: u32 = 2;
/// mismatch table element
pub const MISMATCH_TABLE_ELEMENT: u32 = 3;
/// mismatch table index type
pub const MISMATCH_TABLE_INDEX_TYPE: u32 = 4;
/// mismatch table min
pub const MISMATCH_TABLE_MIN: u32 = 5;
/// mismatch table max
pub const MISMATCH_TABLE_MAX: u32 = 6;
/// mismatch memory index type
pub const MISMATCH_MEMORY_INDEX_TYPE: u32 = 7;
/// mismatch memory shared
pub const MISMATCH_MEMORY_SHARED: u32 = 8;
/// mismatch memory page
pub const MISMATCH_MEMORY_PAGE: u32 = 9;
/// mismatch memory min
pub const MISMATCH_MEMORY_MIN: u32 = 10;
/// mismatch memory max
pub const MISMATCH_MEMORY_MAX: u32 = 11;
/// mismatch global mutability
pub const MISMATCH_GLOBAL_MUTABILITY: u32 = 12;
/// mismatch global type
pub const MISMATCH_GLOBAL_TYPE: u32 = 13;
/// mismatch tag type
pub const MISMATCH_TAG_TYPE: u32 = 14;

// Why a program is refused: the field `cause`.

/// a module is refused; refusal and its two fields say why
pub const CAUSE_MODULE: u32 = 1;
/// an export has the two names of an export of an earlier module
pub const CAUSE_DUPLICATE: u32 = 2;
/// the modules have more than 4,294,967,294 interned types
pub const CAUSE_TOO_MANY_TYPES: u32 = 3;
