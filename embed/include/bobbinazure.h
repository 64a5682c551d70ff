/* Bobbinazure for C: plans a core WebAssembly module before any code is generated.
 *
 *     bobbinazure_options options = bobbinazure_options_init();
 *     options.cow = 1;
 *     bobbinazure_plan plan = bobbinazure_plan_init();
 *     switch (bobbinazure_make_plan(bytes, len, &options, &plan)) {
 *     case BOBBINAZURE_PLANNED: .. plan.images.at[0] ..
 *     case BOBBINAZURE_REFUSED: .. plan.refusal_line ..
 *     }
 *     bobbinazure_plan_free(&plan);
 *
 * Link libbobbinazure.a. embed/README.md has a complete example and a table of the fields.
 *
 * The library keeps no state between calls. Several threads may call it at once: a call reads its
 * own arguments and writes its own results. Memory comes from malloc. The caller owns what a call
 * returns, and `.._free` frees it. A plan is no validation: bodies, types of references, and whether
 * a type fits its supertype are not looked at.
 *
 * No pointer that is passed may be null, also where its length is 0. A record begins as its
 * `.._init` returns it; one of zeros has null pointers. `.._free` leaves it so again: it may be
 * freed twice, and filled again. Of a record that was copied, free one copy.
 *
 * Images: if a kept element segment (`elements`) can trap, write the elements before you map
 * images, or make the instance's memories zeros after such a trap: code in an imported table could
 * see data that is never written. If you map no image and write each segment yourself, there is no
 * exception. */
#ifndef BOBBINAZURE_H
#define BOBBINAZURE_H

#include <stddef.h>
#include <stdint.h>
#include <stdlib.h>
#include <string.h>

#ifdef __cplusplus
extern "C" {
#endif

/* What a call returns. The program ends with the same numbers. */
enum {
    BOBBINAZURE_PLANNED = 0,
    BOBBINAZURE_REFUSED = 1,
    BOBBINAZURE_WRONG_OPTIONS = 2,
    BOBBINAZURE_NO_MEMORY = 5
};

/* Of several causes of a refusal the first in this order is named: 2^30 bytes or more; the first
 * part that is malformed or not supported; the lowest broken rule; the sizes of runtime data, objects
 * and the context. docs/PROVED.md has the two cases in which no clause decides. Options are checked
 * before the module: BOBBINAZURE_WRONG_OPTIONS. */

/* Why a module is refused: the field `refusal`. */
enum {
    BOBBINAZURE_MALFORMED = 1,      /* the bytes are no module by the grammar of the format */
    BOBBINAZURE_INVALID = 2,        /* refusal_detail: the first of the ten rules that is broken, from 1 */
    BOBBINAZURE_UNSUPPORTED = 3,    /* refusal_detail: a number of the next enum */
    BOBBINAZURE_TOO_LARGE = 4,      /* the module has 2^30 bytes or more, or the runtime data pass 2^32 - 1 */
    BOBBINAZURE_OFFSET_OVERFLOW = 5 /* an object or the context has more than 4,294,967,295 bytes */
};

/* Which part of a module is not supported. */
enum {
    BOBBINAZURE_COMPONENT = 1,
    BOBBINAZURE_SHARED = 2,
    BOBBINAZURE_SUPERTYPES = 3,
    BOBBINAZURE_OPERATOR = 4,
    BOBBINAZURE_EXACT_IMPORT = 5,
    BOBBINAZURE_INTERFACE_TYPES = 6
};

/* What is wrong at a place: the field `fault`. */
enum {
    BOBBINAZURE_FAULT_HEADER = 1,           /* the input has no header of a core module; it may be a component */
    BOBBINAZURE_FAULT_UNKNOWN_SECTION = 2,  /* no section has the id */
    BOBBINAZURE_FAULT_SECTION_ORDER = 3,    /* the section may not follow those before it */
    BOBBINAZURE_FAULT_SECTION_SIZE = 4,     /* its size is no unsigned number of 32 bits */
    BOBBINAZURE_FAULT_SECTION_END = 5,      /* the module ends before the section does */
    BOBBINAZURE_FAULT_NUMBER = 6,           /* the section is not the one number that it should be */
    BOBBINAZURE_FAULT_NAME = 7,             /* a custom section without a name */
    BOBBINAZURE_FAULT_COUNT = 8,            /* the number of entries is no unsigned number of 32 bits */
    BOBBINAZURE_FAULT_ENTRY = 9,            /* the entry is malformed */
    BOBBINAZURE_FAULT_REMAINDER = 10,       /* bytes follow the last entry of the section */
    BOBBINAZURE_FAULT_UNSUPPORTED = 11      /* well formed, and not supported */
};

/* The lists of which a rule speaks: the field `list`. */
enum {
    BOBBINAZURE_IN_TYPES = 0,       /* the declared types */
    BOBBINAZURE_IN_FUNCTIONS = 1,   /* the index space, imports first; so are the next three lists */
    BOBBINAZURE_IN_TABLE_TYPES = 2,
    BOBBINAZURE_IN_MEMORIES = 3,
    BOBBINAZURE_IN_TAGS = 4,
    BOBBINAZURE_IN_IMPORTS = 5,     /* all imports */
    BOBBINAZURE_IN_TABLES = 6,      /* the entries of the section, from here on */
    BOBBINAZURE_IN_GLOBALS = 7,
    BOBBINAZURE_IN_EXPORTS = 8,
    BOBBINAZURE_IN_STARTS = 9,
    BOBBINAZURE_IN_ELEMENTS = 10,
    BOBBINAZURE_IN_DATA_COUNTS = 11,
    BOBBINAZURE_IN_BODIES = 12,
    BOBBINAZURE_IN_SEGMENTS = 13
};

/* What a name names: the field `subsection`, an id of the name section. */
enum {
    BOBBINAZURE_NAME_MODULE = 0,   /* the module */
    BOBBINAZURE_NAME_FUNCTION = 1, /* the function `index` */
    BOBBINAZURE_NAME_LOCAL = 2,    /* the local `inner` of the function `index` */
    BOBBINAZURE_NAME_LABEL = 3,    /* the label `inner` of the function `index` */
    BOBBINAZURE_NAME_TYPE = 4,     /* the type `index` */
    BOBBINAZURE_NAME_TABLE = 5,    /* the table `index` */
    BOBBINAZURE_NAME_MEMORY = 6,   /* the memory `index` */
    BOBBINAZURE_NAME_GLOBAL = 7,   /* the global `index` */
    BOBBINAZURE_NAME_ELEMENT = 8,  /* the element segment `index` */
    BOBBINAZURE_NAME_DATA = 9,     /* the data segment `index` */
    BOBBINAZURE_NAME_FIELD = 10,   /* the field `inner` of the type `index` */
    BOBBINAZURE_NAME_TAG = 11      /* the tag `index` */
};

/* What makes a module too large: the field `kind`. */
enum {
    BOBBINAZURE_EXCESS_INPUT = 1,     /* the module has 2^30 bytes or more */
    BOBBINAZURE_EXCESS_IMAGE = 2,     /* with the image of a memory, runtime data pass 4294967295 bytes */
    BOBBINAZURE_EXCESS_OBJECT = 3,    /* an object of a type has more than 4294967295 bytes */
    BOBBINAZURE_EXCESS_EXCEPTION = 4, /* an exception of a tag has more than 4294967295 bytes */
    BOBBINAZURE_EXCESS_CONTEXT = 5    /* the context of an instance has more than 4294967295 bytes */
};

/* How the offset of a segment is given: the field `kind`. */
enum {
    BOBBINAZURE_AT_BYTE = 0,        /* offset: the offset itself, which the planner computed */
    BOBBINAZURE_AT_CONSTANT = 1,    /* offset: the bits of the constant; 32 bits are zero-extended */
    BOBBINAZURE_AT_GLOBAL = 2,      /* offset: the index of the global that holds it */
    BOBBINAZURE_AT_EXPRESSION = 3   /* another expression: its operators are in segment_places or element_places */
};

/* What a segment of a module is: the field `kind` of a data or an element segment. */
enum {
    BOBBINAZURE_PASSIVE_SEGMENT = 0,
    BOBBINAZURE_ACTIVE_SEGMENT = 1,
    BOBBINAZURE_DECLARATIVE_SEGMENT = 2 /* an element segment alone */
};

/* When the startup function must run, which the engine makes. It computes expressed_globals,
 * table_values and passive_items, writes elements and then segments, each list in order, and calls
 * `start` last. */
enum {
    BOBBINAZURE_STARTUP_NONE = 0,
    BOBBINAZURE_STARTUP_ALWAYS = 1,
    BOBBINAZURE_STARTUP_IF_MEMORIES_NEED_INIT = 2   /* where the engine did not map the images */
};

/* The kinds of entities. */
enum {
    BOBBINAZURE_FUNCTION = 0,
    BOBBINAZURE_TABLE = 1,
    BOBBINAZURE_MEMORY = 2,
    BOBBINAZURE_GLOBAL = 3,
    BOBBINAZURE_TAG = 4
};

/* To which list of types the index in a value type belongs. In a plan it is the list of interned types,
 * OF_MODULE; in locals of bodies and in segments of a module it is the type section, OF_SECTION. No
 * record has an index of another list. */
enum {
    BOBBINAZURE_NO_INDEX = 0,
    BOBBINAZURE_OF_ENGINE = 1,
    BOBBINAZURE_OF_MODULE = 2,
    BOBBINAZURE_OF_GROUP = 3,
    BOBBINAZURE_OF_SECTION = 4,     /* the type section, `declared`: in locals of bodies and segments alone */
    BOBBINAZURE_OF_IDS = 5          /* types by ids, which no plan has */
};

/* The type of a value, an element or a field: the field `kind`. */
enum {
    BOBBINAZURE_I32 = 0,
    BOBBINAZURE_I64 = 1,
    BOBBINAZURE_F32 = 2,
    BOBBINAZURE_F64 = 3,
    BOBBINAZURE_V128 = 4,
    BOBBINAZURE_REF = 5,
    BOBBINAZURE_I8 = 6,             /* only in a field, as BOBBINAZURE_I16 */
    BOBBINAZURE_I16 = 7
};

/* The heap type of a reference. A concrete one has an index. */
enum {
    BOBBINAZURE_HEAP_EXTERN = 0,
    BOBBINAZURE_HEAP_NO_EXTERN = 1,
    BOBBINAZURE_HEAP_FUNC = 2,
    BOBBINAZURE_HEAP_CONCRETE_FUNC = 3,
    BOBBINAZURE_HEAP_NO_FUNC = 4,
    BOBBINAZURE_HEAP_EXN = 5,
    BOBBINAZURE_HEAP_CONCRETE_EXN = 6,
    BOBBINAZURE_HEAP_NO_EXN = 7,
    BOBBINAZURE_HEAP_CONT = 8,
    BOBBINAZURE_HEAP_CONCRETE_CONT = 9,
    BOBBINAZURE_HEAP_NO_CONT = 10,
    BOBBINAZURE_HEAP_ANY = 11,
    BOBBINAZURE_HEAP_EQ = 12,
    BOBBINAZURE_HEAP_I31 = 13,
    BOBBINAZURE_HEAP_ARRAY = 14,
    BOBBINAZURE_HEAP_CONCRETE_ARRAY = 15,
    BOBBINAZURE_HEAP_STRUCT = 16,
    BOBBINAZURE_HEAP_CONCRETE_STRUCT = 17,
    BOBBINAZURE_HEAP_NONE = 18,
    BOBBINAZURE_HEAP_DECLARED = 19  /* a type of the type section: in locals of bodies and segments alone */
};

/* The kinds of composite types. */
enum {
    BOBBINAZURE_ARRAY = 0,
    BOBBINAZURE_FUNC = 1,
    BOBBINAZURE_STRUCT = 2,
    BOBBINAZURE_CONT = 3,
    BOBBINAZURE_EXN = 4
};

/* The operators of constant expressions: the field `code`. */
enum {
    BOBBINAZURE_I32_CONST = 0,      /* low: the bits, also for the next three */
    BOBBINAZURE_I64_CONST = 1,
    BOBBINAZURE_F32_CONST = 2,
    BOBBINAZURE_F64_CONST = 3,
    BOBBINAZURE_V128_CONST = 4,     /* low and high: the bits */
    BOBBINAZURE_GLOBAL_GET = 5,     /* index: the global */
    BOBBINAZURE_REF_I31 = 6,
    BOBBINAZURE_REF_NULL = 7,       /* heap, and list and index of a concrete one */
    BOBBINAZURE_REF_FUNC = 8,       /* index: the function */
    BOBBINAZURE_I32_ADD = 9,
    BOBBINAZURE_I32_SUB = 10,
    BOBBINAZURE_I32_MUL = 11,
    BOBBINAZURE_I64_ADD = 12,
    BOBBINAZURE_I64_SUB = 13,
    BOBBINAZURE_I64_MUL = 14,
    BOBBINAZURE_STRUCT_NEW = 15,    /* index: the type in the type section, also for the next four */
    BOBBINAZURE_STRUCT_NEW_DEFAULT = 16,
    BOBBINAZURE_ARRAY_NEW = 17,
    BOBBINAZURE_ARRAY_NEW_DEFAULT = 18,
    BOBBINAZURE_ARRAY_NEW_FIXED = 19,   /* low: the number of elements */
    BOBBINAZURE_EXTERN_CONVERT_ANY = 20,
    BOBBINAZURE_ANY_CONVERT_EXTERN = 21
};

/* The kinds of objects. */
enum {
    BOBBINAZURE_ARRAY_OBJECT = 0,
    BOBBINAZURE_STRUCT_OBJECT = 1,
    BOBBINAZURE_EXN_OBJECT = 2
};

/* The objects of a collected heap, in bytes: the size of the header, and where the length of an
 * array and the tag of an exception begin. The two collectors are those of the option
 * `collector`. */
enum {
    BOBBINAZURE_DRC_HEADER_SIZE = 24,
    BOBBINAZURE_DRC_ARRAY_LENGTH = 24,
    BOBBINAZURE_DRC_TAG_INSTANCE = 24,
    BOBBINAZURE_DRC_TAG_DEFINED = 28,
    BOBBINAZURE_NULL_HEADER_SIZE = 8,
    BOBBINAZURE_NULL_ARRAY_LENGTH = 8,
    BOBBINAZURE_NULL_TAG_INSTANCE = 8,
    BOBBINAZURE_NULL_TAG_DEFINED = 12,
    BOBBINAZURE_HEADER_KIND = 0,        /* in the header: the kind of the object, a number of 32 bits of the engine's choice */
    BOBBINAZURE_HEADER_TYPE_INDEX = 4   /* in the header: its type, by the index of the engine */
};

/* The answer to an import: the field `answer`. */
enum {
    BOBBINAZURE_GIVEN = 0,          /* detail: the number of the export, from 0 */
    BOBBINAZURE_MISSING = 1,        /* no export has its names */
    BOBBINAZURE_MISMATCH = 2        /* detail: the first broken rule, of the next enum; line: its text */
};

/* The rules by which an export matches an import, in the order in which they are checked. Types must be
 * equal: a subtype, which the standard takes for a function or an immutable global, is a mismatch. */
enum {
    BOBBINAZURE_MISMATCH_KIND = 1,
    BOBBINAZURE_MISMATCH_FUNC_TYPE = 2,
    BOBBINAZURE_MISMATCH_TABLE_ELEMENT = 3,
    BOBBINAZURE_MISMATCH_TABLE_INDEX_TYPE = 4,
    BOBBINAZURE_MISMATCH_TABLE_MIN = 5,
    BOBBINAZURE_MISMATCH_TABLE_MAX = 6,
    BOBBINAZURE_MISMATCH_MEMORY_INDEX_TYPE = 7,
    BOBBINAZURE_MISMATCH_MEMORY_SHARED = 8,
    BOBBINAZURE_MISMATCH_MEMORY_PAGE = 9,
    BOBBINAZURE_MISMATCH_MEMORY_MIN = 10,
    BOBBINAZURE_MISMATCH_MEMORY_MAX = 11,
    BOBBINAZURE_MISMATCH_GLOBAL_MUTABILITY = 12,
    BOBBINAZURE_MISMATCH_GLOBAL_TYPE = 13,
    BOBBINAZURE_MISMATCH_TAG_TYPE = 14
};

/* Why a program is refused: the field `cause`. */
enum {
    BOBBINAZURE_CAUSE_MODULE = 1,           /* a module is refused; refusal and its two fields say why */
    BOBBINAZURE_CAUSE_DUPLICATE = 2,        /* an export has the two names of an export of an earlier module */
    BOBBINAZURE_CAUSE_TOO_MANY_TYPES = 3    /* the modules have more than 4,294,967,294 interned types */
};

/* No index; in a table, the null reference. */
#define BOBBINAZURE_NONE UINT32_MAX
/* No greatest size. */
#define BOBBINAZURE_UNBOUNDED UINT64_MAX

/* Bytes that are not freed by themselves. They are of the module, of the library, or of a row that
 * says whether the plan made them. */
typedef struct { const uint8_t *at; size_t len; } bobbinazure_bytes;

/* A list, and how many items it has. */
#define BOBBINAZURE_LIST(T) struct { const T *at; size_t len; }

/* embed/generate makes what follows, from the records of plan_tables, segment_tables and planner_c. */

/* What a caller may choose; of a flag 0 is no. */
typedef struct {
    /* Whether memories begin as images. One active data segment that does not allow it prevents
       all images. A module can otherwise require max_image bytes with each memory that it
       defines, in some fifteen bytes of its own. */
    uint8_t cow;
    /* Whether tables begin as images, as far as their elements allow it. A module can then
       require 1,048,576 cells of four bytes with each table that it defines, in ten bytes of its
       own. */
    uint8_t lazy_tables;
    uint8_t branch_hints; /* Whether hints of branches are read. */
    uint8_t native_debug; /* Whether names of locals and the metadata of functions are kept too. */
    uint8_t guest_debug;  /* Whether references can be made to every function. */
    uint8_t pointer;      /* The bytes of a pointer of the target: 4 or 8. */
    uint8_t collector;    /* How objects are collected: 0 by counts (drc), 1 not at all (null). */
    uint64_t page_size;   /* The page size of images, in bytes: a power of two. */
    /* Data of a memory with this extent or more, in bytes, must fill more than half of it; else
       no memory begins as an image. */
    uint64_t max_image;
} bobbinazure_options;

/* Each flag of the options, and the program's word for it. */
#define BOBBINAZURE_FLAGS(EACH) \
    EACH(cow, "--cow") \
    EACH(lazy_tables, "--lazy-tables") \
    EACH(branch_hints, "--branch-hints") \
    EACH(native_debug, "--native-debug") \
    EACH(guest_debug, "--guest-debug")

/* How many entities of each kind there are, imported ones among them, and how many are imported. */
typedef struct {
    uint64_t functions;          /* All functions. */
    uint64_t imported_functions; /* Those that are imported; they come first. */
    uint64_t tables;             /* All tables. */
    uint64_t imported_tables;    /* Those that are imported. */
    uint64_t memories;           /* All memories. */
    uint64_t imported_memories;  /* Those that are imported. */
    uint64_t globals;            /* All globals. */
    uint64_t imported_globals;   /* Those that are imported. */
    uint64_t tags;               /* All tags. */
    uint64_t imported_tags;      /* Those that are imported. */
} bobbinazure_entities;

/* Where the parts of a context begin, in bytes. A part has an entry for each thing that it is
   of, in order: a struct of structs, a pointer or a number. Those of func_refs are numbered by
   escapes. */
typedef struct {
    uint32_t size;               /* The size of the complete context. */
    uint32_t imported_memories;  /* The imported memories, each a memory_import. */
    uint32_t memories;           /* The defined memories, each a pointer to its definition. */
    /* The owned memories, each a memory_definition: the defined ones that are not shared. */
    uint32_t owned_memories;
    uint32_t imported_functions; /* The imported functions, each a function_import. */
    uint32_t imported_tables;    /* The imported tables, each a table_import. */
    uint32_t imported_globals;   /* The imported globals, each a global_import. */
    uint32_t imported_tags;      /* The imported tags, each a tag_import. */
    uint32_t tables;             /* The defined tables, each a table_definition. */
    uint32_t globals;            /* The defined globals, each a global_definition of 16 bytes. */
    uint32_t tags;               /* The defined tags, each a tag_definition. */
    uint32_t func_refs;          /* The module functions, each a func_ref: those that escape. */
    uint32_t runtime_data_bases; /* The runtime data base pointers, each a pointer to bytes. */
    /* The runtime data lengths, each a number of 4 bytes: a length in bytes. */
    uint32_t runtime_data_lengths;
    /* The reference to the startup function, a func_ref behind func_refs; BOBBINAZURE_NONE where
       there is none. */
    uint32_t startup_func_ref;
} bobbinazure_context;

/* From one number up to another, the second not included. */
typedef struct {
    uint32_t begin; /* The first number. */
    uint32_t end;   /* The number behind the last one. */
} bobbinazure_range;

/* A part of a list of the plan. */
typedef struct {
    size_t begin; /* The number of its first item. */
    size_t len;   /* How many items it has. */
} bobbinazure_span;

/* The type of a value or a field. */
typedef struct {
    /* What it is, from BOBBINAZURE_I32 on: 0 to 4 a number or a vector, 5 a reference, 6 and 7 a
       packed integer. */
    uint8_t kind;
    uint8_t nullable; /* Whether the reference may be null. */
    uint8_t heap;     /* What the reference is to, from BOBBINAZURE_HEAP_EXTERN on. */
    uint8_t list;     /* Which list the index is of, from BOBBINAZURE_NO_INDEX on. */
    uint32_t index;   /* The index of the type that the reference is to; 0 where it has none. */
} bobbinazure_value;

/* A memory. */
typedef struct {
    uint64_t minimum;       /* The least size, in pages. */
    /* The greatest size, in pages; BOBBINAZURE_UNBOUNDED where none is declared. */
    uint64_t maximum;
    /* The least size, in bytes; BOBBINAZURE_UNBOUNDED where it has more bytes than that. */
    uint64_t minimum_bytes;
    /* The greatest size, in bytes; BOBBINAZURE_UNBOUNDED where it has more bytes than that.
       Without a greatest size in pages it is what addresses reach (2^32, or a page less than
       2^64), or the least size if that is more. */
    uint64_t maximum_bytes;
    uint8_t page_size_log2; /* The page size as an exponent of 2: 0 or 16. */
    uint8_t shared;         /* Whether threads may share it. */
    uint8_t wide;           /* Whether addresses have 64 bits. */
    /* Whether a greatest size is declared, which may be BOBBINAZURE_UNBOUNDED too. */
    uint8_t bounded;
} bobbinazure_memory;

/* A table. */
typedef struct {
    uint64_t minimum;          /* The least size, in cells. */
    /* The greatest size, in cells; BOBBINAZURE_UNBOUNDED where none is declared. */
    uint64_t maximum;
    bobbinazure_value element; /* The type of its elements, a reference. */
    uint32_t wide;             /* Whether indices have 64 bits. */
    /* Whether a greatest size is declared, which may be BOBBINAZURE_UNBOUNDED too. */
    uint32_t bounded;
} bobbinazure_table;

/* A global. */
typedef struct {
    bobbinazure_value value; /* The type of its value. */
    uint32_t writable;       /* Whether it is mutable. */
} bobbinazure_global;

/* A tag. */
typedef struct {
    uint32_t signature; /* The interned type of its function. */
    uint32_t exception; /* The interned type of its exceptions. */
} bobbinazure_tag;

/* The image of a memory. */
typedef struct {
    uint32_t memory;  /* The memory, by its index. */
    uint32_t runtime; /* The runtime data that holds it. */
    /* Its address in the memory, in bytes: a multiple of data_align, as its length is. */
    uint64_t offset;
} bobbinazure_image;

/* A data segment that remains to be written. One of kind BOBBINAZURE_AT_BYTE is an image, which
   is among images too. */
typedef struct {
    uint32_t memory;  /* The memory that it writes, by its index. */
    uint32_t runtime; /* The runtime data that it writes. */
    /* How offset gives its address, from BOBBINAZURE_AT_BYTE on: 0 as a planned address, 1 as a
       constant, 2 as a global, 3 not at all. */
    uint32_t kind;
    /* The address in bytes, or the index of the global that holds it; 0 where another expression
       gives it. */
    uint64_t offset;
} bobbinazure_segment;

/* A passive data segment, also an empty one. */
typedef struct {
    uint32_t segment; /* Its number in the data section. */
    uint32_t runtime; /* The runtime data that holds its bytes. */
} bobbinazure_passive;

/* An element segment that remains to be written. */
typedef struct {
    uint32_t table; /* The table that it writes. */
    uint32_t kind;  /* How offset gives its cell, as of a data segment; never 0. */
    /* The cell at which it begins, or the index of the global that holds it; 0 where another
       expression gives it. */
    uint64_t offset;
    uint64_t count; /* How many elements it has. */
} bobbinazure_elements;

/* The items of an element segment, of which one of the two lists is empty. */
typedef struct {
    bobbinazure_value element; /* The type of each item, a reference. */
    /* The items that are functions, a part of functions of the list of items. */
    bobbinazure_span functions;
    /* The items that are constant expressions, a part of expressions.parts of the same list. */
    bobbinazure_span expressions;
} bobbinazure_items;

/* Locals of one type. */
typedef struct {
    uint32_t count; /* How many there are. */
    /* Their type. In locals a type of the module is named by the type section: list is
       BOBBINAZURE_OF_SECTION, and heap is BOBBINAZURE_HEAP_DECLARED. In metadata_locals it is an
       interned type. */
    bobbinazure_value value;
} bobbinazure_locals;

/* An operator of a constant expression. */
typedef struct {
    uint8_t code;  /* Which one, from BOBBINAZURE_I32_CONST on. */
    uint8_t heap;  /* What a null reference is to, from BOBBINAZURE_HEAP_EXTERN on. */
    /* Which list the index of a null reference is of, from BOBBINAZURE_NO_INDEX on. */
    uint8_t list;
    /* The global, the function or the type that it names. An operator that makes an object names
       its type by the type section; a null reference by list. */
    uint32_t index;
    /* The bits of a constant, of a vector the lower half; of array.new_fixed the number of
       elements. */
    uint64_t low;
    uint64_t high; /* The upper half of the bits of a vector. */
} bobbinazure_operator;

/* A defined global that begins as a known value. */
typedef struct {
    uint32_t global;            /* The global, by its number among the defined ones. */
    bobbinazure_operator value; /* The constant that makes the value: a number or a vector. */
} bobbinazure_global_value;

/* How many hints of branches a function has. */
typedef struct {
    uint32_t function; /* The function, by its index. */
    uint64_t count;    /* How many hints it has. */
} bobbinazure_hints;

/* A branch hint. */
typedef struct {
    /* The function, by its index. Hints of a function that the module has not are left out;
       nothing checks the offset. */
    uint32_t function;
    /* Where the branch is, in bytes from the beginning of the function's body, which begins with
       its locals. */
    uint32_t offset;
    uint32_t taken; /* Whether it is likely to be taken. */
} bobbinazure_branch_hint;

/* Which passive element segment a segment of the module is. */
typedef struct {
    uint32_t segment; /* Its number in the element section. */
    /* Its index among the passive ones: in passive_elements, and in passive_items. */
    uint32_t passive;
} bobbinazure_passive_segment;

/* A passive element segment. */
typedef struct {
    bobbinazure_value element; /* The type of its elements, a reference. */
    uint64_t count;            /* How many elements it has. */
} bobbinazure_passive_elements;

/* An import. */
typedef struct {
    uint32_t kind;         /* The kind of its entity, from BOBBINAZURE_FUNCTION on. */
    uint32_t index;        /* The index of its entity, among those of its kind. */
    bobbinazure_span from; /* The name of the module that it comes from, a part of import_names. */
    bobbinazure_span name; /* Its name there, a part of import_names. */
} bobbinazure_import;

/* An export. */
typedef struct {
    uint32_t kind;         /* The kind of its entity, from BOBBINAZURE_FUNCTION on. */
    uint32_t index;        /* The index of its entity, among those of its kind. */
    bobbinazure_span name; /* Its name, a part of export_names. */
} bobbinazure_export;

/* The layout of the objects of an interned type. */
typedef struct {
    uint32_t type;           /* The interned type. */
    /* What its objects are, from BOBBINAZURE_ARRAY_OBJECT on: 0 an array, 1 a struct, 2 an
       exception. */
    uint32_t kind;
    /* The size of an object in bytes; of an array, the bytes before its elements. */
    uint32_t size;
    uint32_t align;          /* The alignment of an object, in bytes. */
    uint32_t element;        /* The bytes of an element of an array. */
    /* Whether the collector follows the elements of an array, as is_ref of a field. */
    uint32_t refs;
    bobbinazure_span fields; /* Its fields, a part of layout_fields. */
} bobbinazure_layout;

/* A field of a layout. */
typedef struct {
    uint32_t offset; /* Where in the object it begins, in bytes. */
    /* Whether the collector follows it: a reference, but not to i31, functions or continuations.
       Any reference has four bytes. */
    uint32_t is_ref;
} bobbinazure_layout_field;

/* An interned type. */
typedef struct {
    /* What it is, from BOBBINAZURE_ARRAY on: 0 an array, 1 a function, 2 a struct, 3 a
       continuation, 4 an exception. */
    uint8_t kind;
    uint8_t is_final;   /* Whether it can have no subtypes. */
    uint8_t shared;     /* Whether threads may share what is of it. */
    /* Which list the supertype is of, from BOBBINAZURE_NO_INDEX on, which says that there is
       none. */
    uint8_t supertype_list;
    /* Which list the function type is of, from BOBBINAZURE_NO_INDEX on, which says that there is
       none. */
    uint8_t function_list;
    uint32_t supertype; /* The supertype. */
    uint32_t function;  /* The function type of a continuation or an exception. */
    /* Its fields, or its parameters and then its results: a part of the plan's fields. */
    bobbinazure_span fields;
    size_t results;     /* How many of them are results. */
} bobbinazure_type;

/* A field, a parameter or a result. */
typedef struct {
    bobbinazure_value value; /* The type of its value. */
    uint32_t writable;       /* Whether it is mutable; 0 of a parameter or a result. */
} bobbinazure_field;

/* An interned type that has a trampoline. */
typedef struct {
    uint32_t type;       /* The interned type. */
    uint32_t trampoline; /* The interned type of its trampoline. */
} bobbinazure_trampoline;

/* Where the fields of an imported function begin, and their sizes, in bytes. */
typedef struct {
    uint32_t size;            /* Its size. */
    uint32_t wasm_call;       /* The pointer to its code for calls from compiled code. */
    uint32_t wasm_call_size;  /* The size of wasm_call. */
    uint32_t array_call;      /* The pointer to its code for calls with an array of values. */
    uint32_t array_call_size; /* The size of array_call. */
    uint32_t vmctx;           /* The pointer to its context. */
    uint32_t vmctx_size;      /* The size of vmctx. */
} bobbinazure_function_import_layout;

/* Where the fields of an imported table begin, and their sizes, in bytes. */
typedef struct {
    uint32_t size;       /* Its size. */
    uint32_t from;       /* The pointer to its definition. */
    uint32_t from_size;  /* The size of from. */
    uint32_t vmctx;      /* The pointer to the context that has it. */
    uint32_t vmctx_size; /* The size of vmctx. */
    uint32_t index;      /* Its index in that context. */
    uint32_t index_size; /* The size of index. */
} bobbinazure_table_import_layout;

/* Where the fields of an imported memory begin, and their sizes, in bytes. */
typedef struct {
    uint32_t size;       /* Its size. */
    uint32_t from;       /* The pointer to its definition. */
    uint32_t from_size;  /* The size of from. */
    uint32_t vmctx;      /* The pointer to the context that has it. */
    uint32_t vmctx_size; /* The size of vmctx. */
    uint32_t index;      /* Its index in that context. */
    uint32_t index_size; /* The size of index. */
} bobbinazure_memory_import_layout;

/* Where the fields of an imported tag begin, and their sizes, in bytes. */
typedef struct {
    uint32_t size;       /* Its size. */
    uint32_t from;       /* The pointer to its definition. */
    uint32_t from_size;  /* The size of from. */
    uint32_t vmctx;      /* The pointer to the context that has it. */
    uint32_t vmctx_size; /* The size of vmctx. */
    uint32_t index;      /* Its index in that context. */
    uint32_t index_size; /* The size of index. */
} bobbinazure_tag_import_layout;

/* Where the fields of an imported global begin, and their sizes, in bytes. */
typedef struct {
    uint32_t size;       /* Its size. */
    uint32_t from;       /* The pointer to its definition. */
    uint32_t from_size;  /* The size of from. */
    uint32_t vmctx;      /* The pointer to the context that has it. */
    uint32_t vmctx_size; /* The size of vmctx. */
    /* What that context is, a number of 32 bits of the engine's choice, and a payload of 32
       bits. */
    uint32_t kind;
    uint32_t kind_size;  /* The size of kind. */
} bobbinazure_global_import_layout;

/* Where the fields of a memory begin, and their sizes, in bytes. */
typedef struct {
    uint32_t size;                /* Its size. */
    uint32_t base;                /* The pointer to its first byte. */
    uint32_t base_size;           /* The size of base. */
    uint32_t current_length;      /* The number of its bytes, as wide as a pointer. */
    uint32_t current_length_size; /* The size of current_length. */
} bobbinazure_memory_definition_layout;

/* Where the fields of a table begin, and their sizes, in bytes. */
typedef struct {
    uint32_t size;                  /* Its size. */
    uint32_t base;                  /* The pointer to its first cell. */
    uint32_t base_size;             /* The size of base. */
    uint32_t current_elements;      /* The number of its cells, as wide as a pointer. */
    uint32_t current_elements_size; /* The size of current_elements. */
} bobbinazure_table_definition_layout;

/* Where the fields of a global begin, and their sizes, in bytes. */
typedef struct {
    uint32_t size;         /* Its size. */
    uint32_t storage;      /* Its value, in 16 bytes. */
    uint32_t storage_size; /* The size of storage. */
} bobbinazure_global_definition_layout;

/* Where the fields of a tag begin, and their sizes, in bytes. */
typedef struct {
    uint32_t size;            /* Its size. */
    uint32_t type_index;      /* Its type, by the index of the engine. */
    uint32_t type_index_size; /* The size of type_index. */
} bobbinazure_tag_definition_layout;

/* Where the fields of a reference to a function begin, and their sizes, in bytes. */
typedef struct {
    uint32_t size;            /* Its size. */
    uint32_t array_call;      /* The pointer to its code for calls with an array of values. */
    uint32_t array_call_size; /* The size of array_call. */
    uint32_t wasm_call;       /* The pointer to its code for calls from compiled code. */
    uint32_t wasm_call_size;  /* The size of wasm_call. */
    uint32_t type_index;      /* Its type, by the index of the engine. */
    uint32_t type_index_size; /* The size of type_index. */
    uint32_t vmctx;           /* The pointer to its context. */
    uint32_t vmctx_size;      /* The size of vmctx. */
} bobbinazure_func_ref_layout;

/* Where the fields of the context of a store begin, and their sizes, in bytes. */
typedef struct {
    uint32_t size;                              /* Its size. */
    uint32_t fuel_consumed;                     /* The fuel that was consumed. */
    uint32_t fuel_consumed_size;                /* The size of fuel_consumed. */
    uint32_t epoch_deadline;                    /* The deadline, a number of epochs. */
    uint32_t epoch_deadline_size;               /* The size of epoch_deadline. */
    uint32_t stack_limit;                       /* The limit of the stack. */
    uint32_t stack_limit_size;                  /* The size of stack_limit. */
    /* The memory of the collected heap, as memory_definition. */
    uint32_t gc_heap;
    uint32_t gc_heap_size;                      /* The size of gc_heap. */
    /* The frame pointer of the last trampoline out of compiled code. */
    uint32_t last_wasm_exit_trampoline_fp;
    uint32_t last_wasm_exit_trampoline_fp_size; /* The size of last_wasm_exit_trampoline_fp. */
} bobbinazure_store_context_layout;

/* Where the fields of the part of a context that all modules have begin, and their sizes, in
   bytes. */
typedef struct {
    uint32_t size;                   /* Where what depends on the module begins. */
    /* The number by which the engine recognises a context, of its choice. */
    uint32_t magic;
    uint32_t magic_size;             /* The size of magic. */
    uint32_t store_context;          /* The pointer to the context of the store. */
    uint32_t store_context_size;     /* The size of store_context. */
    uint32_t builtin_functions;      /* The pointer to the built-in functions. */
    uint32_t builtin_functions_size; /* The size of builtin_functions. */
    uint32_t epoch_ptr;              /* The pointer to the current epoch. */
    uint32_t epoch_ptr_size;         /* The size of epoch_ptr. */
    uint32_t gc_heap_data;           /* The pointer to the data of the collector. */
    uint32_t gc_heap_data_size;      /* The size of gc_heap_data. */
    uint32_t type_ids;               /* The pointer to the indices of the types. */
    uint32_t type_ids_size;          /* The size of type_ids. */
} bobbinazure_static_context_layout;

/* The structs that compiled code reads. */
typedef struct {
    bobbinazure_function_import_layout function_import;
    bobbinazure_table_import_layout table_import;
    bobbinazure_memory_import_layout memory_import;
    bobbinazure_tag_import_layout tag_import;
    bobbinazure_global_import_layout global_import;
    bobbinazure_memory_definition_layout memory_definition;
    bobbinazure_table_definition_layout table_definition;
    bobbinazure_global_definition_layout global_definition;
    bobbinazure_tag_definition_layout tag_definition;
    bobbinazure_func_ref_layout func_ref;
    bobbinazure_store_context_layout store_context;
    bobbinazure_static_context_layout static_context;
} bobbinazure_structs;

/* Bytes that a plan refers to, of the module or made by the plan. */
typedef struct {
    /* Whether the plan made the bytes; 0 where they are those of the module, which must outlive
       the plan. */
    uint32_t made;
    bobbinazure_bytes bytes; /* The bytes. */
} bobbinazure_runtime;

/* A region of the context. */
typedef struct {
    uint32_t begin;         /* Where in the context it begins, in bytes. */
    uint32_t size;          /* Its size, in bytes. */
    bobbinazure_bytes name; /* Its name, which says what it holds, in ASCII. */
} bobbinazure_region;

/* The name of a function. */
typedef struct {
    uint32_t function;      /* The function, by its index. */
    bobbinazure_bytes name; /* Its name, in the module's bytes, in UTF-8. */
} bobbinazure_function_name;

/* Constant expressions. */
typedef struct {
    BOBBINAZURE_LIST(bobbinazure_span) parts;         /* The part of the operators that each is. */
    BOBBINAZURE_LIST(bobbinazure_operator) operators; /* The operators of all, end to end. */
} bobbinazure_expressions;

/* The items of element segments. */
typedef struct {
    BOBBINAZURE_LIST(bobbinazure_items) rows; /* The items of each segment, in order. */
    /* The items that are functions, by their indices, end to end. */
    BOBBINAZURE_LIST(uint32_t) functions;
    /* The items that are constant expressions, end to end. */
    bobbinazure_expressions expressions;
} bobbinazure_element_items;

/* The body of a function. */
typedef struct {
    /* Its bytes, which follow its size: its locals, then its code. A part of the module's bytes. */
    bobbinazure_bytes bytes;
    /* Its code, behind its locals, up to the end of the body: a part of the module's bytes. */
    bobbinazure_bytes code;
    bobbinazure_span locals; /* Its locals, a part of the plan's list locals. */
} bobbinazure_body;

/* The name of a local. */
typedef struct {
    uint32_t function;      /* The function, by its index. */
    uint32_t local;         /* The local, by its index; the parameters come first. */
    bobbinazure_bytes name; /* Its name, in the module's bytes, in UTF-8. */
} bobbinazure_local_name;

/* A plan, or why there is none. */
typedef struct {
    /* Why the module is refused, from BOBBINAZURE_MALFORMED on; 0 of a plan. */
    uint32_t refusal;
    /* Of an invalid module the rule that it breaks, from 1 to 10; of an unsupported one what is
       not supported, from BOBBINAZURE_COMPONENT on. */
    uint32_t refusal_detail;
    /* The line of the refusal, as the program prints it, with its line feed. It is never freed. */
    bobbinazure_bytes refusal_line;
    bobbinazure_entities entities;                /* How many entities there are. */
    /* When the startup function runs, from BOBBINAZURE_STARTUP_NONE on: never, always, or where
       a memory does not begin as its image. The engine makes that function. */
    uint32_t startup;
    /* The interned type of the startup function. Read it only where one may run: 0 is a type
       too. */
    uint32_t startup_type;
    /* Whether memories begin as images. There may be no image all the same. */
    uint32_t images_made;
    uint32_t types;                               /* How many interned types there are. */
    /* The alignment of images, in bytes; 0 where images_made is 0. */
    uint64_t data_align;
    /* The index of the start function; BOBBINAZURE_NONE where there is none. */
    uint32_t start;
    /* Whether a defined table has elements other than references to functions and continuations;
       those to i31 count. Where it is 0, imported tables, globals and code may still need a
       heap. */
    uint32_t needs_gc_heap;
    /* How many functions escape, so that the context has a reference to each. */
    uint64_t escaped_functions;
    /* Where the contents of the code section begin in the module, in bytes; 0 without a code
       section. */
    uint64_t code_section_offset;
    /* Where the module begins in the bytes that were read: 0. */
    uint64_t module_offset;
    /* Whether the module has sections of debug information (DWARF), none of which is read. */
    uint32_t has_unparsed_debuginfo;
    /* The bytes of a pointer of the target: 4 or 8. */
    uint32_t pointer;
    /* Where the parts of the context begin. Align a context to 16 bytes. */
    bobbinazure_context context;
    /* The interned type of each type of the type section. */
    BOBBINAZURE_LIST(uint32_t) declared;
    BOBBINAZURE_LIST(bobbinazure_range) groups;   /* The recursion groups of interned types. */
    /* The interned type of each function, imported ones first. */
    BOBBINAZURE_LIST(uint32_t) functions;
    /* The index of each function among those that escape; BOBBINAZURE_NONE of one that does not. */
    BOBBINAZURE_LIST(uint32_t) escapes;
    /* The interned types of the functions that escape, each once. */
    BOBBINAZURE_LIST(uint32_t) signatures;
    /* The memories, imported ones first. The next three lists are of the other kinds, likewise. */
    BOBBINAZURE_LIST(bobbinazure_memory) memories;
    BOBBINAZURE_LIST(bobbinazure_table) tables;
    BOBBINAZURE_LIST(bobbinazure_global) globals;
    BOBBINAZURE_LIST(bobbinazure_tag) tags;
    /* The runtime data: images or the bytes of active segments, then those of passive ones. */
    BOBBINAZURE_LIST(bobbinazure_runtime) runtime;
    /* The range of each runtime data; the ranges are end to end from 0. Images have whole pages,
       so each of their ranges begins at a multiple of data_align. */
    BOBBINAZURE_LIST(bobbinazure_range) runtime_ranges;
    BOBBINAZURE_LIST(bobbinazure_image) images;   /* The images of memories, by ascending memory. */
    /* What startup writes to memories, in order: data segments, or, where images are made, each
       of the images. An engine leaves out an image that it maps. */
    BOBBINAZURE_LIST(bobbinazure_segment) segments;
    /* The passive data segments, by ascending segment. */
    BOBBINAZURE_LIST(bobbinazure_passive) passive;
    /* The image of each defined table, a part of the next list. */
    BOBBINAZURE_LIST(bobbinazure_span) table_images;
    /* Functions by their indices; BOBBINAZURE_NONE for the null reference. */
    BOBBINAZURE_LIST(uint32_t) cells;
    /* The element segments that remain to be written, in order. */
    BOBBINAZURE_LIST(bobbinazure_elements) elements;
    /* The regions of the context, the last one first. */
    BOBBINAZURE_LIST(bobbinazure_region) regions;
    /* The passive element segments, in order. */
    BOBBINAZURE_LIST(bobbinazure_passive_elements) passive_elements;
    /* The names of functions, ascending, for each the last one. A function has a name only where
       it is declared before the section of names; bobbinazure_names gives all. */
    BOBBINAZURE_LIST(bobbinazure_function_name) function_names;
    /* The functions that have an entry in the hints of branches, ascending. The last section
       without a fault counts, and in it the first entry of each. */
    BOBBINAZURE_LIST(bobbinazure_hints) hints;
    /* The branch hints, function by function, those of a function in the order of the section. */
    BOBBINAZURE_LIST(bobbinazure_branch_hint) branch_hints;
    /* Which segments of the element section are passive, in order. */
    BOBBINAZURE_LIST(bobbinazure_passive_segment) passive_segments;
    /* The defined globals that begin as a known value. */
    BOBBINAZURE_LIST(bobbinazure_global_value) global_values;
    /* The defined globals that begin as the value of an expression, each by its number among the
       defined ones. */
    BOBBINAZURE_LIST(uint32_t) expressed_globals;
    bobbinazure_expressions global_expressions;   /* The expression of each of expressed_globals. */
    /* The offset of each of segments, as an expression; it has no operators where the offset is
       planned. */
    bobbinazure_expressions segment_places;
    /* The offset of each of elements, as an expression. */
    bobbinazure_expressions element_places;
    /* The initialiser of each defined table. It has no operators where the table declares none,
       or where lazy_tables made it an image, even of no cells; plan without that option to see
       it. */
    bobbinazure_expressions table_values;
    BOBBINAZURE_LIST(bobbinazure_import) imports; /* The imports, in order. */
    BOBBINAZURE_LIST(uint8_t) import_names;       /* The names of imports, end to end, in UTF-8. */
    BOBBINAZURE_LIST(bobbinazure_export) exports; /* The exports, in order. */
    BOBBINAZURE_LIST(uint8_t) export_names;       /* The names of exports, end to end, in UTF-8. */
    /* The module's name, if it has one, a part of module_text. */
    BOBBINAZURE_LIST(bobbinazure_span) module_names;
    /* The layouts of the objects of interned types that have some, by ascending type. */
    BOBBINAZURE_LIST(bobbinazure_layout) layouts;
    /* The fields of layouts, end to end. */
    BOBBINAZURE_LIST(bobbinazure_layout_field) layout_fields;
    BOBBINAZURE_LIST(bobbinazure_type) interned;  /* The interned types. */
    BOBBINAZURE_LIST(bobbinazure_field) fields;   /* The fields of interned types, end to end. */
    /* The interned types that have a trampoline, in order. */
    BOBBINAZURE_LIST(bobbinazure_trampoline) trampolines;
    BOBBINAZURE_LIST(uint8_t) module_text;        /* The text of the module's name, in UTF-8. */
    /* The sizes of the structs that compiled code reads, and where their fields begin. */
    bobbinazure_structs structs;
    bobbinazure_element_items element_items;      /* The items of each of elements. */
    bobbinazure_element_items passive_items;      /* The items of each of passive_elements. */
    BOBBINAZURE_LIST(bobbinazure_body) bodies;    /* The body of each defined function, in order. */
    /* The locals of bodies, end to end, in runs of one type. */
    BOBBINAZURE_LIST(bobbinazure_locals) locals;
    uint32_t imported_func_count;                 /* How many functions are imported. */
    /* The names of locals from the custom section name, by functions and then by locals, as far
       as the function is declared before that section; bobbinazure_names gives all. This list
       and the next two are empty without native_debug. */
    BOBBINAZURE_LIST(bobbinazure_local_name) local_names;
    /* The locals of each defined function, a part of the next list. Its parameters are those of
       its type, which functions names. */
    BOBBINAZURE_LIST(bobbinazure_span) function_metadata;
    /* The locals of functions, end to end, in runs of one interned type. */
    BOBBINAZURE_LIST(bobbinazure_locals) metadata_locals;
} bobbinazure_plan;

/* Each list of a plan. */
#define BOBBINAZURE_LISTS(EACH) \
    EACH(declared) EACH(groups) EACH(functions) EACH(escapes) EACH(signatures) EACH(memories) \
    EACH(tables) EACH(globals) EACH(tags) EACH(runtime) EACH(runtime_ranges) EACH(images) \
    EACH(segments) EACH(passive) EACH(table_images) EACH(cells) EACH(elements) EACH(regions) \
    EACH(passive_elements) EACH(function_names) EACH(hints) EACH(branch_hints) \
    EACH(passive_segments) EACH(global_values) EACH(expressed_globals) \
    EACH(global_expressions.parts) EACH(global_expressions.operators) EACH(segment_places.parts) \
    EACH(segment_places.operators) EACH(element_places.parts) EACH(element_places.operators) \
    EACH(table_values.parts) EACH(table_values.operators) EACH(imports) EACH(import_names) \
    EACH(exports) EACH(export_names) EACH(module_names) EACH(layouts) EACH(layout_fields) \
    EACH(interned) EACH(fields) EACH(trampolines) EACH(module_text) EACH(element_items.rows) \
    EACH(element_items.functions) EACH(element_items.expressions.parts) \
    EACH(element_items.expressions.operators) EACH(passive_items.rows) \
    EACH(passive_items.functions) EACH(passive_items.expressions.parts) \
    EACH(passive_items.expressions.operators) EACH(bodies) EACH(locals) EACH(local_names) \
    EACH(function_metadata) EACH(metadata_locals)

/* A data segment of a module. */
typedef struct {
    /* What it is, from BOBBINAZURE_PASSIVE_SEGMENT on: 0 passive, 1 active. */
    uint32_t kind;
    /* The memory that an active one writes, by its index; 0 of a passive one. */
    uint32_t memory;
    /* Which of expressions gives the offset of an active one, in bytes; 0 of a passive one. */
    size_t offset;
    bobbinazure_bytes bytes; /* Its bytes, in the bytes of the module. They are never freed. */
} bobbinazure_data_segment;

/* An element segment of a module. */
typedef struct {
    /* What it is, from BOBBINAZURE_PASSIVE_SEGMENT on: 0 passive, 1 active, 2 declarative. */
    uint32_t kind;
    /* The table that an active one writes, by its index; 0 of another one. */
    uint32_t table;
    /* Which of expressions gives the offset of an active one, in cells; 0 of another one. */
    size_t offset;
    /* The type of each item, a reference; of function indices funcref, as in a plan. A type of
       the module is named by the type section: list is BOBBINAZURE_OF_SECTION, and heap is
       BOBBINAZURE_HEAP_DECLARED. */
    bobbinazure_value element;
    /* Whether its items are written as constant expressions; else as function indices, and then
       none is null: the segment fits a table of (ref func) too. */
    uint32_t expressed;
    bobbinazure_span functions; /* The items that are functions, a part of functions. */
    /* The items that are constant expressions, a part of expressions.parts. */
    bobbinazure_span expressions;
} bobbinazure_element_segment;

/* The segments of a module, and what ref.func in its bodies may name. */
typedef struct {
    BOBBINAZURE_LIST(bobbinazure_data_segment) data_segments; /* The data segments, in order. */
    /* The element segments, in order. */
    BOBBINAZURE_LIST(bobbinazure_element_segment) element_segments;
    /* The items of element segments that are functions, by their indices, end to end. */
    BOBBINAZURE_LIST(uint32_t) functions;
    /* The offset and the items of each element segment, and then the offsets of the data
       segments. A type of the module is named by the type section, as in element. */
    bobbinazure_expressions expressions;
    /* The functions that ref.func in a body may name, ascending: those that occur in the module
       outside of its bodies and its start function. */
    BOBBINAZURE_LIST(uint32_t) references;
} bobbinazure_segment_list;

/* The text of a plan, or the line of a refusal. */
typedef struct {
    bobbinazure_bytes text; /* In UTF-8, without a zero at the end. */
    /* Whether the text is in memory of its own, which bobbinazure_text_free frees. */
    uint32_t made;
} bobbinazure_text;

/* What an import is given. */
typedef struct {
    uint32_t answer; /* What it is, from BOBBINAZURE_GIVEN on: 0 given, 1 missing, 2 a mismatch. */
    /* Where it is given, the number of the export, from 0 on; of a mismatch the rule that it
       breaks, from BOBBINAZURE_MISMATCH_KIND on; else 0. */
    uint32_t detail;
    /* The text of a mismatch, without a line feed; else empty. It is never freed. */
    bobbinazure_bytes line;
} bobbinazure_import_answer;

/* What each import of a module is given, or which module is refused. */
typedef struct {
    /* 1 where the first module is refused, 2 where the second is; 0 where both are planned. */
    uint32_t refused;
    /* Why that module is refused: this field and the next two are those of a plan. */
    uint32_t refusal;
    uint32_t refusal_detail;
    /* The line of the refusal, as the program prints it, with its line feed. It is never freed. */
    bobbinazure_bytes refusal_line;
    /* The answer to each import of the second module, in order. */
    BOBBINAZURE_LIST(bobbinazure_import_answer) answers;
} bobbinazure_link_record;

/* A module of a program, and its name. */
typedef struct {
    bobbinazure_bytes name;  /* The name under which later modules import its exports, in UTF-8. */
    bobbinazure_bytes bytes; /* The bytes of the module. */
} bobbinazure_named_module;

/* What an import of a program is given. */
typedef struct {
    uint32_t answer; /* What it is, from BOBBINAZURE_GIVEN on: 0 given, 1 missing, 2 a mismatch. */
    /* Of a mismatch the rule that it breaks, from BOBBINAZURE_MISMATCH_KIND on; else 0. */
    uint32_t rule;
    /* Where it is given, the number of the module that exports it, from 0 on; else 0. */
    size_t module;
    /* Where it is given, the number of the export in that module, from 0 on; else 0. */
    size_t export_number;
    /* The text of a mismatch, without a line feed; else empty. It is never freed. */
    bobbinazure_bytes line;
} bobbinazure_program_answer;

/* A module of a program that is linked. */
typedef struct {
    /* The indices of its interned types, in order, a part of the program's list types. */
    bobbinazure_span types;
    /* The answer to each of its imports, in order, a part of the program's list answers. */
    bobbinazure_span answers;
    size_t first_export; /* How many exports the modules before it have. */
} bobbinazure_linked_module;

/* A program of modules that are linked, or why it is refused. */
typedef struct {
    /* Why the program is refused, from BOBBINAZURE_CAUSE_MODULE on; 0 where it is linked. */
    uint32_t cause;
    /* Where the cause is a module, why it is refused: this field and the next two are those of a
       plan. */
    uint32_t refusal;
    uint32_t refusal_detail;
    /* Where the cause is a module, the line of its refusal, with its line feed; else empty. It
       is never freed. */
    bobbinazure_bytes refusal_line;
    /* The number of the module at which the program is refused, from 0 on; 0 where it is linked. */
    size_t refused;
    BOBBINAZURE_LIST(bobbinazure_linked_module) modules; /* The modules, in order. */
    /* The index of each interned type in the registry of the call, module by module; another
       call counts anew. Two types have one index exactly where they are equal. */
    BOBBINAZURE_LIST(uint32_t) types;
    /* The answer to each import, module by module. */
    BOBBINAZURE_LIST(bobbinazure_program_answer) answers;
} bobbinazure_program;

/* Where and why a module is malformed or not supported. Offsets count the bytes of the module,
   from 0 on. */
typedef struct {
    /* The id of the section; BOBBINAZURE_NONE in the header, and where no section has the id. */
    uint32_t section;
    /* The offset of the section, which begins with its id; 0 in the header. */
    uint32_t section_start;
    /* The entry of the section, from 0 on, where an entry is wrong; else BOBBINAZURE_NONE. */
    uint32_t entry;
    /* Where the wrong entry or part begins; the length of the module where it ends inside its
       header or a section. */
    uint32_t byte;
    /* How many bytes decide that the module is refused, whatever follows them; with other bytes
       behind them the cause may differ. BOBBINAZURE_NONE where the module ends too early. */
    uint32_t decided;
    uint32_t fault;             /* What is wrong: a number from BOBBINAZURE_FAULT_HEADER on. */
    bobbinazure_bytes sentence; /* A sentence for people, in UTF-8, without a zero at the end. */
    /* Whether the sentence is in memory of its own, which bobbinazure_place_free frees. */
    uint32_t made;
} bobbinazure_place;

/* The first rule that a module breaks, and the first entry that breaks it, in the first of the
   lists of the rule that has one. */
typedef struct {
    uint32_t rule;              /* The rule, from 1 to 10. */
    /* The list that has the entry: a number from BOBBINAZURE_IN_TYPES on. */
    uint32_t list;
    uint32_t entry;             /* The index of the entry in that list, from 0 on. */
    /* The id of the section that has it: of an import, the import section. */
    uint32_t section;
    /* The entry of that section, from 0 on: of a type, its group. 0 in a start or data count
       section. */
    uint32_t section_entry;
    uint32_t byte;              /* The offset at which the section's entry begins. */
    bobbinazure_bytes sentence; /* A sentence for people, in UTF-8, without a zero at the end. */
    /* Whether the sentence is in memory of its own, which bobbinazure_broken_rule_free frees. */
    uint32_t made;
} bobbinazure_broken_rule;

/* What makes a module too large to be planned, and where it is. */
typedef struct {
    uint32_t kind;              /* What it is: a number from BOBBINAZURE_EXCESS_INPUT on. */
    /* The index of the memory, the type or the tag; BOBBINAZURE_NONE of the input and the
       context. */
    uint32_t index;
    /* The id of the section that has it: of an import, the import section; BOBBINAZURE_NONE of
       the input and the context. */
    uint32_t section;
    /* The entry of that section, from 0 on: of a type, its group. 0 of the input and the
       context. */
    uint32_t section_entry;
    /* The offset at which the section's entry begins; 0 of the input and the context. */
    uint32_t byte;
    bobbinazure_bytes sentence; /* A sentence for people, in UTF-8, without a zero at the end. */
    /* Whether the sentence is in memory of its own, which bobbinazure_excess_free frees. */
    uint32_t made;
} bobbinazure_excess;

/* A name, and what it names. */
typedef struct {
    uint32_t subsection; /* What is named, as BOBBINAZURE_NAME_GLOBAL. */
    /* Its index; 0 of the module. Of a local or a label that of its function, of a field that of
       its type. */
    uint32_t index;
    uint32_t has_inner;  /* Whether it is a local, a label or a field. */
    uint32_t inner;      /* The index of the local, the label or the field; else 0. */
    /* The name, which is UTF-8, in the bytes of the module. It is never freed. */
    bobbinazure_bytes name;
} bobbinazure_name_entry;

/* The names that a module gives. */
typedef struct {
    /* In the order of the bytes. Of several for one index, the last one counts. */
    BOBBINAZURE_LIST(bobbinazure_name_entry) entries;
} bobbinazure_name_list;

/* A section of a module. Offsets count the bytes of the module, from 0 on. */
typedef struct {
    uint32_t id;       /* The id; no section of a module has one above 13. */
    uint32_t start;    /* The offset of the section, which begins with its id. */
    /* The offset of its contents. Where has_name is 1 they begin with the name; the rest goes
       from the end of the name up to contents + size. */
    uint32_t contents;
    uint32_t size;     /* The length of its contents, in bytes. */
    uint32_t has_name; /* Whether it is a custom section that begins with a name. */
    /* The name, in the bytes of the module. Without a name it is empty, and not in those bytes.
       It is never freed. */
    bobbinazure_bytes name;
} bobbinazure_section;

/* The sections of a module. */
typedef struct {
    /* In order, as far as each has an id, a size and all its contents. */
    BOBBINAZURE_LIST(bobbinazure_section) sections;
} bobbinazure_section_list;

/* The end of what embed/generate makes. */

/* Plans the module that the bytes spell.
 *
 * The call reads the bytes and the options. The plan points into the bytes, where a body, a segment
 * or a name is: keep the bytes until you free the plan. `plan` must come from bobbinazure_plan_init:
 * what it held is not freed.
 *
 *   PLANNED        the plan is complete; bobbinazure_plan_free frees it
 *   REFUSED        its first three fields say why; its lists stay empty, so nothing has to be freed
 *   NO_MEMORY      it has the lists that were made; bobbinazure_plan_free frees them
 *   WRONG_OPTIONS  it is unchanged */
uint32_t bobbinazure_make_plan(const uint8_t *bytes, size_t len, const bobbinazure_options *options,
                               bobbinazure_plan *plan);

/* The same plan as text, or the line of the refusal: UTF-8 without a zero at the end.
 *
 * `text` must come from bobbinazure_text_init, and bobbinazure_text_free frees it. It does not
 * point into the bytes of the module. At WRONG_OPTIONS and NO_MEMORY it is unchanged. */
uint32_t bobbinazure_make_text(const uint8_t *bytes, size_t len, const bobbinazure_options *options,
                               bobbinazure_text *text);

/* The plan and its text by one call. At NO_MEMORY the text is unchanged. */
uint32_t bobbinazure_make_plan_and_text(const uint8_t *bytes, size_t len, const bobbinazure_options *options,
                                        bobbinazure_plan *plan, bobbinazure_text *text);

/* Links the imports of a module, `importer`, to the exports of another, `exporter`.
 *
 * An export matches as the exporter declares it: by equal types, and by the sizes that are declared,
 * not those that a memory or a table has grown to.
 *
 * The exports are known under the module name at `as_module`: UTF-8 without a zero at the end. Both
 * modules are planned with the options. `links` must come from bobbinazure_link_init. It does not
 * point into the bytes of the modules.
 *
 *   PLANNED        it has an answer for each import, found or not; bobbinazure_link_free frees them
 *   REFUSED        its first four fields say which module is refused, the first where both are, and
 *                  why; it has no answers
 *   NO_MEMORY      it is unchanged
 *   WRONG_OPTIONS  the options are wrong, or the name is not UTF-8; it is unchanged */
uint32_t bobbinazure_link(const uint8_t *exporter, size_t exporter_len, const uint8_t *importer, size_t importer_len,
                          const uint8_t *as_module, size_t as_module_len, const bobbinazure_options *options,
                          bobbinazure_link_record *links);

/* Links the modules of a program, in order: the imports of each are given by the exports of those
 * before it, under their module names. An import that is not given refuses nothing: its answer says
 * so. An export matches as its module declares it, also where that module imports it.
 *
 * The types of all modules are registered together, in a registry of the call: two types have one
 * index exactly where they are equal. All modules are planned with the options. The names are UTF-8
 * without zeros at the end. `program` must come from bobbinazure_program_init. It does not point
 * into the bytes of the modules.
 *
 *   PLANNED        it has the indices of types and an answer for each import;
 *                  bobbinazure_program_free frees them
 *   REFUSED        its first five fields say why, and at which module, from 0 on: the first that is
 *                  refused; if all have plans, the first with too many types or the first that has
 *                  both names of an export of an earlier one
 *   NO_MEMORY      it is unchanged
 *   WRONG_OPTIONS  the options are wrong, or a name is not UTF-8; it is unchanged */
uint32_t bobbinazure_link_program(const bobbinazure_named_module *modules, size_t count,
                                  const bobbinazure_options *options, bobbinazure_program *program);

/* Says where and why bytes are malformed or not supported, for messages: call it after such a
 * refusal.
 *
 * `place` must come from bobbinazure_place_init, and bobbinazure_place_free frees it. It does not
 * point into the bytes.
 *
 *   PLANNED        the bytes are read as a module, or there are 2^30 or more; it is unchanged
 *   REFUSED        it says where and why
 *   NO_MEMORY      it is unchanged */
uint32_t bobbinazure_locate(const uint8_t *bytes, size_t len, bobbinazure_place *place);

/* Says which rule a module breaks, where and why: call it after INVALID.
 *
 * `broken` must come from bobbinazure_broken_rule_init, and bobbinazure_broken_rule_free frees it.
 * It does not point into the bytes.
 *
 *   PLANNED        the bytes are not read as a module, or it keeps the rules; `broken` is unchanged
 *   REFUSED        it says which rule, where and why
 *   NO_MEMORY      it is unchanged */
uint32_t bobbinazure_locate_rule(const uint8_t *bytes, size_t len, bobbinazure_broken_rule *broken);

/* Says what makes a module too large to be planned with the options, and where: call it after
 * TOO_LARGE or OFFSET_OVERFLOW. It plans the module again.
 *
 * `excess` must come from bobbinazure_excess_init, and bobbinazure_excess_free frees it. It does
 * not point into the bytes. Of memories, types and tags it names the first, in this order.
 *
 *   PLANNED        it is not too large; `excess` is unchanged
 *   REFUSED        it says what is too large, and where
 *   NO_MEMORY      it is unchanged
 *   WRONG_OPTIONS  it is unchanged */
uint32_t bobbinazure_locate_excess(const uint8_t *bytes, size_t len, const bobbinazure_options *options,
                                   bobbinazure_excess *excess);

/* Lists the names that the bytes give to functions, locals, labels, types, tables, memories, globals,
 * segments, fields, tags and the module, in all sections called `name`. The sections are those of
 * bobbinazure_sections, also where the bytes are no module. Where such a section has a fault, the
 * names before the fault are listed. Nothing checks an index.
 *
 * `list` must come from bobbinazure_names_init, and bobbinazure_names_free frees it. The names are
 * in the bytes, which must outlive the list.
 *
 *   PLANNED        it has the names
 *   NO_MEMORY      it is unchanged */
uint32_t bobbinazure_names(const uint8_t *bytes, size_t len, bobbinazure_name_list *list);

/* Lists the sections of the bytes, also where they are no module: none where the header is wrong,
 * and where there are 2^30 bytes or more.
 *
 * `list` must come from bobbinazure_sections_init, and bobbinazure_sections_free frees it. The
 * names are in the bytes, which must outlive the list.
 *
 *   PLANNED        it has the sections
 *   NO_MEMORY      it is unchanged */
uint32_t bobbinazure_sections(const uint8_t *bytes, size_t len, bobbinazure_section_list *list);

/* Whether a memory of a plan may be moved as it grows, where `reservation` bytes are reserved for it
 * at first: 1, or 0. It may not where `may_move` is 0, threads share it, it cannot grow, or all that
 * it can grow to is reserved. */
uint32_t bobbinazure_memory_may_move(const bobbinazure_memory *memory, uint64_t reservation, uint32_t may_move);

/* Whether the engine can leave out the bounds check of an address: 1, or 0. It can where the memory
 * has addresses of 32 bits, `reservation` and `guard_size` together cover 2^32 bytes, and the pages of
 * the memory are no smaller than the host's. The `guard_size` bytes of guard pages follow the
 * reservation, and the host turns their faults into traps. The host's page size is given as an
 * exponent of 2. The answer covers the address alone: the engine must still check that the static
 * offset plus the width of an access fits behind any such address, within reservation and guard. */
uint32_t bobbinazure_can_elide_bounds_check(const bobbinazure_memory *memory, uint64_t reservation,
                                            uint64_t guard_size, uint32_t host_page_size_log2);

/* Whether a size in bytes is one that `memory.grow` can tell from a failure: 1, or 0. It fails with
 * 4294967295, so a memory of pages of one byte and addresses of 32 bits may not reach that size. The
 * maximum is not looked at: compare `maximum_bytes` as well. */
uint32_t bobbinazure_memory_allows_growth_to(const bobbinazure_memory *memory, uint64_t size);

/* Gives the data and the element segments of a module as they stand in it, also those that a plan
 * made images of, and the functions that `ref.func` in a body may name. Rules are not checked. The
 * list `declared` of the module's plan has the interned type of each type that `segments` names.
 *
 * `segments` must come from bobbinazure_segments_init, and bobbinazure_segments_free frees it. The
 * bytes of data segments are in the module's bytes, which must outlive it.
 *
 *   PLANNED        it has the segments
 *   REFUSED        the bytes are malformed, not supported or too large; it is unchanged
 *   NO_MEMORY      it is unchanged */
uint32_t bobbinazure_segments(const uint8_t *bytes, size_t len, bobbinazure_segment_list *segments);

/* The version of the library: 10000 * major + 100 * minor + patch. */
uint32_t bobbinazure_version(void);

/* The offset in the module of bytes that a plan points to there: the bytes or the code of a body, the
 * name of a function or a local, a segment, runtime data that were not made. */
static inline size_t bobbinazure_offset(const uint8_t *module, bobbinazure_bytes part) {
    return (size_t)(part.at - module);
}

/* The layout of the objects of an interned type, such as the exceptions of a tag; null where it has
 * no objects. */
static inline const bobbinazure_layout *bobbinazure_layout_of(const bobbinazure_plan *plan, uint32_t type) {
    size_t low = 0, high = plan->layouts.len;
    while (low < high) {
        size_t middle = low + (high - low) / 2;
        if (plan->layouts.at[middle].type < type) low = middle + 1;
        else high = middle;
    }
    return low < plan->layouts.len && plan->layouts.at[low].type == type ? &plan->layouts.at[low] : 0;
}

/* The passive element segment at this index in the element section, which table.init and elem.drop
 * name: its place in `passive_elements` and `passive_items`. BOBBINAZURE_NONE where that segment is
 * not passive, so that it is empty once the module is instantiated, and where there is none. */
static inline uint32_t bobbinazure_passive_elements_of(const bobbinazure_plan *plan, uint32_t segment) {
    size_t low = 0, high = plan->passive_segments.len;
    while (low < high) {
        size_t middle = low + (high - low) / 2;
        if (plan->passive_segments.at[middle].segment < segment) low = middle + 1;
        else high = middle;
    }
    if (low == plan->passive_segments.len || plan->passive_segments.at[low].segment != segment) return BOBBINAZURE_NONE;
    return plan->passive_segments.at[low].passive;
}

/* The runtime data of the passive data segment at this index in the data section, which memory.init
 * and data.drop name. BOBBINAZURE_NONE where that segment is not passive, so that it is empty once the
 * module is instantiated, and where there is none. */
static inline uint32_t bobbinazure_passive_data_of(const bobbinazure_plan *plan, uint32_t segment) {
    size_t low = 0, high = plan->passive.len;
    while (low < high) {
        size_t middle = low + (high - low) / 2;
        if (plan->passive.at[middle].segment < segment) low = middle + 1;
        else high = middle;
    }
    if (low == plan->passive.len || plan->passive.at[low].segment != segment) return BOBBINAZURE_NONE;
    return plan->passive.at[low].runtime;
}

/* The options of the program without a word of the command line. */
static inline bobbinazure_options bobbinazure_options_init(void) {
    bobbinazure_options options = {0, 0, 0, 0, 0, 8, 0, 4096, 1048576};
    return options;
}

/* A plan of empty lists. The pointers of lists and bytes are never null. */
static inline bobbinazure_plan bobbinazure_plan_init(void) {
    static const uint64_t nothing[4] = {0, 0, 0, 0};
    const void *at = nothing;
    bobbinazure_plan plan;
    memset(&plan, 0, sizeof plan);
    memcpy(&plan.refusal_line.at, &at, sizeof at);
#define BOBBINAZURE_EMPTY(list) memcpy(&plan.list.at, &at, sizeof at);
    BOBBINAZURE_LISTS(BOBBINAZURE_EMPTY)
#undef BOBBINAZURE_EMPTY
    return plan;
}

static inline bobbinazure_text bobbinazure_text_init(void) {
    bobbinazure_text text = {{(const uint8_t *)"", 0}, 0};
    return text;
}

static inline bobbinazure_place bobbinazure_place_init(void) {
    bobbinazure_place place = {BOBBINAZURE_NONE, 0, BOBBINAZURE_NONE, 0, BOBBINAZURE_NONE, 0,
                               {(const uint8_t *)"", 0}, 0};
    return place;
}

static inline bobbinazure_broken_rule bobbinazure_broken_rule_init(void) {
    bobbinazure_broken_rule broken = {0, 0, 0, 0, 0, 0, {(const uint8_t *)"", 0}, 0};
    return broken;
}

static inline bobbinazure_excess bobbinazure_excess_init(void) {
    bobbinazure_excess excess = {0, BOBBINAZURE_NONE, BOBBINAZURE_NONE, 0, 0, {(const uint8_t *)"", 0}, 0};
    return excess;
}

static inline bobbinazure_link_record bobbinazure_link_init(void) {
    static const uint64_t nothing[4] = {0, 0, 0, 0};
    const void *at = nothing;
    bobbinazure_link_record links;
    memset(&links, 0, sizeof links);
    memcpy(&links.refusal_line.at, &at, sizeof at);
    memcpy(&links.answers.at, &at, sizeof at);
    return links;
}

static inline bobbinazure_program bobbinazure_program_init(void) {
    static const uint64_t nothing[4] = {0, 0, 0, 0};
    const void *at = nothing;
    bobbinazure_program program;
    memset(&program, 0, sizeof program);
    memcpy(&program.refusal_line.at, &at, sizeof at);
    memcpy(&program.modules.at, &at, sizeof at);
    memcpy(&program.types.at, &at, sizeof at);
    memcpy(&program.answers.at, &at, sizeof at);
    return program;
}

static inline bobbinazure_name_list bobbinazure_names_init(void) {
    static const uint64_t nothing[4] = {0, 0, 0, 0};
    const void *at = nothing;
    bobbinazure_name_list list;
    memset(&list, 0, sizeof list);
    memcpy(&list.entries.at, &at, sizeof at);
    return list;
}

static inline bobbinazure_section_list bobbinazure_sections_init(void) {
    static const uint64_t nothing[4] = {0, 0, 0, 0};
    const void *at = nothing;
    bobbinazure_section_list list;
    memset(&list, 0, sizeof list);
    memcpy(&list.sections.at, &at, sizeof at);
    return list;
}

static inline bobbinazure_segment_list bobbinazure_segments_init(void) {
    static const uint64_t nothing[4] = {0, 0, 0, 0};
    const void *at = nothing;
    bobbinazure_segment_list segments;
    memset(&segments, 0, sizeof segments);
    memcpy(&segments.data_segments.at, &at, sizeof at);
    memcpy(&segments.element_segments.at, &at, sizeof at);
    memcpy(&segments.functions.at, &at, sizeof at);
    memcpy(&segments.expressions.parts.at, &at, sizeof at);
    memcpy(&segments.expressions.operators.at, &at, sizeof at);
    memcpy(&segments.references.at, &at, sizeof at);
    return segments;
}

/* Frees what a call filled, and leaves the plan as bobbinazure_plan_init returns it. A plan that no
 * call filled may be freed too. */
static inline void bobbinazure_plan_free(bobbinazure_plan *plan) {
    for (size_t i = 0; i < plan->runtime.len; i++)
        if (plan->runtime.at[i].made && plan->runtime.at[i].bytes.len)
            free((void *)plan->runtime.at[i].bytes.at);
#define BOBBINAZURE_FREE(list) if (plan->list.len) free((void *)plan->list.at);
    BOBBINAZURE_LISTS(BOBBINAZURE_FREE)
#undef BOBBINAZURE_FREE
    *plan = bobbinazure_plan_init();
}

static inline void bobbinazure_text_free(bobbinazure_text *text) {
    if (text->made && text->text.len) free((void *)text->text.at);
    *text = bobbinazure_text_init();
}

static inline void bobbinazure_place_free(bobbinazure_place *place) {
    if (place->made && place->sentence.len) free((void *)place->sentence.at);
    *place = bobbinazure_place_init();
}

static inline void bobbinazure_broken_rule_free(bobbinazure_broken_rule *broken) {
    if (broken->made && broken->sentence.len) free((void *)broken->sentence.at);
    *broken = bobbinazure_broken_rule_init();
}

static inline void bobbinazure_excess_free(bobbinazure_excess *excess) {
    if (excess->made && excess->sentence.len) free((void *)excess->sentence.at);
    *excess = bobbinazure_excess_init();
}

static inline void bobbinazure_link_free(bobbinazure_link_record *links) {
    if (links->answers.len) free((void *)links->answers.at);
    *links = bobbinazure_link_init();
}

static inline void bobbinazure_program_free(bobbinazure_program *program) {
    if (program->modules.len) free((void *)program->modules.at);
    if (program->types.len) free((void *)program->types.at);
    if (program->answers.len) free((void *)program->answers.at);
    *program = bobbinazure_program_init();
}

static inline void bobbinazure_names_free(bobbinazure_name_list *list) {
    if (list->entries.len) free((void *)list->entries.at);
    *list = bobbinazure_names_init();
}

static inline void bobbinazure_sections_free(bobbinazure_section_list *list) {
    if (list->sections.len) free((void *)list->sections.at);
    *list = bobbinazure_sections_init();
}

static inline void bobbinazure_segments_free(bobbinazure_segment_list *segments) {
    if (segments->data_segments.len) free((void *)segments->data_segments.at);
    if (segments->element_segments.len) free((void *)segments->element_segments.at);
    if (segments->functions.len) free((void *)segments->functions.at);
    if (segments->expressions.parts.len) free((void *)segments->expressions.parts.at);
    if (segments->expressions.operators.len) free((void *)segments->expressions.operators.at);
    if (segments->references.len) free((void *)segments->references.at);
    *segments = bobbinazure_segments_init();
}

#ifdef __cplusplus
}
#endif
#endif
