/* json plan [OPTION].. < FILE.wasm : prints the plan of a module as one JSON object, out of the tables alone.
 * json locate [OPTION].. < FILE.wasm : prints where and why a module is malformed, invalid, not
 *                           supported or too large, as one line.
 *
 * keys.txt has the keys. The words and the exit status are those of the program dist/translate. */
#include "layouts.h"
#include "sections.h"
#include "values.h"

/* A module of this many bytes is refused as too large. */
#define MOST_BYTES ((size_t)1 << 30)

enum { READ_FAILED = 3, WRITE_FAILED = 4 };

/* Imports, exports, and the entities of each kind. */

static void put_imports_exports(const bobbinazure_plan *plan) {
    open_list("imports");
    for (size_t i = 0; i < plan->imports.len; i++) {
        const bobbinazure_import *import = &plan->imports.at[i];
        open_object(0);
        string("module", plan->import_names.at + import->from.begin, import->from.len);
        string("name", plan->import_names.at + import->name.begin, import->name.len);
        word("kind", entity_name(import->kind));
        number("index", import->index);
        close_object();
    }
    close_list();
    open_list("exports");
    for (size_t i = 0; i < plan->exports.len; i++) {
        const bobbinazure_export *export_ = &plan->exports.at[i];
        open_object(0);
        string("name", plan->export_names.at + export_->name.begin, export_->name.len);
        word("kind", entity_name(export_->kind));
        number("index", export_->index);
        close_object();
    }
    close_list();
}

/* The types of locals are of the type section; here they are interned types, as all others. */
static bobbinazure_value interned(const bobbinazure_plan *plan, bobbinazure_value value) {
    static const uint8_t heaps[] = {BOBBINAZURE_HEAP_CONCRETE_ARRAY, BOBBINAZURE_HEAP_CONCRETE_FUNC,
                                    BOBBINAZURE_HEAP_CONCRETE_STRUCT, BOBBINAZURE_HEAP_CONCRETE_CONT,
                                    BOBBINAZURE_HEAP_CONCRETE_EXN};
    if (value.kind == BOBBINAZURE_REF && value.heap == BOBBINAZURE_HEAP_DECLARED) {
        value.index = plan->declared.at[value.index];
        value.list = BOBBINAZURE_OF_MODULE;
        value.heap = heaps[plan->interned.at[value.index].kind];
    }
    return value;
}

static void put_body(const bobbinazure_plan *plan, const bobbinazure_body *body, const uint8_t *module) {
    open_object("body");
    number("begin", bobbinazure_offset(module, body->bytes));
    number("offset", bobbinazure_offset(module, body->code));
    number("length", body->code.len);
    open_list("locals");
    for (size_t i = 0; i < body->locals.len; i++) {
        const bobbinazure_locals *run = &plan->locals.at[body->locals.begin + i];
        open_object(0);
        number("count", run->count);
        put_value_type("type", interned(plan, run->value));
        close_object();
    }
    close_list();
    close_object();
}

static void put_name(const bobbinazure_plan *plan, uint32_t function) {
    for (size_t low = 0, high = plan->function_names.len; low < high;) {
        size_t middle = low + (high - low) / 2;
        const bobbinazure_function_name *name = &plan->function_names.at[middle];
        if (name->function == function) {
            bytes("name", name->name);
            return;
        }
        if (name->function < function) low = middle + 1;
        else high = middle;
    }
    null("name");
}

static void put_local_names(const bobbinazure_local_name *at, size_t len) {
    open_list("local_names");
    for (size_t i = 0; i < len; i++) {
        open_object(0);
        number("index", at[i].local);
        bytes("name", at[i].name);
        close_object();
    }
    close_list();
}

/* How many rows from a place on are of a function: names are in the order of functions. */
static size_t names_of(const bobbinazure_plan *plan, size_t from, size_t function) {
    size_t end = from;
    while (end < plan->local_names.len && plan->local_names.at[end].function == function) end++;
    return end - from;
}

static void put_branch_hints(const bobbinazure_branch_hint *at, size_t len) {
    open_list("branch_hints");
    for (size_t i = 0; i < len; i++) {
        open_object(0);
        number("offset", at[i].offset);
        boolean("taken", at[i].taken != 0);
        close_object();
    }
    close_list();
}

static void put_functions(const bobbinazure_plan *plan, const uint8_t *module) {
    size_t imported = plan->entities.imported_functions, hinted = 0, hint = 0, named = 0;
    open_list("functions");
    for (size_t i = 0; i < plan->functions.len; i++) {
        open_object(0);
        number("index", i);
        number("type", plan->functions.at[i]);
        boolean("imported", i < imported);
        put_name(plan, i);
        size_t names = names_of(plan, named, i);
        put_local_names(plan->local_names.at + named, names);
        named += names;
        boolean("escaped", plan->escapes.at[i] != BOBBINAZURE_NONE);
        index_or_null("func_ref", plan->escapes.at[i]);
        if (i < imported || i - imported >= plan->bodies.len) null("body");
        else put_body(plan, &plan->bodies.at[i - imported], module);
        if (hinted < plan->hints.len && plan->hints.at[hinted].function == i) {
            size_t count = plan->hints.at[hinted++].count;
            put_branch_hints(plan->branch_hints.at + hint, count);
            hint += count;
        } else {
            null("branch_hints");
        }
        close_object();
    }
    close_list();
}

static void put_limits(uint64_t minimum, uint64_t maximum, int bounded, int wide) {
    word("address_type", wide ? "i64" : "i32");
    number("minimum", minimum);
    if (bounded) number("maximum", maximum);
    else null("maximum");
}

static void put_tables(const bobbinazure_plan *plan) {
    size_t imported = plan->entities.imported_tables;
    open_list("tables");
    for (size_t i = 0; i < plan->tables.len; i++) {
        const bobbinazure_table *table = &plan->tables.at[i];
        size_t defined = i - imported;
        open_object(0);
        number("index", i);
        boolean("imported", i < imported);
        put_limits(table->minimum, table->maximum, table->bounded != 0, table->wide != 0);
        put_value_type("element", table->element);
        if (i < imported || !plan->table_values.parts.at[defined].len) null("init");
        else put_expression("init", "expression", &plan->table_values, defined);
        open_list("image");
        if (i >= imported && defined < plan->table_images.len) {
            bobbinazure_span image = plan->table_images.at[defined];
            for (size_t j = 0; j < image.len; j++) index_or_null(0, plan->cells.at[image.begin + j]);
        }
        close_list();
        close_object();
    }
    close_list();
}

static void put_memories(const bobbinazure_plan *plan) {
    open_list("memories");
    for (size_t i = 0; i < plan->memories.len; i++) {
        const bobbinazure_memory *memory = &plan->memories.at[i];
        open_object(0);
        number("index", i);
        boolean("imported", i < plan->entities.imported_memories);
        put_limits(memory->minimum, memory->maximum, memory->bounded, memory->wide);
        number("page_size", (uint64_t)1 << memory->page_size_log2);
        boolean("shared", memory->shared);
        close_object();
    }
    close_list();
}

/* The known values and the expressions are each in the order of the globals. */
static void put_globals(const bobbinazure_plan *plan) {
    const bobbinazure_global_value *known = plan->global_values.at, *end = known + plan->global_values.len;
    size_t imported = plan->entities.imported_globals, row = 0, rows = plan->expressed_globals.len;
    open_list("globals");
    for (size_t i = 0; i < plan->globals.len; i++) {
        open_object(0);
        number("index", i);
        boolean("imported", i < imported);
        put_value_type("type", plan->globals.at[i].value);
        boolean("mutable", plan->globals.at[i].writable != 0);
        if (i >= imported && known < end && known->global == i - imported) {
            open_object("init");
            put_operators("constant", &known++->value, 1);
            close_object();
        } else if (i >= imported && row < rows && plan->expressed_globals.at[row] == i - imported) {
            put_expression("init", "expression", &plan->global_expressions, row++);
        } else {
            null("init");
        }
        close_object();
    }
    close_list();
}

static void put_tags(const bobbinazure_plan *plan) {
    open_list("tags");
    for (size_t i = 0; i < plan->tags.len; i++) {
        open_object(0);
        number("index", i);
        boolean("imported", i < plan->entities.imported_tags);
        number("type", plan->tags.at[i].signature);
        number("exception_type", plan->tags.at[i].exception);
        close_object();
    }
    close_list();
}

/* Segments, images and runtime data. */

static void put_items(const bobbinazure_element_items *of, size_t row) {
    const bobbinazure_items *items = &of->rows.at[row];
    put_value_type("type", items->element);
    open_list("items");
    for (size_t i = 0; i < items->functions.len; i++) index_or_null(0, of->functions.at[items->functions.begin + i]);
    for (size_t i = 0; i < items->expressions.len; i++)
        put_expression(0, "expression", &of->expressions, items->expressions.begin + i);
    close_list();
}

static void put_place(uint32_t kind, uint64_t offset, const bobbinazure_expressions *of, size_t row) {
    static const char *const kinds[] = {"static", "constant", "global", "expression"};
    if (kind != BOBBINAZURE_AT_BYTE) {
        put_expression("offset", kinds[kind], of, row);
        return;
    }
    open_object("offset");
    word("kind", kinds[kind]);
    open_text(), printf("static " U64, offset), close_text();
    open_list("operators"), close_list();
    number("value", offset);
    close_object();
}

static void put_element_segments(const bobbinazure_plan *plan) {
    open_list("element_segments");
    for (size_t i = 0; i < plan->elements.len; i++) {
        const bobbinazure_elements *segment = &plan->elements.at[i];
        open_object(0);
        word("kind", "active");
        null("segment");
        number("table", segment->table);
        put_place(segment->kind, segment->offset, &plan->element_places, i);
        number("length", segment->count);
        put_items(&plan->element_items, i);
        close_object();
    }
    for (size_t i = 0; i < plan->passive_elements.len; i++) {
        open_object(0);
        word("kind", "passive");
        number("segment", plan->passive_segments.at[i].segment);
        null("table");
        null("offset");
        number("length", plan->passive_elements.at[i].count);
        put_items(&plan->passive_items, i);
        close_object();
    }
    close_list();
}

static void put_runtime(const bobbinazure_plan *plan, uint32_t runtime) {
    number("length", plan->runtime.at[runtime].bytes.len);
    number("runtime_data", runtime);
}

static void put_data_segments(const bobbinazure_plan *plan) {
    open_list("data_segments");
    for (size_t i = 0; i < plan->segments.len; i++) {
        const bobbinazure_segment *segment = &plan->segments.at[i];
        open_object(0);
        word("kind", "active");
        null("segment");
        number("memory", segment->memory);
        put_place(segment->kind, segment->offset, &plan->segment_places, i);
        put_runtime(plan, segment->runtime);
        close_object();
    }
    for (size_t i = 0; i < plan->passive.len; i++) {
        open_object(0);
        word("kind", "passive");
        number("segment", plan->passive.at[i].segment);
        null("memory");
        null("offset");
        put_runtime(plan, plan->passive.at[i].runtime);
        close_object();
    }
    close_list();
}

static void put_images(const bobbinazure_plan *plan, const uint8_t *module) {
    word("memory_init", plan->images_made ? "static" : "segmented");
    if (plan->data_align) number("data_align", plan->data_align);
    else null("data_align");
    open_list("images");
    for (size_t i = 0; i < plan->images.len; i++) {
        open_object(0);
        number("memory", plan->images.at[i].memory);
        number("start", plan->images.at[i].offset);
        put_runtime(plan, plan->images.at[i].runtime);
        close_object();
    }
    close_list();
    open_list("runtime_data");
    for (size_t i = 0; i < plan->runtime_ranges.len; i++) {
        open_object(0);
        number("begin", plan->runtime_ranges.at[i].begin);
        number("end", plan->runtime_ranges.at[i].end);
        if (plan->runtime.at[i].made || !plan->runtime.at[i].bytes.len) null("module_offset");
        else number("module_offset", bobbinazure_offset(module, plan->runtime.at[i].bytes));
        close_object();
    }
    close_list();
}

/* The whole. */

static void put_about(const bobbinazure_plan *plan) {
    static const char *const when[] = {"none", "always", "if_memories_need_init"};
    const bobbinazure_span *name = plan->module_names.at;
    if (plan->module_names.len) string("name", plan->module_text.at + name->begin, name->len);
    else null("name");
    number("pointer_size", plan->pointer);
    index_or_null("start", plan->start);
    open_object("startup");
    word("when", when[plan->startup]);
    index_or_null("type", plan->startup ? plan->startup_type : BOBBINAZURE_NONE);
    close_object();
    boolean("needs_gc_heap", plan->needs_gc_heap != 0);
    boolean("has_debug_info", plan->has_unparsed_debuginfo != 0);
    number("code_section_offset", plan->code_section_offset);
    open_list("escaped_types");
    for (size_t i = 0; i < plan->signatures.len; i++) number(0, plan->signatures.at[i]);
    close_list();
}

static void put_plan(const bobbinazure_plan *plan, const uint8_t *module) {
    put_about(plan);
    put_types(plan);
    put_imports_exports(plan);
    put_functions(plan, module);
    put_tables(plan);
    put_memories(plan);
    put_globals(plan);
    put_tags(plan);
    put_element_segments(plan);
    put_data_segments(plan);
    put_images(plan, module);
    put_layouts(plan);
    put_structs(&plan->structs);
    put_context(plan);
}

static void put_refused_at(const uint8_t *module, size_t len) {
    bobbinazure_place place = bobbinazure_place_init();
    if (bobbinazure_locate(module, len, &place) == BOBBINAZURE_REFUSED) {
        open_object("place");
        number("byte", place.byte);
        index_or_null("section", place.section);
        number("section_start", place.section_start);
        index_or_null("entry", place.entry);
        index_or_null("decided", place.decided);
        bytes("sentence", place.sentence);
        close_object();
    } else null("place");
    bobbinazure_place_free(&place);
}

/* The lists of which a rule speaks, by their numbers. */
static const char *const lists[] = {"type", "function", "table type", "memory", "tag", "import", "table",
                                    "global", "export", "start", "element segment", "data count", "body",
                                    "data segment"};

static void put_broken_rule(const uint8_t *module, size_t len) {
    bobbinazure_broken_rule broken = bobbinazure_broken_rule_init();
    if (bobbinazure_locate_rule(module, len, &broken) == BOBBINAZURE_REFUSED) {
        open_object("broken_by");
        word("list", lists[broken.list]);
        number("entry", broken.entry);
        number("byte", broken.byte);
        number("section", broken.section);
        number("section_entry", broken.section_entry);
        bytes("sentence", broken.sentence);
        close_object();
    } else null("broken_by");
    bobbinazure_broken_rule_free(&broken);
}

static void put_excess(const uint8_t *module, size_t len, const bobbinazure_options *options) {
    static const char *const kinds[] = {"", "input", "image", "object", "exception", "context"};
    bobbinazure_excess excess = bobbinazure_excess_init();
    if (bobbinazure_locate_excess(module, len, options, &excess) == BOBBINAZURE_REFUSED) {
        int placed = excess.section != BOBBINAZURE_NONE;
        open_object("excess");
        word("kind", kinds[excess.kind]);
        index_or_null("index", excess.index);
        index_or_null("byte", placed ? excess.byte : BOBBINAZURE_NONE);
        index_or_null("section", excess.section);
        index_or_null("section_entry", placed ? excess.section_entry : BOBBINAZURE_NONE);
        bytes("sentence", excess.sentence);
        close_object();
    } else null("excess");
    bobbinazure_excess_free(&excess);
}

static void put_refusal(const bobbinazure_plan *plan, const uint8_t *module, size_t len,
                        const bobbinazure_options *options) {
    static const char *const causes[] = {"", "malformed", "invalid", "unsupported", "too large", "offset overflow"};
    static const char *const parts[] = {"", "component", "shared", "supertypes", "operator",
                                        "exact import", "interface types"};
    open_object("refused");
    word("cause", causes[plan->refusal]);
    index_or_null("rule", plan->refusal == BOBBINAZURE_INVALID ? plan->refusal_detail : BOBBINAZURE_NONE);
    if (plan->refusal == BOBBINAZURE_UNSUPPORTED) word("part", parts[plan->refusal_detail]);
    else null("part");
    put_refused_at(module, len);
    put_broken_rule(module, len);
    put_excess(module, len, options);
    close_object();
}

static int print_json(const uint8_t *module, size_t len, const bobbinazure_options *options) {
    bobbinazure_plan plan = bobbinazure_plan_init();
    bobbinazure_section_list list = bobbinazure_sections_init();
    uint32_t status = bobbinazure_make_plan(module, len, options, &plan);
    if (bobbinazure_sections(module, len, &list)) status = BOBBINAZURE_NO_MEMORY;
    if (status == BOBBINAZURE_PLANNED || status == BOBBINAZURE_REFUSED) {
        open_object(0);
        if (status == BOBBINAZURE_PLANNED) put_plan(&plan, module);
        else put_refusal(&plan, module, len, options);
        put_sections(&list);
        fputs("\n}\n", stdout);
        if (fflush(stdout) || ferror(stdout)) status = WRITE_FAILED;
    }
    bobbinazure_sections_free(&list);
    bobbinazure_plan_free(&plan);
    return (int)status;
}

static void print_sentence(uint32_t byte, bobbinazure_bytes sentence) {
    printf("byte %" PRIu32 ", %.*s\n", byte, (int)sentence.len, (const char *)sentence.at);
}

/* Prints what makes a module too large, and where it is, if it is too large. */
static uint32_t print_excess(const uint8_t *module, size_t len, const bobbinazure_options *options) {
    bobbinazure_excess excess = bobbinazure_excess_init();
    uint32_t status = bobbinazure_locate_excess(module, len, options, &excess);
    int placed = excess.section != BOBBINAZURE_NONE;
    if (status == BOBBINAZURE_REFUSED && placed) print_sentence(excess.byte, excess.sentence);
    else if (status == BOBBINAZURE_REFUSED) printf("%.*s\n", (int)excess.sentence.len, (const char *)excess.sentence.at);
    bobbinazure_excess_free(&excess);
    return status;
}

/* Prints where a module is refused, which entry breaks a rule, or what is too large, if there is one. */
static int print_place(const uint8_t *module, size_t len, const bobbinazure_options *options) {
    bobbinazure_place place = bobbinazure_place_init();
    bobbinazure_broken_rule broken = bobbinazure_broken_rule_init();
    uint32_t status = bobbinazure_locate(module, len, &place);
    if (status == BOBBINAZURE_REFUSED) print_sentence(place.byte, place.sentence);
    bobbinazure_place_free(&place);
    if (status == BOBBINAZURE_PLANNED) {
        status = bobbinazure_locate_rule(module, len, &broken);
        if (status == BOBBINAZURE_REFUSED) print_sentence(broken.byte, broken.sentence);
        bobbinazure_broken_rule_free(&broken);
    }
    if (status == BOBBINAZURE_PLANNED) status = print_excess(module, len, options);
    return (int)status;
}

/* A number as the program takes it: decimal digits without a zero before them, of 64 bits. */
static int read_number(const char *at, uint64_t *result) {
    uint64_t value = 0;
    if (!*at || (*at == '0' && at[1])) return 0;
    for (; *at; at++) {
        uint64_t digit = (uint64_t)(*at - '0');
        if (*at < '0' || *at > '9' || value > (UINT64_MAX - digit) / 10) return 0;
        value = value * 10 + digit;
    }
    *result = value;
    return 1;
}

/* A number for each option. */
#define NUMBER(flag, word) OPTION_##flag,
enum { NO_OPTION, OPTION_pointer, OPTION_collector, OPTION_page_size, OPTION_max_image, BOBBINAZURE_FLAGS(NUMBER) };
#undef NUMBER

/* Sets an option by its word. Gives its number; that of no option where the word is wrong. */
static int set_option(bobbinazure_options *options, const char *option) {
#define SET(flag, word) if (!strcmp(option, word)) return options->flag = 1, OPTION_##flag;
    BOBBINAZURE_FLAGS(SET)
#undef SET
    if (!strcmp(option, "--ptr=4")) return options->pointer = 4, OPTION_pointer;
    if (!strcmp(option, "--ptr=8")) return options->pointer = 8, OPTION_pointer;
    if (!strcmp(option, "--gc=drc")) return options->collector = 0, OPTION_collector;
    if (!strcmp(option, "--gc=null")) return options->collector = 1, OPTION_collector;
    if (!strncmp(option, "--page=", 7)) return read_number(option + 7, &options->page_size) ? OPTION_page_size : NO_OPTION;
    if (!strncmp(option, "--max-image=", 12)) return read_number(option + 12, &options->max_image) ? OPTION_max_image : NO_OPTION;
    return NO_OPTION;
}

/* Reads standard input to its end, or to the most bytes. */
static int read_module(uint8_t **module, size_t *len) {
    size_t room = (size_t)1 << 16, n;
    *len = 0;
    *module = malloc(room);
    while (*module && *len < MOST_BYTES && (n = fread(*module + *len, 1, room - *len, stdin)) > 0) {
        *len += n;
        if (*len < room) continue;
        uint8_t *more = realloc(*module, room *= 2);
        if (!more) free(*module);
        *module = more;
    }
    return !*module ? BOBBINAZURE_NO_MEMORY : ferror(stdin) ? READ_FAILED : 0;
}

int main(int argc, char **argv) {
    bobbinazure_options options = bobbinazure_options_init();
    int seen = 0, locates = argc > 1 && !strcmp(argv[1], "locate");
    if (argc < 2 || (!locates && strcmp(argv[1], "plan"))) return BOBBINAZURE_WRONG_OPTIONS;
    for (int i = 2; i < argc; i++) {
        int option = set_option(&options, argv[i]);
        if (!option || (seen >> option & 1)) return BOBBINAZURE_WRONG_OPTIONS;
        seen |= 1 << option;
    }
    (void)print_plan; /* the text of the whole plan, of which this prints parts */
    uint8_t *module;
    size_t len;
    int status = read_module(&module, &len);
    if (!status) status = locates ? print_place(module, len, &options) : print_json(module, len, &options);
    free(module);
    return status;
}
