/* The text of a plan, printed out of its tables alone: what an embedder reads, line by line. */
#ifndef TABLES_H
#define TABLES_H

#include <bobbinazure.h>
#include <inttypes.h>
#include <stdio.h>

#define U32 "%" PRIu32
#define U64 "%" PRIu64

static const char *entity_name(uint32_t kind) {
    static const char *const names[] = {"function", "table", "memory", "global", "tag"};
    return names[kind];
}

static void print_quoted(FILE *out, const uint8_t *at, size_t len) {
    fputc('"', out);
    for (size_t i = 0; i < len; i++) {
        if (at[i] >= 0x20 && at[i] <= 0x7E && at[i] != '"' && at[i] != '\\') fputc(at[i], out);
        else fprintf(out, "\\%02x", at[i]);
    }
    fputc('"', out);
}

static void print_index(FILE *out, uint32_t list, uint32_t index) {
    static const char *const lists[] = {"", "engine", "module", "recgroup", "section"};
    fprintf(out, "(%s " U32 ")", lists[list], index);
}

static void print_heap(FILE *out, uint32_t heap, uint32_t list, uint32_t index) {
    static const char *const names[] = {"extern", "noextern", "func", "func", "nofunc", "exn", "exn", "noexn", "cont", "cont", "nocont",
                                        "any", "eq", "i31", "array", "array", "struct", "struct", "none", "type"};
    fputs(names[heap], out);
    if (list != BOBBINAZURE_NO_INDEX) {
        fputc(' ', out);
        print_index(out, list, index);
    }
}

static void print_value(FILE *out, bobbinazure_value value) {
    static const char *const names[] = {"i32", "i64", "f32", "f64", "v128", "", "i8", "i16"};
    if (value.kind != BOBBINAZURE_REF) fputs(names[value.kind], out);
    else if (value.nullable && value.heap == BOBBINAZURE_HEAP_FUNC) fputs("funcref", out);
    else if (value.nullable && value.heap == BOBBINAZURE_HEAP_EXTERN) fputs("externref", out);
    else {
        fputs(value.nullable ? "(ref null " : "(ref ", out);
        print_heap(out, value.heap, value.list, value.index);
        fputc(')', out);
    }
}

static void print_operator(FILE *out, const bobbinazure_operator *op) {
    static const char *const names[] = {"i32.const", "i64.const", "f32.const", "f64.const", "v128.const", "global.get", "ref.i31", "ref.null",
                                        "ref.func", "i32.add", "i32.sub", "i32.mul", "i64.add", "i64.sub", "i64.mul", "struct.new",
                                        "struct.new_default", "array.new", "array.new_default", "array.new_fixed", "extern.convert_any",
                                        "any.convert_extern"};
    fputs(names[op->code], out);
    switch (op->code) {
    case BOBBINAZURE_I32_CONST: fprintf(out, " %" PRId32, (int32_t)op->low); break;
    case BOBBINAZURE_I64_CONST: fprintf(out, " %" PRId64, (int64_t)op->low); break;
    case BOBBINAZURE_F32_CONST: fprintf(out, " 0x%08" PRIx64, op->low); break;
    case BOBBINAZURE_F64_CONST: fprintf(out, " 0x%016" PRIx64, op->low); break;
    case BOBBINAZURE_V128_CONST: fprintf(out, " 0x%016" PRIx64 "%016" PRIx64, op->high, op->low); break;
    case BOBBINAZURE_REF_NULL: fputc(' ', out), print_heap(out, op->heap, op->list, op->index); break;
    case BOBBINAZURE_GLOBAL_GET:
    case BOBBINAZURE_REF_FUNC:
    case BOBBINAZURE_STRUCT_NEW:
    case BOBBINAZURE_STRUCT_NEW_DEFAULT:
    case BOBBINAZURE_ARRAY_NEW:
    case BOBBINAZURE_ARRAY_NEW_DEFAULT: fprintf(out, " " U32, op->index); break;
    case BOBBINAZURE_ARRAY_NEW_FIXED: fprintf(out, " " U32 " " U64, op->index, op->low); break;
    default: break;
    }
}

static void print_expression(FILE *out, const bobbinazure_expressions *of, size_t number) {
    bobbinazure_span part = of->parts.at[number];
    for (size_t i = 0; i < part.len; i++) {
        if (i) fputs("; ", out);
        print_operator(out, &of->operators.at[part.begin + i]);
    }
}

static void print_field(FILE *out, bobbinazure_field field) {
    fputs(field.writable ? " (mut " : " ", out);
    print_value(out, field.value);
    if (field.writable) fputc(')', out);
}

static void print_values(FILE *out, const char *word, const bobbinazure_field *at, size_t len) {
    if (!len) return;
    fprintf(out, " (%s", word);
    for (size_t i = 0; i < len; i++) print_field(out, at[i]);
    fputc(')', out);
}

static void print_composite(FILE *out, const bobbinazure_plan *plan, const bobbinazure_type *type) {
    static const char *const names[] = {"array", "func", "struct", "cont", "exn"};
    const bobbinazure_field *fields = plan->fields.at + type->fields.begin;
    if (type->shared) fputs("(shared ", out);
    fprintf(out, "(%s", names[type->kind]);
    if (type->kind == BOBBINAZURE_CONT) fputc(' ', out), print_index(out, type->function_list, type->function);
    if (type->kind == BOBBINAZURE_EXN) fputs(" (", out), print_index(out, type->function_list, type->function), fputc(')', out);
    if (type->kind == BOBBINAZURE_FUNC) {
        size_t params = type->fields.len - type->results;
        print_values(out, "param", fields, params);
        print_values(out, "result", fields + params, type->results);
    } else {
        for (size_t i = 0; i < type->fields.len; i++) print_field(out, fields[i]);
    }
    fputs(type->shared ? "))" : ")", out);
}

static void print_type(FILE *out, const bobbinazure_plan *plan, const bobbinazure_type *type) {
    int plain = type->is_final && type->supertype_list == BOBBINAZURE_NO_INDEX;
    if (!plain) fputs(type->is_final ? "(sub final " : "(sub ", out);
    if (type->supertype_list != BOBBINAZURE_NO_INDEX) print_index(out, type->supertype_list, type->supertype), fputc(' ', out);
    print_composite(out, plan, type);
    if (!plain) fputc(')', out);
}

static void print_types(FILE *out, const bobbinazure_plan *plan) {
    fprintf(out, "types " U32 "\n", plan->types);
    const bobbinazure_trampoline *next = plan->trampolines.at, *end = next + plan->trampolines.len;
    for (size_t i = 0; i < plan->interned.len; i++) {
        fprintf(out, "type %zu ", i);
        print_type(out, plan, &plan->interned.at[i]);
        if (next < end && next->type == i) fprintf(out, " trampoline " U32, next++->trampoline);
        fputc('\n', out);
    }
    for (size_t i = 0; i < plan->groups.len; i++) fprintf(out, "group %zu " U32 " " U32 "\n", i, plan->groups.at[i].begin, plan->groups.at[i].end);
}

static void print_entities(FILE *out, const bobbinazure_plan *plan) {
    const bobbinazure_entities *e = &plan->entities;
    for (size_t i = 0; i < plan->declared.len; i++) fprintf(out, "declared %zu " U32 "\n", i, plan->declared.at[i]);
    for (size_t i = 0; i < plan->imports.len; i++) {
        const bobbinazure_import *import = &plan->imports.at[i];
        fprintf(out, "import %zu ", i);
        print_quoted(out, plan->import_names.at + import->from.begin, import->from.len);
        fputc(' ', out);
        print_quoted(out, plan->import_names.at + import->name.begin, import->name.len);
        fprintf(out, " %s " U32 "\n", entity_name(import->kind), import->index);
    }
    fprintf(out, "functions " U64 " " U64 "\n", e->imported_functions, e->functions - e->imported_functions);
    fprintf(out, "tables " U64 " " U64 "\n", e->imported_tables, e->tables - e->imported_tables);
    fprintf(out, "memories " U64 " " U64 "\n", e->imported_memories, e->memories - e->imported_memories);
    fprintf(out, "globals " U64 " " U64 "\n", e->imported_globals, e->globals - e->imported_globals);
    fprintf(out, "tags " U64 " " U64 "\n", e->imported_tags, e->tags - e->imported_tags);
    fprintf(out, "gc-heap %s\n", plan->needs_gc_heap ? "yes" : "no");
    for (size_t i = 0; i < plan->escapes.len; i++)
        if (plan->escapes.at[i] != BOBBINAZURE_NONE) fprintf(out, "escape %zu " U32 "\n", i, plan->escapes.at[i]);
    for (size_t i = 0; i < plan->signatures.len; i++) fprintf(out, "signature " U32 "\n", plan->signatures.at[i]);
    for (size_t i = 0; i < plan->exports.len; i++) {
        const bobbinazure_export *export_ = &plan->exports.at[i];
        fputs("export ", out);
        print_quoted(out, plan->export_names.at + export_->name.begin, export_->name.len);
        fprintf(out, " %s " U32 "\n", entity_name(export_->kind), export_->index);
    }
}

static void print_names(FILE *out, const bobbinazure_plan *plan) {
    for (size_t i = 0; i < plan->module_names.len; i++) {
        fputs("name ", out);
        print_quoted(out, plan->module_text.at + plan->module_names.at[i].begin, plan->module_names.at[i].len);
        fputc('\n', out);
    }
    for (size_t i = 0; i < plan->function_names.len; i++) {
        const bobbinazure_function_name *name = &plan->function_names.at[i];
        fprintf(out, "func-name " U32 " ", name->function);
        print_quoted(out, name->name.at, name->name.len);
        fputc('\n', out);
    }
    for (size_t i = 0; i < plan->hints.len; i++) fprintf(out, "hints " U32 " " U64 "\n", plan->hints.at[i].function, plan->hints.at[i].count);
}

static void print_globals(FILE *out, const bobbinazure_plan *plan) {
    if (plan->start != BOBBINAZURE_NONE) fprintf(out, "start " U32 "\n", plan->start);
    for (size_t i = 0; i < plan->global_values.len; i++) {
        fprintf(out, "global " U32 " ", plan->global_values.at[i].global);
        print_operator(out, &plan->global_values.at[i].value);
        fputc('\n', out);
    }
    for (size_t i = 0; i < plan->expressed_globals.len; i++) {
        fprintf(out, "global-expr " U32 " ", plan->expressed_globals.at[i]);
        print_expression(out, &plan->global_expressions, i);
        fputc('\n', out);
    }
}

static void print_tables(FILE *out, const bobbinazure_plan *plan) {
    for (size_t i = 0; i < plan->table_values.parts.len; i++) {
        if (!plan->table_values.parts.at[i].len) continue;
        fprintf(out, "table-expr %zu ", i);
        print_expression(out, &plan->table_values, i);
        fputc('\n', out);
    }
    for (size_t i = 0; i < plan->table_images.len; i++) {
        bobbinazure_span image = plan->table_images.at[i];
        if (!image.len) continue;
        fprintf(out, "table-image %zu %zu", i, image.len);
        for (size_t j = 0; j < image.len; j++) {
            uint32_t function = plan->cells.at[image.begin + j];
            if (function == BOBBINAZURE_NONE) fputs(" null", out);
            else fprintf(out, " " U32, function);
        }
        fputc('\n', out);
    }
    for (size_t i = 0; i < plan->elements.len; i++) {
        fprintf(out, "element " U32 " " U64 " at ", plan->elements.at[i].table, plan->elements.at[i].count);
        print_expression(out, &plan->element_places, i);
        fputc('\n', out);
    }
    for (size_t i = 0; i < plan->passive_elements.len; i++) {
        fprintf(out, "passive-element %zu ", i);
        print_value(out, plan->passive_elements.at[i].element);
        fprintf(out, " " U64 "\n", plan->passive_elements.at[i].count);
    }
}

static void print_memories(FILE *out, const bobbinazure_plan *plan) {
    fprintf(out, "memory-init %s\n", plan->images_made ? "static" : "segmented");
    if (plan->data_align) fprintf(out, "data-align " U64 "\n", plan->data_align);
    for (size_t i = 0; i < plan->images.len; i++)
        fprintf(out, "image " U32 " " U64 " " U32 "\n", plan->images.at[i].memory, plan->images.at[i].offset, plan->images.at[i].runtime);
    for (size_t i = 0; i < plan->segments.len; i++) {
        const bobbinazure_segment *segment = &plan->segments.at[i];
        fprintf(out, "segment " U32 " " U32 " at ", segment->memory, segment->runtime);
        if (segment->kind == BOBBINAZURE_AT_BYTE) fprintf(out, "static " U64, segment->offset);
        else print_expression(out, &plan->segment_places, i);
        fputc('\n', out);
    }
    for (size_t i = 0; i < plan->passive.len; i++) fprintf(out, "passive-data " U32 " " U32 "\n", plan->passive.at[i].segment, plan->passive.at[i].runtime);
    for (size_t i = 0; i < plan->runtime_ranges.len; i++)
        fprintf(out, "runtime %zu " U32 " " U32 "\n", i, plan->runtime_ranges.at[i].begin, plan->runtime_ranges.at[i].end);
}

static void print_layouts(FILE *out, const bobbinazure_plan *plan) {
    for (size_t i = 0; i < plan->layouts.len; i++) {
        const bobbinazure_layout *layout = &plan->layouts.at[i];
        fprintf(out, "layout " U32, layout->type);
        if (layout->kind == BOBBINAZURE_ARRAY_OBJECT) {
            fprintf(out, " array base " U32 " align " U32 " element " U32 " refs %s\n", layout->size, layout->align, layout->element, layout->refs ? "yes" : "no");
            continue;
        }
        fprintf(out, " %s size " U32 " align " U32 " fields", layout->kind == BOBBINAZURE_EXN_OBJECT ? "exn" : "struct", layout->size, layout->align);
        for (size_t j = 0; j < layout->fields.len; j++) {
            bobbinazure_layout_field field = plan->layout_fields.at[layout->fields.begin + j];
            fprintf(out, " " U32 "%s", field.offset, field.is_ref ? "r" : "");
        }
        fputc('\n', out);
    }
}

static void print_sizes(FILE *out, const bobbinazure_plan *plan) {
    static const char *const when[] = {"none", "always", "if-memories-need-init"};
    fprintf(out, "startup %s", when[plan->startup]);
    if (plan->startup) fprintf(out, " " U32, plan->startup_type);
    fputc('\n', out);
    print_layouts(out, plan);
    for (size_t i = 0; i < plan->regions.len; i++)
        fprintf(out, "region " U32 " %.*s\n", plan->regions.at[i].size, (int)plan->regions.at[i].name.len, (const char *)plan->regions.at[i].name.at);
    fprintf(out, "context " U32 "\n", plan->context.size);
}

static inline void print_plan(FILE *out, const bobbinazure_plan *plan) {
    print_types(out, plan);
    print_entities(out, plan);
    print_names(out, plan);
    print_globals(out, plan);
    print_tables(out, plan);
    print_memories(out, plan);
    print_sizes(out, plan);
}

#endif
