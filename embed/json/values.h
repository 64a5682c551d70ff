/* Types and constant expressions as JSON: as the text of the plan has them, and as data. */
#ifndef VALUES_H
#define VALUES_H

#include "../examples/c/tables.h"
#include "writer.h"

static void put_heap(uint32_t heap, uint32_t list, uint32_t index) {
    static const char *const names[] = {"extern", "noextern", "func", "func", "nofunc", "exn", "exn",
                                        "noexn", "cont", "cont", "nocont", "any", "eq", "i31",
                                        "array", "array", "struct", "struct", "none"};
    word("heap", names[heap]);
    index_or_null("type", list == BOBBINAZURE_NO_INDEX ? BOBBINAZURE_NONE : index);
}

static void put_value_type(const char *name, bobbinazure_value value) {
    static const char *const kinds[] = {"i32", "i64", "f32", "f64", "v128", "ref", "i8", "i16"};
    open_object(name);
    open_text(), print_value(stdout, value), close_text();
    word("kind", kinds[value.kind]);
    if (value.kind == BOBBINAZURE_REF) {
        boolean("nullable", value.nullable);
        put_heap(value.heap, value.list, value.index);
    }
    close_object();
}

static void put_value_types(const char *name, const bobbinazure_field *at, size_t len) {
    open_list(name);
    for (size_t i = 0; i < len; i++) put_value_type(0, at[i].value);
    close_list();
}

static void put_field(const char *name, bobbinazure_field field) {
    open_object(name);
    put_value_type("type", field.value);
    boolean("mutable", field.writable != 0);
    close_object();
}

static void put_composite(const bobbinazure_type *type, const bobbinazure_field *fields) {
    size_t len = type->fields.len;
    if (type->kind == BOBBINAZURE_FUNC) {
        put_value_types("params", fields, len - type->results);
        put_value_types("results", fields + len - type->results, type->results);
    } else if (type->kind == BOBBINAZURE_ARRAY) {
        put_field("element", fields[0]);
    } else {
        if (type->kind != BOBBINAZURE_STRUCT) number("function_type", type->function);
        if (type->kind == BOBBINAZURE_CONT) return;
        open_list("fields");
        for (size_t i = 0; i < len; i++) put_field(0, fields[i]);
        close_list();
    }
}

static void put_types(const bobbinazure_plan *plan) {
    static const char *const kinds[] = {"array", "func", "struct", "cont", "exn"};
    const bobbinazure_trampoline *next = plan->trampolines.at, *end = next + plan->trampolines.len;
    open_list("types");
    for (size_t i = 0; i < plan->interned.len; i++) {
        const bobbinazure_type *type = &plan->interned.at[i];
        open_object(0);
        number("index", i);
        open_text(), print_type(stdout, plan, type), close_text();
        word("kind", kinds[type->kind]);
        boolean("final", type->is_final);
        boolean("shared", type->shared);
        index_or_null("supertype", type->supertype_list == BOBBINAZURE_NO_INDEX ? BOBBINAZURE_NONE : type->supertype);
        put_composite(type, plan->fields.at + type->fields.begin);
        index_or_null("trampoline", next < end && next->type == i ? next++->trampoline : BOBBINAZURE_NONE);
        close_object();
    }
    close_list();
    open_list("recursion_groups");
    for (size_t i = 0; i < plan->groups.len; i++) {
        open_object(0);
        number("begin", plan->groups.at[i].begin);
        number("end", plan->groups.at[i].end);
        close_object();
    }
    close_list();
    open_list("declared_types");
    for (size_t i = 0; i < plan->declared.len; i++) number(0, plan->declared.at[i]);
    close_list();
}

static void put_operator(const bobbinazure_operator *op) {
    static const char *const names[] = {
        "i32.const", "i64.const", "f32.const", "f64.const", "v128.const", "global.get", "ref.i31", "ref.null",
        "ref.func", "i32.add", "i32.sub", "i32.mul", "i64.add", "i64.sub", "i64.mul", "struct.new",
        "struct.new_default", "array.new", "array.new_default", "array.new_fixed", "extern.convert_any",
        "any.convert_extern"};
    open_object(0);
    word("operator", names[op->code]);
    if (op->code == BOBBINAZURE_I32_CONST) signed_number("value", (int32_t)op->low);
    else if (op->code == BOBBINAZURE_I64_CONST) signed_number("value", (int64_t)op->low);
    else if (op->code == BOBBINAZURE_F32_CONST) item("bits"), printf("\"0x%08" PRIx64 "\"", op->low);
    else if (op->code == BOBBINAZURE_F64_CONST) item("bits"), printf("\"0x%016" PRIx64 "\"", op->low);
    else if (op->code == BOBBINAZURE_V128_CONST)
        item("bits"), printf("\"0x%016" PRIx64 "%016" PRIx64 "\"", op->high, op->low);
    else if (op->code == BOBBINAZURE_REF_NULL) put_heap(op->heap, op->list, op->index);
    else if (op->code == BOBBINAZURE_GLOBAL_GET) number("global", op->index);
    else if (op->code == BOBBINAZURE_REF_FUNC) number("function", op->index);
    else if (op->code >= BOBBINAZURE_STRUCT_NEW && op->code <= BOBBINAZURE_ARRAY_NEW_FIXED)
        number("declared_type", op->index);
    if (op->code == BOBBINAZURE_ARRAY_NEW_FIXED) number("length", op->low);
    close_object();
}

static void put_operators(const char *kind, const bobbinazure_operator *at, size_t len) {
    word("kind", kind);
    open_text();
    for (size_t i = 0; i < len; i++) {
        if (i) fputs("; ", stdout);
        print_operator(stdout, &at[i]);
    }
    close_text();
    open_list("operators");
    for (size_t i = 0; i < len; i++) put_operator(&at[i]);
    close_list();
}

static void put_expression(const char *name, const char *kind, const bobbinazure_expressions *of, size_t row) {
    bobbinazure_span part = of->parts.at[row];
    open_object(name);
    put_operators(kind, of->operators.at + part.begin, part.len);
    close_object();
}

#endif
