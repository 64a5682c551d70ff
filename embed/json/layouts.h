/* Layouts as JSON: of objects, and of the context. */
#ifndef LAYOUTS_H
#define LAYOUTS_H

#include "structs.h"
#include "writer.h"

static void put_layouts(const bobbinazure_plan *plan) {
    static const char *const kinds[] = {"array", "struct", "exn"};
    open_list("layouts");
    for (size_t i = 0; i < plan->layouts.len; i++) {
        const bobbinazure_layout *layout = &plan->layouts.at[i];
        open_object(0);
        number("type", layout->type);
        word("kind", kinds[layout->kind]);
        number("size", layout->size);
        number("align", layout->align);
        if (layout->kind == BOBBINAZURE_ARRAY_OBJECT) {
            number("element_size", layout->element);
            boolean("element_traced", layout->refs != 0);
        } else {
            open_list("fields");
            for (size_t j = 0; j < layout->fields.len; j++) {
                const bobbinazure_layout_field *field = &plan->layout_fields.at[layout->fields.begin + j];
                open_object(0);
                number("offset", field->offset);
                boolean("traced", field->is_ref != 0);
                close_object();
            }
            close_list();
        }
        close_object();
    }
    close_list();
}

/* Items of one size that are end to end in the context. */
static void put_slots(const char *name, uint32_t offset, uint64_t count, uint64_t item_size) {
    open_object(0);
    word("name", name);
    number("offset", offset);
    number("size", count * item_size);
    number("count", count);
    number("item_size", item_size);
    close_object();
}

/* How many entries an array has, by what its index counts. */
#define COUNT_import(array) plan->entities.array
#define COUNT_defined(array) plan->entities.array - plan->entities.imported_##array
#define COUNT_owned(array) owned
#define COUNT_escaping(array) plan->escaped_functions
#define COUNT_runtime(array) plan->runtime.len

static void put_context_fields(const bobbinazure_plan *plan) {
    const bobbinazure_context *at = &plan->context;
    uint64_t owned = 0;
    for (size_t i = plan->entities.imported_memories; i < plan->memories.len; i++) owned += !plan->memories.at[i].shared;
    open_list("fields");
    put_slots("static_context", 0, 1, plan->structs.static_context.size);
#define EACH(array, index, item_size) put_slots(#array, at->array, COUNT_##index(array), item_size);
#define ONE(entry, item_size) if (at->entry != BOBBINAZURE_NONE) put_slots(#entry, at->entry, 1, item_size);
    CONTEXT_ENTRIES(EACH, ONE)
#undef EACH
#undef ONE
    close_list();
}

static void put_context(const bobbinazure_plan *plan) {
    open_object("context");
    number("size", plan->context.size);
    put_context_fields(plan);
    open_list("regions");
    for (size_t i = plan->regions.len; i-- > 0;) {
        open_object(0);
        bytes("name", plan->regions.at[i].name);
        number("offset", plan->regions.at[i].begin);
        number("size", plan->regions.at[i].size);
        close_object();
    }
    close_list();
    close_object();
}

#endif
