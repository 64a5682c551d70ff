/* The structs that compiled code reads, as JSON, and the entries of a context. Made by embed/generate. */
#ifndef STRUCTS_H
#define STRUCTS_H

#include "writer.h"

/* Each entry of a context, and the size of an item by `plan`: EACH array, with what its index
   counts, and ONE struct that may be absent. */
#define CONTEXT_ENTRIES(EACH, ONE) \
    EACH(imported_memories, import, plan->structs.memory_import.size) \
    EACH(memories, defined, plan->pointer) \
    EACH(owned_memories, owned, plan->structs.memory_definition.size) \
    EACH(imported_functions, import, plan->structs.function_import.size) \
    EACH(imported_tables, import, plan->structs.table_import.size) \
    EACH(imported_globals, import, plan->structs.global_import.size) \
    EACH(imported_tags, import, plan->structs.tag_import.size) \
    EACH(tables, defined, plan->structs.table_definition.size) \
    EACH(globals, defined, plan->structs.global_definition.size) \
    EACH(tags, defined, plan->structs.tag_definition.size) \
    EACH(func_refs, escaping, plan->structs.func_ref.size) \
    ONE(startup_func_ref, plan->structs.func_ref.size) \
    EACH(runtime_data_bases, runtime, plan->pointer) \
    EACH(runtime_data_lengths, runtime, 4)

static void put_structs(const bobbinazure_structs *structs) {
    open_object("structs");
    open_object("function_import");
    number("size", structs->function_import.size);
    number("wasm_call", structs->function_import.wasm_call);
    number("wasm_call_size", structs->function_import.wasm_call_size);
    number("array_call", structs->function_import.array_call);
    number("array_call_size", structs->function_import.array_call_size);
    number("vmctx", structs->function_import.vmctx);
    number("vmctx_size", structs->function_import.vmctx_size);
    close_object();
    open_object("table_import");
    number("size", structs->table_import.size);
    number("from", structs->table_import.from);
    number("from_size", structs->table_import.from_size);
    number("vmctx", structs->table_import.vmctx);
    number("vmctx_size", structs->table_import.vmctx_size);
    number("index", structs->table_import.index);
    number("index_size", structs->table_import.index_size);
    close_object();
    open_object("memory_import");
    number("size", structs->memory_import.size);
    number("from", structs->memory_import.from);
    number("from_size", structs->memory_import.from_size);
    number("vmctx", structs->memory_import.vmctx);
    number("vmctx_size", structs->memory_import.vmctx_size);
    number("index", structs->memory_import.index);
    number("index_size", structs->memory_import.index_size);
    close_object();
    open_object("tag_import");
    number("size", structs->tag_import.size);
    number("from", structs->tag_import.from);
    number("from_size", structs->tag_import.from_size);
    number("vmctx", structs->tag_import.vmctx);
    number("vmctx_size", structs->tag_import.vmctx_size);
    number("index", structs->tag_import.index);
    number("index_size", structs->tag_import.index_size);
    close_object();
    open_object("global_import");
    number("size", structs->global_import.size);
    number("from", structs->global_import.from);
    number("from_size", structs->global_import.from_size);
    number("vmctx", structs->global_import.vmctx);
    number("vmctx_size", structs->global_import.vmctx_size);
    number("kind", structs->global_import.kind);
    number("kind_size", structs->global_import.kind_size);
    close_object();
    open_object("memory_definition");
    number("size", structs->memory_definition.size);
    number("base", structs->memory_definition.base);
    number("base_size", structs->memory_definition.base_size);
    number("current_length", structs->memory_definition.current_length);
    number("current_length_size", structs->memory_definition.current_length_size);
    close_object();
    open_object("table_definition");
    number("size", structs->table_definition.size);
    number("base", structs->table_definition.base);
    number("base_size", structs->table_definition.base_size);
    number("current_elements", structs->table_definition.current_elements);
    number("current_elements_size", structs->table_definition.current_elements_size);
    close_object();
    open_object("global_definition");
    number("size", structs->global_definition.size);
    number("storage", structs->global_definition.storage);
    number("storage_size", structs->global_definition.storage_size);
    close_object();
    open_object("tag_definition");
    number("size", structs->tag_definition.size);
    number("type_index", structs->tag_definition.type_index);
    number("type_index_size", structs->tag_definition.type_index_size);
    close_object();
    open_object("func_ref");
    number("size", structs->func_ref.size);
    number("array_call", structs->func_ref.array_call);
    number("array_call_size", structs->func_ref.array_call_size);
    number("wasm_call", structs->func_ref.wasm_call);
    number("wasm_call_size", structs->func_ref.wasm_call_size);
    number("type_index", structs->func_ref.type_index);
    number("type_index_size", structs->func_ref.type_index_size);
    number("vmctx", structs->func_ref.vmctx);
    number("vmctx_size", structs->func_ref.vmctx_size);
    close_object();
    open_object("store_context");
    number("size", structs->store_context.size);
    number("fuel_consumed", structs->store_context.fuel_consumed);
    number("fuel_consumed_size", structs->store_context.fuel_consumed_size);
    number("epoch_deadline", structs->store_context.epoch_deadline);
    number("epoch_deadline_size", structs->store_context.epoch_deadline_size);
    number("stack_limit", structs->store_context.stack_limit);
    number("stack_limit_size", structs->store_context.stack_limit_size);
    number("gc_heap", structs->store_context.gc_heap);
    number("gc_heap_size", structs->store_context.gc_heap_size);
    number("last_wasm_exit_trampoline_fp", structs->store_context.last_wasm_exit_trampoline_fp);
    number("last_wasm_exit_trampoline_fp_size", structs->store_context.last_wasm_exit_trampoline_fp_size);
    close_object();
    open_object("static_context");
    number("size", structs->static_context.size);
    number("magic", structs->static_context.magic);
    number("magic_size", structs->static_context.magic_size);
    number("store_context", structs->static_context.store_context);
    number("store_context_size", structs->static_context.store_context_size);
    number("builtin_functions", structs->static_context.builtin_functions);
    number("builtin_functions_size", structs->static_context.builtin_functions_size);
    number("epoch_ptr", structs->static_context.epoch_ptr);
    number("epoch_ptr_size", structs->static_context.epoch_ptr_size);
    number("gc_heap_data", structs->static_context.gc_heap_data);
    number("gc_heap_data_size", structs->static_context.gc_heap_data_size);
    number("type_ids", structs->static_context.type_ids);
    number("type_ids_size", structs->static_context.type_ids_size);
    close_object();
    close_object();
}

#endif
