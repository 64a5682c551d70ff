/* The sizes and the offsets of the structs of bobbinazure.h, where pointers have 8 bytes.
   The library's records have the same. Made by embed/generate. */
#ifndef BOBBINAZURE_LAYOUT_H
#define BOBBINAZURE_LAYOUT_H

#include <bobbinazure.h>

#if UINTPTR_MAX == UINT64_MAX

#ifdef __cplusplus
#define BOBBINAZURE_ASSERT static_assert
#else
#define BOBBINAZURE_ASSERT _Static_assert
#endif
#define BOBBINAZURE_SIZE(T, bytes) BOBBINAZURE_ASSERT(sizeof(bobbinazure_##T) == bytes, "the size of " #T)
#define BOBBINAZURE_AT(T, field, bytes) \
    BOBBINAZURE_ASSERT(offsetof(bobbinazure_##T, field) == bytes, "the offset of " #field " in " #T)

BOBBINAZURE_SIZE(bytes, 16);
BOBBINAZURE_AT(bytes, at, 0);
BOBBINAZURE_AT(bytes, len, 8);

BOBBINAZURE_SIZE(options, 24);
BOBBINAZURE_AT(options, cow, 0);
BOBBINAZURE_AT(options, lazy_tables, 1);
BOBBINAZURE_AT(options, branch_hints, 2);
BOBBINAZURE_AT(options, native_debug, 3);
BOBBINAZURE_AT(options, guest_debug, 4);
BOBBINAZURE_AT(options, pointer, 5);
BOBBINAZURE_AT(options, collector, 6);
BOBBINAZURE_AT(options, page_size, 8);
BOBBINAZURE_AT(options, max_image, 16);

BOBBINAZURE_SIZE(entities, 80);
BOBBINAZURE_AT(entities, functions, 0);
BOBBINAZURE_AT(entities, imported_functions, 8);
BOBBINAZURE_AT(entities, tables, 16);
BOBBINAZURE_AT(entities, imported_tables, 24);
BOBBINAZURE_AT(entities, memories, 32);
BOBBINAZURE_AT(entities, imported_memories, 40);
BOBBINAZURE_AT(entities, globals, 48);
BOBBINAZURE_AT(entities, imported_globals, 56);
BOBBINAZURE_AT(entities, tags, 64);
BOBBINAZURE_AT(entities, imported_tags, 72);

BOBBINAZURE_SIZE(context, 60);
BOBBINAZURE_AT(context, size, 0);
BOBBINAZURE_AT(context, imported_memories, 4);
BOBBINAZURE_AT(context, memories, 8);
BOBBINAZURE_AT(context, owned_memories, 12);
BOBBINAZURE_AT(context, imported_functions, 16);
BOBBINAZURE_AT(context, imported_tables, 20);
BOBBINAZURE_AT(context, imported_globals, 24);
BOBBINAZURE_AT(context, imported_tags, 28);
BOBBINAZURE_AT(context, tables, 32);
BOBBINAZURE_AT(context, globals, 36);
BOBBINAZURE_AT(context, tags, 40);
BOBBINAZURE_AT(context, func_refs, 44);
BOBBINAZURE_AT(context, runtime_data_bases, 48);
BOBBINAZURE_AT(context, runtime_data_lengths, 52);
BOBBINAZURE_AT(context, startup_func_ref, 56);

BOBBINAZURE_SIZE(range, 8);
BOBBINAZURE_AT(range, begin, 0);
BOBBINAZURE_AT(range, end, 4);

BOBBINAZURE_SIZE(span, 16);
BOBBINAZURE_AT(span, begin, 0);
BOBBINAZURE_AT(span, len, 8);

BOBBINAZURE_SIZE(value, 8);
BOBBINAZURE_AT(value, kind, 0);
BOBBINAZURE_AT(value, nullable, 1);
BOBBINAZURE_AT(value, heap, 2);
BOBBINAZURE_AT(value, list, 3);
BOBBINAZURE_AT(value, index, 4);

BOBBINAZURE_SIZE(memory, 40);
BOBBINAZURE_AT(memory, minimum, 0);
BOBBINAZURE_AT(memory, maximum, 8);
BOBBINAZURE_AT(memory, minimum_bytes, 16);
BOBBINAZURE_AT(memory, maximum_bytes, 24);
BOBBINAZURE_AT(memory, page_size_log2, 32);
BOBBINAZURE_AT(memory, shared, 33);
BOBBINAZURE_AT(memory, wide, 34);
BOBBINAZURE_AT(memory, bounded, 35);

BOBBINAZURE_SIZE(table, 32);
BOBBINAZURE_AT(table, minimum, 0);
BOBBINAZURE_AT(table, maximum, 8);
BOBBINAZURE_AT(table, element, 16);
BOBBINAZURE_AT(table, wide, 24);
BOBBINAZURE_AT(table, bounded, 28);

BOBBINAZURE_SIZE(global, 12);
BOBBINAZURE_AT(global, value, 0);
BOBBINAZURE_AT(global, writable, 8);

BOBBINAZURE_SIZE(tag, 8);
BOBBINAZURE_AT(tag, signature, 0);
BOBBINAZURE_AT(tag, exception, 4);

BOBBINAZURE_SIZE(image, 16);
BOBBINAZURE_AT(image, memory, 0);
BOBBINAZURE_AT(image, runtime, 4);
BOBBINAZURE_AT(image, offset, 8);

BOBBINAZURE_SIZE(segment, 24);
BOBBINAZURE_AT(segment, memory, 0);
BOBBINAZURE_AT(segment, runtime, 4);
BOBBINAZURE_AT(segment, kind, 8);
BOBBINAZURE_AT(segment, offset, 16);

BOBBINAZURE_SIZE(passive, 8);
BOBBINAZURE_AT(passive, segment, 0);
BOBBINAZURE_AT(passive, runtime, 4);

BOBBINAZURE_SIZE(elements, 24);
BOBBINAZURE_AT(elements, table, 0);
BOBBINAZURE_AT(elements, kind, 4);
BOBBINAZURE_AT(elements, offset, 8);
BOBBINAZURE_AT(elements, count, 16);

BOBBINAZURE_SIZE(items, 40);
BOBBINAZURE_AT(items, element, 0);
BOBBINAZURE_AT(items, functions, 8);
BOBBINAZURE_AT(items, expressions, 24);

BOBBINAZURE_SIZE(locals, 12);
BOBBINAZURE_AT(locals, count, 0);
BOBBINAZURE_AT(locals, value, 4);

BOBBINAZURE_SIZE(operator, 24);
BOBBINAZURE_AT(operator, code, 0);
BOBBINAZURE_AT(operator, heap, 1);
BOBBINAZURE_AT(operator, list, 2);
BOBBINAZURE_AT(operator, index, 4);
BOBBINAZURE_AT(operator, low, 8);
BOBBINAZURE_AT(operator, high, 16);

BOBBINAZURE_SIZE(global_value, 32);
BOBBINAZURE_AT(global_value, global, 0);
BOBBINAZURE_AT(global_value, value, 8);

BOBBINAZURE_SIZE(hints, 16);
BOBBINAZURE_AT(hints, function, 0);
BOBBINAZURE_AT(hints, count, 8);

BOBBINAZURE_SIZE(branch_hint, 12);
BOBBINAZURE_AT(branch_hint, function, 0);
BOBBINAZURE_AT(branch_hint, offset, 4);
BOBBINAZURE_AT(branch_hint, taken, 8);

BOBBINAZURE_SIZE(passive_segment, 8);
BOBBINAZURE_AT(passive_segment, segment, 0);
BOBBINAZURE_AT(passive_segment, passive, 4);

BOBBINAZURE_SIZE(passive_elements, 16);
BOBBINAZURE_AT(passive_elements, element, 0);
BOBBINAZURE_AT(passive_elements, count, 8);

BOBBINAZURE_SIZE(import, 40);
BOBBINAZURE_AT(import, kind, 0);
BOBBINAZURE_AT(import, index, 4);
BOBBINAZURE_AT(import, from, 8);
BOBBINAZURE_AT(import, name, 24);

BOBBINAZURE_SIZE(export, 24);
BOBBINAZURE_AT(export, kind, 0);
BOBBINAZURE_AT(export, index, 4);
BOBBINAZURE_AT(export, name, 8);

BOBBINAZURE_SIZE(layout, 40);
BOBBINAZURE_AT(layout, type, 0);
BOBBINAZURE_AT(layout, kind, 4);
BOBBINAZURE_AT(layout, size, 8);
BOBBINAZURE_AT(layout, align, 12);
BOBBINAZURE_AT(layout, element, 16);
BOBBINAZURE_AT(layout, refs, 20);
BOBBINAZURE_AT(layout, fields, 24);

BOBBINAZURE_SIZE(layout_field, 8);
BOBBINAZURE_AT(layout_field, offset, 0);
BOBBINAZURE_AT(layout_field, is_ref, 4);

BOBBINAZURE_SIZE(type, 40);
BOBBINAZURE_AT(type, kind, 0);
BOBBINAZURE_AT(type, is_final, 1);
BOBBINAZURE_AT(type, shared, 2);
BOBBINAZURE_AT(type, supertype_list, 3);
BOBBINAZURE_AT(type, function_list, 4);
BOBBINAZURE_AT(type, supertype, 8);
BOBBINAZURE_AT(type, function, 12);
BOBBINAZURE_AT(type, fields, 16);
BOBBINAZURE_AT(type, results, 32);

BOBBINAZURE_SIZE(field, 12);
BOBBINAZURE_AT(field, value, 0);
BOBBINAZURE_AT(field, writable, 8);

BOBBINAZURE_SIZE(trampoline, 8);
BOBBINAZURE_AT(trampoline, type, 0);
BOBBINAZURE_AT(trampoline, trampoline, 4);

BOBBINAZURE_SIZE(function_import_layout, 28);
BOBBINAZURE_AT(function_import_layout, size, 0);
BOBBINAZURE_AT(function_import_layout, wasm_call, 4);
BOBBINAZURE_AT(function_import_layout, wasm_call_size, 8);
BOBBINAZURE_AT(function_import_layout, array_call, 12);
BOBBINAZURE_AT(function_import_layout, array_call_size, 16);
BOBBINAZURE_AT(function_import_layout, vmctx, 20);
BOBBINAZURE_AT(function_import_layout, vmctx_size, 24);

BOBBINAZURE_SIZE(table_import_layout, 28);
BOBBINAZURE_AT(table_import_layout, size, 0);
BOBBINAZURE_AT(table_import_layout, from, 4);
BOBBINAZURE_AT(table_import_layout, from_size, 8);
BOBBINAZURE_AT(table_import_layout, vmctx, 12);
BOBBINAZURE_AT(table_import_layout, vmctx_size, 16);
BOBBINAZURE_AT(table_import_layout, index, 20);
BOBBINAZURE_AT(table_import_layout, index_size, 24);

BOBBINAZURE_SIZE(memory_import_layout, 28);
BOBBINAZURE_AT(memory_import_layout, size, 0);
BOBBINAZURE_AT(memory_import_layout, from, 4);
BOBBINAZURE_AT(memory_import_layout, from_size, 8);
BOBBINAZURE_AT(memory_import_layout, vmctx, 12);
BOBBINAZURE_AT(memory_import_layout, vmctx_size, 16);
BOBBINAZURE_AT(memory_import_layout, index, 20);
BOBBINAZURE_AT(memory_import_layout, index_size, 24);

BOBBINAZURE_SIZE(tag_import_layout, 28);
BOBBINAZURE_AT(tag_import_layout, size, 0);
BOBBINAZURE_AT(tag_import_layout, from, 4);
BOBBINAZURE_AT(tag_import_layout, from_size, 8);
BOBBINAZURE_AT(tag_import_layout, vmctx, 12);
BOBBINAZURE_AT(tag_import_layout, vmctx_size, 16);
BOBBINAZURE_AT(tag_import_layout, index, 20);
BOBBINAZURE_AT(tag_import_layout, index_size, 24);

BOBBINAZURE_SIZE(global_import_layout, 28);
BOBBINAZURE_AT(global_import_layout, size, 0);
BOBBINAZURE_AT(global_import_layout, from, 4);
BOBBINAZURE_AT(global_import_layout, from_size, 8);
BOBBINAZURE_AT(global_import_layout, vmctx, 12);
BOBBINAZURE_AT(global_import_layout, vmctx_size, 16);
BOBBINAZURE_AT(global_import_layout, kind, 20);
BOBBINAZURE_AT(global_import_layout, kind_size, 24);

BOBBINAZURE_SIZE(memory_definition_layout, 20);
BOBBINAZURE_AT(memory_definition_layout, size, 0);
BOBBINAZURE_AT(memory_definition_layout, base, 4);
BOBBINAZURE_AT(memory_definition_layout, base_size, 8);
BOBBINAZURE_AT(memory_definition_layout, current_length, 12);
BOBBINAZURE_AT(memory_definition_layout, current_length_size, 16);

BOBBINAZURE_SIZE(table_definition_layout, 20);
BOBBINAZURE_AT(table_definition_layout, size, 0);
BOBBINAZURE_AT(table_definition_layout, base, 4);
BOBBINAZURE_AT(table_definition_layout, base_size, 8);
BOBBINAZURE_AT(table_definition_layout, current_elements, 12);
BOBBINAZURE_AT(table_definition_layout, current_elements_size, 16);

BOBBINAZURE_SIZE(global_definition_layout, 12);
BOBBINAZURE_AT(global_definition_layout, size, 0);
BOBBINAZURE_AT(global_definition_layout, storage, 4);
BOBBINAZURE_AT(global_definition_layout, storage_size, 8);

BOBBINAZURE_SIZE(tag_definition_layout, 12);
BOBBINAZURE_AT(tag_definition_layout, size, 0);
BOBBINAZURE_AT(tag_definition_layout, type_index, 4);
BOBBINAZURE_AT(tag_definition_layout, type_index_size, 8);

BOBBINAZURE_SIZE(func_ref_layout, 36);
BOBBINAZURE_AT(func_ref_layout, size, 0);
BOBBINAZURE_AT(func_ref_layout, array_call, 4);
BOBBINAZURE_AT(func_ref_layout, array_call_size, 8);
BOBBINAZURE_AT(func_ref_layout, wasm_call, 12);
BOBBINAZURE_AT(func_ref_layout, wasm_call_size, 16);
BOBBINAZURE_AT(func_ref_layout, type_index, 20);
BOBBINAZURE_AT(func_ref_layout, type_index_size, 24);
BOBBINAZURE_AT(func_ref_layout, vmctx, 28);
BOBBINAZURE_AT(func_ref_layout, vmctx_size, 32);

BOBBINAZURE_SIZE(store_context_layout, 44);
BOBBINAZURE_AT(store_context_layout, size, 0);
BOBBINAZURE_AT(store_context_layout, fuel_consumed, 4);
BOBBINAZURE_AT(store_context_layout, fuel_consumed_size, 8);
BOBBINAZURE_AT(store_context_layout, epoch_deadline, 12);
BOBBINAZURE_AT(store_context_layout, epoch_deadline_size, 16);
BOBBINAZURE_AT(store_context_layout, stack_limit, 20);
BOBBINAZURE_AT(store_context_layout, stack_limit_size, 24);
BOBBINAZURE_AT(store_context_layout, gc_heap, 28);
BOBBINAZURE_AT(store_context_layout, gc_heap_size, 32);
BOBBINAZURE_AT(store_context_layout, last_wasm_exit_trampoline_fp, 36);
BOBBINAZURE_AT(store_context_layout, last_wasm_exit_trampoline_fp_size, 40);

BOBBINAZURE_SIZE(static_context_layout, 52);
BOBBINAZURE_AT(static_context_layout, size, 0);
BOBBINAZURE_AT(static_context_layout, magic, 4);
BOBBINAZURE_AT(static_context_layout, magic_size, 8);
BOBBINAZURE_AT(static_context_layout, store_context, 12);
BOBBINAZURE_AT(static_context_layout, store_context_size, 16);
BOBBINAZURE_AT(static_context_layout, builtin_functions, 20);
BOBBINAZURE_AT(static_context_layout, builtin_functions_size, 24);
BOBBINAZURE_AT(static_context_layout, epoch_ptr, 28);
BOBBINAZURE_AT(static_context_layout, epoch_ptr_size, 32);
BOBBINAZURE_AT(static_context_layout, gc_heap_data, 36);
BOBBINAZURE_AT(static_context_layout, gc_heap_data_size, 40);
BOBBINAZURE_AT(static_context_layout, type_ids, 44);
BOBBINAZURE_AT(static_context_layout, type_ids_size, 48);

BOBBINAZURE_SIZE(structs, 336);
BOBBINAZURE_AT(structs, function_import, 0);
BOBBINAZURE_AT(structs, table_import, 28);
BOBBINAZURE_AT(structs, memory_import, 56);
BOBBINAZURE_AT(structs, tag_import, 84);
BOBBINAZURE_AT(structs, global_import, 112);
BOBBINAZURE_AT(structs, memory_definition, 140);
BOBBINAZURE_AT(structs, table_definition, 160);
BOBBINAZURE_AT(structs, global_definition, 180);
BOBBINAZURE_AT(structs, tag_definition, 192);
BOBBINAZURE_AT(structs, func_ref, 204);
BOBBINAZURE_AT(structs, store_context, 240);
BOBBINAZURE_AT(structs, static_context, 284);

BOBBINAZURE_SIZE(runtime, 24);
BOBBINAZURE_AT(runtime, made, 0);
BOBBINAZURE_AT(runtime, bytes, 8);

BOBBINAZURE_SIZE(region, 24);
BOBBINAZURE_AT(region, begin, 0);
BOBBINAZURE_AT(region, size, 4);
BOBBINAZURE_AT(region, name, 8);

BOBBINAZURE_SIZE(function_name, 24);
BOBBINAZURE_AT(function_name, function, 0);
BOBBINAZURE_AT(function_name, name, 8);

BOBBINAZURE_SIZE(expressions, 32);
BOBBINAZURE_AT(expressions, parts, 0);
BOBBINAZURE_AT(expressions, operators, 16);

BOBBINAZURE_SIZE(element_items, 64);
BOBBINAZURE_AT(element_items, rows, 0);
BOBBINAZURE_AT(element_items, functions, 16);
BOBBINAZURE_AT(element_items, expressions, 32);

BOBBINAZURE_SIZE(body, 48);
BOBBINAZURE_AT(body, bytes, 0);
BOBBINAZURE_AT(body, code, 16);
BOBBINAZURE_AT(body, locals, 32);

BOBBINAZURE_SIZE(local_name, 24);
BOBBINAZURE_AT(local_name, function, 0);
BOBBINAZURE_AT(local_name, local, 4);
BOBBINAZURE_AT(local_name, name, 8);

BOBBINAZURE_SIZE(plan, 1488);
BOBBINAZURE_AT(plan, refusal, 0);
BOBBINAZURE_AT(plan, refusal_detail, 4);
BOBBINAZURE_AT(plan, refusal_line, 8);
BOBBINAZURE_AT(plan, entities, 24);
BOBBINAZURE_AT(plan, startup, 104);
BOBBINAZURE_AT(plan, startup_type, 108);
BOBBINAZURE_AT(plan, images_made, 112);
BOBBINAZURE_AT(plan, types, 116);
BOBBINAZURE_AT(plan, data_align, 120);
BOBBINAZURE_AT(plan, start, 128);
BOBBINAZURE_AT(plan, needs_gc_heap, 132);
BOBBINAZURE_AT(plan, escaped_functions, 136);
BOBBINAZURE_AT(plan, code_section_offset, 144);
BOBBINAZURE_AT(plan, module_offset, 152);
BOBBINAZURE_AT(plan, has_unparsed_debuginfo, 160);
BOBBINAZURE_AT(plan, pointer, 164);
BOBBINAZURE_AT(plan, context, 168);
BOBBINAZURE_AT(plan, declared, 232);
BOBBINAZURE_AT(plan, groups, 248);
BOBBINAZURE_AT(plan, functions, 264);
BOBBINAZURE_AT(plan, escapes, 280);
BOBBINAZURE_AT(plan, signatures, 296);
BOBBINAZURE_AT(plan, memories, 312);
BOBBINAZURE_AT(plan, tables, 328);
BOBBINAZURE_AT(plan, globals, 344);
BOBBINAZURE_AT(plan, tags, 360);
BOBBINAZURE_AT(plan, runtime, 376);
BOBBINAZURE_AT(plan, runtime_ranges, 392);
BOBBINAZURE_AT(plan, images, 408);
BOBBINAZURE_AT(plan, segments, 424);
BOBBINAZURE_AT(plan, passive, 440);
BOBBINAZURE_AT(plan, table_images, 456);
BOBBINAZURE_AT(plan, cells, 472);
BOBBINAZURE_AT(plan, elements, 488);
BOBBINAZURE_AT(plan, regions, 504);
BOBBINAZURE_AT(plan, passive_elements, 520);
BOBBINAZURE_AT(plan, function_names, 536);
BOBBINAZURE_AT(plan, hints, 552);
BOBBINAZURE_AT(plan, branch_hints, 568);
BOBBINAZURE_AT(plan, passive_segments, 584);
BOBBINAZURE_AT(plan, global_values, 600);
BOBBINAZURE_AT(plan, expressed_globals, 616);
BOBBINAZURE_AT(plan, global_expressions, 632);
BOBBINAZURE_AT(plan, segment_places, 664);
BOBBINAZURE_AT(plan, element_places, 696);
BOBBINAZURE_AT(plan, table_values, 728);
BOBBINAZURE_AT(plan, imports, 760);
BOBBINAZURE_AT(plan, import_names, 776);
BOBBINAZURE_AT(plan, exports, 792);
BOBBINAZURE_AT(plan, export_names, 808);
BOBBINAZURE_AT(plan, module_names, 824);
BOBBINAZURE_AT(plan, layouts, 840);
BOBBINAZURE_AT(plan, layout_fields, 856);
BOBBINAZURE_AT(plan, interned, 872);
BOBBINAZURE_AT(plan, fields, 888);
BOBBINAZURE_AT(plan, trampolines, 904);
BOBBINAZURE_AT(plan, module_text, 920);
BOBBINAZURE_AT(plan, structs, 936);
BOBBINAZURE_AT(plan, element_items, 1272);
BOBBINAZURE_AT(plan, passive_items, 1336);
BOBBINAZURE_AT(plan, bodies, 1400);
BOBBINAZURE_AT(plan, locals, 1416);
BOBBINAZURE_AT(plan, imported_func_count, 1432);
BOBBINAZURE_AT(plan, local_names, 1440);
BOBBINAZURE_AT(plan, function_metadata, 1456);
BOBBINAZURE_AT(plan, metadata_locals, 1472);

BOBBINAZURE_SIZE(data_segment, 32);
BOBBINAZURE_AT(data_segment, kind, 0);
BOBBINAZURE_AT(data_segment, memory, 4);
BOBBINAZURE_AT(data_segment, offset, 8);
BOBBINAZURE_AT(data_segment, bytes, 16);

BOBBINAZURE_SIZE(element_segment, 64);
BOBBINAZURE_AT(element_segment, kind, 0);
BOBBINAZURE_AT(element_segment, table, 4);
BOBBINAZURE_AT(element_segment, offset, 8);
BOBBINAZURE_AT(element_segment, element, 16);
BOBBINAZURE_AT(element_segment, expressed, 24);
BOBBINAZURE_AT(element_segment, functions, 32);
BOBBINAZURE_AT(element_segment, expressions, 48);

BOBBINAZURE_SIZE(segment_list, 96);
BOBBINAZURE_AT(segment_list, data_segments, 0);
BOBBINAZURE_AT(segment_list, element_segments, 16);
BOBBINAZURE_AT(segment_list, functions, 32);
BOBBINAZURE_AT(segment_list, expressions, 48);
BOBBINAZURE_AT(segment_list, references, 80);

BOBBINAZURE_SIZE(text, 24);
BOBBINAZURE_AT(text, text, 0);
BOBBINAZURE_AT(text, made, 16);

BOBBINAZURE_SIZE(import_answer, 24);
BOBBINAZURE_AT(import_answer, answer, 0);
BOBBINAZURE_AT(import_answer, detail, 4);
BOBBINAZURE_AT(import_answer, line, 8);

BOBBINAZURE_SIZE(link_record, 48);
BOBBINAZURE_AT(link_record, refused, 0);
BOBBINAZURE_AT(link_record, refusal, 4);
BOBBINAZURE_AT(link_record, refusal_detail, 8);
BOBBINAZURE_AT(link_record, refusal_line, 16);
BOBBINAZURE_AT(link_record, answers, 32);

BOBBINAZURE_SIZE(named_module, 32);
BOBBINAZURE_AT(named_module, name, 0);
BOBBINAZURE_AT(named_module, bytes, 16);

BOBBINAZURE_SIZE(program_answer, 40);
BOBBINAZURE_AT(program_answer, answer, 0);
BOBBINAZURE_AT(program_answer, rule, 4);
BOBBINAZURE_AT(program_answer, module, 8);
BOBBINAZURE_AT(program_answer, export_number, 16);
BOBBINAZURE_AT(program_answer, line, 24);

BOBBINAZURE_SIZE(linked_module, 40);
BOBBINAZURE_AT(linked_module, types, 0);
BOBBINAZURE_AT(linked_module, answers, 16);
BOBBINAZURE_AT(linked_module, first_export, 32);

BOBBINAZURE_SIZE(program, 88);
BOBBINAZURE_AT(program, cause, 0);
BOBBINAZURE_AT(program, refusal, 4);
BOBBINAZURE_AT(program, refusal_detail, 8);
BOBBINAZURE_AT(program, refusal_line, 16);
BOBBINAZURE_AT(program, refused, 32);
BOBBINAZURE_AT(program, modules, 40);
BOBBINAZURE_AT(program, types, 56);
BOBBINAZURE_AT(program, answers, 72);

BOBBINAZURE_SIZE(place, 48);
BOBBINAZURE_AT(place, section, 0);
BOBBINAZURE_AT(place, section_start, 4);
BOBBINAZURE_AT(place, entry, 8);
BOBBINAZURE_AT(place, byte, 12);
BOBBINAZURE_AT(place, decided, 16);
BOBBINAZURE_AT(place, fault, 20);
BOBBINAZURE_AT(place, sentence, 24);
BOBBINAZURE_AT(place, made, 40);

BOBBINAZURE_SIZE(broken_rule, 48);
BOBBINAZURE_AT(broken_rule, rule, 0);
BOBBINAZURE_AT(broken_rule, list, 4);
BOBBINAZURE_AT(broken_rule, entry, 8);
BOBBINAZURE_AT(broken_rule, section, 12);
BOBBINAZURE_AT(broken_rule, section_entry, 16);
BOBBINAZURE_AT(broken_rule, byte, 20);
BOBBINAZURE_AT(broken_rule, sentence, 24);
BOBBINAZURE_AT(broken_rule, made, 40);

BOBBINAZURE_SIZE(excess, 48);
BOBBINAZURE_AT(excess, kind, 0);
BOBBINAZURE_AT(excess, index, 4);
BOBBINAZURE_AT(excess, section, 8);
BOBBINAZURE_AT(excess, section_entry, 12);
BOBBINAZURE_AT(excess, byte, 16);
BOBBINAZURE_AT(excess, sentence, 24);
BOBBINAZURE_AT(excess, made, 40);

BOBBINAZURE_SIZE(name_entry, 32);
BOBBINAZURE_AT(name_entry, subsection, 0);
BOBBINAZURE_AT(name_entry, index, 4);
BOBBINAZURE_AT(name_entry, has_inner, 8);
BOBBINAZURE_AT(name_entry, inner, 12);
BOBBINAZURE_AT(name_entry, name, 16);

BOBBINAZURE_SIZE(name_list, 16);
BOBBINAZURE_AT(name_list, entries, 0);

BOBBINAZURE_SIZE(section, 40);
BOBBINAZURE_AT(section, id, 0);
BOBBINAZURE_AT(section, start, 4);
BOBBINAZURE_AT(section, contents, 8);
BOBBINAZURE_AT(section, size, 12);
BOBBINAZURE_AT(section, has_name, 16);
BOBBINAZURE_AT(section, name, 24);

BOBBINAZURE_SIZE(section_list, 16);
BOBBINAZURE_AT(section_list, sections, 0);

#undef BOBBINAZURE_AT
#undef BOBBINAZURE_SIZE
#undef BOBBINAZURE_ASSERT
#endif
#endif
