//! The sizes and the offsets of the records, where pointers have 8 bytes: the header has the
//! same. Made by embed/generate.
#![cfg(target_pointer_width = "64")]

use crate::list::List;
use crate::records::*;
use crate::rows::*;
use std::mem::{offset_of, size_of};

macro_rules! laid_out {
    ($($row:ty: $size:literal { $($field:ident $at:literal),* $(,)? })*) => {
        $(const _: () = {
            assert!(size_of::<$row>() == $size);
            $(assert!(offset_of!($row, $field) == $at);)*
        };)*
    };
}

laid_out! {
    List<u8>: 16 {}
    Options: 24 {
        cow 0,
        lazy_tables 1,
        branch_hints 2,
        native_debug 3,
        guest_debug 4,
        pointer 5,
        collector 6,
        page_size 8,
        max_image 16,
    }
    Entities: 80 {
        functions 0,
        imported_functions 8,
        tables 16,
        imported_tables 24,
        memories 32,
        imported_memories 40,
        globals 48,
        imported_globals 56,
        tags 64,
        imported_tags 72,
    }
    Context: 60 {
        size 0,
        imported_memories 4,
        memories 8,
        owned_memories 12,
        imported_functions 16,
        imported_tables 20,
        imported_globals 24,
        imported_tags 28,
        tables 32,
        globals 36,
        tags 40,
        func_refs 44,
        runtime_data_bases 48,
        runtime_data_lengths 52,
        startup_func_ref 56,
    }
    Range: 8 {
        begin 0,
        end 4,
    }
    Span: 16 {
        begin 0,
        len 8,
    }
    Value: 8 {
        kind 0,
        nullable 1,
        heap 2,
        list 3,
        index 4,
    }
    Memory: 40 {
        minimum 0,
        maximum 8,
        minimum_bytes 16,
        maximum_bytes 24,
        page_size_log2 32,
        shared 33,
        wide 34,
        bounded 35,
    }
    Table: 32 {
        minimum 0,
        maximum 8,
        element 16,
        wide 24,
        bounded 28,
    }
    Global: 12 {
        value 0,
        writable 8,
    }
    Tag: 8 {
        signature 0,
        exception 4,
    }
    Image: 16 {
        memory 0,
        runtime 4,
        offset 8,
    }
    Segment: 24 {
        memory 0,
        runtime 4,
        kind 8,
        offset 16,
    }
    Passive: 8 {
        segment 0,
        runtime 4,
    }
    Elements: 24 {
        table 0,
        kind 4,
        offset 8,
        count 16,
    }
    Items: 40 {
        element 0,
        functions 8,
        expressions 24,
    }
    Locals: 12 {
        count 0,
        value 4,
    }
    Operator: 24 {
        code 0,
        heap 1,
        list 2,
        index 4,
        low 8,
        high 16,
    }
    GlobalValue: 32 {
        global 0,
        value 8,
    }
    Hints: 16 {
        function 0,
        count 8,
    }
    BranchHint: 12 {
        function 0,
        offset 4,
        taken 8,
    }
    PassiveSegment: 8 {
        segment 0,
        passive 4,
    }
    PassiveElements: 16 {
        element 0,
        count 8,
    }
    Import: 40 {
        kind 0,
        index 4,
        from 8,
        name 24,
    }
    Export: 24 {
        kind 0,
        index 4,
        name 8,
    }
    Layout: 40 {
        ty 0,
        kind 4,
        size 8,
        align 12,
        element 16,
        refs 20,
        fields 24,
    }
    LayoutField: 8 {
        offset 0,
        is_ref 4,
    }
    Type: 40 {
        kind 0,
        is_final 1,
        shared 2,
        supertype_list 3,
        function_list 4,
        supertype 8,
        function 12,
        fields 16,
        results 32,
    }
    Field: 12 {
        value 0,
        writable 8,
    }
    Trampoline: 8 {
        ty 0,
        trampoline 4,
    }
    FunctionImportLayout: 28 {
        size 0,
        wasm_call 4,
        wasm_call_size 8,
        array_call 12,
        array_call_size 16,
        vmctx 20,
        vmctx_size 24,
    }
    TableImportLayout: 28 {
        size 0,
        from 4,
        from_size 8,
        vmctx 12,
        vmctx_size 16,
        index 20,
        index_size 24,
    }
    MemoryImportLayout: 28 {
        size 0,
        from 4,
        from_size 8,
        vmctx 12,
        vmctx_size 16,
        index 20,
        index_size 24,
    }
    TagImportLayout: 28 {
        size 0,
        from 4,
        from_size 8,
        vmctx 12,
        vmctx_size 16,
        index 20,
        index_size 24,
    }
    GlobalImportLayout: 28 {
        size 0,
        from 4,
        from_size 8,
        vmctx 12,
        vmctx_size 16,
        kind 20,
        kind_size 24,
    }
    MemoryDefinitionLayout: 20 {
        size 0,
        base 4,
        base_size 8,
        current_length 12,
        current_length_size 16,
    }
    TableDefinitionLayout: 20 {
        size 0,
        base 4,
        base_size 8,
        current_elements 12,
        current_elements_size 16,
    }
    GlobalDefinitionLayout: 12 {
        size 0,
        storage 4,
        storage_size 8,
    }
    TagDefinitionLayout: 12 {
        size 0,
        type_index 4,
        type_index_size 8,
    }
    FuncRefLayout: 36 {
        size 0,
        array_call 4,
        array_call_size 8,
        wasm_call 12,
        wasm_call_size 16,
        type_index 20,
        type_index_size 24,
        vmctx 28,
        vmctx_size 32,
    }
    StoreContextLayout: 44 {
        size 0,
        fuel_consumed 4,
        fuel_consumed_size 8,
        epoch_deadline 12,
        epoch_deadline_size 16,
        stack_limit 20,
        stack_limit_size 24,
        gc_heap 28,
        gc_heap_size 32,
        last_wasm_exit_trampoline_fp 36,
        last_wasm_exit_trampoline_fp_size 40,
    }
    StaticContextLayout: 52 {
        size 0,
        magic 4,
        magic_size 8,
        store_context 12,
        store_context_size 16,
        builtin_functions 20,
        builtin_functions_size 24,
        epoch_ptr 28,
        epoch_ptr_size 32,
        gc_heap_data 36,
        gc_heap_data_size 40,
        type_ids 44,
        type_ids_size 48,
    }
    Structs: 336 {
        function_import 0,
        table_import 28,
        memory_import 56,
        tag_import 84,
        global_import 112,
        memory_definition 140,
        table_definition 160,
        global_definition 180,
        tag_definition 192,
        func_ref 204,
        store_context 240,
        static_context 284,
    }
    Runtime: 24 {
        made 0,
        bytes 8,
    }
    Region: 24 {
        begin 0,
        size 4,
        name 8,
    }
    FunctionName: 24 {
        function 0,
        name 8,
    }
    ExpressionsRecord: 32 {
        parts 0,
        operators 16,
    }
    ElementItemsRecord: 64 {
        rows 0,
        functions 16,
        expressions 32,
    }
    Body: 48 {
        bytes 0,
        code 16,
        locals 32,
    }
    LocalName: 24 {
        function 0,
        local 4,
        name 8,
    }
    PlanRecord: 1488 {
        refusal 0,
        refusal_detail 4,
        refusal_line 8,
        entities 24,
        startup 104,
        startup_type 108,
        images_made 112,
        types 116,
        data_align 120,
        start 128,
        needs_gc_heap 132,
        escaped_functions 136,
        code_section_offset 144,
        module_offset 152,
        has_unparsed_debuginfo 160,
        pointer 164,
        context 168,
        declared 232,
        groups 248,
        functions 264,
        escapes 280,
        signatures 296,
        memories 312,
        tables 328,
        globals 344,
        tags 360,
        runtime 376,
        runtime_ranges 392,
        images 408,
        segments 424,
        passive 440,
        table_images 456,
        cells 472,
        elements 488,
        regions 504,
        passive_elements 520,
        function_names 536,
        hints 552,
        branch_hints 568,
        passive_segments 584,
        global_values 600,
        expressed_globals 616,
        global_expressions 632,
        segment_places 664,
        element_places 696,
        table_values 728,
        imports 760,
        import_names 776,
        exports 792,
        export_names 808,
        module_names 824,
        layouts 840,
        layout_fields 856,
        interned 872,
        fields 888,
        trampolines 904,
        module_text 920,
        structs 936,
        element_items 1272,
        passive_items 1336,
        bodies 1400,
        locals 1416,
        imported_func_count 1432,
        local_names 1440,
        function_metadata 1456,
        metadata_locals 1472,
    }
    DataSegment: 32 {
        kind 0,
        memory 4,
        offset 8,
        bytes 16,
    }
    ElementSegment: 64 {
        kind 0,
        table 4,
        offset 8,
        element 16,
        expressed 24,
        functions 32,
        expressions 48,
    }
    SegmentsRecord: 96 {
        data_segments 0,
        element_segments 16,
        functions 32,
        expressions 48,
        references 80,
    }
    Text: 24 {
        text 0,
        made 16,
    }
    ImportAnswer: 24 {
        answer 0,
        detail 4,
        line 8,
    }
    LinkRecord: 48 {
        refused 0,
        refusal 4,
        refusal_detail 8,
        refusal_line 16,
        answers 32,
    }
    NamedModule: 32 {
        name 0,
        bytes 16,
    }
    ProgramAnswer: 40 {
        answer 0,
        rule 4,
        module 8,
        export_number 16,
        line 24,
    }
    LinkedModule: 40 {
        types 0,
        answers 16,
        first_export 32,
    }
    ProgramRecord: 88 {
        cause 0,
        refusal 4,
        refusal_detail 8,
        refusal_line 16,
        refused 32,
        modules 40,
        types 56,
        answers 72,
    }
    Place: 48 {
        section 0,
        section_start 4,
        entry 8,
        byte 12,
        decided 16,
        fault 20,
        sentence 24,
        made 40,
    }
    BrokenRule: 48 {
        rule 0,
        list 4,
        entry 8,
        section 12,
        section_entry 16,
        byte 20,
        sentence 24,
        made 40,
    }
    Excess: 48 {
        kind 0,
        index 4,
        section 8,
        section_entry 12,
        byte 16,
        sentence 24,
        made 40,
    }
    NameEntry: 32 {
        subsection 0,
        index 4,
        has_inner 8,
        inner 12,
        name 16,
    }
    NameMapsRecord: 16 {
        entries 0,
    }
    Section: 40 {
        id 0,
        start 4,
        contents 8,
        size 12,
        has_name 16,
        name 24,
    }
    SectionsRecord: 16 {
        sections 0,
    }
}
