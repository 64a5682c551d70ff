//! The text of a plan, written out of what the methods of `Plan` tell: each line of it, and no
//! other.

use bobbinazure::{ConstExpr, GcLayoutKind, GlobalInit, LayoutField, ModuleStartup, Options, Plan, SegmentOffset, plan_and_text};
use std::fmt::Write;

const MODULES: [&[u8]; 2] = [include_bytes!("../../../examples/linked.wasm"), include_bytes!("../../../examples/overlap.wasm")];

fn all_options() -> [Options; 4] {
    let plain = Options::default();
    let images = Options { cow: true, lazy_tables: true, ..plain };
    [
        plain,
        Options { cow: true, ..plain },
        images,
        with_all_flags(Options { pointer: 4, collector: 1, ..plain }),
    ]
}

fn with_all_flags(mut options: Options) -> Options {
    for (_, flag) in Options::FLAGS {
        *flag(&mut options) = true;
    }
    options
}

/// A name, with what is not ASCII as its bytes.
fn quoted(name: &str) -> String {
    let mut said = String::from("\"");
    for byte in name.bytes() {
        match byte {
            0x20..=0x7E if byte != b'"' && byte != b'\\' => said.push(char::from(byte)),
            _ => write!(said, "\\{byte:02x}").expect("a string takes all"),
        }
    }
    said + "\""
}

fn yes(yes: bool) -> &'static str {
    if yes { "yes" } else { "no" }
}

fn types(plan: &Plan) -> Vec<String> {
    let mut lines = vec![format!("types {}", plan.types().len())];
    for (index, ty) in (0..).zip(plan.types()) {
        lines.push(match plan.trampoline_type(index) {
            Some(trampoline) => format!("type {index} {ty} trampoline {trampoline}"),
            None => format!("type {index} {ty}"),
        });
    }
    lines.extend(plan.rec_groups().enumerate().map(|(index, group)| format!("group {index} {} {}", group.start, group.end)));
    lines.extend(plan.declared_types().iter().enumerate().map(|(index, ty)| format!("declared {index} {ty}")));
    lines
}

fn entities(plan: &Plan) -> Vec<String> {
    let count = plan.entities();
    let mut lines = Vec::new();
    for (index, import) in plan.imports().enumerate() {
        lines.push(format!("import {index} {} {} {}", quoted(import.module), quoted(import.name), import.index));
    }
    for (word, all, imported) in [
        ("functions", count.functions, count.imported_functions),
        ("tables", count.tables, count.imported_tables),
        ("memories", count.memories, count.imported_memories),
        ("globals", count.globals, count.imported_globals),
        ("tags", count.tags, count.imported_tags),
    ] {
        lines.push(format!("{word} {imported} {}", all - imported));
    }
    lines.push(format!("gc-heap {}", yes(plan.needs_gc_heap())));
    lines.extend(plan.functions().filter_map(|f| f.func_ref.map(|number| format!("escape {} {number}", f.index))));
    lines.extend(plan.exported_signatures().iter().map(|ty| format!("signature {ty}")));
    lines.extend(plan.exports().map(|export| format!("export {} {}", quoted(export.name), export.index)));
    lines.extend(plan.name().map(|name| format!("name {}", quoted(name))));
    lines.extend(plan.func_names().map(|(function, name)| format!("func-name {function} {}", quoted(name))));
    lines.extend(plan.branch_hint_counts().map(|(function, count)| format!("hints {function} {count}")));
    lines
}

fn tables(plan: &Plan) -> Vec<String> {
    let mut lines: Vec<String> = plan.start_func().map(|function| format!("start {function}")).into_iter().collect();
    lines.extend(plan.global_initializers().map(|(global, init)| match init {
        GlobalInit::Value(value) => format!("global {global} {value}"),
        GlobalInit::Expr(expression) => format!("global-expr {global} {expression}"),
    }));
    let valued = |(table, value): (usize, Option<ConstExpr>)| value.map(|value| format!("table-expr {table} {value}"));
    lines.extend(plan.table_initial_values().enumerate().filter_map(valued));
    for (table, cells) in plan.table_images().enumerate().filter(|(_, cells)| !cells.is_empty()) {
        let cells = cells.iter().map(|cell| if *cell == u32::MAX { " null".into() } else { format!(" {cell}") });
        lines.push(format!("table-image {table} {}{}", cells.len(), cells.collect::<String>()));
    }
    lines.extend(plan.element_segments().map(|segment| format!("element {} {} at {}", segment.table, segment.items.len(), segment.offset)));
    lines.extend(plan.passive_elements().enumerate().map(|(index, segment)| format!("passive-element {index} {} {}", segment.element, segment.items.len())));
    lines
}

fn memories(plan: &Plan) -> Vec<String> {
    let mut lines = vec![format!("memory-init {}", if plan.has_images() { "static" } else { "segmented" })];
    lines.extend(plan.data_align().map(|align| format!("data-align {align}")));
    lines.extend(plan.memory_images().map(|image| format!("image {} {} {}", image.memory, image.offset, image.runtime)));
    lines.extend(plan.data_segments().map(|segment| match segment.offset {
        SegmentOffset::Static(at) => format!("segment {} {} at static {at}", segment.memory, segment.runtime),
        SegmentOffset::Expr(at) => format!("segment {} {} at {at}", segment.memory, segment.runtime),
    }));
    lines.extend(plan.passive_data().map(|data| format!("passive-data {} {}", data.segment, data.runtime)));
    lines.extend(plan.runtime_ranges().enumerate().map(|(index, range)| format!("runtime {index} {} {}", range.start, range.end)));
    lines
}

fn fields(fields: &[LayoutField]) -> String {
    fields.iter().map(|field| format!(" {}{}", field.offset, if field.is_ref != 0 { "r" } else { "" })).collect()
}

fn context(plan: &Plan) -> Vec<String> {
    let mut lines = vec![match plan.startup() {
        ModuleStartup::None => "startup none".into(),
        ModuleStartup::Always(ty) => format!("startup always {ty}"),
        ModuleStartup::IfMemoriesNeedInit(ty) => format!("startup if-memories-need-init {ty}"),
    }];
    lines.extend(plan.gc_layouts().map(|layout| match layout.kind {
        GcLayoutKind::Array { elem_size, elems_are_gc_refs } => {
            format!("layout {} array base {} align {} element {elem_size} refs {}", layout.ty, layout.size, layout.align, yes(elems_are_gc_refs))
        }
        GcLayoutKind::Struct { fields: own } => format!("layout {} struct size {} align {} fields{}", layout.ty, layout.size, layout.align, fields(own)),
        GcLayoutKind::Exn { fields: own } => format!("layout {} exn size {} align {} fields{}", layout.ty, layout.size, layout.align, fields(own)),
    }));
    lines.extend(plan.regions().map(|region| format!("region {} {}", region.size, region.name)));
    lines.push(format!("context {}", plan.offsets().size));
    lines
}

/// What the methods tell is the text, for each option.
fn told(module: &[u8]) {
    for options in all_options() {
        let Ok((plan, text)) = plan_and_text(module, &options) else { continue };
        let lines = [types(&plan), entities(&plan), tables(&plan), memories(&plan), context(&plan)].concat();
        assert_eq!(lines, text.lines().collect::<Vec<_>>(), "{options:?}");
        assert_eq!(plan.function_metadata().len(), if options.native_debug { plan.bodies().len() } else { 0 });
        assert!(plan.function_metadata().zip(plan.bodies()).all(|(function, body)| function.locals().eq(body.locals())), "{options:?}");
    }
}

#[test]
fn the_examples_are_told() {
    MODULES.into_iter().for_each(told);
}

/// The bytes of digits.
fn digits(word: &str) -> Vec<u8> {
    (0..word.len()).step_by(2).map(|at| u8::from_str_radix(&word[at..at + 2], 16).expect("a byte")).collect()
}

/// The bytes of a piece of a case: `02000B`, `4096*00`, `"abc"`, or `'abc'` with its length before
/// it.
fn piece(word: &str) -> Vec<u8> {
    if let Some(text) = word.strip_prefix('"') {
        text.trim_end_matches('"').into()
    } else if let Some(text) = word.strip_prefix('\'') {
        let text = text.trim_end_matches('\'');
        [&[text.len() as u8], text.as_bytes()].concat()
    } else if let Some((count, bytes)) = word.split_once('*') {
        digits(bytes).repeat(count.parse().expect("a count"))
    } else {
        digits(word)
    }
}

/// The module of a case of crates/plan_cases; none where its lines give more than bytes, or want a
/// refusal.
fn module(case: &str) -> Option<Vec<u8>> {
    let mut bytes = Vec::new();
    for line in case.lines() {
        let mut words = line.split(' ');
        match words.next()? {
            "header" => bytes.extend(b"\0asm\x01\0\0\0"),
            "section" => {
                bytes.extend(piece(words.next()?));
                let contents: Vec<u8> = words.flat_map(piece).collect();
                let size = contents.len() as u32;
                bytes.extend([0, 7, 14, 21].map(|shift| 0x80 | (size >> shift) as u8));
                bytes.push((size >> 28) as u8);
                bytes.extend(contents);
            }
            "bytes" => bytes.extend(words.flat_map(piece)),
            "again" | "first" | "refused" | "status" => return None,
            _ => {}
        }
    }
    (!bytes.is_empty()).then_some(bytes)
}

/// Each case that spells a module by its bytes alone.
#[test]
fn the_cases_are_told() {
    let folder = concat!(env!("CARGO_MANIFEST_DIR"), "/../../crates/plan_cases/data");
    let mut count = 0;
    for file in std::fs::read_dir(folder).expect("the cases") {
        let text = std::fs::read_to_string(file.expect("a file").path()).expect("a text");
        for bytes in text.split("\n\n").filter_map(module).filter(|bytes| Plan::new(bytes, &Options::default()).is_ok()) {
            told(&bytes);
            count += 1;
        }
    }
    assert!(count > 200, "{count} modules");
}
