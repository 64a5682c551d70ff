//! Modules that export what a program imports, so that it can be linked by the library as any two
//! modules are.

use super::spelling::{constant, data, elements, export, limits, module, section, signed, sized, unsigned};
use bobbinazure::{CompositeType, EntityIndex, Fields, Import, Plan, StorageType, ValType};

/// The sections of a host, as it grows.
#[derive(Default)]
struct Host {
    types: Vec<Vec<u8>>,
    tables: Vec<Vec<u8>>,
    memories: Vec<Vec<u8>>,
    globals: Vec<Vec<u8>>,
    exports: Vec<Vec<u8>>,
}

/// The names of the modules that a plan imports from, each once.
pub fn names<'p>(plan: &'p Plan<'_>) -> Vec<&'p str> {
    let mut names: Vec<&str> = plan.imports().map(|import| import.module).collect();
    names.sort_unstable();
    names.dedup();
    names
}

fn byte_of(ty: StorageType) -> u8 {
    match ty {
        StorageType::Val(ValType::I32) => 0x7F,
        StorageType::Val(ValType::I64) => 0x7E,
        StorageType::Val(ValType::F32) => 0x7D,
        StorageType::Val(ValType::F64) => 0x7C,
        other => panic!("a host has no {other}"),
    }
}

fn types(fields: Fields<'_>) -> Vec<u8> {
    sized(&fields.iter().map(|field| byte_of(field.element_type)).collect::<Vec<u8>>())
}

/// A constant expression of a type.
fn number(ty: u8, value: i64) -> Vec<u8> {
    match ty {
        0x7F => constant(value),
        0x7E => [vec![0x42], signed(value), vec![0x0B]].concat(),
        0x7D => [&[0x43][..], &(value as f32).to_le_bytes(), &[0x0B]].concat(),
        _ => [&[0x44][..], &(value as f64).to_le_bytes(), &[0x0B]].concat(),
    }
}

/// Limits of what has places of 64 bits, or of 32.
fn wide_limits(wide: bool, least: u64, most: Option<u64>) -> Vec<u8> {
    let mut limits = limits(least, most);
    limits[0] |= if wide { 4 } else { 0 };
    limits
}

/// What a host holds in a global of a name: where a library is to be placed, or some other address.
fn address(name: &str, place: usize) -> i64 {
    match name {
        "__memory_base" => 1024,
        "__table_base" => 1,
        "__stack_pointer" => 65536,
        _ => 70000 + 16 * place as i64,
    }
}

impl Host {
    /// Adds what an import wants, a little larger than it must be.
    fn add(&mut self, plan: &Plan<'_>, import: &Import<'_>) {
        let (kind, place) = match import.index {
            EntityIndex::Function(index) => {
                let ty = plan.function(index).and_then(|function| plan.ty(function.signature));
                let Some(CompositeType::Func { params, results }) = ty.map(|ty| ty.composite_type) else {
                    return;
                };
                self.types.push([vec![0x60], types(params), types(results)].concat());
                (0, self.types.len())
            }
            EntityIndex::Table(index) => {
                let table = plan.tables()[index as usize];
                let least = table.max().unwrap_or(table.minimum + 8);
                self.tables.push([vec![0x70], wide_limits(table.wide != 0, least, table.max())].concat());
                (1, self.tables.len())
            }
            EntityIndex::Memory(index) => {
                let memory = plan.memories()[index as usize];
                let least = memory.max().unwrap_or(memory.minimum + 1);
                self.memories.push(wide_limits(memory.wide, least, memory.max()));
                (2, self.memories.len())
            }
            EntityIndex::Global(index) => {
                let global = plan.globals()[index as usize];
                let ty = byte_of(global.ty());
                let first = number(ty, address(import.name, self.globals.len()));
                self.globals.push([vec![ty, u8::from(global.mutability())], first].concat());
                (3, self.globals.len())
            }
            EntityIndex::Tag(_) => panic!("a host has no tags"),
        };
        self.exports.push(export(import.name, kind, place as u64 - 1));
    }

    /// Its table begins with its first function, its memory with a few bytes. No function returns.
    fn spell(&self) -> Vec<u8> {
        let numbers: Vec<Vec<u8>> = (0..self.types.len() as u64).map(unsigned).collect();
        let bodies: Vec<Vec<u8>> = self.types.iter().map(|_| sized(&[0, 0, 0x0B])).collect();
        let has_cells = !self.tables.is_empty() && !self.types.is_empty();
        let cells: Vec<Vec<u8>> = has_cells.then(|| elements(&constant(0), &[0])).into_iter().collect();
        let bytes = self
            .memories
            .iter()
            .map(|_| data(&constant(1000), b"bytes that the host has, some of which are replaced"));
        module(&[
            section(1, &self.types),
            section(3, &numbers),
            section(4, &self.tables),
            section(5, &self.memories),
            section(6, &self.globals),
            section(7, &self.exports),
            section(9, &cells),
            section(10, &bodies),
            section(11, &bytes.collect::<Vec<_>>()),
        ])
    }
}

/// A module that exports what a plan imports from a module of this name.
pub fn host(plan: &Plan<'_>, name: &str) -> Vec<u8> {
    let mut host = Host::default();
    plan.imports().filter(|import| import.module == name).for_each(|import| host.add(plan, &import));
    host.spell()
}
