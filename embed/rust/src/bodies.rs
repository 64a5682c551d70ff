//! The bodies of functions, and what is known of their code.

use crate::plan::{Plan, part};
use crate::rows::{BranchHint, Locals};
use crate::types::{HeapType, RefType, StorageType, TypeIndex, ValType};
use std::ops::Range;

/// The body of a defined function.
///
/// ```
/// # let bytes = std::fs::read(concat!(env!("CARGO_MANIFEST_DIR"), "/../../examples/linked.wasm"))?;
/// # let options = bobbinazure::Options { cow: true, lazy_tables: true, ..Default::default() };
/// # let plan = bobbinazure::Plan::new(&bytes, &options)?;
/// let add = plan.body(1).unwrap();
/// assert_eq!(add.bytes.len(), 1 + add.code.len()); // the number of its locals, which is 0
/// # Ok::<(), Box<dyn std::error::Error>>(())
/// ```
#[derive(Clone, Debug)]
pub struct Body<'p> {
    /// Where it stands in the module, without its size.
    pub range: Range<usize>,
    /// Its bytes: its locals, then its code. The offset of a branch hint counts from their
    /// beginning.
    pub bytes: &'p [u8],
    /// Where its operators begin in the module.
    pub operators: usize,
    /// Its code, from its first operator to its end.
    pub code: &'p [u8],
    locals: &'p [Locals],
    plan: &'p Plan<'p>,
}

impl<'p> Body<'p> {
    /// Its locals besides its parameters, in runs of one type: how many, and their type, by
    /// interned types.
    ///
    /// ```
    /// # let bytes = std::fs::read(concat!(env!("CARGO_MANIFEST_DIR"), "/../../examples/linked.wasm"))?;
    /// # let options = bobbinazure::Options { cow: true, lazy_tables: true, ..Default::default() };
    /// # let plan = bobbinazure::Plan::new(&bytes, &options)?;
    /// let add = plan.body(1).unwrap();
    /// assert_eq!(add.locals().map(|(count, _)| count).sum::<u32>(), 0);
    /// # Ok::<(), Box<dyn std::error::Error>>(())
    /// ```
    pub fn locals(&self) -> impl ExactSizeIterator<Item = (u32, ValType)> + use<'p> {
        let plan = self.plan;
        self.locals.iter().map(move |run| (run.count, plan.local_type(run)))
    }
}

impl<'d> Plan<'d> {
    /// The bodies of the defined functions, in order.
    ///
    /// ```
    /// # let bytes = std::fs::read(concat!(env!("CARGO_MANIFEST_DIR"), "/../../examples/linked.wasm"))?;
    /// # let options = bobbinazure::Options { cow: true, lazy_tables: true, ..Default::default() };
    /// # let plan = bobbinazure::Plan::new(&bytes, &options)?;
    /// let add = plan.bodies().nth(1).unwrap();
    /// assert_eq!(add.code, [0x20, 0x00, 0x20, 0x01, 0x6A, 0x0B]);
    /// assert_eq!(bytes[add.operators..add.range.end], *add.code);
    /// assert_eq!(bytes[add.range.clone()], *add.bytes);
    /// # Ok::<(), Box<dyn std::error::Error>>(())
    /// ```
    pub fn bodies(&self) -> impl ExactSizeIterator<Item = Body<'_>> {
        (0..self.record.bodies.as_slice().len()).map(|place| self.body_at(place))
    }

    /// The body of a function, by its index among all functions; `None` of an imported one. The
    /// other bodies are not visited.
    ///
    /// ```
    /// # let bytes = std::fs::read(concat!(env!("CARGO_MANIFEST_DIR"), "/../../examples/linked.wasm"))?;
    /// # let plan = bobbinazure::Plan::new(&bytes, &Default::default())?;
    /// assert_eq!(plan.body(1).unwrap().range, plan.bodies().nth(1).unwrap().range);
    /// assert!(plan.body(2).is_none());
    /// # Ok::<(), Box<dyn std::error::Error>>(())
    /// ```
    pub fn body(&self, function: u32) -> Option<Body<'_>> {
        let place = u64::from(function).checked_sub(self.record.entities.imported_functions)? as usize;
        (place < self.record.bodies.as_slice().len()).then(|| self.body_at(place))
    }

    /// Where a part of the module begins in it.
    fn place_in_module(&self, part: &[u8]) -> usize {
        part.as_ptr() as usize - self.module.as_ptr() as usize
    }

    /// The body of this number.
    fn body_at(&self, place: usize) -> Body<'_> {
        let row = &self.record.bodies.as_slice()[place];
        let (bytes, code) = (row.bytes.as_slice(), row.code.as_slice());
        let (begin, operators) = (self.place_in_module(bytes), self.place_in_module(code));
        let locals = part(self.record.locals.as_slice(), row.locals);
        Body { range: begin..begin + bytes.len(), bytes, operators, code, locals, plan: self }
    }

    /// The type of locals: a type of the type section is the interned one.
    fn local_type(&self, run: &Locals) -> ValType {
        if run.value.list == 4 {
            let index = self.declared_types()[run.value.index as usize];
            let ty = TypeIndex::Module(index);
            let heap_type = match self.record.interned.as_slice()[index as usize].kind {
                0 => HeapType::ConcreteArray(ty),
                1 => HeapType::ConcreteFunc(ty),
                2 => HeapType::ConcreteStruct(ty),
                3 => HeapType::ConcreteCont(ty),
                _ => HeapType::ConcreteExn(ty),
            };
            return RefType { nullable: run.value.nullable, heap_type }.into();
        }
        StorageType::from(run.value).unpacked()
    }

    /// The branch hints, function by function, those of a function in order.
    ///
    /// ```
    /// # let bytes = std::fs::read(concat!(env!("CARGO_MANIFEST_DIR"), "/../../examples/linked.wasm"))?;
    /// # let options = bobbinazure::Options { cow: true, lazy_tables: true, ..Default::default() };
    /// # let plan = bobbinazure::Plan::new(&bytes, &options)?;
    /// assert!(plan.branch_hints().is_empty()); // of a module that has none, or without the option
    /// # Ok::<(), Box<dyn std::error::Error>>(())
    /// ```
    pub fn branch_hints(&self) -> &[BranchHint] {
        self.record.branch_hints.as_slice()
    }

    /// The branch hints of a function, in order.
    ///
    /// ```
    /// # let bytes = std::fs::read(concat!(env!("CARGO_MANIFEST_DIR"), "/../../examples/linked.wasm"))?;
    /// # let options = bobbinazure::Options { cow: true, lazy_tables: true, ..Default::default() };
    /// # let plan = bobbinazure::Plan::new(&bytes, &options)?;
    /// assert!(plan.branch_hints_of(1).is_empty());
    /// # Ok::<(), Box<dyn std::error::Error>>(())
    /// ```
    pub fn branch_hints_of(&self, function: u32) -> &[BranchHint] {
        let hints = self.branch_hints();
        let begin = hints.partition_point(|hint| hint.function < function);
        let len = hints[begin..].partition_point(|hint| hint.function == function);
        &hints[begin..begin + len]
    }
}
