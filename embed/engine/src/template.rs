//! What is made once of a module.

use crate::engine::{Engine, Images};
use crate::error::Error;
use crate::os::ImageFile;
use crate::region::RegionLayout;
use bobbinazure::{ConstExpr, ConstOp, GlobalInit, Items, Plan, SegmentOffset};

/// A module that instances are made of: its plan, its memory images in a file, and what stands
/// where in a region.
#[derive(Debug)]
pub struct Template<'m> {
    plan: Plan<'m>,
    /// The file of all images, where they are mapped.
    pub(crate) file: Option<ImageFile>,
    /// Where in the file each image begins.
    pub(crate) file_offsets: Vec<u64>,
    pub(crate) layout: RegionLayout,
    /// The engine's index of each interned type.
    pub(crate) types: Vec<u32>,
    /// The address of the body of each defined function, in rising order. It stands for the code
    /// that a compiler makes.
    pub(crate) codes: Vec<usize>,
}

impl<'m> Template<'m> {
    /// The template of the module that the bytes spell.
    ///
    /// # Errors
    /// [`Error::Plan`] where there is no plan; [`Error::Unsupported`], [`Error::TooLarge`],
    /// [`Error::System`].
    pub fn new(engine: &Engine, bytes: &'m [u8]) -> Result<Self, Error> {
        let plan = Plan::new(bytes, &engine.options())?;
        refuse_unsupported(&plan)?;
        let layout = RegionLayout::of(&plan, engine.page_size(), &engine.config().limits)?;
        let file_offsets: Vec<u64> = places_in_file(&plan, engine.page_size() as u64);
        let is_mapped = engine.config().images == Images::Map && plan.memory_images().len() > 0;
        let parts = file_offsets.iter().copied().zip(plan.memory_images().map(|image| image.bytes));
        let file = is_mapped.then(|| ImageFile::new(parts)).transpose()?;
        let codes = plan.bodies().map(|body| body.code.as_ptr().expose_provenance()).collect();
        let types = engine.register(&plan);
        Ok(Template { plan, file, file_offsets, layout, types, codes })
    }

    /// Its plan.
    pub fn plan(&self) -> &Plan<'m> {
        &self.plan
    }

    /// The engine's index of an interned type of the plan; equal types of the modules of an engine have one.
    pub fn type_index(&self, ty: u32) -> Option<u32> {
        self.types.get(ty as usize).copied()
    }

    /// The defined function whose body is at an address, by its index.
    pub(crate) fn function_of(&self, code: usize) -> Option<u32> {
        let place = self.codes.binary_search(&code).ok()?;
        Some(self.plan.entities().imported_functions as u32 + place as u32)
    }
}

/// Where in a file each image begins, in whole pages.
fn places_in_file(plan: &Plan<'_>, page: u64) -> Vec<u64> {
    let mut next = 0;
    let lengths = plan.memory_images().map(|image| (image.bytes.len() as u64).next_multiple_of(page));
    lengths
        .map(|len| {
            next += len;
            next - len
        })
        .collect()
}

/// Refuses what an instance could not hold: each is seen in the tables alone.
fn refuse_unsupported(plan: &Plan<'_>) -> Result<(), Error> {
    if plan.memories().iter().any(|memory| memory.shared) {
        return Err(Error::Unsupported("memories that threads share"));
    }
    let mut operators = expressions(plan).flat_map(|expression| expression.ops());
    if operators.any(|operator| makes_object(&operator.op())) {
        return Err(Error::Unsupported("structs and arrays"));
    }
    Ok(())
}

fn makes_object(op: &ConstOp) -> bool {
    use ConstOp::{ArrayNew, ArrayNewDefault, ArrayNewFixed, StructNew, StructNewDefault};
    matches!(op, StructNew(_) | StructNewDefault(_) | ArrayNew(_) | ArrayNewDefault(_) | ArrayNewFixed(..))
}

/// The constant expressions that an instance evaluates.
fn expressions<'p>(plan: &'p Plan<'_>) -> impl Iterator<Item = ConstExpr<'p>> {
    let globals = plan.global_initializers().filter_map(|(_, init)| match init {
        GlobalInit::Expr(expression) => Some(expression),
        GlobalInit::Value(_) => None,
    });
    let data = plan.data_segments().filter_map(|segment| match segment.offset {
        SegmentOffset::Expr(expression) => Some(expression),
        SegmentOffset::Static(_) => None,
    });
    let passive = plan.passive_elements().flat_map(|segment| of_items(segment.items));
    let active = plan.element_segments().flat_map(|segment| of_items(segment.items).chain([segment.offset]));
    globals.chain(passive).chain(plan.table_initial_values().flatten()).chain(active).chain(data)
}

fn of_items(items: Items<'_>) -> impl Iterator<Item = ConstExpr<'_>> {
    match items {
        Items::Functions(_) => None,
        Items::Expressions(expressions) => Some(expressions.iter()),
    }
    .into_iter()
    .flatten()
}
