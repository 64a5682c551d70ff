//! What instantiation leaves to be done, in the order of the standard (core specification, 4.7):
//! globals, the items of passive element segments, tables, element segments, data segments. Memory
//! images stand for the data segments of their memories.
//!
//! Images are mapped after the element segments are written: where one of these traps, functions
//! that the earlier ones put in an imported table see no data.

use crate::error::{Error, Phase};
use crate::instance::Instance;
use crate::region::{CELL, store, store_bytes};
use bobbinazure::{GlobalInit, Items, SegmentOffset};

/// The null reference in the image of a table.
const NO_FUNCTION: u32 = u32::MAX;

/// The part from an offset on, where it fits in so many items.
fn fitting(offset: u128, len: usize, whole: usize) -> Option<usize> {
    let offset = usize::try_from(offset).ok()?;
    (offset <= whole && len <= whole - offset).then_some(offset)
}

impl Instance<'_> {
    /// Does it all, up to the start function.
    pub(crate) fn start_up(&mut self) -> Result<(), Error> {
        self.write_globals();
        self.passive = self.plan().passive_elements().map(|segment| self.references(segment.items)).collect();
        self.write_cells();
        self.write_elements()?;
        self.write_images()?;
        self.write_data()
    }

    /// Known values first: an expression may name a global before its own, whichever way that begins.
    fn write_globals(&self) {
        let storage = self.plan().structs().global_definition.storage;
        for (defined, init) in self.plan().global_initializers() {
            let value = match init {
                GlobalInit::Value(operator) => self.constant(operator),
                GlobalInit::Expr(expression) => self.evaluate(expression),
            };
            self.region.put((self.plan().vmctx_vmglobal_definition(defined) + storage) as usize, value);
        }
    }

    fn references(&self, items: Items<'_>) -> Vec<u64> {
        match items {
            Items::Functions(functions) => {
                functions.iter().map(|function| self.func_ref(*function)).collect()
            }
            Items::Expressions(all) => {
                all.iter().map(|expression| self.evaluate(expression) as u64).collect()
            }
        }
    }

    /// The first value of each table, and its image over it.
    fn write_cells(&self) {
        let plans = self.plan().table_initial_values().zip(self.plan().table_images());
        for (place, (first, image)) in self.template.layout.tables.iter().zip(plans) {
            let write = |cell, reference| self.region.put(place.begin + CELL * cell, reference);
            let first = first.map_or(0, |expression| self.evaluate(expression) as u64);
            if first != 0 {
                (0..place.cells).for_each(|cell| write(cell, first));
            }
            for (cell, function) in image.iter().enumerate() {
                write(cell, if *function == NO_FUNCTION { 0 } else { self.func_ref(*function) });
            }
        }
    }

    fn write_elements(&self) -> Result<(), Error> {
        for (number, segment) in self.plan().element_segments().enumerate() {
            let (begin, cells) = self.cells(segment.table);
            let offset = fitting(self.evaluate(segment.offset), segment.items.len(), cells);
            let offset = offset.ok_or(Error::Trap { phase: Phase::Elements, segment: number })?;
            for (place, reference) in self.references(segment.items).into_iter().enumerate() {
                // SAFETY: the cell is one of the table, which stays as long as the store.
                unsafe { store(begin + CELL * (offset + place), reference) };
            }
        }
        Ok(())
    }

    fn write_images(&self) -> Result<(), Error> {
        let imported = self.plan().entities().imported_memories as u32;
        for (image, file_offset) in self.plan().memory_images().zip(&self.template.file_offsets) {
            let Some(place) = self.template.layout.memories.get((image.memory - imported) as usize) else {
                continue;
            };
            let from = place.begin + image.offset as usize;
            match &self.template.file {
                Some(file) => self.region.reservation.map(from, image.bytes.len(), file, *file_offset)?,
                // SAFETY: the planner made an image within the least size of its memory, which is open.
                None => unsafe { store_bytes(self.region.address(from), image.bytes) },
            }
        }
        Ok(())
    }

    /// The segments that no image stands for.
    fn write_data(&self) -> Result<(), Error> {
        for (number, segment) in self.plan().data_segments().enumerate() {
            let SegmentOffset::Expr(expression) = segment.offset else { continue };
            let (begin, len) = self.bytes(segment.memory);
            let offset = fitting(self.evaluate(expression), segment.bytes.len(), len);
            let offset = offset.ok_or(Error::Trap { phase: Phase::Data, segment: number })?;
            // SAFETY: the bytes fit in the memory, which is open as long as the store.
            unsafe { store_bytes(begin + offset, segment.bytes) };
        }
        Ok(())
    }
}
