//! The region of addresses that an instance is, and what stands in it.

use crate::engine::Limits;
use crate::error::Error;
use crate::os::Reservation;
use bobbinazure::{Memory, Plan};

/// The bytes of a cell of a table: a pointer to the reference of a function, or another reference; 0 is null.
pub(crate) const CELL: usize = 8;
/// Addresses behind a memory that stay closed, so that an address with a small offset meets no other memory.
const GUARD: usize = 32 << 20;
/// What an address of 32 bits reaches.
const REACH: usize = 1 << 32;

/// A defined memory: where it begins, and its bytes.
#[derive(Clone, Copy, Debug)]
pub(crate) struct MemoryPlace {
    pub(crate) begin: usize,
    pub(crate) len: usize,
}

/// A defined table: where its cells begin, and how many it has.
#[derive(Clone, Copy, Debug)]
pub(crate) struct TablePlace {
    pub(crate) begin: usize,
    pub(crate) cells: usize,
}

/// What stands where in each region of a module: the context, the cells of its tables, its memories.
#[derive(Debug)]
pub(crate) struct RegionLayout {
    page: usize,
    /// The context and the cells, in whole pages.
    front: usize,
    pub(crate) tables: Vec<TablePlace>,
    pub(crate) memories: Vec<MemoryPlace>,
    len: usize,
}

/// The next multiple of a power of two.
fn rounded(bytes: usize, unit: usize) -> Result<usize, Error> {
    bytes.checked_next_multiple_of(unit).ok_or(Error::TooLarge("a region"))
}

/// The addresses that a memory is given, with its guard.
fn reserved(memory: &Memory, len: usize) -> Result<usize, Error> {
    let reach = if memory.wide { len } else { REACH.max(len) };
    reach.checked_add(GUARD).ok_or(Error::TooLarge("a memory"))
}

impl RegionLayout {
    pub(crate) fn of(plan: &Plan<'_>, page: usize, limits: &Limits) -> Result<Self, Error> {
        let entities = plan.entities();
        let mut layout = RegionLayout { page, front: 0, tables: Vec::new(), memories: Vec::new(), len: 0 };
        layout.len = rounded(plan.offsets().size as usize, CELL)?;
        let mut cells_left = limits.table_cells;
        for table in &plan.tables()[entities.imported_tables as usize..] {
            cells_left = cells_left.checked_sub(table.minimum).ok_or(Error::TooLarge("the tables"))?;
            layout.add_table(table.minimum)?;
        }
        layout.front = rounded(layout.len, page)?;
        layout.len = layout.front;
        let mut bytes_left = limits.memory_bytes;
        for memory in &plan.memories()[entities.imported_memories as usize..] {
            let len = memory.minimum_byte_size().ok_or(Error::TooLarge("a memory"))?;
            bytes_left = bytes_left.checked_sub(len).ok_or(Error::TooLarge("the memories"))?;
            layout.add_memory(memory, len)?;
        }
        Ok(layout)
    }

    fn add_table(&mut self, cells: u64) -> Result<(), Error> {
        let place = usize::try_from(cells).ok().map(|cells| TablePlace { begin: self.len, cells });
        let end = place.and_then(|place| place.cells.checked_mul(CELL)?.checked_add(self.len));
        self.len = end.ok_or(Error::TooLarge("the tables"))?;
        self.tables.extend(place);
        Ok(())
    }

    fn add_memory(&mut self, memory: &Memory, len: u64) -> Result<(), Error> {
        let len = usize::try_from(len).map_err(|_| Error::TooLarge("a memory"))?;
        let taken = rounded(reserved(memory, rounded(len, self.page)?)?, self.page)?;
        self.memories.push(MemoryPlace { begin: self.len, len });
        self.len = self.len.checked_add(taken).ok_or(Error::TooLarge("the memories"))?;
        Ok(())
    }

    /// A new region, of which context, cells and memories are open and zero.
    pub(crate) fn reserve(&self) -> Result<Region, Error> {
        let reservation = Reservation::new(self.len)?;
        reservation.open(0, self.front)?;
        for memory in &self.memories {
            reservation.open(memory.begin, rounded(memory.len, self.page)?)?;
        }
        Ok(Region { reservation, front: self.front })
    }
}

/// A number that stands in a region: each pattern of bits is one.
pub(crate) trait Number: Copy {}
impl Number for u32 {}
impl Number for u64 {}
impl Number for u128 {}
impl Number for usize {}

/// Reads a number.
///
/// # Safety
/// The address is that of a number in the open part of a region that is not given back.
pub(crate) unsafe fn load<T: Number>(address: usize) -> T {
    // SAFETY: as the caller promises; it need not be aligned.
    unsafe { std::ptr::with_exposed_provenance::<T>(address).read_unaligned() }
}

/// Writes a number.
///
/// # Safety
/// As of `load`, and no reference to its bytes is held.
pub(crate) unsafe fn store<T: Number>(address: usize, value: T) {
    // SAFETY: as the caller promises.
    unsafe { std::ptr::with_exposed_provenance_mut::<T>(address).write_unaligned(value) }
}

/// Writes bytes.
///
/// # Safety
/// As of `store`, of each of the bytes.
pub(crate) unsafe fn store_bytes(address: usize, bytes: &[u8]) {
    let to = std::ptr::with_exposed_provenance_mut(address);
    // SAFETY: as the caller promises; bytes of a module or a plan stand in no region.
    unsafe { std::ptr::copy_nonoverlapping(bytes.as_ptr(), to, bytes.len()) }
}

/// A region: the addresses of one instance, given back when it is dropped.
#[derive(Debug)]
pub(crate) struct Region {
    pub(crate) reservation: Reservation,
    front: usize,
}

impl Region {
    /// The address of a byte: what the context and code have for it.
    pub(crate) fn address(&self, from: usize) -> usize {
        self.reservation.at(from).expose_provenance()
    }

    fn checked<T>(&self, from: usize) -> usize {
        assert!(
            from.checked_add(size_of::<T>()).is_some_and(|end| end <= self.front),
            "in the context or the cells"
        );
        self.address(from)
    }

    /// Reads a number of the context, or a cell.
    pub(crate) fn get<T: Number>(&self, from: usize) -> T {
        // SAFETY: the context and the cells are open.
        unsafe { load(self.checked::<T>(from)) }
    }

    /// Writes a number of the context, or a cell. Nobody holds a reference to a cell while an
    /// instance is made.
    pub(crate) fn put<T: Number>(&self, from: usize, value: T) {
        // SAFETY: the context and the cells are open.
        unsafe { store(self.checked::<T>(from), value) }
    }
}
