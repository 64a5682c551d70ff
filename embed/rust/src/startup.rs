//! How globals, tables and memories begin.

use crate::expressions::ConstExpr;
use crate::plan::{Plan, name, operators, part};
use crate::rows::{self, Operator};

/// When the startup function runs, and its interned type.
///
/// ```
/// # let bytes = std::fs::read(concat!(env!("CARGO_MANIFEST_DIR"), "/../../examples/overlap.wasm"))?;
/// # let plan = bobbinazure::Plan::new(&bytes, &Default::default())?;
/// assert_eq!(plan.startup(), bobbinazure::ModuleStartup::Always(0));
/// # Ok::<(), Box<dyn std::error::Error>>(())
/// ```
#[derive(Clone, Copy, Debug, PartialEq, Eq, Hash)]
pub enum ModuleStartup {
    /// There is none.
    None,
    /// At each start.
    Always(u32),
    /// Where a memory does not begin as its image.
    IfMemoriesNeedInit(u32),
}

/// The image of a memory: the bytes that it begins with, at an address.
///
/// ```
/// # let bytes = std::fs::read(concat!(env!("CARGO_MANIFEST_DIR"), "/../../examples/linked.wasm"))?;
/// # let options = bobbinazure::Options { cow: true, lazy_tables: true, ..Default::default() };
/// # let plan = bobbinazure::Plan::new(&bytes, &options)?;
/// let image = plan.memory_images().next().unwrap();
/// assert_eq!(image.bytes, plan.bytes(image.runtime));
/// # Ok::<(), Box<dyn std::error::Error>>(())
/// ```
#[derive(Clone, Copy, Debug, PartialEq, Eq, Hash)]
pub struct MemoryImage<'p> {
    /// The memory, by its index.
    pub memory: u32,
    /// Its address in the memory, in bytes.
    pub offset: u64,
    /// The runtime data that holds it.
    pub runtime: u32,
    /// The bytes that the memory begins with there.
    pub bytes: &'p [u8],
}

/// Where a planned data segment begins.
///
/// ```
/// # let bytes = std::fs::read(concat!(env!("CARGO_MANIFEST_DIR"), "/../../examples/linked.wasm"))?;
/// # let options = bobbinazure::Options { cow: true, lazy_tables: true, ..Default::default() };
/// # let plan = bobbinazure::Plan::new(&bytes, &options)?;
/// let segment = plan.data_segments().next().unwrap();
/// assert_eq!(segment.offset, bobbinazure::SegmentOffset::Static(1048576));
/// # Ok::<(), Box<dyn std::error::Error>>(())
/// ```
#[derive(Clone, Copy, Debug, PartialEq, Eq, Hash)]
pub enum SegmentOffset<'p> {
    /// At this address, which was planned.
    Static(u64),
    /// At the value of an expression.
    Expr(ConstExpr<'p>),
}

/// A data segment that is left to be written.
///
/// ```
/// # let bytes = std::fs::read(concat!(env!("CARGO_MANIFEST_DIR"), "/../../examples/linked.wasm"))?;
/// # let options = bobbinazure::Options { cow: true, lazy_tables: true, ..Default::default() };
/// # let plan = bobbinazure::Plan::new(&bytes, &options)?;
/// let segment = plan.data_segments().next().unwrap();
/// assert_eq!((segment.memory, segment.bytes), (0, plan.bytes(segment.runtime)));
/// # Ok::<(), Box<dyn std::error::Error>>(())
/// ```
#[derive(Clone, Copy, Debug, PartialEq, Eq, Hash)]
pub struct DataSegment<'p> {
    /// The memory that it writes, by its index.
    pub memory: u32,
    /// Where in the memory it begins.
    pub offset: SegmentOffset<'p>,
    /// The runtime data that it writes.
    pub runtime: u32,
    /// The bytes that it writes.
    pub bytes: &'p [u8],
}

/// How a defined global begins.
///
/// ```
/// # let bytes = std::fs::read(concat!(env!("CARGO_MANIFEST_DIR"), "/../../examples/linked.wasm"))?;
/// # let options = bobbinazure::Options { cow: true, lazy_tables: true, ..Default::default() };
/// # let plan = bobbinazure::Plan::new(&bytes, &options)?;
/// let (_, init) = plan.global_initializers().next().unwrap();
/// assert!(matches!(init, bobbinazure::GlobalInit::Value(op) if op.to_string() == "i32.const 1048576"));
/// # Ok::<(), Box<dyn std::error::Error>>(())
/// ```
#[derive(Clone, Copy, Debug, PartialEq, Eq, Hash)]
pub enum GlobalInit<'p> {
    /// As a known value.
    Value(Operator),
    /// As the value of an expression.
    Expr(ConstExpr<'p>),
}

impl Plan<'_> {
    /// When the startup function runs, and its interned type.
    ///
    /// ```
    /// # let bytes = std::fs::read(concat!(env!("CARGO_MANIFEST_DIR"), "/../../examples/linked.wasm"))?;
    /// # let options = bobbinazure::Options { cow: true, lazy_tables: true, ..Default::default() };
    /// # let plan = bobbinazure::Plan::new(&bytes, &options)?;
    /// assert_eq!(plan.startup(), bobbinazure::ModuleStartup::IfMemoriesNeedInit(2));
    /// # Ok::<(), Box<dyn std::error::Error>>(())
    /// ```
    pub fn startup(&self) -> ModuleStartup {
        match self.record.startup {
            0 => ModuleStartup::None,
            1 => ModuleStartup::Always(self.record.startup_type),
            _ => ModuleStartup::IfMemoriesNeedInit(self.record.startup_type),
        }
    }

    /// Whether memories begin as images.
    ///
    /// ```
    /// # let bytes = std::fs::read(concat!(env!("CARGO_MANIFEST_DIR"), "/../../examples/linked.wasm"))?;
    /// # let options = bobbinazure::Options { cow: true, lazy_tables: true, ..Default::default() };
    /// # let plan = bobbinazure::Plan::new(&bytes, &options)?;
    /// assert!(plan.has_images());
    /// # Ok::<(), Box<dyn std::error::Error>>(())
    /// ```
    pub fn has_images(&self) -> bool {
        self.record.images_made != 0
    }

    /// The bytes of a runtime data: an image, or the bytes of a segment.
    ///
    /// ```
    /// # let bytes = std::fs::read(concat!(env!("CARGO_MANIFEST_DIR"), "/../../examples/linked.wasm"))?;
    /// # let options = bobbinazure::Options { cow: true, lazy_tables: true, ..Default::default() };
    /// # let plan = bobbinazure::Plan::new(&bytes, &options)?;
    /// assert_eq!(plan.bytes(0).len(), 4096);
    /// # Ok::<(), Box<dyn std::error::Error>>(())
    /// ```
    ///
    /// # Panics
    /// Where there is none of that number.
    pub fn bytes(&self, runtime: u32) -> &[u8] {
        self.record.runtime.as_slice()[runtime as usize].bytes.as_slice()
    }

    /// The bytes of each runtime data, in order.
    ///
    /// ```
    /// # let bytes = std::fs::read(concat!(env!("CARGO_MANIFEST_DIR"), "/../../examples/linked.wasm"))?;
    /// # let options = bobbinazure::Options { cow: true, lazy_tables: true, ..Default::default() };
    /// # let plan = bobbinazure::Plan::new(&bytes, &options)?;
    /// assert!(plan.runtime_data().next().is_some_and(|bytes| bytes.starts_with(b"hello")));
    /// # Ok::<(), Box<dyn std::error::Error>>(())
    /// ```
    pub fn runtime_data(&self) -> impl ExactSizeIterator<Item = &[u8]> {
        self.record.runtime.as_slice().iter().map(|row| row.bytes.as_slice())
    }

    /// The range of each runtime data, where all of them stand end to end.
    ///
    /// ```
    /// # let bytes = std::fs::read(concat!(env!("CARGO_MANIFEST_DIR"), "/../../examples/linked.wasm"))?;
    /// # let options = bobbinazure::Options { cow: true, lazy_tables: true, ..Default::default() };
    /// # let plan = bobbinazure::Plan::new(&bytes, &options)?;
    /// assert_eq!(plan.runtime_ranges().next(), Some(0..4096));
    /// # Ok::<(), Box<dyn std::error::Error>>(())
    /// ```
    pub fn runtime_ranges(&self) -> impl ExactSizeIterator<Item = std::ops::Range<u32>> {
        self.record.runtime_ranges.as_slice().iter().map(|row| row.begin..row.end)
    }

    /// The images of memories, by the index of each. If a kept element segment can trap, write the
    /// element segments before you map images, or make the instance's memories zeros after such a
    /// trap: code in an imported table could see data that is never written. If you map no image and
    /// write each segment yourself, there is no exception.
    ///
    /// ```
    /// # let bytes = std::fs::read(concat!(env!("CARGO_MANIFEST_DIR"), "/../../examples/linked.wasm"))?;
    /// # let options = bobbinazure::Options { cow: true, lazy_tables: true, ..Default::default() };
    /// # let plan = bobbinazure::Plan::new(&bytes, &options)?;
    /// let image = plan.memory_images().next().unwrap();
    /// assert_eq!((image.memory, image.offset, image.bytes.len()), (0, 1048576, 4096));
    /// # Ok::<(), Box<dyn std::error::Error>>(())
    /// ```
    pub fn memory_images(&self) -> impl ExactSizeIterator<Item = MemoryImage<'_>> {
        let image = |row: &rows::Image| MemoryImage { memory: row.memory, offset: row.offset, runtime: row.runtime, bytes: self.bytes(row.runtime) };
        self.record.images.as_slice().iter().map(image)
    }

    /// The data segments that are left to be written, in order.
    ///
    /// ```
    /// # let bytes = std::fs::read(concat!(env!("CARGO_MANIFEST_DIR"), "/../../examples/overlap.wasm"))?;
    /// # let plan = bobbinazure::Plan::new(&bytes, &bobbinazure::Options::default())?;
    /// use bobbinazure::SegmentOffset::Expr;
    /// let offsets: Vec<String> = plan.data_segments().map(|s| match s.offset { Expr(e) => e.to_string(), at => format!("{at:?}") }).collect();
    /// assert_eq!(offsets, ["i32.const 16", "i32.const 17"]);
    /// # Ok::<(), Box<dyn std::error::Error>>(())
    /// ```
    pub fn data_segments(&self) -> impl ExactSizeIterator<Item = DataSegment<'_>> {
        self.record.segments.as_slice().iter().enumerate().map(|(place, row)| DataSegment {
            memory: row.memory,
            offset: match row.kind {
                0 => SegmentOffset::Static(row.offset),
                _ => SegmentOffset::Expr(ConstExpr(operators(&self.record.segment_places, place))),
            },
            runtime: row.runtime,
            bytes: self.bytes(row.runtime),
        })
    }

    /// The first cells of each defined table: functions by their indices, `u32::MAX` for the null
    /// reference. Cells behind them are null.
    ///
    /// ```
    /// # let bytes = std::fs::read(concat!(env!("CARGO_MANIFEST_DIR"), "/../../examples/linked.wasm"))?;
    /// # let options = bobbinazure::Options { cow: true, lazy_tables: true, ..Default::default() };
    /// # let plan = bobbinazure::Plan::new(&bytes, &options)?;
    /// assert_eq!(plan.table_images().collect::<Vec<_>>(), [[u32::MAX, 1]]);
    /// # Ok::<(), Box<dyn std::error::Error>>(())
    /// ```
    pub fn table_images(&self) -> impl ExactSizeIterator<Item = &[u32]> {
        let cells = self.record.cells.as_slice();
        self.record.table_images.as_slice().iter().map(move |span| part(cells, *span))
    }

    /// The initialiser of each defined table; `None` where the table declares none, or where
    /// `lazy_tables` made it an image ([`table_images`](Self::table_images)), even of no cells: plan
    /// without that option to see it.
    ///
    /// ```
    /// # let bytes = std::fs::read(concat!(env!("CARGO_MANIFEST_DIR"), "/../../examples/linked.wasm"))?;
    /// # let options = bobbinazure::Options { cow: true, lazy_tables: true, ..Default::default() };
    /// # let plan = bobbinazure::Plan::new(&bytes, &options)?;
    /// assert_eq!(plan.table_initial_values().collect::<Vec<_>>(), [None]);
    /// # Ok::<(), Box<dyn std::error::Error>>(())
    /// ```
    pub fn table_initial_values(&self) -> impl ExactSizeIterator<Item = Option<ConstExpr<'_>>> {
        let values = &self.record.table_values;
        (0..values.parts.as_slice().len()).map(move |place| Some(ConstExpr(operators(values, place))).filter(|value| !value.ops().is_empty()))
    }

    /// How the defined globals begin, by the index of each among those: those of a known value,
    /// then those of an expression.
    ///
    /// ```
    /// # let bytes = std::fs::read(concat!(env!("CARGO_MANIFEST_DIR"), "/../../examples/linked.wasm"))?;
    /// # let options = bobbinazure::Options { cow: true, lazy_tables: true, ..Default::default() };
    /// # let plan = bobbinazure::Plan::new(&bytes, &options)?;
    /// use bobbinazure::GlobalInit::Value;
    /// let (global, init) = plan.global_initializers().next().unwrap();
    /// assert!(matches!(init, Value(op) if op.word() == "i32.const"));
    /// assert_eq!(global, 0);
    /// # Ok::<(), Box<dyn std::error::Error>>(())
    /// ```
    pub fn global_initializers(&self) -> impl Iterator<Item = (u32, GlobalInit<'_>)> {
        let values = self.record.global_values.as_slice().iter().map(|row| (row.global, GlobalInit::Value(row.value)));
        let expressed = self.record.expressed_globals.as_slice().iter().enumerate();
        values.chain(expressed.map(|(place, global)| (*global, GlobalInit::Expr(ConstExpr(operators(&self.record.global_expressions, place))))))
    }

    /// How many hints of branches each function has that has an entry among them, ascending.
    ///
    /// ```
    /// # let bytes = std::fs::read(concat!(env!("CARGO_MANIFEST_DIR"), "/../../examples/linked.wasm"))?;
    /// # let options = bobbinazure::Options { cow: true, lazy_tables: true, ..Default::default() };
    /// # let plan = bobbinazure::Plan::new(&bytes, &options)?;
    /// assert_eq!(plan.branch_hint_counts().len(), 0);
    /// # Ok::<(), Box<dyn std::error::Error>>(())
    /// ```
    pub fn branch_hint_counts(&self) -> impl ExactSizeIterator<Item = (u32, u64)> {
        self.record.hints.as_slice().iter().map(|row| (row.function, row.count))
    }
}

/// A region of the context.
///
/// ```
/// # let bytes = std::fs::read(concat!(env!("CARGO_MANIFEST_DIR"), "/../../examples/linked.wasm"))?;
/// # let options = bobbinazure::Options { cow: true, lazy_tables: true, ..Default::default() };
/// # let plan = bobbinazure::Plan::new(&bytes, &options)?;
/// let region = plan.regions().find(|region| region.name == "defined globals").unwrap();
/// assert_eq!((region.begin, region.size), (plan.offsets().globals, 16));
/// # Ok::<(), Box<dyn std::error::Error>>(())
/// ```
#[derive(Clone, Copy, Debug, PartialEq, Eq, Hash)]
pub struct Region<'p> {
    /// What it holds.
    pub name: &'p str,
    /// Where in the context it begins, in bytes.
    pub begin: u32,
    /// Its size, in bytes.
    pub size: u32,
}

impl Plan<'_> {
    /// The regions of the context, the last one first.
    ///
    /// ```
    /// # let bytes = std::fs::read(concat!(env!("CARGO_MANIFEST_DIR"), "/../../examples/linked.wasm"))?;
    /// # let options = bobbinazure::Options { cow: true, lazy_tables: true, ..Default::default() };
    /// # let plan = bobbinazure::Plan::new(&bytes, &options)?;
    /// assert_eq!(plan.regions().map(|region| region.size).sum::<u32>(), plan.offsets().size);
    /// # Ok::<(), Box<dyn std::error::Error>>(())
    /// ```
    pub fn regions(&self) -> impl ExactSizeIterator<Item = Region<'_>> {
        self.record.regions.as_slice().iter().map(|row| Region { name: name(row.name.as_slice()), begin: row.begin, size: row.size })
    }
}
