//! Element segments, and passive data segments.

use crate::expressions::ConstExpr;
use crate::plan::{Plan, operators, part};
use crate::records::ElementItemsRecord;
use crate::rows::{self, Operator, Span};
use crate::types::RefType;

/// A passive data segment.
///
/// ```
/// # let module = b"\0asm\x01\0\0\0\x05\x03\x01\0\x01\x0B\x04\x01\x01\x01a";
/// let plan = bobbinazure::Plan::new(module, &Default::default())?; // (module (memory 1) (data "a"))
/// assert_eq!(plan.passive_data_of(0).unwrap().bytes, b"a");
/// # Ok::<(), bobbinazure::Error>(())
/// ```
#[derive(Clone, Copy, Debug, PartialEq, Eq, Hash)]
pub struct PassiveData<'p> {
    /// Its number in the data section.
    pub segment: u32,
    /// The runtime data that holds its bytes.
    pub runtime: u32,
    /// Its bytes.
    pub bytes: &'p [u8],
}

/// An element segment that is left to be written.
///
/// ```
/// # let module = b"\0asm\x01\0\0\0\x04\x04\x01\x70\0\x01\x09\x06\x01\0\x41\x02\x0B\0";
/// let plan = bobbinazure::Plan::new(module, &Default::default())?; // (module (table 1 funcref) (elem (i32.const 2)))
/// let segment = plan.element_segments().next().unwrap();
/// assert_eq!((segment.table, segment.offset.to_string()), (0, "i32.const 2".to_string()));
/// # Ok::<(), bobbinazure::Error>(())
/// ```
#[derive(Clone, Copy, Debug, PartialEq, Eq, Hash)]
pub struct ElementSegment<'p> {
    /// The table that it writes, by its index.
    pub table: u32,
    /// Where in the table it begins, in cells.
    pub offset: ConstExpr<'p>,
    /// What it writes.
    pub items: Items<'p>,
}

/// A passive element segment.
///
/// ```
/// # let module = b"\0asm\x01\0\0\0\x09\x04\x01\x01\0\0";
/// let plan = bobbinazure::Plan::new(module, &Default::default())?; // (module (elem func))
/// assert_eq!(plan.passive_elements_of(0).unwrap().element.to_string(), "funcref");
/// # Ok::<(), bobbinazure::Error>(())
/// ```
#[derive(Clone, Copy, Debug, PartialEq, Eq, Hash)]
pub struct PassiveElements<'p> {
    /// The type of its items.
    pub element: RefType,
    /// What it holds.
    pub items: Items<'p>,
}

/// The items of an element segment.
///
/// ```
/// # let module = b"\0asm\x01\0\0\0\x09\x07\x01\x05\x70\x01\xD0\x70\x0B";
/// use bobbinazure::{Items, Plan};
/// let plan = Plan::new(module, &Default::default())?; // (module (elem funcref (ref.null func)))
/// let Items::Expressions(expressions) = plan.passive_elements_of(0).unwrap().items else { panic!("they are expressions") };
/// assert_eq!(expressions.iter().next().unwrap().to_string(), "ref.null func");
/// # Ok::<(), bobbinazure::Error>(())
/// ```
#[derive(Clone, Copy, Debug, PartialEq, Eq, Hash)]
pub enum Items<'p> {
    /// Functions, by their indices.
    Functions(&'p [u32]),
    /// Constant expressions.
    Expressions(Expressions<'p>),
}

impl Items<'_> {
    /// How many there are.
    ///
    /// ```
    /// assert_eq!(bobbinazure::Items::Functions(&[3, 1]).len(), 2);
    /// ```
    pub fn len(&self) -> usize {
        match self {
            Items::Functions(functions) => functions.len(),
            Items::Expressions(expressions) => expressions.parts.len(),
        }
    }

    /// Whether there are none.
    ///
    /// ```
    /// assert!(bobbinazure::Items::Functions(&[]).is_empty());
    /// ```
    pub fn is_empty(&self) -> bool {
        self.len() == 0
    }
}

/// Several constant expressions.
///
/// ```
/// # let module = b"\0asm\x01\0\0\0\x09\x07\x01\x05\x70\x01\xD0\x70\x0B";
/// use bobbinazure::{Items::Expressions, Plan};
/// let plan = Plan::new(module, &Default::default())?; // (module (elem funcref (ref.null func)))
/// assert!(matches!(plan.passive_elements_of(0).unwrap().items, Expressions(all) if all.iter().len() == 1));
/// # Ok::<(), bobbinazure::Error>(())
/// ```
#[derive(Clone, Copy, Debug, PartialEq, Eq, Hash)]
pub struct Expressions<'p> {
    pub(crate) parts: &'p [Span],
    pub(crate) operators: &'p [Operator],
}

impl<'p> Expressions<'p> {
    /// Each, in order.
    ///
    /// ```
    /// # let module = b"\0asm\x01\0\0\0\x09\x07\x01\x05\x70\x01\xD0\x70\x0B";
    /// use bobbinazure::{Items::Expressions, Plan};
    /// let plan = Plan::new(module, &Default::default())?; // (module (elem funcref (ref.null func)))
    /// let Expressions(all) = plan.passive_elements_of(0).unwrap().items else { panic!("they are expressions") };
    /// assert_eq!(all.iter().map(|one| one.ops().len()).collect::<Vec<_>>(), [1]);
    /// # Ok::<(), bobbinazure::Error>(())
    /// ```
    pub fn iter(&self) -> impl ExactSizeIterator<Item = ConstExpr<'p>> + use<'p> {
        let operators = self.operators;
        self.parts.iter().map(move |span| ConstExpr(part(operators, *span)))
    }
}

/// The items of one of several segments.
fn items(record: &ElementItemsRecord, place: usize) -> Items<'_> {
    let row = &record.rows.as_slice()[place];
    if row.expressions.len == 0 {
        return Items::Functions(part(record.functions.as_slice(), row.functions));
    }
    let parts = part(record.expressions.parts.as_slice(), row.expressions);
    Items::Expressions(Expressions { parts, operators: record.expressions.operators.as_slice() })
}

impl Plan<'_> {
    /// The passive data segments, also empty ones: what `memory.init` and `data.drop` name.
    ///
    /// ```
    /// # let bytes = std::fs::read(concat!(env!("CARGO_MANIFEST_DIR"), "/../../examples/linked.wasm"))?;
    /// # let options = bobbinazure::Options { cow: true, lazy_tables: true, ..Default::default() };
    /// # let plan = bobbinazure::Plan::new(&bytes, &options)?;
    /// assert_eq!(plan.passive_data().len(), 0);
    /// # Ok::<(), Box<dyn std::error::Error>>(())
    /// ```
    pub fn passive_data(&self) -> impl ExactSizeIterator<Item = PassiveData<'_>> {
        let data = |row: &rows::Passive| PassiveData { segment: row.segment, runtime: row.runtime, bytes: self.bytes(row.runtime) };
        self.record.passive.as_slice().iter().map(data)
    }

    /// The element segments that are left to be written, in order.
    ///
    /// ```
    /// # let bytes = std::fs::read(concat!(env!("CARGO_MANIFEST_DIR"), "/../../examples/linked.wasm"))?;
    /// # let options = bobbinazure::Options { cow: true, lazy_tables: true, ..Default::default() };
    /// # let plan = bobbinazure::Plan::new(&bytes, &options)?;
    /// assert_eq!(plan.element_segments().len(), 0);
    /// # Ok::<(), Box<dyn std::error::Error>>(())
    /// ```
    pub fn element_segments(&self) -> impl ExactSizeIterator<Item = ElementSegment<'_>> {
        self.record.elements.as_slice().iter().enumerate().map(|(place, row)| ElementSegment {
            table: row.table,
            offset: ConstExpr(operators(&self.record.element_places, place)),
            items: items(&self.record.element_items, place),
        })
    }

    /// The passive element segments, in order.
    ///
    /// ```
    /// # let bytes = std::fs::read(concat!(env!("CARGO_MANIFEST_DIR"), "/../../examples/linked.wasm"))?;
    /// # let options = bobbinazure::Options { cow: true, lazy_tables: true, ..Default::default() };
    /// # let plan = bobbinazure::Plan::new(&bytes, &options)?;
    /// assert_eq!(plan.passive_elements().len(), 0);
    /// # Ok::<(), Box<dyn std::error::Error>>(())
    /// ```
    pub fn passive_elements(&self) -> impl ExactSizeIterator<Item = PassiveElements<'_>> {
        let rows = self.record.passive_elements.as_slice().iter().enumerate();
        rows.map(|(place, row)| PassiveElements { element: row.element.into(), items: items(&self.record.passive_items, place) })
    }

    /// Which segments of the element section are passive, and the number of each among those: what
    /// `table.init` and `elem.drop` name.
    ///
    /// ```
    /// # let module = b"\0asm\x01\0\0\0\x09\x07\x02\x03\0\0\x01\0\0";
    /// let plan = bobbinazure::Plan::new(module, &Default::default())?; // (module (elem declare func) (elem func))
    /// assert_eq!(plan.passive_elem_map().collect::<Vec<_>>(), [(1, 0)]);
    /// # Ok::<(), bobbinazure::Error>(())
    /// ```
    pub fn passive_elem_map(&self) -> impl ExactSizeIterator<Item = (u32, u32)> {
        self.record.passive_segments.as_slice().iter().map(|row| (row.segment, row.passive))
    }

    /// The passive element segment at this index in the element section: what `table.init` and
    /// `elem.drop` name. `None` where that segment is not passive.
    ///
    /// ```
    /// # let bytes = std::fs::read(concat!(env!("CARGO_MANIFEST_DIR"), "/../../examples/linked.wasm"))?;
    /// # let plan = bobbinazure::Plan::new(&bytes, &Default::default())?;
    /// assert_eq!(plan.passive_elements_of(0), None);
    /// # Ok::<(), Box<dyn std::error::Error>>(())
    /// ```
    pub fn passive_elements_of(&self, segment: u32) -> Option<PassiveElements<'_>> {
        let rows = self.record.passive_segments.as_slice();
        let found = rows.binary_search_by_key(&segment, |row| row.segment).ok()?;
        self.passive_elements().nth(rows[found].passive as usize)
    }

    /// The passive data segment at this index in the data section: what `memory.init` and
    /// `data.drop` name. `None` where that segment is not passive.
    ///
    /// ```
    /// # let bytes = std::fs::read(concat!(env!("CARGO_MANIFEST_DIR"), "/../../examples/linked.wasm"))?;
    /// # let plan = bobbinazure::Plan::new(&bytes, &Default::default())?;
    /// assert_eq!(plan.passive_data_of(0), None);
    /// # Ok::<(), Box<dyn std::error::Error>>(())
    /// ```
    pub fn passive_data_of(&self, segment: u32) -> Option<PassiveData<'_>> {
        let found = self.record.passive.as_slice().binary_search_by_key(&segment, |row| row.segment).ok()?;
        self.passive_data().nth(found)
    }
}
