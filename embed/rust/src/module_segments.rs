//! The segments of a module as they stand in it, and the functions that its bodies may refer to.

use crate::error::Error;
use crate::expressions::ConstExpr;
use crate::numbers;
use crate::plan::{operators, part};
use crate::records::SegmentsRecord;
use crate::segments::{Expressions, Items};
use crate::types::RefType;
use std::fmt;
use std::marker::PhantomData;

unsafe extern "C" {
    fn bobbinazure_segments(bytes: *const u8, len: usize, segments: *mut SegmentsRecord) -> u32;
}

impl Drop for SegmentsRecord {
    fn drop(&mut self) {
        // SAFETY: the lists are this record's alone.
        unsafe {
            self.data_segments.free();
            self.element_segments.free();
            self.functions.free();
            self.expressions.parts.free();
            self.expressions.operators.free();
            self.references.free();
        }
    }
}

/// When a data segment is written (core specification, 2.5, data segments).
///
/// ```
/// use bobbinazure::{DataKind, module_segments};
/// let module = b"\0asm\x01\0\0\0\x05\x03\x01\0\x01\x0B\x07\x01\0\x41\x02\x0B\x01a"; // (memory 1) (data (i32.const 2) "a")
/// let segments = module_segments(module)?.expect("it can be read");
/// let DataKind::Active { memory_index, offset_expr } = segments.data().next().unwrap().kind else { panic!("it is active") };
/// assert_eq!((memory_index, offset_expr.to_string()), (0, "i32.const 2".to_string()));
/// # Ok::<(), bobbinazure::Error>(())
/// ```
#[derive(Clone, Copy, Debug, PartialEq, Eq, Hash)]
pub enum DataKind<'s> {
    /// When an instruction requires it.
    Passive,
    /// When the module is instantiated.
    Active {
        /// The memory that it writes.
        memory_index: u32,
        /// Where in the memory it begins, in bytes.
        offset_expr: ConstExpr<'s>,
    },
}

/// A data segment of a module.
///
/// ```
/// use bobbinazure::{DataKind, module_segments};
/// let module = b"\0asm\x01\0\0\0\x0B\x04\x01\x01\x01a"; // (data "a")
/// let segments = module_segments(module)?.expect("it can be read");
/// let only = segments.data().next().unwrap();
/// assert_eq!((only.kind, only.data), (DataKind::Passive, &b"a"[..]));
/// # Ok::<(), bobbinazure::Error>(())
/// ```
#[derive(Clone, Copy, Debug, PartialEq, Eq, Hash)]
pub struct ModuleData<'s> {
    /// When it is written.
    pub kind: DataKind<'s>,
    /// Its bytes, a part of the module's.
    pub data: &'s [u8],
}

/// When an element segment is written (core specification, 2.5, element segments).
///
/// ```
/// use bobbinazure::{ElementKind, module_segments};
/// let module = b"\0asm\x01\0\0\0\x09\x04\x01\x03\0\0"; // (elem declare func)
/// let segments = module_segments(module)?.expect("it can be read");
/// assert_eq!(segments.elements().next().unwrap().kind, ElementKind::Declared);
/// # Ok::<(), bobbinazure::Error>(())
/// ```
#[derive(Clone, Copy, Debug, PartialEq, Eq, Hash)]
pub enum ElementKind<'s> {
    /// When an instruction requires it.
    Passive,
    /// When the module is instantiated.
    Active {
        /// The table that it writes.
        table_index: u32,
        /// Where in the table it begins, in cells.
        offset_expr: ConstExpr<'s>,
    },
    /// Never: it only declares references to functions.
    Declared,
}

/// An element segment of a module.
///
/// ```
/// use bobbinazure::{Items, module_segments};
/// let module = b"\0asm\x01\0\0\0\x09\x07\x01\x05\x70\x01\xD0\x70\x0B"; // (elem funcref (ref.null func))
/// let segments = module_segments(module)?.expect("it can be read");
/// let only = segments.elements().next().unwrap();
/// assert_eq!(only.ty.to_string(), "funcref");
/// assert!(matches!(only.items, Items::Expressions(all) if all.iter().next().unwrap().to_string() == "ref.null func"));
/// # Ok::<(), bobbinazure::Error>(())
/// ```
#[derive(Clone, Copy, Debug, PartialEq, Eq, Hash)]
pub struct ModuleElement<'s> {
    /// When it is written.
    pub kind: ElementKind<'s>,
    /// The type of its items. A type of the type section is [`HeapType::Declared`](crate::HeapType::Declared).
    pub ty: RefType,
    /// What it holds.
    pub items: Items<'s>,
}

/// The segments of a module, from [`module_segments`].
///
/// ```
/// let segments = bobbinazure::module_segments(b"\0asm\x01\0\0\0")?.expect("it can be read");
/// assert_eq!((segments.data().len(), segments.elements().len()), (0, 0));
/// # Ok::<(), bobbinazure::Error>(())
/// ```
pub struct ModuleSegments<'a> {
    record: SegmentsRecord,
    module: PhantomData<&'a [u8]>,
}

// SAFETY: the lists are the record's alone, and nothing writes them.
unsafe impl Send for ModuleSegments<'_> {}
// SAFETY: as above.
unsafe impl Sync for ModuleSegments<'_> {}

impl fmt::Debug for ModuleSegments<'_> {
    fn fmt(&self, f: &mut fmt::Formatter<'_>) -> fmt::Result {
        f.debug_struct("ModuleSegments")
            .field("data", &self.data().collect::<Vec<_>>())
            .field("elements", &self.elements().collect::<Vec<_>>())
            .field("references", &self.references())
            .finish()
    }
}

impl ModuleSegments<'_> {
    /// The data segments, in order.
    ///
    /// ```
    /// let module = b"\0asm\x01\0\0\0\x0B\x04\x01\x01\x01a"; // (data "a")
    /// let segments = bobbinazure::module_segments(module)?.expect("it can be read");
    /// assert_eq!(segments.data().map(|one| one.data).collect::<Vec<_>>(), [b"a"]);
    /// # Ok::<(), bobbinazure::Error>(())
    /// ```
    pub fn data(&self) -> impl ExactSizeIterator<Item = ModuleData<'_>> {
        self.record.data_segments.as_slice().iter().map(|row| ModuleData {
            kind: match row.kind {
                numbers::PASSIVE_SEGMENT => DataKind::Passive,
                _ => DataKind::Active { memory_index: row.memory, offset_expr: self.expression(row.offset) },
            },
            data: row.bytes.as_slice(),
        })
    }

    /// The element segments, in order.
    ///
    /// ```
    /// let module = b"\0asm\x01\0\0\0\x09\x04\x01\x01\0\0"; // (elem func)
    /// let segments = bobbinazure::module_segments(module)?.expect("it can be read");
    /// assert!(segments.elements().next().unwrap().items.is_empty());
    /// # Ok::<(), bobbinazure::Error>(())
    /// ```
    pub fn elements(&self) -> impl ExactSizeIterator<Item = ModuleElement<'_>> {
        self.record.element_segments.as_slice().iter().map(|row| ModuleElement {
            kind: match row.kind {
                numbers::PASSIVE_SEGMENT => ElementKind::Passive,
                numbers::ACTIVE_SEGMENT => ElementKind::Active { table_index: row.table, offset_expr: self.expression(row.offset) },
                _ => ElementKind::Declared,
            },
            ty: row.element.into(),
            items: if row.expressed == 0 {
                Items::Functions(part(self.record.functions.as_slice(), row.functions))
            } else {
                let parts = part(self.record.expressions.parts.as_slice(), row.expressions);
                Items::Expressions(Expressions { parts, operators: self.record.expressions.operators.as_slice() })
            },
        })
    }

    /// The functions that `ref.func` in a body may name, ascending (core specification, 3.4,
    /// modules).
    ///
    /// ```
    /// let module = b"\0asm\x01\0\0\0\x01\x04\x01\x60\0\0\x03\x02\x01\0\x07\x05\x01\x01f\0\0\x0A\x04\x01\x02\0\x0B"; // (func (export "f"))
    /// assert_eq!(bobbinazure::module_segments(module)?.expect("it can be read").references(), [0]);
    /// # Ok::<(), bobbinazure::Error>(())
    /// ```
    pub fn references(&self) -> &[u32] {
        self.record.references.as_slice()
    }

    fn expression(&self, place: usize) -> ConstExpr<'_> {
        ConstExpr(operators(&self.record.expressions, place))
    }
}

/// The segments of the module that the bytes spell, as they stand in it, also those that a plan made
/// images of. `None` where the bytes are refused, malformed, not supported or too large:
/// [`locate`](crate::locate) says why. Rules are not checked.
///
/// # Errors
/// No memory.
///
/// ```
/// use bobbinazure::module_segments;
/// let module = b"\0asm\x01\0\0\0\x0B\x04\x01\x01\x01a"; // (data "a")
/// assert_eq!(module_segments(module)?.map(|all| all.data().len()), Some(1));
/// assert!(module_segments(b"\0asm")?.is_none());
/// # Ok::<(), bobbinazure::Error>(())
/// ```
pub fn module_segments(bytes: &[u8]) -> Result<Option<ModuleSegments<'_>>, Error> {
    let mut record = SegmentsRecord::default();
    // SAFETY: the pointers are those of borrowed values, and the record is one.
    match unsafe { bobbinazure_segments(bytes.as_ptr(), bytes.len(), &mut record) } {
        0 => Ok(Some(ModuleSegments { record, module: PhantomData })),
        1 => Ok(None),
        _ => Err(Error::OutOfMemory),
    }
}
