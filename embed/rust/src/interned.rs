//! The interned types of a module, and the layouts of their objects.

use crate::plan::{Plan, part};
use crate::rows::{self, LayoutField, Trampoline};
use crate::types::{CompositeType, Fields, SubType, TypeIndex};

/// The layout of the objects of an interned type.
///
/// ```
/// # let module = b"\0asm\x01\0\0\0\x01\x05\x01\x5F\x01\x7F\0";
/// let plan = bobbinazure::Plan::new(module, &Default::default())?; // (module (type (struct (field i32))))
/// let layout = plan.gc_layout(0).unwrap();
/// assert_eq!((layout.size % layout.align, layout.align >= 4), (0, true));
/// # Ok::<(), bobbinazure::Error>(())
/// ```
#[derive(Clone, Copy, Debug, PartialEq, Eq, Hash)]
pub struct GcLayout<'p> {
    /// The interned type.
    pub ty: u32,
    /// The size of an object in bytes; of an array, the bytes before its elements.
    pub size: u32,
    /// The alignment of an object, in bytes.
    pub align: u32,
    /// What the objects are.
    pub kind: GcLayoutKind<'p>,
}

/// What the objects of a layout are.
///
/// ```
/// # let module = b"\0asm\x01\0\0\0\x01\x04\x01\x5E\x7F\0";
/// use bobbinazure::{GcLayoutKind, Plan};
/// let plan = Plan::new(module, &Default::default())?; // (module (type (array i32)))
/// assert!(matches!(plan.gc_layout(0).unwrap().kind, GcLayoutKind::Array { elem_size: 4, elems_are_gc_refs: false }));
/// # Ok::<(), bobbinazure::Error>(())
/// ```
#[derive(Clone, Copy, Debug, PartialEq, Eq, Hash)]
pub enum GcLayoutKind<'p> {
    /// Arrays.
    Array {
        /// The bytes of an element.
        elem_size: u32,
        /// Whether elements are references that are collected.
        elems_are_gc_refs: bool,
    },
    /// Structs.
    Struct {
        /// Their fields, in order.
        fields: &'p [LayoutField],
    },
    /// Exceptions.
    Exn {
        /// Their fields, in order.
        fields: &'p [LayoutField],
    },
}

impl Plan<'_> {
    /// The interned types, in order.
    ///
    /// ```
    /// # let bytes = std::fs::read(concat!(env!("CARGO_MANIFEST_DIR"), "/../../examples/linked.wasm"))?;
    /// # let options = bobbinazure::Options { cow: true, lazy_tables: true, ..Default::default() };
    /// # let plan = bobbinazure::Plan::new(&bytes, &options)?;
    /// assert_eq!(plan.types().nth(1).unwrap().to_string(), "(func (param i32 i32) (result i32))");
    /// # Ok::<(), Box<dyn std::error::Error>>(())
    /// ```
    pub fn types(&self) -> impl ExactSizeIterator<Item = SubType<'_>> {
        self.record.interned.as_slice().iter().map(|row| self.sub_type(row))
    }

    /// An interned type.
    ///
    /// ```
    /// # let bytes = std::fs::read(concat!(env!("CARGO_MANIFEST_DIR"), "/../../examples/linked.wasm"))?;
    /// # let options = bobbinazure::Options { cow: true, lazy_tables: true, ..Default::default() };
    /// # let plan = bobbinazure::Plan::new(&bytes, &options)?;
    /// assert_eq!(plan.ty(0).unwrap().to_string(), "(func)");
    /// assert!(plan.ty(3).is_none());
    /// # Ok::<(), Box<dyn std::error::Error>>(())
    /// ```
    pub fn ty(&self, index: u32) -> Option<SubType<'_>> {
        self.record.interned.as_slice().get(index as usize).map(|row| self.sub_type(row))
    }

    fn sub_type(&self, row: &rows::Type) -> SubType<'_> {
        let fields = Fields(part(self.record.fields.as_slice(), row.fields));
        let func = TypeIndex::of(row.function_list, row.function);
        let composite_type = match row.kind {
            0 => CompositeType::Array(fields.0[0].into()),
            1 => {
                let (params, results) = fields.0.split_at(fields.len() - row.results);
                CompositeType::Func { params: Fields(params), results: Fields(results) }
            }
            2 => CompositeType::Struct(fields),
            3 => CompositeType::Cont(func),
            _ => CompositeType::Exn { func, fields },
        };
        SubType { is_final: row.is_final, supertype: TypeIndex::of(row.supertype_list, row.supertype), shared: row.shared, composite_type }
    }

    /// The interned type of each type of the type section.
    ///
    /// ```
    /// # let bytes = std::fs::read(concat!(env!("CARGO_MANIFEST_DIR"), "/../../examples/linked.wasm"))?;
    /// # let options = bobbinazure::Options { cow: true, lazy_tables: true, ..Default::default() };
    /// # let plan = bobbinazure::Plan::new(&bytes, &options)?;
    /// assert_eq!(plan.declared_types(), [0, 1]);
    /// # Ok::<(), Box<dyn std::error::Error>>(())
    /// ```
    pub fn declared_types(&self) -> &[u32] {
        self.record.declared.as_slice()
    }

    /// The recursion groups of interned types, each by its range of them.
    ///
    /// ```
    /// # let bytes = std::fs::read(concat!(env!("CARGO_MANIFEST_DIR"), "/../../examples/linked.wasm"))?;
    /// # let options = bobbinazure::Options { cow: true, lazy_tables: true, ..Default::default() };
    /// # let plan = bobbinazure::Plan::new(&bytes, &options)?;
    /// assert_eq!(plan.rec_groups().next(), Some(0..1));
    /// # Ok::<(), Box<dyn std::error::Error>>(())
    /// ```
    pub fn rec_groups(&self) -> impl ExactSizeIterator<Item = std::ops::Range<u32>> {
        self.record.groups.as_slice().iter().map(|row| row.begin..row.end)
    }

    /// The interned types of the functions that escape, each once.
    ///
    /// ```
    /// # let bytes = std::fs::read(concat!(env!("CARGO_MANIFEST_DIR"), "/../../examples/linked.wasm"))?;
    /// # let options = bobbinazure::Options { cow: true, lazy_tables: true, ..Default::default() };
    /// # let plan = bobbinazure::Plan::new(&bytes, &options)?;
    /// assert_eq!(plan.exported_signatures(), [0, 1]);
    /// # Ok::<(), Box<dyn std::error::Error>>(())
    /// ```
    pub fn exported_signatures(&self) -> &[u32] {
        self.record.signatures.as_slice()
    }

    /// The interned types that have a trampoline, in order.
    ///
    /// ```
    /// # let bytes = std::fs::read(concat!(env!("CARGO_MANIFEST_DIR"), "/../../examples/linked.wasm"))?;
    /// # let options = bobbinazure::Options { cow: true, lazy_tables: true, ..Default::default() };
    /// # let plan = bobbinazure::Plan::new(&bytes, &options)?;
    /// assert_eq!(plan.trampoline_types()[0].ty, 0);
    /// # Ok::<(), Box<dyn std::error::Error>>(())
    /// ```
    pub fn trampoline_types(&self) -> &[Trampoline] {
        self.record.trampolines.as_slice()
    }

    /// The type of the trampoline of an interned function type, where it has one.
    ///
    /// ```
    /// # let bytes = std::fs::read(concat!(env!("CARGO_MANIFEST_DIR"), "/../../examples/linked.wasm"))?;
    /// # let options = bobbinazure::Options { cow: true, lazy_tables: true, ..Default::default() };
    /// # let plan = bobbinazure::Plan::new(&bytes, &options)?;
    /// assert_eq!((plan.trampoline_type(1), plan.trampoline_type(2)), (Some(1), None));
    /// # Ok::<(), Box<dyn std::error::Error>>(())
    /// ```
    pub fn trampoline_type(&self, ty: u32) -> Option<u32> {
        let rows = self.trampoline_types();
        rows.binary_search_by_key(&ty, |row| row.ty).ok().map(|place| rows[place].trampoline)
    }

    /// The layouts of the objects of interned types that have some, in order.
    ///
    /// ```
    /// # let bytes = std::fs::read(concat!(env!("CARGO_MANIFEST_DIR"), "/../../examples/linked.wasm"))?;
    /// # let options = bobbinazure::Options { cow: true, lazy_tables: true, ..Default::default() };
    /// # let plan = bobbinazure::Plan::new(&bytes, &options)?;
    /// assert_eq!(plan.gc_layouts().len(), 0);
    /// # Ok::<(), Box<dyn std::error::Error>>(())
    /// ```
    pub fn gc_layouts(&self) -> impl ExactSizeIterator<Item = GcLayout<'_>> {
        self.record.layouts.as_slice().iter().map(|row| self.layout(row))
    }

    /// The layout of the objects of an interned type, where it has some.
    ///
    /// ```
    /// # let bytes = std::fs::read(concat!(env!("CARGO_MANIFEST_DIR"), "/../../examples/linked.wasm"))?;
    /// # let options = bobbinazure::Options { cow: true, lazy_tables: true, ..Default::default() };
    /// # let plan = bobbinazure::Plan::new(&bytes, &options)?;
    /// assert_eq!(plan.gc_layout(0), None);
    /// # Ok::<(), Box<dyn std::error::Error>>(())
    /// ```
    pub fn gc_layout(&self, ty: u32) -> Option<GcLayout<'_>> {
        let rows = self.record.layouts.as_slice();
        rows.binary_search_by_key(&ty, |row| row.ty).ok().map(|place| self.layout(&rows[place]))
    }

    /// The layout of the exceptions of a tag.
    ///
    /// ```
    /// # let bytes = std::fs::read(concat!(env!("CARGO_MANIFEST_DIR"), "/../../examples/linked.wasm"))?;
    /// # let options = bobbinazure::Options { cow: true, lazy_tables: true, ..Default::default() };
    /// # let plan = bobbinazure::Plan::new(&bytes, &options)?;
    /// assert_eq!(plan.exception_layout(0), None);
    /// # Ok::<(), Box<dyn std::error::Error>>(())
    /// ```
    pub fn exception_layout(&self, tag: u32) -> Option<GcLayout<'_>> {
        self.tags().get(tag as usize).and_then(|row| self.gc_layout(row.exception))
    }

    fn layout(&self, row: &rows::Layout) -> GcLayout<'_> {
        let fields = part(self.record.layout_fields.as_slice(), row.fields);
        let kind = match row.kind {
            0 => GcLayoutKind::Array { elem_size: row.element, elems_are_gc_refs: row.refs != 0 },
            1 => GcLayoutKind::Struct { fields },
            _ => GcLayoutKind::Exn { fields },
        };
        GcLayout { ty: row.ty, size: row.size, align: row.align, kind }
    }
}
