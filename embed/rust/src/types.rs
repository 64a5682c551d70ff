//! Types, as the tables tell them. Each displays as the text of a plan writes it.

use crate::rows::{Field, Value};
use std::fmt;

/// A type by its index, and which list it is of. The types of a plan are named by
/// [`TypeIndex::Module`].
///
/// ```
/// assert_eq!(bobbinazure::TypeIndex::Module(3).to_string(), "(module 3)");
/// ```
#[derive(Clone, Copy, Debug, PartialEq, Eq, Hash)]
pub enum TypeIndex {
    /// Of the types that an engine shares.
    Engine(u32),
    /// Of the interned types of the plan.
    Module(u32),
    /// Of the types of its recursion group.
    RecGroup(u32),
}

impl TypeIndex {
    /// The index of one of the lists of the header, if it is one.
    pub(crate) fn of(list: u8, index: u32) -> Option<Self> {
        match list {
            1 => Some(TypeIndex::Engine(index)),
            2 => Some(TypeIndex::Module(index)),
            3 => Some(TypeIndex::RecGroup(index)),
            _ => None,
        }
    }

    /// The index, of whichever list.
    ///
    /// ```
    /// assert_eq!(bobbinazure::TypeIndex::Module(3).index(), 3);
    /// ```
    pub fn index(self) -> u32 {
        let (TypeIndex::Engine(index) | TypeIndex::Module(index) | TypeIndex::RecGroup(index)) = self;
        index
    }
}

impl fmt::Display for TypeIndex {
    fn fmt(&self, f: &mut fmt::Formatter<'_>) -> fmt::Result {
        match self {
            TypeIndex::Engine(index) => write!(f, "(engine {index})"),
            TypeIndex::Module(index) => write!(f, "(module {index})"),
            TypeIndex::RecGroup(index) => write!(f, "(recgroup {index})"),
        }
    }
}

/// What a reference is to (core specification, 2.3, heap types).
///
/// ```
/// use bobbinazure::{HeapType, TypeIndex};
/// assert_eq!(HeapType::ConcreteStruct(TypeIndex::Module(2)).to_string(), "struct (module 2)");
/// ```
#[derive(Clone, Copy, Debug, PartialEq, Eq, Hash)]
pub enum HeapType {
    /// A value of the host.
    Extern,
    /// No value of the host.
    NoExtern,
    /// A function.
    Func,
    /// A function of a type.
    ConcreteFunc(TypeIndex),
    /// No function.
    NoFunc,
    /// An exception.
    Exn,
    /// An exception of a type.
    ConcreteExn(TypeIndex),
    /// No exception.
    NoExn,
    /// A continuation.
    Cont,
    /// A continuation of a type.
    ConcreteCont(TypeIndex),
    /// No continuation.
    NoCont,
    /// A value of the module.
    Any,
    /// A value that can be compared.
    Eq,
    /// A number of 31 bits.
    I31,
    /// An array.
    Array,
    /// An array of a type.
    ConcreteArray(TypeIndex),
    /// A struct.
    Struct,
    /// A struct of a type.
    ConcreteStruct(TypeIndex),
    /// No value of the module.
    None,
    /// A type of the type section, by its index: of [`ModuleSegments`](crate::ModuleSegments) alone.
    Declared(u32),
}

impl HeapType {
    pub(crate) fn of(heap: u8, list: u8, index: u32) -> Self {
        let named = TypeIndex::of(list, index);
        match (heap, named) {
            (0, _) => HeapType::Extern,
            (1, _) => HeapType::NoExtern,
            (3, Some(ty)) => HeapType::ConcreteFunc(ty),
            (2 | 3, _) => HeapType::Func,
            (4, _) => HeapType::NoFunc,
            (6, Some(ty)) => HeapType::ConcreteExn(ty),
            (5 | 6, _) => HeapType::Exn,
            (7, _) => HeapType::NoExn,
            (9, Some(ty)) => HeapType::ConcreteCont(ty),
            (8 | 9, _) => HeapType::Cont,
            (10, _) => HeapType::NoCont,
            (11, _) => HeapType::Any,
            (12, _) => HeapType::Eq,
            (13, _) => HeapType::I31,
            (15, Some(ty)) => HeapType::ConcreteArray(ty),
            (14 | 15, _) => HeapType::Array,
            (17, Some(ty)) => HeapType::ConcreteStruct(ty),
            (16 | 17, _) => HeapType::Struct,
            (19, _) => HeapType::Declared(index),
            _ => HeapType::None,
        }
    }
}

impl fmt::Display for HeapType {
    fn fmt(&self, f: &mut fmt::Formatter<'_>) -> fmt::Result {
        match self {
            HeapType::Extern => f.write_str("extern"),
            HeapType::NoExtern => f.write_str("noextern"),
            HeapType::Func => f.write_str("func"),
            HeapType::ConcreteFunc(ty) => write!(f, "func {ty}"),
            HeapType::NoFunc => f.write_str("nofunc"),
            HeapType::Exn => f.write_str("exn"),
            HeapType::ConcreteExn(ty) => write!(f, "exn {ty}"),
            HeapType::NoExn => f.write_str("noexn"),
            HeapType::Cont => f.write_str("cont"),
            HeapType::ConcreteCont(ty) => write!(f, "cont {ty}"),
            HeapType::NoCont => f.write_str("nocont"),
            HeapType::Any => f.write_str("any"),
            HeapType::Eq => f.write_str("eq"),
            HeapType::I31 => f.write_str("i31"),
            HeapType::Array => f.write_str("array"),
            HeapType::ConcreteArray(ty) => write!(f, "array {ty}"),
            HeapType::Struct => f.write_str("struct"),
            HeapType::ConcreteStruct(ty) => write!(f, "struct {ty}"),
            HeapType::None => f.write_str("none"),
            HeapType::Declared(index) => write!(f, "(declared {index})"),
        }
    }
}

/// A reference type (core specification, 2.3, reference types).
///
/// ```
/// use bobbinazure::{HeapType, RefType};
/// assert_eq!(RefType { nullable: true, heap_type: HeapType::Func }.to_string(), "funcref");
/// assert_eq!(RefType { nullable: false, heap_type: HeapType::I31 }.to_string(), "(ref i31)");
/// ```
#[derive(Clone, Copy, Debug, PartialEq, Eq, Hash)]
pub struct RefType {
    /// Whether it may be null.
    pub nullable: bool,
    /// What it is to.
    pub heap_type: HeapType,
}

impl fmt::Display for RefType {
    fn fmt(&self, f: &mut fmt::Formatter<'_>) -> fmt::Result {
        match (self.nullable, self.heap_type) {
            (true, HeapType::Func) => f.write_str("funcref"),
            (true, HeapType::Extern) => f.write_str("externref"),
            (true, heap) => write!(f, "(ref null {heap})"),
            (false, heap) => write!(f, "(ref {heap})"),
        }
    }
}

/// A value type (core specification, 2.3, value types).
///
/// ```
/// use bobbinazure::{HeapType, RefType, ValType};
/// let ty = ValType::from(RefType { nullable: true, heap_type: HeapType::Extern });
/// assert_eq!((ValType::F64.to_string(), ty.to_string()), ("f64".to_string(), "externref".to_string()));
/// ```
#[derive(Clone, Copy, Debug, PartialEq, Eq, Hash)]
pub enum ValType {
    /// An integer of 32 bits.
    I32,
    /// An integer of 64 bits.
    I64,
    /// A float of 32 bits.
    F32,
    /// A float of 64 bits.
    F64,
    /// A vector of 128 bits.
    V128,
    /// A reference.
    Ref(RefType),
}

impl From<RefType> for ValType {
    fn from(ty: RefType) -> Self {
        ValType::Ref(ty)
    }
}

impl fmt::Display for ValType {
    fn fmt(&self, f: &mut fmt::Formatter<'_>) -> fmt::Result {
        match self {
            ValType::I32 => f.write_str("i32"),
            ValType::I64 => f.write_str("i64"),
            ValType::F32 => f.write_str("f32"),
            ValType::F64 => f.write_str("f64"),
            ValType::V128 => f.write_str("v128"),
            ValType::Ref(ty) => ty.fmt(f),
        }
    }
}

/// What a field or an element of an array holds (core specification, 2.3, composite types).
///
/// ```
/// use bobbinazure::{StorageType, ValType};
/// assert_eq!(StorageType::I8.to_string(), "i8");
/// assert_eq!(StorageType::from(ValType::I64), StorageType::Val(ValType::I64));
/// ```
#[derive(Clone, Copy, Debug, PartialEq, Eq, Hash)]
pub enum StorageType {
    /// An integer packed into 8 bits.
    I8,
    /// An integer packed into 16 bits.
    I16,
    /// A value, as it is.
    Val(ValType),
}

impl StorageType {
    /// The value of a local, which no type packs.
    pub(crate) fn unpacked(self) -> ValType {
        match self {
            StorageType::Val(ty) => ty,
            StorageType::I8 | StorageType::I16 => ValType::I32,
        }
    }
}

impl From<ValType> for StorageType {
    fn from(ty: ValType) -> Self {
        StorageType::Val(ty)
    }
}

impl From<Value> for StorageType {
    fn from(row: Value) -> Self {
        StorageType::Val(match row.kind {
            0 => ValType::I32,
            1 => ValType::I64,
            2 => ValType::F32,
            3 => ValType::F64,
            4 => ValType::V128,
            6 => return StorageType::I8,
            7 => return StorageType::I16,
            _ => ValType::Ref(RefType::from(row)),
        })
    }
}

impl From<Value> for RefType {
    /// The reference type of a row that is one.
    fn from(row: Value) -> Self {
        RefType { nullable: row.nullable, heap_type: HeapType::of(row.heap, row.list, row.index) }
    }
}

impl fmt::Display for StorageType {
    fn fmt(&self, f: &mut fmt::Formatter<'_>) -> fmt::Result {
        match self {
            StorageType::I8 => f.write_str("i8"),
            StorageType::I16 => f.write_str("i16"),
            StorageType::Val(ty) => ty.fmt(f),
        }
    }
}

/// A field of a struct or an exception, or the elements of an array.
///
/// ```
/// use bobbinazure::{FieldType, StorageType};
/// assert_eq!(FieldType { element_type: StorageType::I16, mutable: true }.to_string(), "(mut i16)");
/// ```
#[derive(Clone, Copy, Debug, PartialEq, Eq, Hash)]
pub struct FieldType {
    /// What it holds.
    pub element_type: StorageType,
    /// Whether it can be written.
    pub mutable: bool,
}

impl From<Field> for FieldType {
    fn from(row: Field) -> Self {
        FieldType { element_type: row.value.into(), mutable: row.writable != 0 }
    }
}

impl fmt::Display for FieldType {
    fn fmt(&self, f: &mut fmt::Formatter<'_>) -> fmt::Result {
        if self.mutable { write!(f, "(mut {})", self.element_type) } else { self.element_type.fmt(f) }
    }
}

/// Fields, parameters or results.
///
/// ```
/// # let bytes = std::fs::read(concat!(env!("CARGO_MANIFEST_DIR"), "/../../examples/linked.wasm"))?;
/// # let plan = bobbinazure::Plan::new(&bytes, &Default::default())?;
/// let Some(bobbinazure::CompositeType::Func { params, .. }) = plan.ty(1).map(|ty| ty.composite_type) else { panic!("it is a function") };
/// assert_eq!(params.iter().map(|ty| ty.to_string()).collect::<Vec<_>>(), ["i32", "i32"]);
/// # Ok::<(), Box<dyn std::error::Error>>(())
/// ```
#[derive(Clone, Copy, Debug, PartialEq, Eq, Hash)]
pub struct Fields<'p>(pub(crate) &'p [Field]);

impl<'p> Fields<'p> {
    /// How many there are.
    ///
    /// ```
    /// # let bytes = std::fs::read(concat!(env!("CARGO_MANIFEST_DIR"), "/../../examples/linked.wasm"))?;
    /// # let plan = bobbinazure::Plan::new(&bytes, &Default::default())?;
    /// # let Some(bobbinazure::CompositeType::Func { params, .. }) = plan.ty(1).map(|ty| ty.composite_type) else { panic!() };
    /// assert_eq!(params.len(), 2);
    /// # Ok::<(), Box<dyn std::error::Error>>(())
    /// ```
    pub fn len(&self) -> usize {
        self.0.len()
    }

    /// Whether there are none.
    ///
    /// ```
    /// # let bytes = std::fs::read(concat!(env!("CARGO_MANIFEST_DIR"), "/../../examples/linked.wasm"))?;
    /// # let plan = bobbinazure::Plan::new(&bytes, &Default::default())?;
    /// # let Some(bobbinazure::CompositeType::Func { params, .. }) = plan.ty(1).map(|ty| ty.composite_type) else { panic!() };
    /// assert!(!params.is_empty());
    /// # Ok::<(), Box<dyn std::error::Error>>(())
    /// ```
    pub fn is_empty(&self) -> bool {
        self.0.is_empty()
    }

    /// One of them.
    ///
    /// ```
    /// # let bytes = std::fs::read(concat!(env!("CARGO_MANIFEST_DIR"), "/../../examples/linked.wasm"))?;
    /// # let plan = bobbinazure::Plan::new(&bytes, &Default::default())?;
    /// # let Some(bobbinazure::CompositeType::Func { params, .. }) = plan.ty(1).map(|ty| ty.composite_type) else { panic!() };
    /// assert_eq!(params.get(2), None);
    /// # Ok::<(), Box<dyn std::error::Error>>(())
    /// ```
    pub fn get(&self, place: usize) -> Option<FieldType> {
        self.0.get(place).map(|row| (*row).into())
    }

    /// Each, in order.
    ///
    /// ```
    /// # let bytes = std::fs::read(concat!(env!("CARGO_MANIFEST_DIR"), "/../../examples/linked.wasm"))?;
    /// # let plan = bobbinazure::Plan::new(&bytes, &Default::default())?;
    /// # let Some(bobbinazure::CompositeType::Func { params, .. }) = plan.ty(1).map(|ty| ty.composite_type) else { panic!() };
    /// assert!(params.iter().all(|ty| !ty.mutable));
    /// # Ok::<(), Box<dyn std::error::Error>>(())
    /// ```
    pub fn iter(&self) -> impl ExactSizeIterator<Item = FieldType> + use<'p> {
        self.0.iter().map(|row| (*row).into())
    }
}

/// A composite type (core specification, 2.3, composite types).
///
/// ```
/// # let bytes = std::fs::read(concat!(env!("CARGO_MANIFEST_DIR"), "/../../examples/linked.wasm"))?;
/// # let plan = bobbinazure::Plan::new(&bytes, &Default::default())?;
/// assert_eq!(plan.ty(1).unwrap().composite_type.to_string(), "(func (param i32 i32) (result i32))");
/// # Ok::<(), Box<dyn std::error::Error>>(())
/// ```
#[derive(Clone, Copy, Debug, PartialEq, Eq, Hash)]
pub enum CompositeType<'p> {
    /// An array, by its elements.
    Array(FieldType),
    /// A function.
    Func {
        /// Its parameters.
        params: Fields<'p>,
        /// Its results.
        results: Fields<'p>,
    },
    /// A struct, by its fields.
    Struct(Fields<'p>),
    /// A continuation of a function type.
    Cont(Option<TypeIndex>),
    /// The exceptions of a tag of this function type.
    Exn {
        /// The function type.
        func: Option<TypeIndex>,
        /// The fields of an exception.
        fields: Fields<'p>,
    },
}

/// A type with its supertype (core specification, 2.3, recursive types).
///
/// ```
/// # let bytes = std::fs::read(concat!(env!("CARGO_MANIFEST_DIR"), "/../../examples/linked.wasm"))?;
/// # let plan = bobbinazure::Plan::new(&bytes, &Default::default())?;
/// let ty = plan.ty(0).unwrap();
/// assert_eq!((ty.is_final, ty.supertype, ty.to_string()), (true, None, "(func)".to_string()));
/// # Ok::<(), Box<dyn std::error::Error>>(())
/// ```
#[derive(Clone, Copy, Debug, PartialEq, Eq, Hash)]
pub struct SubType<'p> {
    /// Whether it can have no subtypes.
    pub is_final: bool,
    /// The type that it extends.
    pub supertype: Option<TypeIndex>,
    /// Whether threads may share what is of it.
    pub shared: bool,
    /// What it is.
    pub composite_type: CompositeType<'p>,
}

struct Named<'a>(&'a str, Fields<'a>);

impl fmt::Display for Named<'_> {
    fn fmt(&self, f: &mut fmt::Formatter<'_>) -> fmt::Result {
        if self.1.is_empty() {
            return Ok(());
        }
        write!(f, " ({}", self.0)?;
        self.1.iter().try_for_each(|field| write!(f, " {field}"))?;
        f.write_str(")")
    }
}

impl fmt::Display for CompositeType<'_> {
    fn fmt(&self, f: &mut fmt::Formatter<'_>) -> fmt::Result {
        match self {
            CompositeType::Array(field) => write!(f, "(array {field})"),
            CompositeType::Func { params, results } => write!(f, "(func{}{})", Named("param", *params), Named("result", *results)),
            CompositeType::Struct(fields) => {
                f.write_str("(struct")?;
                fields.iter().try_for_each(|field| write!(f, " {field}"))?;
                f.write_str(")")
            }
            CompositeType::Cont(func) => {
                f.write_str("(cont")?;
                func.iter().try_for_each(|func| write!(f, " {func}"))?;
                f.write_str(")")
            }
            CompositeType::Exn { func, fields } => {
                f.write_str("(exn")?;
                func.iter().try_for_each(|func| write!(f, " ({func})"))?;
                fields.iter().try_for_each(|field| write!(f, " {field}"))?;
                f.write_str(")")
            }
        }
    }
}

impl fmt::Display for SubType<'_> {
    fn fmt(&self, f: &mut fmt::Formatter<'_>) -> fmt::Result {
        let plain = self.is_final && self.supertype.is_none();
        if !plain {
            f.write_str(if self.is_final { "(sub final " } else { "(sub " })?;
        }
        if let Some(supertype) = self.supertype {
            write!(f, "{supertype} ")?;
        }
        match self.shared {
            true => write!(f, "(shared {})", self.composite_type)?,
            false => self.composite_type.fmt(f)?,
        }
        if plain { Ok(()) } else { f.write_str(")") }
    }
}
