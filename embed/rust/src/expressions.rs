//! Constant expressions (core specification, 3.3, constant expressions).

use crate::numbers;
use crate::rows::Operator;
use crate::types::HeapType;
use std::fmt;

/// The words of the operators, in the order of their numbers.
const WORDS: [&str; 22] = [
    "i32.const",
    "i64.const",
    "f32.const",
    "f64.const",
    "v128.const",
    "global.get",
    "ref.i31",
    "ref.null",
    "ref.func",
    "i32.add",
    "i32.sub",
    "i32.mul",
    "i64.add",
    "i64.sub",
    "i64.mul",
    "struct.new",
    "struct.new_default",
    "array.new",
    "array.new_default",
    "array.new_fixed",
    "extern.convert_any",
    "any.convert_extern",
];

/// An operator of a constant expression with its immediates, to be matched on. Floats and vectors
/// are their bits.
///
/// ```
/// # let bytes = std::fs::read(concat!(env!("CARGO_MANIFEST_DIR"), "/../../examples/linked.wasm"))?;
/// # let options = bobbinazure::Options { cow: true, lazy_tables: true, ..Default::default() };
/// # let plan = bobbinazure::Plan::new(&bytes, &options)?;
/// use bobbinazure::{ConstOp, GlobalInit};
/// let (_, init) = plan.global_initializers().next().unwrap();
/// assert!(matches!(init, GlobalInit::Value(op) if op.op() == ConstOp::I32Const(1048576)));
/// # Ok::<(), Box<dyn std::error::Error>>(())
/// ```
#[derive(Clone, Copy, Debug, PartialEq, Eq, Hash)]
pub enum ConstOp {
    /// `i32.const`
    I32Const(i32),
    /// `i64.const`
    I64Const(i64),
    /// `f32.const`
    F32Const(u32),
    /// `f64.const`
    F64Const(u64),
    /// `v128.const`
    V128Const(u128),
    /// `global.get`, of a global by its index
    GlobalGet(u32),
    /// `ref.i31`
    RefI31,
    /// `ref.null`
    RefNull(HeapType),
    /// `ref.func`, of a function by its index
    RefFunc(u32),
    /// `i32.add`
    I32Add,
    /// `i32.sub`
    I32Sub,
    /// `i32.mul`
    I32Mul,
    /// `i64.add`
    I64Add,
    /// `i64.sub`
    I64Sub,
    /// `i64.mul`
    I64Mul,
    /// `struct.new`, of a type of the type section, as the next four
    StructNew(u32),
    /// `struct.new_default`
    StructNewDefault(u32),
    /// `array.new`
    ArrayNew(u32),
    /// `array.new_default`
    ArrayNewDefault(u32),
    /// `array.new_fixed`, with the number of elements
    ArrayNewFixed(u32, u32),
    /// `extern.convert_any`
    ExternConvertAny,
    /// `any.convert_extern`
    AnyConvertExtern,
}

impl Operator {
    /// The operator with its immediates.
    ///
    /// ```
    /// # use bobbinazure::{ConstOp, Operator};
    /// assert_eq!(Operator { code: 5, index: 2, ..Default::default() }.op(), ConstOp::GlobalGet(2));
    /// ```
    pub fn op(&self) -> ConstOp {
        match u32::from(self.code) {
            numbers::I32_CONST => ConstOp::I32Const(self.low as u32 as i32),
            numbers::I64_CONST => ConstOp::I64Const(self.low as i64),
            numbers::F32_CONST => ConstOp::F32Const(self.low as u32),
            numbers::F64_CONST => ConstOp::F64Const(self.low),
            numbers::V128_CONST => ConstOp::V128Const(u128::from(self.high) << 64 | u128::from(self.low)),
            numbers::GLOBAL_GET => ConstOp::GlobalGet(self.index),
            numbers::REF_I31 => ConstOp::RefI31,
            numbers::REF_NULL => ConstOp::RefNull(HeapType::of(self.heap, self.list, self.index)),
            numbers::REF_FUNC => ConstOp::RefFunc(self.index),
            numbers::I32_ADD => ConstOp::I32Add,
            numbers::I32_SUB => ConstOp::I32Sub,
            numbers::I32_MUL => ConstOp::I32Mul,
            numbers::I64_ADD => ConstOp::I64Add,
            numbers::I64_SUB => ConstOp::I64Sub,
            numbers::I64_MUL => ConstOp::I64Mul,
            numbers::STRUCT_NEW => ConstOp::StructNew(self.index),
            numbers::STRUCT_NEW_DEFAULT => ConstOp::StructNewDefault(self.index),
            numbers::ARRAY_NEW => ConstOp::ArrayNew(self.index),
            numbers::ARRAY_NEW_DEFAULT => ConstOp::ArrayNewDefault(self.index),
            numbers::ARRAY_NEW_FIXED => ConstOp::ArrayNewFixed(self.index, self.low as u32),
            numbers::EXTERN_CONVERT_ANY => ConstOp::ExternConvertAny,
            _ => ConstOp::AnyConvertExtern,
        }
    }

    /// Its word in the text format.
    ///
    /// ```
    /// # use bobbinazure::Operator;
    /// assert_eq!(Operator { code: 5, index: 2, ..Default::default() }.word(), "global.get");
    /// ```
    pub fn word(&self) -> &'static str {
        WORDS.get(usize::from(self.code)).copied().unwrap_or("")
    }

    /// The type of a null reference.
    ///
    /// ```
    /// # use bobbinazure::{HeapType, Operator, numbers};
    /// let null = Operator { code: numbers::REF_NULL as u8, heap: numbers::HEAP_FUNC as u8, ..Default::default() };
    /// assert_eq!(null.heap_type(), Some(HeapType::Func));
    /// assert_eq!(Operator::default().heap_type(), None);
    /// ```
    pub fn heap_type(&self) -> Option<HeapType> {
        (u32::from(self.code) == numbers::REF_NULL).then(|| HeapType::of(self.heap, self.list, self.index))
    }
}

impl fmt::Display for Operator {
    fn fmt(&self, f: &mut fmt::Formatter<'_>) -> fmt::Result {
        f.write_str(self.word())?;
        match u32::from(self.code) {
            numbers::I32_CONST => write!(f, " {}", self.low as u32 as i32),
            numbers::I64_CONST => write!(f, " {}", self.low as i64),
            numbers::F32_CONST => write!(f, " 0x{:08x}", self.low),
            numbers::F64_CONST => write!(f, " 0x{:016x}", self.low),
            numbers::V128_CONST => write!(f, " 0x{:016x}{:016x}", self.high, self.low),
            numbers::REF_NULL => write!(f, " {}", HeapType::of(self.heap, self.list, self.index)),
            numbers::ARRAY_NEW_FIXED => write!(f, " {} {}", self.index, self.low),
            numbers::GLOBAL_GET | numbers::REF_FUNC | numbers::STRUCT_NEW..=numbers::ARRAY_NEW_DEFAULT => write!(f, " {}", self.index),
            _ => Ok(()),
        }
    }
}

/// A constant expression, by its operators. It displays as the text of a plan writes it.
///
/// ```
/// # let bytes = std::fs::read(concat!(env!("CARGO_MANIFEST_DIR"), "/../../examples/overlap.wasm"))?;
/// # let plan = bobbinazure::Plan::new(&bytes, &Default::default())?;
/// use bobbinazure::SegmentOffset::Expr;
/// let Expr(offset) = plan.data_segments().next().unwrap().offset else { panic!("it is not planned") };
/// assert_eq!(offset.to_string(), "i32.const 16");
/// # Ok::<(), Box<dyn std::error::Error>>(())
/// ```
#[derive(Clone, Copy, Debug, PartialEq, Eq, Hash)]
pub struct ConstExpr<'p>(pub(crate) &'p [Operator]);

impl<'p> ConstExpr<'p> {
    /// Its operators, in order.
    ///
    /// ```
    /// # let bytes = std::fs::read(concat!(env!("CARGO_MANIFEST_DIR"), "/../../examples/overlap.wasm"))?;
    /// # let plan = bobbinazure::Plan::new(&bytes, &Default::default())?;
    /// use bobbinazure::SegmentOffset::Expr;
    /// let Expr(offset) = plan.data_segments().next().unwrap().offset else { panic!("it is not planned") };
    /// assert_eq!(offset.ops().len(), 1);
    /// # Ok::<(), Box<dyn std::error::Error>>(())
    /// ```
    pub fn ops(&self) -> &'p [Operator] {
        self.0
    }
}

impl fmt::Display for ConstExpr<'_> {
    fn fmt(&self, f: &mut fmt::Formatter<'_>) -> fmt::Result {
        for (place, op) in self.0.iter().enumerate() {
            write!(f, "{}{op}", if place == 0 { "" } else { "; " })?;
        }
        Ok(())
    }
}
