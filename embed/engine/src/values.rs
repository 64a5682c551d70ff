//! The values of constant expressions (core specification, 3.3). Each value is its bits: a
//! reference to a function is an address, one to a number of 31 bits is twice that number and 1,
//! null is 0.

use crate::instance::Instance;
use bobbinazure::{ConstExpr, ConstOp, Operator};

/// The values of an expression that is evaluated. The planner refuses an expression that takes a
/// value where there is none.
#[derive(Default)]
struct Stack(Vec<u128>);

impl Stack {
    fn pop(&mut self) -> u128 {
        self.0.pop().unwrap_or(0)
    }

    fn join32(&mut self, join: impl Fn(u32, u32) -> u32) -> u128 {
        let (second, first) = (self.pop() as u32, self.pop() as u32);
        join(first, second).into()
    }

    fn join64(&mut self, join: impl Fn(u64, u64) -> u64) -> u128 {
        let (second, first) = (self.pop() as u64, self.pop() as u64);
        join(first, second).into()
    }
}

impl Instance<'_> {
    /// The bits of the value of an operator that takes none.
    pub(crate) fn constant(&self, operator: Operator) -> u128 {
        self.step(operator.op(), &mut Stack::default())
    }

    /// The bits of the value of an expression over the globals.
    pub(crate) fn evaluate(&self, expression: ConstExpr<'_>) -> u128 {
        if let [operator] = expression.ops() {
            return self.constant(*operator);
        }
        let mut stack = Stack::default();
        for operator in expression.ops() {
            let value = self.step(operator.op(), &mut stack);
            stack.0.push(value);
        }
        stack.pop()
    }

    /// The value that an operator makes. A template has no operators that make objects.
    fn step(&self, op: ConstOp, stack: &mut Stack) -> u128 {
        use ConstOp::*;
        match op {
            I32Const(value) => (value as u32).into(),
            I64Const(value) => (value as u64).into(),
            F32Const(bits) => bits.into(),
            F64Const(bits) => bits.into(),
            V128Const(bits) => bits,
            GlobalGet(global) => self.value(global),
            RefFunc(function) => self.func_ref(function).into(),
            RefI31 => ((stack.pop() as u32) << 1 | 1).into(),
            I32Add => stack.join32(u32::wrapping_add),
            I32Sub => stack.join32(u32::wrapping_sub),
            I32Mul => stack.join32(u32::wrapping_mul),
            I64Add => stack.join64(u64::wrapping_add),
            I64Sub => stack.join64(u64::wrapping_sub),
            I64Mul => stack.join64(u64::wrapping_mul),
            ExternConvertAny | AnyConvertExtern => stack.pop(),
            RefNull(_) => 0,
            StructNew(_) | StructNewDefault(_) | ArrayNew(_) | ArrayNewDefault(_) | ArrayNewFixed(..) => 0,
        }
    }
}
