//! What the option `native_debug` keeps for a debugger: names of locals, and the metadata of
//! functions.

use crate::plan::{Plan, name, part};
use crate::rows::{LocalName, Locals};
use crate::types::{CompositeType, Fields, StorageType, ValType};

/// The metadata of a defined function.
///
/// ```
/// # let bytes = std::fs::read(concat!(env!("CARGO_MANIFEST_DIR"), "/../../examples/linked.wasm"))?;
/// let options = bobbinazure::Options { native_debug: true, ..Default::default() };
/// let plan = bobbinazure::Plan::new(&bytes, &options)?;
/// let add = plan.function_metadata().nth(1).unwrap();
/// assert_eq!(add.params.get(1).unwrap().to_string(), "i32");
/// # Ok::<(), Box<dyn std::error::Error>>(())
/// ```
#[derive(Clone, Copy, Debug, PartialEq, Eq, Hash)]
pub struct FunctionMetadata<'p> {
    /// Its parameters, which are those of its type.
    pub params: Fields<'p>,
    locals: &'p [Locals],
}

impl<'p> FunctionMetadata<'p> {
    /// Its locals besides its parameters, in runs of one type: how many, and their type, by
    /// interned types.
    ///
    /// ```
    /// # let bytes = std::fs::read(concat!(env!("CARGO_MANIFEST_DIR"), "/../../examples/linked.wasm"))?;
    /// # let options = bobbinazure::Options { native_debug: true, ..Default::default() };
    /// # let plan = bobbinazure::Plan::new(&bytes, &options)?;
    /// let (metadata, body) = (plan.function_metadata().next().unwrap(), plan.body(0).unwrap());
    /// assert!(metadata.locals().eq(body.locals()));
    /// # Ok::<(), Box<dyn std::error::Error>>(())
    /// ```
    pub fn locals(&self) -> impl ExactSizeIterator<Item = (u32, ValType)> + use<'p> {
        self.locals.iter().map(|run| (run.count, StorageType::from(run.value).unpacked()))
    }
}

impl Plan<'_> {
    /// The names of locals, by the index of each function and of the local in it, in order.
    /// Parameters come first. There are none without `native_debug`.
    ///
    /// ```
    /// # let bytes = b"\0asm\x01\0\0\0\x01\x05\x01\x60\x01\x7F\0\x03\x02\x01\0\x0A\x04\x01\x02\0\x0B\0\x0D\x04name\x02\x06\x01\0\x01\0\x01x";
    /// // of a module with (func (param $x i32))
    /// let options = bobbinazure::Options { native_debug: true, ..Default::default() };
    /// let plan = bobbinazure::Plan::new(bytes, &options)?;
    /// assert_eq!(plan.locals_names().collect::<Vec<_>>(), [(0, 0, "x")]);
    /// # Ok::<(), bobbinazure::Error>(())
    /// ```
    pub fn locals_names(&self) -> impl ExactSizeIterator<Item = (u32, u32, &str)> {
        self.record.local_names.as_slice().iter().map(|row| (row.function, row.local, name(row.name.as_slice())))
    }

    /// The names of the locals of a function, by the index of each, in order.
    ///
    /// ```
    /// # let bytes = b"\0asm\x01\0\0\0\x01\x05\x01\x60\x01\x7F\0\x03\x02\x01\0\x0A\x04\x01\x02\0\x0B\0\x0D\x04name\x02\x06\x01\0\x01\0\x01x";
    /// # let options = bobbinazure::Options { native_debug: true, ..Default::default() };
    /// # let plan = bobbinazure::Plan::new(bytes, &options)?;
    /// assert_eq!(plan.locals_names_of(0).collect::<Vec<_>>(), [(0, "x")]);
    /// # Ok::<(), bobbinazure::Error>(())
    /// ```
    pub fn locals_names_of(&self, function: u32) -> impl ExactSizeIterator<Item = (u32, &str)> {
        self.local_name_rows(function).iter().map(|row| (row.local, name(row.name.as_slice())))
    }

    /// The rows of a function, which follow each other.
    fn local_name_rows(&self, function: u32) -> &[LocalName] {
        let rows = self.record.local_names.as_slice();
        let begin = rows.partition_point(|row| row.function < function);
        let len = rows[begin..].partition_point(|row| row.function == function);
        &rows[begin..begin + len]
    }

    /// The metadata of the defined functions, in order. There is none without `native_debug`.
    ///
    /// ```
    /// # let bytes = std::fs::read(concat!(env!("CARGO_MANIFEST_DIR"), "/../../examples/linked.wasm"))?;
    /// let options = bobbinazure::Options { native_debug: true, ..Default::default() };
    /// let plan = bobbinazure::Plan::new(&bytes, &options)?;
    /// let add = plan.function_metadata().nth(1).unwrap();
    /// assert_eq!((add.params.len(), add.locals().len()), (2, 0));
    /// # Ok::<(), Box<dyn std::error::Error>>(())
    /// ```
    pub fn function_metadata(&self) -> impl ExactSizeIterator<Item = FunctionMetadata<'_>> {
        let (parts, locals) = (self.record.function_metadata.as_slice(), self.record.metadata_locals.as_slice());
        let defined = self.record.functions.as_slice().iter().skip(self.imported_func_count() as usize);
        parts.iter().zip(defined).map(|(span, ty)| FunctionMetadata { params: self.params(*ty), locals: part(locals, *span) })
    }

    /// The parameters of an interned type, which only a function has.
    fn params(&self, ty: u32) -> Fields<'_> {
        match self.ty(ty).map(|ty| ty.composite_type) {
            Some(CompositeType::Func { params, .. }) => params,
            _ => Fields(&[]),
        }
    }

    /// How many functions are imported.
    ///
    /// ```
    /// # let bytes = std::fs::read(concat!(env!("CARGO_MANIFEST_DIR"), "/../../examples/linked.wasm"))?;
    /// # let plan = bobbinazure::Plan::new(&bytes, &Default::default())?;
    /// assert_eq!(plan.imported_func_count(), 0);
    /// # Ok::<(), Box<dyn std::error::Error>>(())
    /// ```
    pub fn imported_func_count(&self) -> u32 {
        self.record.imported_func_count
    }
}
