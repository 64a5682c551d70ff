//! Recursion groups of several modules, compared.

use crate::numbers::{OF_ENGINE, OF_GROUP, OF_MODULE};
use crate::plan::{Plan, part};
use crate::rows::{Field, Span, Type};

/// A recursion group with the index that an engine has for each type outside of it: two groups of
/// any modules are of equal types exactly where these are equal. It is what an engine's register of
/// types has as its key.
///
/// ```
/// # let bytes = std::fs::read(concat!(env!("CARGO_MANIFEST_DIR"), "/../../examples/linked.wasm"))?;
/// # let plan = bobbinazure::Plan::new(&bytes, &Default::default())?;
/// let mut register = std::collections::HashMap::new();
/// let engine_index = register.entry(plan.canonical_group(0, &[])).or_insert(7);
/// assert_eq!(*engine_index, 7);
/// # Ok::<(), Box<dyn std::error::Error>>(())
/// ```
#[derive(Clone, Debug, PartialEq, Eq, Hash)]
pub struct CanonicalGroup {
    types: Vec<Type>,
    fields: Vec<Field>,
}

impl CanonicalGroup {
    /// How many types it has.
    ///
    /// ```
    /// # let bytes = std::fs::read(concat!(env!("CARGO_MANIFEST_DIR"), "/../../examples/linked.wasm"))?;
    /// # let plan = bobbinazure::Plan::new(&bytes, &Default::default())?;
    /// assert_eq!(plan.canonical_group(0, &[]).len(), 1);
    /// # Ok::<(), Box<dyn std::error::Error>>(())
    /// ```
    pub fn len(&self) -> usize {
        self.types.len()
    }

    /// Whether it has none.
    ///
    /// ```
    /// # let bytes = std::fs::read(concat!(env!("CARGO_MANIFEST_DIR"), "/../../examples/linked.wasm"))?;
    /// # let plan = bobbinazure::Plan::new(&bytes, &Default::default())?;
    /// assert!(!plan.canonical_group(0, &[]).is_empty());
    /// # Ok::<(), Box<dyn std::error::Error>>(())
    /// ```
    pub fn is_empty(&self) -> bool {
        self.types.is_empty()
    }
}

/// Names a type by its place in the group that begins at a type, or as the engine does.
fn rename(list: &mut u8, index: &mut u32, begin: u32, engine: &[u32]) {
    if u32::from(*list) == OF_MODULE {
        (*list, *index) = match index.checked_sub(begin) {
            Some(place) => (OF_GROUP as u8, place),
            None => (OF_ENGINE as u8, engine[*index as usize]),
        };
    }
}

impl Plan<'_> {
    /// A recursion group, by its number, with the engine's index of each interned type before it.
    ///
    /// ```
    /// # let bytes = std::fs::read(concat!(env!("CARGO_MANIFEST_DIR"), "/../../examples/linked.wasm"))?;
    /// # let plan = bobbinazure::Plan::new(&bytes, &bobbinazure::Options { cow: true, ..Default::default() })?;
    /// let [group, other, startup] = [0, 1, 2].map(|group| plan.canonical_group(group, &[7, 8]));
    /// assert_eq!(group.len(), 1);
    /// assert!(group != other && group == startup); // (func) twice, and one of another type
    /// # Ok::<(), Box<dyn std::error::Error>>(())
    /// ```
    ///
    /// # Panics
    /// Where there is no group of that number, or `engine` has too few indices.
    pub fn canonical_group(&self, group: usize, engine: &[u32]) -> CanonicalGroup {
        let range = self.record.groups.as_slice()[group];
        let mut canonical = CanonicalGroup { types: Vec::new(), fields: Vec::new() };
        for row in &self.record.interned.as_slice()[range.begin as usize..range.end as usize] {
            let (mut ty, begin) = (*row, canonical.fields.len());
            rename(&mut ty.supertype_list, &mut ty.supertype, range.begin, engine);
            rename(&mut ty.function_list, &mut ty.function, range.begin, engine);
            for mut field in part(self.record.fields.as_slice(), row.fields).iter().copied() {
                rename(&mut field.value.list, &mut field.value.index, range.begin, engine);
                canonical.fields.push(field);
            }
            ty.fields = Span { begin, len: row.fields.len };
            canonical.types.push(ty);
        }
        canonical
    }
}
