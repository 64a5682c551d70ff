//! What the modules of an engine share: its limits, and its register of types.

use crate::os;
use bobbinazure::{CanonicalGroup, Options, Plan};
use std::collections::HashMap;
use std::sync::{Mutex, PoisonError};

/// How a memory gets its image.
#[derive(Clone, Copy, Debug, PartialEq, Eq, Hash, Default)]
pub enum Images {
    /// The file of the image is mapped privately: a page is copied when it is first written.
    #[default]
    Map,
    /// The bytes of the image are copied.
    Copy,
}

/// What an instance may ask for. A module can ask for gigabytes in a few bytes.
#[derive(Clone, Copy, Debug, PartialEq, Eq, Hash)]
pub struct Limits {
    /// The bytes of its memories, at their least sizes.
    pub memory_bytes: u64,
    /// The cells of its tables, at their least sizes.
    pub table_cells: u64,
}

impl Default for Limits {
    /// 4 GiB of memories, and 10,000,000 cells.
    fn default() -> Self {
        Limits { memory_bytes: 1 << 32, table_cells: 10_000_000 }
    }
}

/// What an engine is made with.
#[derive(Clone, Copy, Debug, PartialEq, Eq, Hash, Default)]
pub struct Config {
    /// How a memory gets its image.
    pub images: Images,
    /// What an instance may ask for.
    pub limits: Limits,
}

/// What the modules of an engine share. Modules that are linked must be of one engine.
#[derive(Debug)]
pub struct Engine {
    config: Config,
    page_size: usize,
    types: Mutex<TypeRegister>,
}

/// The index of the first type of each group that was seen. None is given back.
#[derive(Debug, Default)]
struct TypeRegister {
    groups: HashMap<CanonicalGroup, u32>,
    types: u32,
}

impl Engine {
    /// An engine without modules.
    pub fn new(config: Config) -> Self {
        Engine { config, page_size: os::page_size(), types: Mutex::default() }
    }

    /// What it was made with.
    pub fn config(&self) -> &Config {
        &self.config
    }

    /// The bytes of a page of the system.
    pub(crate) fn page_size(&self) -> usize {
        self.page_size
    }

    /// What its modules are planned with: images in pages of the system, tables as images, pointers
    /// of 8 bytes.
    pub fn options(&self) -> Options {
        Options { cow: true, lazy_tables: true, page_size: self.page_size as u64, ..Options::default() }
    }

    /// The engine's index of each interned type of a plan. Equal types of any modules have one.
    pub(crate) fn register(&self, plan: &Plan<'_>) -> Vec<u32> {
        let mut register = self.types.lock().unwrap_or_else(PoisonError::into_inner);
        let mut indices = Vec::with_capacity(plan.types().len());
        for group in 0..plan.rec_groups().len() {
            let canonical = plan.canonical_group(group, &indices);
            let (len, next) = (canonical.len() as u32, register.types);
            let first = *register.groups.entry(canonical).or_insert(next);
            if first == next {
                register.types += len;
            }
            indices.extend(first..first + len);
        }
        indices
    }
}
