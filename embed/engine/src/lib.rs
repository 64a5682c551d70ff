//! A small instance allocator over the planner: what an engine does with a plan before it runs code.
//!
//! A [`Template`] is made once of a module: its plan, and a `memfd` with its memory images. A
//! [`Store`] makes instances of it. Each is one reserved region of addresses: the context by the
//! plan's offsets, the cells of tables, and the memories, over which the images are mapped
//! privately. Nothing here reads the module: all comes from the plan's tables. No code of a module
//! is run; what a start function would do is left.
//!
//! ```
//! use engine::{Config, Engine, Store, Template};
//! # let bytes = std::fs::read(concat!(env!("CARGO_MANIFEST_DIR"), "/../../examples/linked.wasm"))?;
//! let engine = Engine::new(Config::default());
//! let template = Template::new(&engine, &bytes)?;
//! let mut store = Store::new();
//! let id = store.instantiate(&template.link(&[])?, &[])?;
//! assert!(store.memory(id, 0).unwrap()[1048576..].starts_with(b"hello"));
//! assert_eq!(store.global(id, 0), Some(1048576));
//! let add = store.table(id, 0).unwrap()[1];
//! assert_eq!(store.function(add), Some((id, 1)));
//! # Ok::<(), Box<dyn std::error::Error>>(())
//! ```
#![warn(missing_debug_implementations, missing_docs)]

#[cfg(not(all(target_os = "linux", target_pointer_width = "64")))]
compile_error!("regions are reserved and images mapped by calls of Linux, with pointers of 8 bytes");

mod context;
mod engine;
mod error;
mod instance;
mod links;
mod os;
mod region;
mod startup;
mod store;
mod template;
mod values;

pub use crate::engine::{Config, Engine, Images, Limits};
pub use error::{Error, Phase};
pub use links::Linked;
pub use store::{InstanceId, Store};
pub use template::Template;
