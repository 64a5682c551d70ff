//! Instances that may refer to each other, and so are given back together.

use crate::error::Error;
use crate::instance::Instance;
use crate::links::Linked;
use crate::region::load;
use crate::template::Template;
use std::collections::BTreeMap;
use std::slice;

/// An instance of a store.
#[derive(Clone, Copy, Debug, PartialEq, Eq, Hash)]
pub struct InstanceId(usize);

/// Instances, which stay until the store is dropped.
///
/// Indices of its methods count imported entities first, as those of a module do.
#[derive(Debug, Default)]
pub struct Store<'t> {
    instances: Vec<Instance<'t>>,
    /// The number of each by the address of its context.
    contexts: BTreeMap<usize, usize>,
}

impl<'t> Store<'t> {
    /// A store without instances.
    pub fn new() -> Self {
        Store::default()
    }

    /// A new instance of a module that is linked, which imports from these instances, one of each
    /// exporter in order. Its start function is not called.
    ///
    /// # Errors
    /// [`Error::Trap`] where a segment does not fit. What the segments before it wrote to imported
    /// tables and memories stays, as in the standard, and so does the instance: a table may refer
    /// to its functions. [`Error::WrongInstances`], [`Error::System`].
    pub fn instantiate(&mut self, linked: &Linked<'t>, from: &[InstanceId]) -> Result<InstanceId, Error> {
        let exporters: Vec<&Instance<'t>> = from.iter().filter_map(|id| self.instances.get(id.0)).collect();
        let mut pairs = exporters.iter().zip(&linked.exporters);
        let are_linked = pairs.all(|(exporter, template)| std::ptr::eq(exporter.template, *template));
        if exporters.len() != linked.exporters.len() || !are_linked {
            return Err(Error::WrongInstances);
        }
        let region = linked.template.layout.reserve()?;
        let mut instance = Instance { template: linked.template, region, passive: Vec::new() };
        instance.write_context(linked, &exporters);
        let outcome = instance.start_up();
        let is_referred_to = instance.plan().entities().imported_tables > 0;
        if outcome.is_ok() || is_referred_to {
            self.contexts.insert(instance.context(), self.instances.len());
            self.instances.push(instance);
        }
        outcome.map(|()| InstanceId(self.instances.len() - 1))
    }

    fn instance(&self, id: InstanceId) -> Option<&Instance<'t>> {
        self.instances.get(id.0)
    }

    /// The module of an instance.
    pub fn template(&self, id: InstanceId) -> Option<&'t Template<'t>> {
        self.instance(id).map(|instance| instance.template)
    }

    /// The bytes of a memory.
    pub fn memory(&self, id: InstanceId, memory: u32) -> Option<&[u8]> {
        let instance = self.instance(id)?;
        if memory as usize >= instance.plan().memories().len() {
            return None;
        }
        let (begin, len) = instance.bytes(memory);
        // SAFETY: the bytes are open as long as the store, and nothing writes them while it is borrowed.
        Some(unsafe { slice::from_raw_parts(std::ptr::with_exposed_provenance(begin), len) })
    }

    /// The bytes of a memory, to be written.
    pub fn memory_mut(&mut self, id: InstanceId, memory: u32) -> Option<&mut [u8]> {
        let len = self.memory(id, memory)?.len();
        let (begin, _) = self.instance(id)?.bytes(memory);
        // SAFETY: the bytes are open as long as the store, which is borrowed whole.
        Some(unsafe { slice::from_raw_parts_mut(std::ptr::with_exposed_provenance_mut(begin), len) })
    }

    /// The cells of a table: 0 is null; [`function`](Store::function) says which function another one is.
    pub fn table(&self, id: InstanceId, table: u32) -> Option<&[u64]> {
        let instance = self.instance(id)?;
        if table as usize >= instance.plan().tables().len() {
            return None;
        }
        let (begin, len) = instance.cells(table);
        // SAFETY: as of `memory`. Cells are aligned, since a context, and what is before a table,
        // have whole cells.
        Some(unsafe { slice::from_raw_parts(std::ptr::with_exposed_provenance(begin), len) })
    }

    /// The bits of a global: of a number or a vector, or a reference as in a cell.
    pub fn global(&self, id: InstanceId, global: u32) -> Option<u128> {
        let instance = self.instance(id)?;
        ((global as usize) < instance.plan().globals().len()).then(|| instance.value(global))
    }

    /// The items of a passive element segment, by its number among those.
    pub fn passive_elements(&self, id: InstanceId, segment: u32) -> Option<&[u64]> {
        self.instance(id)?.passive.get(segment as usize).map(Vec::as_slice)
    }

    /// The bytes of a passive data segment, by its number in the data section, as the context has
    /// them. None of an active segment, which was dropped, and of one without bytes.
    pub fn passive_data(&self, id: InstanceId, segment: u32) -> Option<&[u8]> {
        let instance = self.instance(id)?;
        let data = instance.plan().passive_data().find(|data| data.segment == segment)?;
        let (begin, len) = instance.runtime_data(data.runtime);
        // SAFETY: the bytes are the module's or the plan's, which the template borrows or has.
        Some(unsafe { slice::from_raw_parts(std::ptr::with_exposed_provenance(begin), len) })
    }

    /// The type of a tag, by the engine's index.
    pub fn tag_type(&self, id: InstanceId, tag: u32) -> Option<u32> {
        let instance = self.instance(id)?;
        ((tag as usize) < instance.plan().tags().len()).then(|| instance.tag_type(tag))
    }

    /// The reference to a function, as a cell has it; 0 where none can be made.
    pub fn func_ref(&self, id: InstanceId, function: u32) -> Option<u64> {
        self.instance(id).map(|instance| instance.func_ref(function))
    }

    /// The function that a cell refers to: the instance that defines it, and its index there. None
    /// of null, and of what is no function.
    pub fn function(&self, cell: u64) -> Option<(InstanceId, u32)> {
        let (owner, at) = self.owner(cell)?;
        let layout = owner.plan().structs().func_ref;
        // SAFETY: `at` is the address of a reference in an open context.
        let (vmctx, code): (usize, usize) =
            unsafe { (load(at + layout.vmctx as usize), load(at + layout.wasm_call as usize)) };
        let number = *self.contexts.get(&vmctx)?;
        Some((InstanceId(number), self.instances[number].template.function_of(code)?))
    }

    /// The type of the function that a cell refers to, by the engine's index.
    pub fn function_type(&self, cell: u64) -> Option<u32> {
        let (owner, at) = self.owner(cell)?;
        // SAFETY: as of `function`.
        Some(unsafe { load(at + owner.plan().structs().func_ref.type_index as usize) })
    }

    /// The instance whose context has the reference that a cell is, and its address.
    fn owner(&self, cell: u64) -> Option<(&Instance<'t>, usize)> {
        let at = usize::try_from(cell).ok()?;
        let (context, number) = self.contexts.range(..=at).next_back()?;
        let owner = &self.instances[*number];
        let (begin, size) =
            (owner.plan().offsets().func_refs as usize, owner.plan().structs().func_ref.size as usize);
        let place = (at - context).checked_sub(begin)?;
        let is_one = place % size == 0 && ((place / size) as u64) < owner.plan().num_escaped_funcs();
        is_one.then_some((owner, at))
    }
}
