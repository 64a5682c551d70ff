//! What an instance holds, by a plain replay of the text of a plan without images: no address is
//! mapped, and no table of the plan is used but those of bytes and items, which the text does not
//! have.

use bobbinazure::{EntityIndex, Items, Options, Plan, plan_and_text};
use std::collections::HashMap;

/// A function, by the number of its module and its index there, or null.
pub type Cell = Option<(usize, u32)>;

/// A value: a number by its bits, or a cell.
#[derive(Clone, Copy, Debug, PartialEq, Eq)]
pub enum Value {
    Bits(u128),
    Cell(Cell),
}

/// What an entity is given to an import as.
#[derive(Clone, Debug)]
pub enum Entity {
    Function(Cell),
    Table(Vec<Cell>),
    Memory(Vec<u8>),
    Global(Value),
}

/// What an instance holds, imported entities first.
#[derive(Clone, Debug, Default)]
pub struct State {
    pub functions: Vec<Cell>,
    pub tables: Vec<Vec<Cell>>,
    pub memories: Vec<Vec<u8>>,
    pub globals: Vec<Value>,
    pub exports: HashMap<String, EntityIndex>,
    /// The phase and the number of the segment that does not fit.
    pub trap: Option<(&'static str, usize)>,
}

impl State {
    pub fn exported(&self, name: &str) -> Option<Entity> {
        Some(match *self.exports.get(name)? {
            EntityIndex::Function(index) => Entity::Function(self.functions[index as usize]),
            EntityIndex::Table(index) => Entity::Table(self.tables[index as usize].clone()),
            EntityIndex::Memory(index) => Entity::Memory(self.memories[index as usize].clone()),
            EntityIndex::Global(index) => Entity::Global(self.globals[index as usize]),
            EntityIndex::Tag(_) => return None,
        })
    }

    fn import(&mut self, entity: Entity) {
        match entity {
            Entity::Function(cell) => self.functions.push(cell),
            Entity::Table(cells) => self.tables.push(cells),
            Entity::Memory(bytes) => self.memories.push(bytes),
            Entity::Global(value) => self.globals.push(value),
        }
    }

    fn bits(&self, expression: &str) -> u128 {
        match self.value(expression) {
            Value::Bits(bits) => bits,
            Value::Cell(_) => panic!("{expression} is no number"),
        }
    }

    /// The value of an expression of the text.
    fn value(&self, expression: &str) -> Value {
        let mut stack = Vec::new();
        for operator in expression.split("; ") {
            let (word, rest) = operator.split_once(' ').unwrap_or((operator, ""));
            let index = || rest.parse::<usize>().expect("an index");
            let value = match word {
                "i32.const" => Value::Bits((rest.parse::<i32>().expect("a number") as u32).into()),
                "i64.const" => Value::Bits((rest.parse::<i64>().expect("a number") as u64).into()),
                "f32.const" | "f64.const" | "v128.const" => {
                    Value::Bits(u128::from_str_radix(&rest[2..], 16).expect("bits"))
                }
                "global.get" => self.globals[index()],
                "ref.func" => Value::Cell(self.functions[index()]),
                "ref.null" => Value::Cell(None),
                _ => joined(word, &mut stack),
            };
            stack.push(value);
        }
        stack.pop().expect("a value")
    }

    fn cell(&self, expression: &str) -> Cell {
        match self.value(expression) {
            Value::Cell(cell) => cell,
            Value::Bits(_) => panic!("{expression} is no reference"),
        }
    }
}

/// The sum, difference or product of the two last values.
fn joined(word: &str, stack: &mut Vec<Value>) -> Value {
    let (Some(Value::Bits(second)), Some(Value::Bits(first))) = (stack.pop(), stack.pop()) else {
        panic!("{word}")
    };
    let (kind, what) = word.split_once('.').expect("an operator");
    let whole = match what {
        "add" => first.wrapping_add(second),
        "sub" => first.wrapping_sub(second),
        "mul" => first.wrapping_mul(second),
        _ => panic!("no {word}"),
    };
    let mask = if kind == "i32" { u32::MAX.into() } else { u64::MAX };
    Value::Bits(whole & u128::from(mask))
}

/// Writes items at an offset, if they fit.
fn fits<T: Clone>(object: &mut [T], offset: u128, items: &[T]) -> bool {
    let Ok(from) = usize::try_from(offset) else { return false };
    let part = from.checked_add(items.len()).and_then(|end| object.get_mut(from..end));
    part.map(|part| part.clone_from_slice(items)).is_some()
}

/// The lines that begin with a word, without it.
fn of<'t>(text: &'t str, word: &'t str) -> impl Iterator<Item = &'t str> {
    text.lines().filter_map(move |line| line.strip_prefix(word)?.strip_prefix(' '))
}

fn number_and_rest(line: &str) -> (usize, &str) {
    let (number, rest) = line.split_once(' ').expect("two words");
    (number.parse().expect("a number"), rest)
}

/// What an instance of a module of this number holds, which imports from others by their names, up
/// to its first trap.
pub fn replay(bytes: &[u8], number: usize, from: &[(&str, &State)]) -> State {
    let (plan, text) = plan_and_text(bytes, &Options::default()).expect("it is planned");
    let mut state = State::default();
    for import in plan.imports() {
        let (_, exporter) = from.iter().find(|(name, _)| *name == import.module).expect("an exporter");
        state.import(exporter.exported(import.name).expect("an export"));
    }
    let defined = |function: u32| {
        (function as u64 >= plan.entities().imported_functions).then_some(Some((number, function)))
    };
    state.functions.extend((0..plan.functions().len() as u32).filter_map(defined));
    state.exports = plan.exports().map(|export| (export.name.to_owned(), export.index)).collect();
    write_globals(&mut state, &plan, &text);
    make_objects(&mut state, &plan, &text);
    write_elements(&mut state, &plan, &text);
    if state.trap.is_none() {
        write_data(&mut state, &plan, &text);
    }
    state
}

fn write_globals(state: &mut State, plan: &Plan<'_>, text: &str) {
    let imported = state.globals.len();
    state.globals.resize(plan.globals().len(), Value::Bits(0));
    for line in of(text, "global").chain(of(text, "global-expr")) {
        let (place, expression) = number_and_rest(line);
        state.globals[imported + place] = state.value(expression);
    }
}

fn make_objects(state: &mut State, plan: &Plan<'_>, text: &str) {
    let imported = state.tables.len();
    state.tables.extend(plan.tables()[imported..].iter().map(|table| vec![None; table.minimum as usize]));
    for line in of(text, "table-expr") {
        let (place, expression) = number_and_rest(line);
        let cell = state.cell(expression);
        state.tables[imported + place].fill(cell);
    }
    let sizes = plan.memories()[state.memories.len()..].iter().map(|memory| memory.minimum_byte_size());
    let bytes: Vec<Vec<u8>> = sizes.map(|size| vec![0; size.expect("a size") as usize]).collect();
    state.memories.extend(bytes);
}

fn write_elements(state: &mut State, plan: &Plan<'_>, text: &str) {
    for (place, (line, segment)) in of(text, "element").zip(plan.element_segments()).enumerate() {
        let (table, rest) = number_and_rest(line);
        let (_, offset) = rest.split_once(" at ").expect("a place");
        let items: Vec<Cell> = match segment.items {
            Items::Functions(functions) => {
                functions.iter().map(|one| state.functions[*one as usize]).collect()
            }
            Items::Expressions(all) => all.iter().map(|one| state.cell(&one.to_string())).collect(),
        };
        let offset = state.bits(offset);
        if !fits(&mut state.tables[table], offset, &items) {
            state.trap = Some(("element", place));
            return;
        }
    }
}

fn write_data(state: &mut State, plan: &Plan<'_>, text: &str) {
    for (place, line) in of(text, "segment").enumerate() {
        let (memory, rest) = number_and_rest(line);
        let (runtime, offset) = rest.split_once(" at ").expect("a place");
        let (bytes, offset) = (plan.bytes(runtime.parse().expect("a number")), state.bits(offset));
        if !fits(&mut state.memories[memory], offset, bytes) {
            state.trap = Some(("data", place));
            return;
        }
    }
}
