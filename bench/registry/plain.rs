// The same waves over a registry in plain Rust, unproved.

use std::collections::{BTreeSet, HashMap};
use std::io::{self, BufRead};
use std::rc::Rc;

const GROUPS: u32 = 50;

#[derive(Clone, Copy, PartialEq, Eq, Hash)]
enum Index {
    Engine(u32),
    Module(u32),
    Group(u32),
}

#[derive(Clone, Copy, PartialEq, Eq, Hash)]
enum Value {
    I32,
    I64,
    Ref(bool, Index),
}

#[derive(Clone, PartialEq, Eq, Hash)]
struct Type {
    is_final: bool,
    supertype: Option<Index>,
    params: Box<[Value]>,
    results: Box<[Value]>,
}

struct List {
    types: Vec<Type>,
    groups: Vec<std::ops::Range<u32>>,
}

struct Kept {
    canonical: Rc<[Type]>,
    used: Vec<Type>,
    indices: Vec<u32>,
    count: u64,
}

#[derive(Default)]
struct Registry {
    known: HashMap<Rc<[Type]>, u32>,
    kept: HashMap<u32, Kept>,
    owners: Vec<Option<(u32, u32)>>,
    free: BTreeSet<u32>,
    held: HashMap<u64, (Vec<u32>, Vec<u32>)>,
    registrations: u64,
    live: u32,
}

fn mapped(ty: &Type, to: &dyn Fn(Index) -> Index) -> Type {
    let value = |v: &Value| match *v {
        Value::Ref(nullable, index) => Value::Ref(nullable, to(index)),
        v => v,
    };
    Type {
        is_final: ty.is_final,
        supertype: ty.supertype.map(to),
        params: ty.params.iter().map(value).collect(),
        results: ty.results.iter().map(value).collect(),
    }
}

impl Registry {
    fn next_free(&mut self) -> u32 {
        self.free.pop_first().unwrap_or_else(|| {
            self.owners.push(None);
            self.owners.len() as u32 - 1
        })
    }

    fn register(&mut self, list: &List) -> u64 {
        let (mut indices, mut firsts): (Vec<u32>, Vec<u32>) = (Vec::with_capacity(list.types.len()), Vec::new());
        for range in &list.groups {
            let members = &list.types[range.start as usize..range.end as usize];
            let place = |i: Index| match i {
                Index::Module(i) if i < range.start => Index::Engine(indices[i as usize]),
                Index::Module(i) => Index::Group(i - range.start),
                i => i,
            };
            let canonical: Rc<[Type]> = members.iter().map(|ty| mapped(ty, &place)).collect();
            let first = match self.known.get(&canonical) {
                Some(first) => *first,
                None => self.keep(canonical),
            };
            let kept = self.kept.get_mut(&first).unwrap();
            kept.count += 1;
            indices.extend_from_slice(&kept.indices);
            firsts.push(first);
        }
        let key = self.registrations;
        self.registrations += 1;
        self.held.insert(key, (indices, firsts));
        key
    }

    fn keep(&mut self, canonical: Rc<[Type]>) -> u32 {
        let indices: Vec<u32> = canonical.iter().map(|_| self.next_free()).collect();
        let engine = |i: Index| match i {
            Index::Group(i) => Index::Engine(indices[i as usize]),
            i => i,
        };
        let used = canonical.iter().map(|ty| mapped(ty, &engine)).collect();
        let first = indices[0];
        for (place, index) in indices.iter().enumerate() {
            self.owners[*index as usize] = Some((first, place as u32));
        }
        self.live += indices.len() as u32;
        self.known.insert(canonical.clone(), first);
        self.kept.insert(first, Kept { canonical, used, indices, count: 0 });
        first
    }

    fn release(&mut self, key: u64) {
        let (_, firsts) = self.held.remove(&key).unwrap();
        for first in firsts {
            let kept = self.kept.get_mut(&first).unwrap();
            kept.count -= 1;
            if kept.count == 0 {
                let kept = self.kept.remove(&first).unwrap();
                self.known.remove(&kept.canonical);
                self.live -= kept.used.len() as u32;
                for index in kept.indices {
                    self.owners[index as usize] = None;
                    self.free.insert(index);
                }
            }
        }
    }
}

fn function(params: &[Value]) -> Type {
    Type { is_final: true, supertype: None, params: params.into(), results: [].into() }
}

fn list(number: u32) -> List {
    let mut list = List { types: Vec::new(), groups: Vec::new() };
    for place in 0..10 {
        let group = (number + 5 * place) % GROUPS;
        let start = list.types.len() as u32;
        let params: Vec<Value> = (0..6).map(|bit| if group >> bit & 1 == 1 { Value::I64 } else { Value::I32 }).collect();
        list.types.push(function(&params));
        list.types.push(function(&[Value::Ref(true, Index::Module(start)), Value::Ref(true, Index::Module(start + 1))]));
        list.groups.push(start..start + 2);
    }
    list
}

fn wave(registry: &mut Registry, lists: &[List], size: u32) -> u64 {
    let mut keys = Vec::with_capacity(size as usize);
    let mut sum = 0;
    for number in 0..size {
        let key = registry.register(&lists[(number % GROUPS) as usize]);
        for place in 0..20 {
            let index = registry.held.get(&key).and_then(|held| held.0.get(place)).copied();
            sum += index.map_or(0, |index| index as u64) * (place as u64 + 1);
        }
        keys.push(key);
    }
    sum = 2 * sum + registry.live as u64;
    while let Some(key) = keys.pop() {
        registry.release(key);
    }
    sum + registry.live as u64
}

fn main() {
    let numbers: Vec<u32> = io::stdin().lock().lines().map(|line| line.unwrap().parse().unwrap_or(0)).collect();
    let lists: Vec<List> = (0..GROUPS).map(list).collect();
    let mut registry = Registry::default();
    for _ in 0..numbers[0] {
        println!("{}", wave(&mut registry, &lists, numbers[1]));
    }
}
