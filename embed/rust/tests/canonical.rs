//! Recursion groups of two modules are equal exactly where their types are.

use bobbinazure::{CanonicalGroup, Options, Plan};
use std::collections::HashMap;

/// (func), (func (param (ref 0))), and a group of two structs that refer to each other and to the
/// first.
const ONE: &[u8] = &[
    0x00, 0x61, 0x73, 0x6D, 0x01, 0x00, 0x00, 0x00, // the header
    0x01, 0x18, 0x03, // types
    0x60, 0x00, 0x00, // func
    0x60, 0x01, 0x64, 0x00, 0x00, // func (param (ref 0))
    0x4E, 0x02, // a group
    0x5F, 0x02, 0x63, 0x03, 0x00, 0x64, 0x00, 0x00, // struct (ref null 3) (ref 0)
    0x5F, 0x01, 0x63, 0x02, 0x00, // struct (ref null 2)
];

/// (func (param i32)), (func), and the same three groups as of the first from the second one on,
/// then the last once more over another function type.
const OTHER: &[u8] = &[
    0x00, 0x61, 0x73, 0x6D, 0x01, 0x00, 0x00, 0x00, // the header
    0x01, 0x2B, 0x05, // types
    0x60, 0x01, 0x7F, 0x00, // func (param i32)
    0x60, 0x00, 0x00, // func
    0x60, 0x01, 0x64, 0x01, 0x00, // func (param (ref 1))
    0x4E, 0x02, // a group
    0x5F, 0x02, 0x63, 0x04, 0x00, 0x64, 0x01, 0x00, // struct (ref null 4) (ref 1)
    0x5F, 0x01, 0x63, 0x03, 0x00, // struct (ref null 3)
    0x4E, 0x02, // a group
    0x5F, 0x02, 0x63, 0x06, 0x00, 0x64, 0x00, 0x00, // struct (ref null 6) (ref 0)
    0x5F, 0x01, 0x63, 0x05, 0x00, // struct (ref null 5)
];

/// An engine's indices of the types of a module: the first new group begins at the number of types
/// that were seen.
fn register(seen: &mut HashMap<CanonicalGroup, u32>, next: &mut u32, bytes: &[u8]) -> Vec<u32> {
    let plan = Plan::new(bytes, &Options::default()).expect("it is planned");
    let mut indices = Vec::new();
    for group in 0..plan.rec_groups().len() {
        let canonical = plan.canonical_group(group, &indices);
        let len = canonical.len() as u32;
        let first = *seen.entry(canonical).or_insert_with(|| {
            *next += len;
            *next - len
        });
        indices.extend(first..first + len);
    }
    plan.declared_types().iter().map(|ty| indices[*ty as usize]).collect()
}

#[test]
fn equal_types_have_one_index() {
    let (mut seen, mut next) = (HashMap::new(), 0);
    let one = register(&mut seen, &mut next, ONE);
    assert!(one.is_sorted() && one[3] == one[2] + 1);
    let other = register(&mut seen, &mut next, OTHER);
    assert_eq!(other[1..5], one);
    assert!([0, 5, 6].iter().all(|place| !one.contains(&other[*place])));
}
