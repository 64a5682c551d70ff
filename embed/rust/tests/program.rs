//! A program of many modules is linked.

use bobbinazure::{Options, Program, ProgramError, ProgramImport, Reason, link_program};

/// It exports a function `f` of type `[i32] -> [i32]`, and a global `g` that is an i32 and cannot
/// be written. Its other type is `[i32] -> []`.
const FIRST: [u8; 51] = [
    0x00, 0x61, 0x73, 0x6D, 0x01, 0x00, 0x00, 0x00, // the header
    0x01, 0x0A, 0x02, 0x60, 0x01, 0x7F, 0x01, 0x7F, 0x60, 0x01, 0x7F, 0x00, // types
    0x03, 0x02, 0x01, 0x00, // functions
    0x06, 0x06, 0x01, 0x7F, 0x00, 0x41, 0x2A, 0x0B, // globals
    0x07, 0x09, 0x02, 0x01, 0x66, 0x00, 0x00, 0x01, 0x67, 0x03, 0x00, // exports
    0x0A, 0x06, 0x01, 0x04, 0x00, 0x20, 0x00, 0x0B, // code
];

/// It exports a memory `m` of three pages at least.
const SECOND: [u8; 20] = [
    0x00, 0x61, 0x73, 0x6D, 0x01, 0x00, 0x00, 0x00, // the header
    0x05, 0x03, 0x01, 0x00, 0x03, // memories
    0x07, 0x05, 0x01, 0x01, 0x6D, 0x02, 0x00, // exports
];

/// Its types are those of the first in the other order. It imports `f`, `g` and a function `z` of
/// `a`, and `m` of `b` twice, of one and of four pages.
const THIRD: [u8; 56] = [
    0x00, 0x61, 0x73, 0x6D, 0x01, 0x00, 0x00, 0x00, // the header
    0x01, 0x0A, 0x02, 0x60, 0x01, 0x7F, 0x00, 0x60, 0x01, 0x7F, 0x01, 0x7F, // types
    0x02, 0x22, 0x05, // five imports
    0x01, 0x61, 0x01, 0x66, 0x00, 0x01, // a function
    0x01, 0x61, 0x01, 0x67, 0x03, 0x7F, 0x00, // a global
    0x01, 0x61, 0x01, 0x7A, 0x00, 0x00, // another function
    0x01, 0x62, 0x01, 0x6D, 0x02, 0x00, 0x01, // a memory
    0x01, 0x62, 0x01, 0x6D, 0x02, 0x00, 0x04, // the same memory
];

fn linked(modules: &[(&str, &[u8])]) -> Result<Program, ProgramError> {
    link_program(modules, &Options::default())
}

#[test]
fn each_import_is_given_by_a_module_before() {
    let program = linked(&[("a", &FIRST), ("b", &SECOND), ("", &THIRD)]).expect("it is linked");
    let imports: Vec<Vec<ProgramImport>> = program.modules().map(|module| module.imports().collect()).collect();
    let given = |module, export| ProgramImport::Given { module, export };
    let small = ProgramImport::Mismatch { rule: 10, line: "the memory is too small" };
    assert_eq!(imports, [vec![], vec![], vec![given(0, 0), given(0, 1), ProgramImport::Missing, given(1, 0), small]]);
    assert_eq!(program.modules().map(|module| module.first_export).collect::<Vec<_>>(), [0, 2, 3]);
    let after = linked(&[("", &THIRD), ("a", &FIRST), ("b", &SECOND)]).expect("it is linked");
    assert!(after.modules().flat_map(|module| module.imports()).all(|import| import == ProgramImport::Missing));
}

#[test]
fn equal_types_have_one_index() {
    let program = linked(&[("a", &FIRST), ("b", &SECOND), ("", &THIRD)]).expect("it is linked");
    let types: Vec<Vec<u32>> = program.modules().map(|module| module.types.to_vec()).collect();
    assert!(types[1].is_empty());
    assert_eq!(types[0][..2], [types[2][1], types[2][0]]);
    assert_ne!(types[0][0], types[0][1]);
}

#[test]
fn the_module_at_which_a_program_is_refused_is_told() {
    assert_eq!(linked(&[("a", &FIRST), ("b", &SECOND), ("a", &FIRST), ("b", &SECOND)]).err(), Some(ProgramError::Duplicate(2)));
    assert!(linked(&[("a", &FIRST), ("b", &FIRST)]).is_ok());
    let refused = linked(&[("a", &FIRST), ("a", &FIRST), ("", &FIRST[..4]), ("", &[])]).err();
    let Some(ProgramError::Module { module: 2, error: bobbinazure::Error::Refused { reason: Reason::Malformed, .. } }) = refused else {
        panic!("{refused:?}");
    };
    let wrong = Options { pointer: 5, ..Options::default() };
    assert_eq!(link_program(&[("a", &FIRST[..4])], &wrong).err(), Some(ProgramError::WrongOptions));
    assert_eq!(linked(&[]).expect("it is linked").modules().len(), 0);
}

#[test]
fn a_program_can_be_shared() {
    fn is_shared<T: Send + Sync>(_: &T) {}
    is_shared(&linked(&[("a", &FIRST)]).expect("it is linked"));
}
