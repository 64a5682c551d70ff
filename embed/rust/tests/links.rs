//! Two modules are linked, import by import.

use bobbinazure::{Answer, LinkError, Options, Plan, Reason, link};

/// It exports a function `f`, a table `t` of one to two functions, a memory `m` of one to two
/// pages, a global `g` that is an i32 and cannot be written, and a tag `e`.
const EXPORTER: [u8; 81] = [
    0x00, 0x61, 0x73, 0x6D, 0x01, 0x00, 0x00, 0x00, // the header
    0x01, 0x0A, 0x02, 0x60, 0x01, 0x7F, 0x01, 0x7F, 0x60, 0x01, 0x7F, 0x00, // types
    0x03, 0x02, 0x01, 0x00, // functions
    0x04, 0x05, 0x01, 0x70, 0x01, 0x01, 0x02, // tables
    0x05, 0x04, 0x01, 0x01, 0x01, 0x02, // memories
    0x0D, 0x03, 0x01, 0x00, 0x01, // tags
    0x06, 0x06, 0x01, 0x7F, 0x00, 0x41, 0x2A, 0x0B, // globals
    0x07, 0x15, 0x05, 0x01, 0x66, 0x00, 0x00, 0x01, 0x74, 0x01, 0x00, 0x01, 0x6D, 0x02, 0x00, 0x01, 0x67, 0x03, 0x00, 0x01, 0x65, 0x04, 0x00, // exports
    0x0A, 0x06, 0x01, 0x04, 0x00, 0x20, 0x00, 0x0B, // code
];

/// It imports all of these of `m`, the last first, with its function types in the other order.
const IMPORTER: [u8; 60] = [
    0x00, 0x61, 0x73, 0x6D, 0x01, 0x00, 0x00, 0x00, // the header
    0x01, 0x0A, 0x02, 0x60, 0x01, 0x7F, 0x00, 0x60, 0x01, 0x7F, 0x01, 0x7F, // types
    0x02, 0x26, 0x05, // five imports
    0x01, 0x6D, 0x01, 0x65, 0x04, 0x00, 0x00, // a tag
    0x01, 0x6D, 0x01, 0x67, 0x03, 0x7F, 0x00, // a global
    0x01, 0x6D, 0x01, 0x6D, 0x02, 0x01, 0x01, 0x02, // a memory
    0x01, 0x6D, 0x01, 0x74, 0x01, 0x70, 0x01, 0x01, 0x02, // a table
    0x01, 0x6D, 0x01, 0x66, 0x00, 0x01, // a function
];

fn linked(as_module: &str, changes: &[(usize, u8)]) -> Result<Vec<Answer>, LinkError> {
    let mut importer = IMPORTER;
    for (place, byte) in changes {
        importer[*place] = *byte;
    }
    link(&EXPORTER, &importer, as_module, &Options::default())
}

#[test]
fn each_import_is_given_the_export_under_its_name() {
    assert_eq!(linked("m", &[]), Ok([4, 3, 2, 1, 0].map(Answer::Given).to_vec()));
    assert_eq!(linked("n", &[]), Ok(vec![Answer::Missing; 5]));
}

#[test]
fn each_import_is_answered_by_itself() {
    // The tag is named z, and the memory has two pages at least.
    let small = Answer::Mismatch { rule: 10, line: "the memory is too small" };
    assert_eq!(linked("m", &[(26, b'z'), (43, 2)]), Ok(vec![Answer::Missing, Answer::Given(3), small, Answer::Given(1), Answer::Given(0)]));
}

#[test]
fn the_first_module_that_is_refused_is_told() {
    let refused = Plan::new(&EXPORTER[..4], &Options::default()).err().expect("it is refused");
    assert_eq!(link(&EXPORTER, &EXPORTER[..4], "m", &Options::default()), Err(LinkError::Importer(refused)));
    assert_eq!(link(&EXPORTER[..4], &[], "m", &Options::default()), Err(LinkError::Exporter(refused)));
    assert!(matches!(refused, bobbinazure::Error::Refused { reason: Reason::Malformed, .. }));
    assert_eq!(link(&EXPORTER, &IMPORTER, "m", &Options { pointer: 5, ..Options::default() }), Err(LinkError::WrongOptions));
}
