//! The names of a module, and of bytes that are none.

use bobbinazure::numbers::{NAME_FIELD, NAME_FUNCTION, NAME_GLOBAL, NAME_LABEL, NAME_LOCAL, NAME_MODULE, NAME_TAG};
use bobbinazure::{NameEntry, names};

/// A module with a custom section of this name, and its contents behind the name.
fn module(title: &str, contents: &[u8]) -> Vec<u8> {
    let size = (1 + title.len() + contents.len()) as u8;
    [b"\0asm\x01\0\0\0\x00", &[size, title.len() as u8][..], title.as_bytes(), contents].concat()
}

fn listed(bytes: &[u8]) -> Vec<(u32, u32, Option<u32>, String)> {
    let row = |e: &NameEntry<'_>| (e.subsection, e.index, e.inner, e.name.to_owned());
    names(bytes).unwrap().entries().iter().map(row).collect()
}

#[test]
fn each_subsection_is_listed() {
    let of = |subsection, index, inner, name: &str| (subsection, index, inner, name.to_owned());
    assert_eq!(listed(&module("name", b"\x00\x02\x01m\x01\x04\x01\x05\x01f")), [of(NAME_MODULE, 0, None, "m"), of(NAME_FUNCTION, 5, None, "f")]);
    assert_eq!(listed(&module("name", b"\x02\x09\x01\x03\x02\x00\x01x\x07\x01y")), [of(NAME_LOCAL, 3, Some(0), "x"), of(NAME_LOCAL, 3, Some(7), "y")]);
    assert_eq!(listed(&module("name", b"\x03\x06\x01\x00\x01\x02\x01l")), [of(NAME_LABEL, 0, Some(2), "l")]);
    for id in [4, 5, 6, 7, 8, 9, 11] {
        assert_eq!(listed(&module("name", &[id, 4, 1, 2, 1, b'n'])), [of(id.into(), 2, None, "n")]);
    }
    assert_eq!(listed(&module("name", b"\x0A\x06\x01\x01\x01\x00\x01f")), [of(NAME_FIELD, 1, Some(0), "f")]);
    assert_eq!((NAME_GLOBAL, NAME_TAG), (7, 11));
}

#[test]
fn names_before_a_fault_are_kept() {
    // a name that is cut, an id that is skipped, and bytes behind the last name
    let global = [(7, 0, None, "a".to_owned())];
    assert_eq!(listed(&module("name", b"\x07\x06\x02\x00\x01a\x01\x05\x07\x04\x01\x01\x01b")), global);
    assert_eq!(listed(&module("name", b"\x0C\x01\xFF\x07\x04\x01\x00\x01a")), global);
    assert_eq!(listed(&module("name", b"\x07\x05\x01\x00\x01a\x00\x07\x04\x01\x01\x01b")), global);
    // a later section is read, one of another name is not, and so is no section that is cut
    let cut = module("name", b"\x07\x06\x02\x00\x01a\x01\x05");
    assert_eq!(listed(&[&cut[..], &module("name", b"\x07\x04\x01\x01\x01b")[8..]].concat()), [global[0].clone(), (7, 1, None, "b".to_owned())]);
    assert_eq!(listed(&module("nome", b"\x07\x04\x01\x00\x01a")), []);
    assert_eq!(listed(&cut[..cut.len() - 1]), []);
    assert_eq!(listed(b"\0asm"), []);
}
