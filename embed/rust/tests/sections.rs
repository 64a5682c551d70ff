//! The sections of a module, and of bytes that are none.

use bobbinazure::{Section, sections};

const HEADER: &[u8] = b"\0asm\x01\0\0\0";

fn listed(body: &[u8]) -> Vec<(u32, u32, u32, u32, Option<String>)> {
    let bytes = [HEADER, body].concat();
    let row = |s: &Section<'_>| (s.id, s.start, s.contents, s.size, s.name.map(str::to_owned));
    sections(&bytes).unwrap().iter().map(row).collect()
}

#[test]
fn sections_have_their_offsets() {
    let name = |text: &str| Some(text.to_owned());
    assert_eq!(listed(b""), []);
    assert_eq!(listed(b"\x00\x83\x00\x01a\x05\x05\x03\x01\x00\x01"), [(0, 8, 11, 3, name("a")), (5, 14, 16, 3, None)]);
    // an empty name, a name that is no UTF-8, one that is cut, and a section that no module has
    assert_eq!(listed(b"\x00\x01\x00\x00\x02\x01\xFF\x00\x01\x01\x0E\x00"), [(0, 8, 10, 1, name("")), (0, 11, 13, 2, None), (0, 15, 17, 1, None), (14, 18, 20, 0, None)]);
}

#[test]
fn what_is_cut_is_left_out() {
    assert_eq!(listed(b"\x01\x00\x05\x03\x01\x00"), [(1, 8, 10, 0, None)]);
    assert_eq!(listed(b"\x01\x00\x05\x83"), [(1, 8, 10, 0, None)]);
    assert_eq!(listed(b"\x01\x00\x05\xFF\xFF\xFF\xFF\x1F"), [(1, 8, 10, 0, None)]); // a size of more than 32 bits
    assert_eq!(sections(b"\0asm"), Ok(Vec::new()));
}
