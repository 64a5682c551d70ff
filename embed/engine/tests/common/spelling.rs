//! Spells modules in the binary format (core specification, 5).

/// The header of a module.
pub const HEADER: &[u8] = b"\0asm\x01\0\0\0";

/// A number without sign.
pub fn unsigned(mut number: u64) -> Vec<u8> {
    let mut bytes = Vec::new();
    while number >= 0x80 {
        bytes.push(number as u8 | 0x80);
        number >>= 7;
    }
    bytes.push(number as u8);
    bytes
}

/// A number with a sign.
pub fn signed(mut number: i64) -> Vec<u8> {
    let mut bytes = Vec::new();
    while !(-0x40..0x40).contains(&number) {
        bytes.push(number as u8 | 0x80);
        number >>= 7;
    }
    bytes.push(number as u8 & 0x7F);
    bytes
}

/// Bytes behind their number.
pub fn sized(bytes: &[u8]) -> Vec<u8> {
    [unsigned(bytes.len() as u64).as_slice(), bytes].concat()
}

/// Items behind their number.
pub fn vector(items: &[Vec<u8>]) -> Vec<u8> {
    [unsigned(items.len() as u64), items.concat()].concat()
}

/// A section of these items, or nothing where there are none.
pub fn section(id: u8, items: &[Vec<u8>]) -> Vec<u8> {
    if items.is_empty() { Vec::new() } else { [vec![id], sized(&vector(items))].concat() }
}

/// The expression `i32.const`.
pub fn constant(number: i64) -> Vec<u8> {
    [vec![0x41], signed(number), vec![0x0B]].concat()
}

/// Limits.
pub fn limits(least: u64, most: Option<u64>) -> Vec<u8> {
    let behind = most.map(unsigned).unwrap_or_default();
    [vec![u8::from(most.is_some())], unsigned(least), behind].concat()
}

/// A module of these sections.
pub fn module(sections: &[Vec<u8>]) -> Vec<u8> {
    [HEADER, &sections.concat()].concat()
}

/// An active data segment of the first memory at an expression.
pub fn data(offset: &[u8], bytes: &[u8]) -> Vec<u8> {
    [vec![0], offset.to_vec(), sized(bytes)].concat()
}

/// An active element segment of the first table at an expression.
pub fn elements(offset: &[u8], functions: &[u64]) -> Vec<u8> {
    let functions: Vec<Vec<u8>> = functions.iter().map(|function| unsigned(*function)).collect();
    [vec![0], offset.to_vec(), vector(&functions)].concat()
}

/// An import of a kind, with its type.
pub fn import(module: &str, name: &str, kind: u8, what: &[u8]) -> Vec<u8> {
    [sized(module.as_bytes()), sized(name.as_bytes()), vec![kind], what.to_vec()].concat()
}

/// An export.
pub fn export(name: &str, kind: u8, index: u64) -> Vec<u8> {
    [sized(name.as_bytes()), vec![kind], unsigned(index)].concat()
}

/// A module whose one memory begins as this many bytes, none of them zero, at address 0.
pub fn with_image(bytes: usize) -> Vec<u8> {
    let contents: Vec<u8> =
        (0..bytes as u32).map(|at| (at.wrapping_mul(0x9E37_79B1) >> 24) as u8 | 1).collect();
    let pages = (bytes as u64).div_ceil(65536) + 1;
    module(&[
        section(5, &[limits(pages, None)]),
        section(7, &[export("memory", 2, 0)]),
        section(11, &[data(&constant(0), &contents)]),
    ])
}
