//! Where and why a module is refused.

use crate::error::Error;
use crate::rows::{BrokenRule as BrokenRuleRecord, Excess as ExcessRecord, Options, Place as PlaceRecord};
use std::fmt;

unsafe extern "C" {
    fn bobbinazure_locate(bytes: *const u8, len: usize, place: *mut PlaceRecord) -> u32;
    fn bobbinazure_locate_rule(bytes: *const u8, len: usize, broken: *mut BrokenRuleRecord) -> u32;
    fn bobbinazure_locate_excess(bytes: *const u8, len: usize, options: *const Options, excess: *mut ExcessRecord) -> u32;
}

impl Drop for PlaceRecord {
    fn drop(&mut self) {
        if self.made != 0 {
            // SAFETY: the sentence is in memory of its own, and is this record's alone.
            unsafe { self.sentence.free() };
        }
    }
}

impl Drop for BrokenRuleRecord {
    fn drop(&mut self) {
        if self.made != 0 {
            // SAFETY: the sentence is in memory of its own, and is this record's alone.
            unsafe { self.sentence.free() };
        }
    }
}

impl Drop for ExcessRecord {
    fn drop(&mut self) {
        if self.made != 0 {
            // SAFETY: the sentence is in memory of its own, and is this record's alone.
            unsafe { self.sentence.free() };
        }
    }
}

/// Where and why bytes are malformed or not supported. It displays the offset and a sentence.
///
/// ```
/// let cut = b"\0asm\x01\0\0\0\x09\x05\x01"; // an element section of five bytes, of which one is there
/// let place = bobbinazure::locate(cut)?.expect("these bytes are refused");
/// assert_eq!((place.section, place.section_start, place.byte), (Some(9), 8, 11));
/// assert_eq!(place.decided, None); // the rest of the section is missing
/// # Ok::<(), bobbinazure::Error>(())
/// ```
#[derive(Clone, Debug, PartialEq, Eq, Hash)]
pub struct Place {
    /// The id of the section; `None` in the header, and where no section has the id.
    pub section: Option<u32>,
    /// The offset of the section, which begins with its id; 0 in the header.
    pub section_start: u32,
    /// The entry of the section, from 0 on, where an entry is wrong.
    pub entry: Option<u32>,
    /// The offset of what is wrong; the length of the input where it ends inside its header or a
    /// section.
    pub byte: u32,
    /// How many bytes decide the refusal, whatever follows them; `None` where the input ends inside
    /// its header, a size or a section.
    pub decided: Option<u32>,
    /// What is wrong, from [`numbers::FAULT_HEADER`](crate::numbers::FAULT_HEADER) on.
    pub fault: u32,
    /// The section, the entry, and what is wrong, for people.
    pub sentence: String,
}

impl fmt::Display for Place {
    fn fmt(&self, f: &mut fmt::Formatter<'_>) -> fmt::Result {
        write!(f, "byte {}, {}", self.byte, self.sentence)
    }
}

/// Says where and why bytes are malformed or not supported; `None` where they are read as a module,
/// and where there are 2^30 bytes or more. It reads the bytes once more, so it is for refused
/// modules.
///
/// ```
/// let place = bobbinazure::locate(b"\0asm")?.expect("it is refused");
/// assert_eq!(place.to_string(), "byte 4, the input ends before the header of a module does");
/// assert_eq!(bobbinazure::locate(b"\0asm\x01\0\0\0")?, None);
/// # Ok::<(), bobbinazure::Error>(())
/// ```
///
/// # Errors
/// No memory.
pub fn locate(bytes: &[u8]) -> Result<Option<Place>, Error> {
    let mut record = PlaceRecord::default();
    // SAFETY: the pointers are those of borrowed values, and the record is one.
    let status = unsafe { bobbinazure_locate(bytes.as_ptr(), bytes.len(), &mut record) };
    match status {
        0 => Ok(None),
        1 => Ok(Some(place(&record))),
        _ => Err(Error::OutOfMemory),
    }
}

fn place(record: &PlaceRecord) -> Place {
    let known = |number: u32| (number != u32::MAX).then_some(number);
    Place {
        section: known(record.section),
        section_start: record.section_start,
        entry: known(record.entry),
        byte: record.byte,
        decided: known(record.decided),
        fault: record.fault,
        sentence: String::from_utf8_lossy(record.sentence.as_slice()).into_owned(),
    }
}

/// The first rule that a module breaks, where and why. It displays the offset and a sentence.
///
/// ```
/// let module = b"\0asm\x01\0\0\0\x05\x04\x01\x01\x09\x03"; // a memory of 9 pages and at most 3
/// let broken = bobbinazure::locate_rule(module)?.unwrap();
/// assert_eq!(broken.to_string(), "byte 11, memory section, entry 0: the maximum 3 is below the minimum 9");
/// # Ok::<(), bobbinazure::Error>(())
/// ```
#[derive(Clone, Debug, PartialEq, Eq, Hash)]
pub struct BrokenRule {
    /// The rule, from 1 to 10.
    pub rule: u32,
    /// The list that has the entry, from [`numbers::IN_TYPES`](crate::numbers::IN_TYPES) on.
    pub list: u32,
    /// The index of the entry in that list, from 0 on.
    pub entry: u32,
    /// The id of the section that has it: of an import, the import section.
    pub section: u32,
    /// The entry of that section, from 0 on: of a type, its group. 0 in a start or data count
    /// section.
    pub section_entry: u32,
    /// The offset at which the section's entry begins.
    pub byte: u32,
    /// The section, the entry, and what is wrong, for people.
    pub sentence: String,
}

impl fmt::Display for BrokenRule {
    fn fmt(&self, f: &mut fmt::Formatter<'_>) -> fmt::Result {
        write!(f, "byte {}, {}", self.byte, self.sentence)
    }
}

/// Says which rule a module breaks, where and why; `None` where the bytes are not read as a module,
/// and where it keeps the rules. It is for modules that were refused as invalid.
///
/// # Errors
/// No memory.
///
/// ```
/// let module = b"\0asm\x01\0\0\0\x05\x06\x02\x00\x01\x01\x03\x02"; // the second memory has a maximum below its minimum
/// let broken = bobbinazure::locate_rule(module)?.expect("it breaks a rule");
/// assert_eq!((broken.rule, broken.list, broken.entry), (4, bobbinazure::numbers::IN_MEMORIES, 1));
/// assert_eq!((broken.section, broken.section_entry, broken.byte), (5, 1, 13));
/// # Ok::<(), bobbinazure::Error>(())
/// ```
pub fn locate_rule(bytes: &[u8]) -> Result<Option<BrokenRule>, Error> {
    let mut record = BrokenRuleRecord::default();
    // SAFETY: the pointers are those of borrowed values, and the record is one.
    match unsafe { bobbinazure_locate_rule(bytes.as_ptr(), bytes.len(), &mut record) } {
        0 => Ok(None),
        1 => Ok(Some(broken_rule(&record))),
        _ => Err(Error::OutOfMemory),
    }
}

fn broken_rule(record: &BrokenRuleRecord) -> BrokenRule {
    BrokenRule {
        rule: record.rule,
        list: record.list,
        entry: record.entry,
        section: record.section,
        section_entry: record.section_entry,
        byte: record.byte,
        sentence: String::from_utf8_lossy(record.sentence.as_slice()).into_owned(),
    }
}

/// What makes a module too large to be planned, and where it is. It displays the offset, if there
/// is one, and a sentence.
#[derive(Clone, Debug, PartialEq, Eq, Hash)]
pub struct Excess {
    /// What it is, from [`numbers::EXCESS_INPUT`](crate::numbers::EXCESS_INPUT) on.
    pub kind: u32,
    /// The index of the memory, the type or the tag; `None` of the input and the context.
    pub index: Option<u32>,
    /// Which entry of which section has it; `None` of the input and the context.
    pub place: Option<EntryPlace>,
    /// What is too large, for people.
    pub sentence: String,
}

/// An entry of a section.
#[derive(Clone, Copy, Debug, PartialEq, Eq, Hash)]
pub struct EntryPlace {
    /// The id of the section: of an import, the import section.
    pub section: u32,
    /// Its index in the section, from 0 on: of a type, its group.
    pub entry: u32,
    /// The offset at which it begins.
    pub byte: u32,
}

impl fmt::Display for Excess {
    fn fmt(&self, f: &mut fmt::Formatter<'_>) -> fmt::Result {
        if let Some(place) = self.place {
            write!(f, "byte {}, ", place.byte)?;
        }
        f.write_str(&self.sentence)
    }
}

/// Says what makes a module too large to be planned with the options, and where; `None` where it is
/// not too large. It is for modules that were refused as too large, or for an offset that overflows.
/// It plans the module again.
///
/// # Errors
/// Wrong options; no memory.
///
/// ```
/// use bobbinazure::{Options, locate_excess, numbers};
/// // a memory of 65537 pages, with a byte at 0 and one at 4294967296
/// let module = b"\0asm\x01\0\0\0\x05\x05\x01\x04\x81\x80\x04\
///     \x0b\x11\x02\0\x42\0\x0b\x01\x01\0\x42\x80\x80\x80\x80\x10\x0b\x01\x01";
/// let options = Options { cow: true, max_image: 1 << 33, ..Options::default() };
/// let excess = locate_excess(module, &options)?.expect("its image is too large");
/// assert_eq!((excess.kind, excess.index), (numbers::EXCESS_IMAGE, Some(0)));
/// let place = excess.place.expect("it is that of a memory");
/// assert_eq!((place.section, place.entry, place.byte), (5, 0, 11));
/// # Ok::<(), bobbinazure::Error>(())
/// ```
pub fn locate_excess(bytes: &[u8], options: &Options) -> Result<Option<Excess>, Error> {
    let mut record = ExcessRecord::default();
    // SAFETY: the pointers are those of borrowed values, and the record is one.
    match unsafe { bobbinazure_locate_excess(bytes.as_ptr(), bytes.len(), options, &mut record) } {
        0 => Ok(None),
        1 => Ok(Some(excess(&record))),
        2 => Err(Error::WrongOptions),
        _ => Err(Error::OutOfMemory),
    }
}

fn excess(record: &ExcessRecord) -> Excess {
    let place = EntryPlace {
        section: record.section,
        entry: record.section_entry,
        byte: record.byte,
    };
    Excess {
        kind: record.kind,
        index: (record.index != u32::MAX).then_some(record.index),
        place: (record.section != u32::MAX).then_some(place),
        sentence: String::from_utf8_lossy(record.sentence.as_slice()).into_owned(),
    }
}
