//! Calls of the library's three functions for script templates, one a line, and the lines that answer them; tests/templates.c answers them too.
//!
//!     read INPUT OBJECTS PLACE              box_read_templates and box_templates_fault; the lengths of their outputs
//!     write OBJECTS SOURCE BUFFER PLACE SIZE     box_write_templates; the lengths of buffer and size
//!
//! A string is digits, `-` where it is empty; a number is hexadecimal. The byte i of every lent output is 29 i + 11 before the call. An answer is
//! `NUMBER OBJECTS NUMBER PLACE` or `NUMBER SIZE BUFFER`: the bytes after the call, `=` where they are as before; of objects without the zeros at
//! their end.

use crate::lent::{lent, word_after};
use crate::message::lay;
use crate::octets::{bytes_of, word_of};
use crate::refusal::{number_of, Refusal};
use crate::template_slips::Slip;
use crate::templates::{read, written, Object, Reading, RULES};

/// The room for the objects that are read, for a place and for a size.
pub const OBJECTS: usize = 32 * Object::SIZE;
pub const NUMBER: usize = 4;

#[derive(Clone, Debug, PartialEq, Eq)]
pub enum Case {
    Read { input: Vec<u8>, objects: usize, place: usize },
    Write { objects: Vec<u8>, source: Vec<u8>, buffer: usize, place: u64, size: usize },
}

fn word_after_objects(after: &[u8]) -> String {
    let last = after.chunks(Object::SIZE).rposition(|object| object.iter().any(|&byte| byte != 0));
    let end = last.map_or(0, |i| after.len().min((i + 1) * Object::SIZE));
    if end == after.len() {
        word_after(after)
    } else {
        word_of(&after[..end])
    }
}

/// The objects of bytes; none where they are not whole ones.
pub fn objects_of(bytes: &[u8]) -> Option<Vec<Object>> {
    let objects = bytes.chunks_exact(Object::SIZE);
    if !objects.remainder().is_empty() {
        return None;
    }
    Some(objects.map(|object| Object::from_bytes(object.try_into().expect("ten bytes"))).collect())
}

impl Case {
    pub fn line(&self) -> String {
        match self {
            Case::Read { input, objects, place } => format!("read {} {objects:x} {place:x}", word_of(input)),
            Case::Write { objects, source, buffer, place, size } => {
                format!("write {} {} {buffer:x} {place:x} {size:x}", word_of(objects), word_of(source))
            }
        }
    }

    pub fn of_line(line: &str) -> Option<Case> {
        let words: Vec<&str> = line.split(' ').collect();
        let number = |word: &str| u64::from_str_radix(word, 16).ok();
        let length = |word: &str| usize::try_from(number(word)?).ok();
        match words[..] {
            ["read", input, objects, place] => Some(Case::Read { input: bytes_of(input)?, objects: length(objects)?, place: length(place)? }),
            ["write", objects, source, buffer, place, size] => Some(Case::Write {
                objects: bytes_of(objects)?,
                source: bytes_of(source)?,
                buffer: length(buffer)?,
                place: number(place)?,
                size: length(size)?,
            }),
            _ => None,
        }
    }

    /// The line that answers, by the rules or with a slip.
    pub fn answer(&self, slip: Option<Slip>) -> String {
        match self {
            Case::Read { input, objects, place } => {
                let mut reading = read(input, &slip.map_or(RULES, Slip::rules));
                if let Some(slip) = slip {
                    slip.misplace(&mut reading);
                }
                let (number, objects) = objects_answer(&reading, *objects);
                let (fault, place) = fault_answer(&reading, *place);
                format!("{number} {} {fault} {}", word_after_objects(&objects), word_after(&place))
            }
            Case::Write { objects, source, buffer, place, size } => {
                let mut buffer = lent(*buffer);
                let written = match objects_of(objects) {
                    Some(objects) if *size == NUMBER => slip.map_or_else(|| written(&objects, source, &RULES), |slip| slip.written(&objects, source)),
                    _ => Err(Refusal::Input),
                };
                let laid = written.and_then(|bytes| {
                    let laid = lay(&bytes, &mut buffer, *place);
                    if let (Err(_), Some(slip)) = (laid, slip) {
                        slip.spill(&bytes, &mut buffer, *place);
                    }
                    laid.map(|()| bytes.len())
                });
                let size = laid.map_or(lent(*size), |length| (length as u32).to_be_bytes().to_vec());
                format!("{} {} {}", number_of(&laid), word_after(&size), word_after(&buffer))
            }
        }
    }
}

/// What box_read_templates answers, and what it leaves.
fn objects_answer(reading: &Reading, room: usize) -> (u8, Vec<u8>) {
    match reading.fault {
        _ if room != OBJECTS => (Refusal::Input.number(), lent(room)),
        Some((refusal, _)) => (refusal.number(), lent(room)),
        None => {
            let mut objects: Vec<u8> = reading.objects.iter().flat_map(|object| object.to_bytes()).collect();
            objects.resize(objects.len().max(room), 0);
            (0, objects)
        }
    }
}

/// What box_templates_fault answers, and what it leaves.
fn fault_answer(reading: &Reading, room: usize) -> (u8, Vec<u8>) {
    match reading.fault {
        Some((_, place)) if room == NUMBER => (0, (place as u32).to_be_bytes().to_vec()),
        _ => (Refusal::Input.number(), lent(room)),
    }
}

#[cfg(test)]
mod tests {
    use super::*;
    use crate::template_generate::Cases;

    #[test]
    fn lines_are_read_as_written() {
        let mut cases = Cases::new(1);
        for _ in 0..5000 {
            let case = cases.case();
            assert_eq!(Case::of_line(&case.line()), Some(case));
        }
    }

    #[test]
    fn answers() {
        let answer = |line: &str| Case::of_line(line).expect("a case").answer(None);
        assert_eq!(answer("read 7100 140 4"), "0 00710001000000000002 1 =");
        assert_eq!(answer("read 7100 13f 4"), "1 = 1 =");
        assert_eq!(answer("read 71008600 140 4"), "16 = 0 00000002");
        assert_eq!(answer("read 71008600 0 3"), "1 = 1 =");
        assert_eq!(answer("write 00710001ffffffffffff - 4 1 4"), "0 00000002 0b710062");
        assert_eq!(answer("write 00710001ffffffffffff - 2 1 4"), "3 = =");
        assert_eq!(answer("write 00710001ffffffffffff - 4 1 3"), "1 = =");
        assert_eq!(answer("write - - 4 1 4"), "16 = =");
    }

    /// What was read is written again as the same bytes, and what was written is read as the same objects.
    #[test]
    fn both_ways() {
        let mut cases = Cases::new(2);
        let (mut reads, mut writes) = (0, 0);
        for _ in 0..50000 {
            match cases.case() {
                Case::Read { input, .. } => {
                    let reading = read(&input, &RULES);
                    if reading.fault.is_none() {
                        assert_eq!(written(&reading.objects, &input, &RULES), Ok(input));
                        reads += 1;
                    }
                }
                Case::Write { objects, source, .. } => {
                    let objects = objects_of(&objects).unwrap_or_default();
                    if let Ok(bytes) = written(&objects, &source, &RULES) {
                        let reading = read(&bytes, &RULES);
                        let same = |(a, b): (&Object, &Object)| {
                            let data = |object: &Object, from: &[u8]| from[object.place as usize..][..object.length.into()].to_vec();
                            (a.tag, a.level) == (b.tag, b.level) && (!a.is_data() || data(a, &source) == data(b, &bytes))
                        };
                        assert!(reading.fault.is_none() && reading.objects.len() == objects.len());
                        assert!(objects.iter().zip(&reading.objects).all(same));
                        writes += 1;
                    }
                }
            }
        }
        assert!(reads > 5000 && writes > 5000, "{reads} {writes}");
    }
}
