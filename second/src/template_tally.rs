//! How often each answer of the functions for script templates was reached, and for which of its causes.

use crate::lent::{cause_of_room, compared};
use crate::message::{fits, read_length, LARGEST};
use crate::peer::Subject;
use crate::refusal::{number_of, Refusal};
use crate::template_cases::{objects_of, Case, NUMBER, OBJECTS};
use crate::template_generate::Cases;
use crate::templates::{first_fault, is_template, laid, read, read_tag, written, Object, Rules, IDENTIFIER, LONG_TAG, RULES};

/// Causes that must be reached.
const CAUSES: &[&str] = &[
    "fault 0 of 16",
    "fault 0 of 17",
    "fault 0 of 18",
    "fault 1 no bytes for a place, an object at fault",
    "fault 1 no bytes for a place, nothing at fault",
    "fault 1 nothing at fault",
    "fault 1 too few bytes for a place, an object at fault",
    "fault 1 too few bytes for a place, nothing at fault",
    "fault 1 too many bytes for a place, an object at fault",
    "fault 1 too many bytes for a place, nothing at fault",
    "read 0 1 objects",
    "read 0 31 objects",
    "read 0 32 objects",
    "read 0 86 of 0",
    "read 0 86 of 1",
    "read 0 86 of 126",
    "read 0 86 of 127",
    "read 0 86 of 128",
    "read 0 86 of 129",
    "read 0 86 of 252",
    "read 0 9f18",
    "read 0 a template of 0",
    "read 0 a template of 126",
    "read 0 a template of 127",
    "read 0 a template of 128",
    "read 0 a template of 129",
    "read 0 a template of 252",
    "read 0 a template of 254",
    "read 0 a template of 255",
    "read 0 levels down to 1",
    "read 0 levels down to 2",
    "read 0 levels down to 3",
    "read 0 levels down to 4",
    "read 1 no bytes for objects, an object at fault",
    "read 1 no bytes for objects, nothing at fault",
    "read 1 too few bytes for objects, an object at fault",
    "read 1 too few bytes for objects, nothing at fault",
    "read 1 too many bytes for objects, an object at fault",
    "read 1 too many bytes for objects, nothing at fault",
    "read 16 71 in 71",
    "read 16 71 in 72",
    "read 16 72 in 71",
    "read 16 72 in 72",
    "read 16 86 at the top",
    "read 16 86 in e1",
    "read 16 9f alone at the top",
    "read 16 9f alone in 71",
    "read 16 9f alone in 72",
    "read 16 9f alone in e1",
    "read 16 9f and another byte at the top",
    "read 16 9f and another byte in 71",
    "read 16 9f and another byte in 72",
    "read 16 9f and another byte in e1",
    "read 16 9f18 after 86",
    "read 16 9f18 after 9f18",
    "read 16 9f18 at the top",
    "read 16 9f18 in e1",
    "read 16 9f18 of 3",
    "read 16 9f18 of 5",
    "read 16 9f18 of another length",
    "read 16 an unknown tag at the top",
    "read 16 an unknown tag in 71",
    "read 16 an unknown tag in 72",
    "read 16 an unknown tag in e1",
    "read 16 below the fourth level",
    "read 16 e1 in 71",
    "read 16 e1 in 72",
    "read 16 length 80",
    "read 16 length 81 00",
    "read 16 length 81 7f",
    "read 16 length 81 and less than 80",
    "read 16 length 81 and no more",
    "read 16 length 82 00",
    "read 16 length 82 to ff",
    "read 16 no input",
    "read 16 no length",
    "read 16 past the 32nd",
    "read 16 past the end by 1, at the top",
    "read 16 past the end by 1, in 71",
    "read 16 past the end by 1, in 72",
    "read 16 past the end by 1, in e1",
    "read 16 past the end by more, at the top",
    "read 16 past the end by more, in 71",
    "read 16 past the end by more, in 72",
    "read 16 past the end by more, in e1",
    "read 17 71",
    "read 17 72",
    "read 17 86",
    "read 17 9f18",
    "read 17 e1",
    "read 17 past the 32nd",
    "read 18 71 at level 1",
    "read 18 71 at level 2",
    "read 18 71 at level 3",
    "read 18 71 at level 4",
    "read 18 72 at level 1",
    "read 18 72 at level 2",
    "read 18 72 at level 3",
    "read 18 72 at level 4",
    "read 18 86 at level 2",
    "read 18 86 at level 3",
    "read 18 86 at level 4",
    "read 18 9f18 at level 2",
    "read 18 9f18 at level 3",
    "read 18 9f18 at level 4",
    "read 18 e1 at level 1",
    "read 18 e1 at level 2",
    "read 18 e1 at level 3",
    "read 18 e1 at level 4",
    "write 0 1 objects",
    "write 0 31 objects",
    "write 0 32 objects",
    "write 0 86 of 0",
    "write 0 86 of 1",
    "write 0 86 of 126",
    "write 0 86 of 127",
    "write 0 86 of 128",
    "write 0 86 of 129",
    "write 0 86 of 252",
    "write 0 9f18",
    "write 0 a template of 0",
    "write 0 a template of 126",
    "write 0 a template of 127",
    "write 0 a template of 128",
    "write 0 a template of 129",
    "write 0 a template of 252",
    "write 0 a template of 254",
    "write 0 a template of 255",
    "write 0 fits exactly from 0",
    "write 0 fits exactly from a place",
    "write 0 fits with room after it from 0",
    "write 0 fits with room after it from a place",
    "write 0 levels down to 1",
    "write 0 levels down to 2",
    "write 0 levels down to 3",
    "write 0 levels down to 4",
    "write 0 what was read, written again",
    "write 1 data of 256 past the source",
    "write 1 data of more past the source",
    "write 1 data of more than 255 in the source",
    "write 1 data past the 32nd",
    "write 1 data past the source by 1",
    "write 1 data past the source by more",
    "write 1 data, else 0",
    "write 1 data, else 16",
    "write 1 data, else 17",
    "write 1 data, else 18",
    "write 1 no bytes for a size, else 0",
    "write 1 no bytes for a size, else 16",
    "write 1 no bytes for a size, else 17",
    "write 1 no bytes for a size, else 18",
    "write 1 no data past the source",
    "write 1 not whole objects",
    "write 1 too few bytes for a size, else 0",
    "write 1 too few bytes for a size, else 16",
    "write 1 too few bytes for a size, else 17",
    "write 1 too few bytes for a size, else 18",
    "write 1 too many bytes for a size, else 0",
    "write 1 too many bytes for a size, else 16",
    "write 1 too many bytes for a size, else 17",
    "write 1 too many bytes for a size, else 18",
    "write 3 at the end",
    "write 3 bytes too few",
    "write 3 one byte too few",
    "write 3 past the end",
    "write 3 the sum does not fit",
    "write 16 71 in 71",
    "write 16 71 in 72",
    "write 16 72 in 71",
    "write 16 72 in 72",
    "write 16 86 at the top",
    "write 16 86 in e1",
    "write 16 9f and another byte at the top",
    "write 16 9f and another byte in 71",
    "write 16 9f and another byte in 72",
    "write 16 9f and another byte in e1",
    "write 16 9f18 after 86",
    "write 16 9f18 after 9f18",
    "write 16 9f18 at the top",
    "write 16 9f18 in e1",
    "write 16 9f18 of 3",
    "write 16 9f18 of 5",
    "write 16 9f18 of another length",
    "write 16 a template of 256",
    "write 16 a template of more",
    "write 16 a template too long, and none in it",
    "write 16 a template too long, and one in it",
    "write 16 a template too long, else 0",
    "write 16 a template too long, else 16",
    "write 16 a template too long, else 17",
    "write 16 a template too long, else 18",
    "write 16 a template too long, objects below the fourth level in it",
    "write 16 a template too long, objects of an unknown tag in it",
    "write 16 a template too long, objects past the 32nd in it",
    "write 16 an unknown tag at the top",
    "write 16 an unknown tag in 71",
    "write 16 an unknown tag in 72",
    "write 16 an unknown tag in e1",
    "write 16 below the fourth level",
    "write 16 e1 in 71",
    "write 16 e1 in 72",
    "write 16 level 0",
    "write 16 no objects",
    "write 16 past the 32nd",
    "write 16 the first below level 1",
    "write 16 too deep after 71",
    "write 16 too deep after 72",
    "write 16 too deep after 86",
    "write 16 too deep after 9f18",
    "write 16 too deep after e1",
    "write 17 71",
    "write 17 72",
    "write 17 86",
    "write 17 9f18",
    "write 17 e1",
    "write 17 in a template of 255",
    "write 17 past the 32nd",
    "write 18 71 at level 1",
    "write 18 71 at level 2",
    "write 18 71 at level 3",
    "write 18 71 at level 4",
    "write 18 72 at level 1",
    "write 18 72 at level 2",
    "write 18 72 at level 3",
    "write 18 72 at level 4",
    "write 18 86 at level 2",
    "write 18 86 at level 3",
    "write 18 86 at level 4",
    "write 18 9f18 at level 2",
    "write 18 9f18 at level 3",
    "write 18 9f18 at level 4",
    "write 18 e1 at level 1",
    "write 18 e1 at level 2",
    "write 18 e1 at level 3",
    "write 18 e1 at level 4",
    "write 18 in a template of 255",
];

/// The three functions, for the comparison.
pub struct Templates;

impl Subject for Templates {
    const NAME: &'static str = "templates";
    const CAUSES: &'static [&'static str] = CAUSES;
    type Case = Case;
    type Cases = Cases;

    fn cases(seed: u64) -> Cases {
        Cases::new(seed)
    }

    fn line(case: &Case) -> String {
        case.line()
    }

    fn answer(case: &Case) -> (String, Vec<String>) {
        (case.answer(None), causes(case))
    }
}

/// Lengths whose accepted objects are counted: the edges of their forms.
const EDGES: [u16; 9] = [0, 1, 126, 127, 128, 129, 252, 254, 255];

fn causes(case: &Case) -> Vec<String> {
    match case {
        Case::Read { input, objects, place } => {
            let reading = read(input, &RULES);
            let number = reading.fault.map_or(0, |(refusal, _)| refusal.number());
            let fault = if number == 0 { "nothing at fault" } else { "an object at fault" };
            let mut causes = vec![];
            if *objects != OBJECTS {
                causes.push(format!("read 1 {} bytes for objects, {fault}", compared(*objects, OBJECTS)));
            }
            match (*place, number) {
                (NUMBER, 0) => causes.push(format!("fault 1 {fault}")),
                (NUMBER, _) => causes.push(format!("fault 0 of {number}")),
                _ => causes.push(format!("fault 1 {} bytes for a place, {fault}", compared(*place, NUMBER))),
            }
            let what = match reading.fault {
                None => causes_of_good(&reading.objects),
                Some((refusal, place)) => causes_of_fault(input, &reading.objects, refusal, place),
            };
            causes.extend(what.into_iter().map(|cause| format!("read {number} {cause}")));
            causes
        }
        Case::Write { objects, source, buffer, place, size } => {
            let what =
                |number: u8, causes: Vec<String>| -> Vec<String> { causes.into_iter().map(|cause| format!("write {number} {cause}")).collect() };
            let objects = match objects_of(objects) {
                None => return what(1, vec!["not whole objects".to_string()]),
                Some(objects) => objects,
            };
            let answer = written(&objects, source, &RULES);
            if *size != NUMBER {
                return what(1, vec![format!("{} bytes for a size, else {}", compared(*size, NUMBER), number_of(&answer))]);
            }
            match answer {
                Err(refusal) => what(refusal.number(), causes_of_refused(&objects, source, refusal)),
                Ok(bytes) => {
                    let room = cause_of_room(bytes.len(), *buffer, *place);
                    if !fits(bytes.len(), *buffer, *place) {
                        return what(3, vec![room]);
                    }
                    let mut causes = causes_of_good(&read(&bytes, &RULES).objects);
                    causes.push(room);
                    if *source == bytes && read(source, &RULES).objects == objects {
                        causes.push("what was read, written again".to_string());
                    }
                    what(0, causes)
                }
            }
        }
    }
}

fn name(tag: u16) -> String {
    match tag {
        _ if is_template(tag) || tag == 0x86 || tag == IDENTIFIER => format!("{tag:02x}"),
        _ if tag >> 8 == LONG_TAG.into() => "9f and another byte".to_string(),
        _ => "an unknown tag".to_string(),
    }
}

fn causes_of_good(objects: &[Object]) -> Vec<String> {
    let deepest = objects.iter().map(|object| object.level).max().expect("an object");
    let mut causes = vec![format!("levels down to {deepest}")];
    if [1, 31, 32].contains(&objects.len()) {
        causes.push(format!("{} objects", objects.len()));
    }
    for object in objects.iter().filter(|object| EDGES.contains(&object.length)) {
        let what = if object.is_data() { "86" } else { "a template" };
        causes.push(format!("{what} of {}", object.length));
    }
    if objects.iter().any(|object| object.tag == IDENTIFIER) {
        causes.push("9f18".to_string());
    }
    causes.sort();
    causes.dedup();
    causes
}

/// What holds an object of this level after those before it, and how many stand there already.
fn holder_of(before: &[Object], level: u16) -> (Option<Object>, Vec<Object>) {
    let from = before.iter().rposition(|object| object.level + 1 == level);
    let held = before[from.map_or(0, |i| i + 1)..].iter().filter(|object| object.level == level).copied().collect();
    (from.map(|i| before[i]), held)
}

/// Where an object stands.
fn where_in(holder: Option<Object>) -> String {
    holder.map_or("at the top".to_string(), |holder| format!("in {:02x}", holder.tag))
}

/// Why a tag is out of place, if it is.
fn cause_of_tag(tag: u16, holder: Option<Object>, held: &[Object]) -> Option<String> {
    let script = holder.map_or(false, |holder| holder.tag != 0xe1);
    match tag {
        IDENTIFIER if script && held.is_empty() => None,
        IDENTIFIER if script => Some(format!("9f18 after {:02x}", held[held.len() - 1].tag)),
        0x86 if script => None,
        _ if is_template(tag) && !script => None,
        _ => Some(format!("{} {}", name(tag), where_in(holder))),
    }
}

fn cause_of_identifier(tag: u16, length: usize) -> Option<String> {
    match length {
        _ if tag != IDENTIFIER => None,
        4 => None,
        3 | 5 => Some(format!("9f18 of {length}")),
        _ => Some("9f18 of another length".to_string()),
    }
}

/// What else is wrong with an object, by its level and by how many came before it; it is 18 for that alone.
fn add_lesser(causes: &mut Vec<String>, refusal: Refusal, level: usize, before: usize) {
    if refusal == Refusal::BadObject && level > RULES.levels {
        causes.push("below the fourth level".to_string());
    }
    if refusal != Refusal::TooMany && before >= RULES.objects {
        causes.push("past the 32nd".to_string());
    }
}

fn causes_of_fault(input: &[u8], objects: &[Object], refusal: Refusal, place: usize) -> Vec<String> {
    // the innermost template that the place lies in
    let inside = |object: &Object| !object.is_data() && (object.place as usize..object.place as usize + usize::from(object.length)).contains(&place);
    let level = objects.iter().rev().find(|object| inside(object)).map_or(1, |object| object.level + 1);
    let (holder, held) = holder_of(objects, level);
    let end = holder.map_or(input.len(), |holder| holder.place as usize + usize::from(holder.length));
    let tag = read_tag(&input[place..end]);
    let mut causes = vec![match (refusal, tag) {
        (Refusal::TooDeep, Some((tag, _))) => name(tag),
        (Refusal::TooMany, Some((tag, _))) => format!("{} at level {level}", name(tag)),
        (_, None) if input.is_empty() => "no input".to_string(),
        (_, None) => format!("9f alone {}", where_in(holder)),
        (_, Some((tag, size))) => cause_of_tag(tag, holder, &held).unwrap_or_else(|| cause_of_length(tag, &input[place + size..end], holder)),
    }];
    add_lesser(&mut causes, refusal, level.into(), objects.len());
    causes
}

fn cause_of_length(tag: u16, bytes: &[u8], holder: Option<Object>) -> String {
    match (read_length(bytes), bytes) {
        (Some((length, field)), _) => cause_of_identifier(tag, length).unwrap_or_else(|| {
            let by = if bytes.len() + 1 == field + length { "by 1" } else { "by more" };
            format!("past the end {by}, {}", where_in(holder))
        }),
        (None, []) => "no length".to_string(),
        (None, [0x81]) => "length 81 and no more".to_string(),
        (None, [0x81, 0x00, ..]) => "length 81 00".to_string(),
        (None, [0x81, 0x7f, ..]) => "length 81 7f".to_string(),
        (None, [0x81, ..]) => "length 81 and less than 80".to_string(),
        (None, [0x80, ..]) => "length 80".to_string(),
        (None, [0x82, 0x00, ..]) => "length 82 00".to_string(),
        _ => "length 82 to ff".to_string(),
    }
}

fn causes_of_refused(objects: &[Object], source: &[u8], refusal: Refusal) -> Vec<String> {
    let lengths = match laid(objects, source) {
        Ok((_, lengths)) => lengths,
        Err(_) => return causes_of_data(objects, source),
    };
    let (i, _) = match first_fault(objects, &lengths, &RULES) {
        Some(fault) => fault,
        None => return vec!["no objects".to_string()],
    };
    let object = objects[i];
    let (holder, held) = holder_of(&objects[..i], object.level);
    let level = i > 0 && object.level <= objects[i - 1].level + u16::from(!objects[i - 1].is_data());
    let mut causes = vec![match refusal {
        Refusal::TooDeep => name(object.tag),
        Refusal::TooMany => format!("{} at level {}", name(object.tag), object.level),
        _ if object.level == 0 => "level 0".to_string(),
        _ if i == 0 && object.level > 1 => "the first below level 1".to_string(),
        _ if i > 0 && !level => format!("too deep after {}", name(objects[i - 1].tag)),
        _ => cause_of_tag(object.tag, holder, &held)
            .or_else(|| cause_of_identifier(object.tag, lengths[i]))
            .unwrap_or_else(|| format!("a template of {}", if lengths[i] == LARGEST + 1 { "256" } else { "more" })),
    }];
    if refusal == Refusal::BadObject && lengths[i] > LARGEST && causes[0].starts_with("a template") {
        let inside = || objects[i + 1..].iter().enumerate().take_while(|(_, inside)| inside.level > object.level);
        let first = lengths[i + 1..].iter().take(inside().count()).all(|&length| length <= LARGEST);
        causes.push(format!("a template too long, {}", if first { "and none in it" } else { "and one in it" }));
        let rest = first_fault(objects, &lengths, &Rules { largest: usize::MAX, ..RULES });
        causes.push(format!("a template too long, else {}", rest.map_or(0, |(_, refusal)| refusal.number())));
        for (what, found) in [
            ("past the 32nd", inside().any(|(j, _)| i + 1 + j >= RULES.objects)),
            ("below the fourth level", inside().any(|(_, inside)| usize::from(inside.level) > RULES.levels)),
            ("of an unknown tag", inside().any(|(_, inside)| !inside.is_data() && !is_template(inside.tag))),
        ] {
            if found {
                causes.push(format!("a template too long, objects {what} in it"));
            }
        }
    }
    if refusal != Refusal::BadObject && lengths[0] == LARGEST {
        causes.push("in a template of 255".to_string());
    }
    add_lesser(&mut causes, refusal, object.level.into(), i);
    causes
}

/// Data outside the source, or too many.
fn causes_of_data(objects: &[Object], source: &[u8]) -> Vec<String> {
    let mut causes = vec![];
    for (i, object) in objects.iter().enumerate().filter(|(_, object)| object.is_data()) {
        let (end, length) = (u64::from(object.place) + u64::from(object.length), object.length);
        let outside = end.checked_sub(source.len() as u64).filter(|&past| past > 0);
        match (outside, length) {
            (None, 0..=255) => continue,
            (Some(_), 0) => causes.push("no data past the source".to_string()),
            (Some(1), 1..=255) => causes.push("data past the source by 1".to_string()),
            (Some(_), 1..=255) => causes.push("data past the source by more".to_string()),
            (None, _) => causes.push("data of more than 255 in the source".to_string()),
            (Some(_), 256) => causes.push("data of 256 past the source".to_string()),
            _ => causes.push("data of more past the source".to_string()),
        }
        if i >= RULES.objects {
            causes.push("data past the 32nd".to_string());
        }
    }
    // whatever else is wrong
    let mended: Vec<Object> =
        objects.iter().map(|object| Object { length: if object.tag == IDENTIFIER { 4 } else { 0 }, place: 0, ..*object }).collect();
    causes.push(format!("data, else {}", number_of(&written(&mended, &[0; 4], &RULES))));
    causes
}
