//! Script templates (Wish 6): tagged objects read from bytes, and written as bytes.
//!
//! At the top stand one or more of 71, 72 and e1; in e1 any number of those; in 71 and 72 an identifier (9f18, 4 bytes) at most once and first, then
//! any number of commands (86). Lengths are those of script messages. There are four levels, counted from 1, and 32 objects at most.
//!
//! The reader goes on from byte to byte and keeps the ends of the templates that are open. The writer lays the last object first, so that it knows
//! what a template holds when it comes to it.

use crate::message::{length_field, read_length, LARGEST};
use crate::refusal::Refusal;

pub const BEFORE: u16 = 0x71;
pub const AFTER: u16 = 0x72;
pub const OUTER: u16 = 0xe1;
pub const COMMAND: u16 = 0x86;
pub const IDENTIFIER: u16 = 0x9f18;
/// The first byte of a tag of two.
pub const LONG_TAG: u8 = 0x9f;

/// An object, with the place of its data in the input or the source, and their length.
#[derive(Clone, Copy, Debug, PartialEq, Eq)]
pub struct Object {
    pub tag: u16,
    pub level: u16,
    pub length: u16,
    pub place: u32,
}

impl Object {
    /// As the library for C has it.
    pub const SIZE: usize = 10;

    pub fn to_bytes(self) -> Vec<u8> {
        [&self.tag.to_be_bytes()[..], &self.level.to_be_bytes(), &self.length.to_be_bytes(), &self.place.to_be_bytes()].concat()
    }

    pub fn from_bytes(bytes: [u8; Object::SIZE]) -> Object {
        let two = |i: usize| u16::from_be_bytes([bytes[i], bytes[i + 1]]);
        Object { tag: two(0), level: two(2), length: two(4), place: u32::from(two(6)) << 16 | u32::from(two(8)) }
    }

    /// Not a template, nor what counts as one.
    pub fn is_data(self) -> bool {
        self.tag == COMMAND || self.tag == IDENTIFIER
    }

    /// The data in the source, if they lie there and are not above 255 bytes.
    fn data(self, source: &[u8]) -> Option<&[u8]> {
        source.get(usize::try_from(self.place).ok()?..)?.get(..self.length.into()).filter(|data| data.len() <= LARGEST)
    }
}

pub fn is_template(tag: u16) -> bool {
    [BEFORE, AFTER, OUTER].contains(&tag)
}

/// What the wish fixes. `RULES` are its own; a slip has others.
#[derive(Clone, Copy)]
pub struct Rules {
    pub levels: usize,
    pub objects: usize,
    /// How many objects may stand ahead of an identifier in its template, and how many bytes it has.
    pub ahead: usize,
    pub identifier: usize,
    /// The length that bytes start with, and the size of its field.
    pub read_length: fn(&[u8]) -> Option<(usize, usize)>,
    /// An object ends in its holder, and not only in the input.
    pub ends_in_holder: bool,
    /// Most bytes that a template holds.
    pub largest: usize,
    /// The order of refusals at one object.
    pub order: [Refusal; 3],
}

pub const RULES: Rules = Rules {
    levels: 4,
    objects: 32,
    ahead: 0,
    identifier: 4,
    read_length,
    ends_in_holder: true,
    largest: LARGEST,
    order: [Refusal::BadObject, Refusal::TooDeep, Refusal::TooMany],
};

impl Rules {
    /// The refusal of an object, the first in order: whether it is bad, its level, and how many came before it.
    fn refusal(&self, bad: bool, level: usize, before: usize) -> Option<Refusal> {
        self.order.into_iter().find(|refusal| match refusal {
            Refusal::BadObject => bad,
            Refusal::TooDeep => level > self.levels,
            _ => before >= self.objects,
        })
    }

    /// Whether an object of this tag may stand in a template, or at the top, after so many others there.
    fn in_place(&self, tag: u16, holder: Option<u16>, held: usize) -> bool {
        match holder {
            None | Some(OUTER) => is_template(tag),
            Some(_) => tag == COMMAND || tag == IDENTIFIER && held <= self.ahead,
        }
    }

    fn length_fits(&self, tag: u16, length: usize) -> bool {
        tag != IDENTIFIER || length == self.identifier
    }
}

/// A template that is open, or the whole input: what it is, where it ends, and how many objects stand in it so far.
struct Holder {
    tag: Option<u16>,
    end: usize,
    held: usize,
}

/// The objects in order, up to the first at fault, its refusal and its place.
#[derive(Debug, PartialEq, Eq)]
pub struct Reading {
    pub objects: Vec<Object>,
    pub fault: Option<(Refusal, usize)>,
}

/// The tag that bytes start with, and its size.
pub fn read_tag(bytes: &[u8]) -> Option<(u16, usize)> {
    match *bytes {
        [LONG_TAG, second, ..] => Some((u16::from_be_bytes([LONG_TAG, second]), 2)),
        [LONG_TAG] | [] => None,
        [first, ..] => Some((first.into(), 1)),
    }
}

/// The object that begins at this byte, unless it is bad.
fn object_at(input: &[u8], at: usize, holder: &Holder, level: usize, rules: &Rules) -> Option<Object> {
    let end = if rules.ends_in_holder { holder.end } else { input.len() };
    let (tag, tag_size) = read_tag(&input[at..end])?;
    let (length, field) = (rules.read_length)(&input[at + tag_size..end])?;
    let place = at + tag_size + field;
    let good = rules.in_place(tag, holder.tag, holder.held) && rules.length_fits(tag, length) && place + length <= end;
    good.then_some(Object { tag, level: level as u16, length: length as u16, place: place as u32 })
}

pub fn read(input: &[u8], rules: &Rules) -> Reading {
    let mut objects: Vec<Object> = vec![];
    let mut open = vec![Holder { tag: None, end: input.len(), held: 0 }];
    let mut at = 0;
    while at < input.len() || objects.is_empty() {
        while open.len() > 1 && open[open.len() - 1].end <= at {
            open.pop();
        }
        let level = open.len();
        let holder = &mut open[level - 1];
        let found = object_at(input, at, holder, level, rules);
        if let Some(refusal) = rules.refusal(found.is_none(), level, objects.len()) {
            return Reading { objects, fault: Some((refusal, at)) };
        }
        let object = found.expect("a good object");
        holder.held += 1;
        at = object.place as usize;
        if object.is_data() {
            at += usize::from(object.length);
        } else {
            open.push(Holder { tag: Some(object.tag), end: at + usize::from(object.length), held: 0 });
        }
        objects.push(object);
    }
    Reading { objects, fault: None }
}

/// The bytes of all objects, and for each the length that it says. What comes after an object at a deeper level is in it; what is no data holds that,
/// whatever its tag. A length above 255 has no field: such bytes are never handed out. Data outside the source, or above 255 bytes, are 1.
pub fn laid(objects: &[Object], source: &[u8]) -> Result<(Vec<u8>, Vec<usize>), Refusal> {
    let mut backwards = vec![];
    let mut lengths = vec![];
    // level and size of what is laid and in nothing else that is laid, the last object first
    let mut after: Vec<(u16, usize)> = vec![];
    for object in objects.iter().rev() {
        let mut size = 0;
        while after.last().map_or(false, |&(level, _)| level > object.level) {
            size += after.pop().expect("the last").1;
        }
        let data = if object.is_data() { object.data(source).ok_or(Refusal::Input)? } else { &[] };
        let length = if object.is_data() { data.len() } else { size };
        let tag = object.tag.to_be_bytes();
        let tag = if object.tag == IDENTIFIER { &tag[..] } else { &tag[1..] };
        let own = [tag, &length_field(length).unwrap_or_default(), data].concat();
        backwards.extend(own.iter().rev());
        lengths.push(length);
        after.push((object.level, size + own.len()));
    }
    backwards.reverse();
    lengths.reverse();
    Ok((backwards, lengths))
}

/// The first object at fault and its refusal, by the lengths that they say.
pub fn first_fault(objects: &[Object], lengths: &[usize], rules: &Rules) -> Option<(usize, Refusal)> {
    // the templates that are open, and how many objects stand in each
    let mut open: Vec<(u16, usize)> = vec![];
    for (i, (object, &length)) in objects.iter().zip(lengths).enumerate() {
        let level = usize::from(object.level);
        let nested = (1..=open.len() + 1).contains(&level);
        open.truncate(level.saturating_sub(1));
        let (holder, held) = open.last().map_or((None, 0), |&(tag, held)| (Some(tag), held));
        let good = nested && rules.in_place(object.tag, holder, held) && rules.length_fits(object.tag, length) && length <= rules.largest;
        if let Some(refusal) = rules.refusal(!good, level, i) {
            return Some((i, refusal));
        }
        if let Some((_, held)) = open.last_mut() {
            *held += 1;
        }
        if !object.is_data() {
            open.push((object.tag, 0));
        }
    }
    None
}

/// The bytes of objects: 1 for any data, then the refusal of the first at fault, 16 where there is none.
pub fn written(objects: &[Object], source: &[u8], rules: &Rules) -> Result<Vec<u8>, Refusal> {
    let (bytes, lengths) = laid(objects, source)?;
    match first_fault(objects, &lengths, rules) {
        Some((_, refusal)) => Err(refusal),
        None if objects.is_empty() => Err(Refusal::BadObject),
        None => Ok(bytes),
    }
}

#[cfg(test)]
mod tests {
    use super::*;
    use crate::octets::from_hex;
    use crate::random::Random;

    fn bytes(digits: &str) -> Vec<u8> {
        from_hex(digits.replace(' ', "").as_bytes()).expect("digits")
    }

    fn object(tag: u16, level: u16, place: u32, length: u16) -> Object {
        Object { tag, level, length, place }
    }

    fn fault(digits: &str) -> Option<(u8, usize)> {
        read(&bytes(digits), &RULES).fault.map(|(refusal, place)| (refusal.number(), place))
    }

    #[test]
    fn objects_in_order() {
        let input = bytes("e1 10 71 0c 9f18 04 01020304 86 01 aa 86 00 72 00 72 00");
        let wanted = vec![
            object(OUTER, 1, 2, 16),
            object(BEFORE, 2, 4, 12),
            object(IDENTIFIER, 3, 7, 4),
            object(COMMAND, 3, 13, 1),
            object(COMMAND, 3, 16, 0),
            object(AFTER, 2, 18, 0),
            object(AFTER, 1, 20, 0),
        ];
        assert_eq!(read(&input, &RULES), Reading { objects: wanted.clone(), fault: None });
        assert_eq!(written(&wanted, &input, &RULES), Ok(input));
    }

    #[test]
    fn bad_objects() {
        for (input, place) in [
            ("", 0),
            ("86 00", 0),
            ("9f18 04 01020304", 0),
            ("70 00", 0),
            ("9f", 0),
            ("71", 0),
            ("71 01", 0),
            ("71 00 71 80", 2),
            ("71 81 00", 0),
            ("71 82 00 00", 0),
            ("e1 02 86 00", 2),
            ("71 02 71 00", 2),
            ("71 02 e1 00", 2),
            ("71 01 9f", 2),
            ("71 02 9f 18", 2),
            ("71 01 9f 18 04 01020304", 2),
            ("71 03 9f 17 00", 2),
            ("71 06 9f18 03 010203", 2),
            ("71 08 9f18 05 0102030405", 2),
            ("71 09 86 00 9f18 04 01020304", 4),
            ("71 0e 9f18 04 01020304 9f18 04 01020304", 9),
            ("71 02 86 01 72 00", 2),
            ("e1 02 71 01 00", 2),
        ] {
            assert_eq!(fault(input), Some((16, place)), "{input}");
        }
    }

    /// The first at fault in byte order, and at one object 16, 17, 18.
    #[test]
    fn levels_and_counts() {
        assert_eq!(fault("e1 06 e1 04 e1 02 71 00"), None);
        assert_eq!(fault("e1 08 e1 06 e1 04 71 02 86 00"), Some((17, 8)));
        assert_eq!(fault("e1 08 e1 06 e1 04 71 02 86 01"), Some((16, 8)));
        assert_eq!(fault("e1 08 e1 06 e1 04 e1 02 86 00"), Some((16, 8)));
        let many = |count: usize| "71 00".repeat(count);
        assert_eq!(fault(&many(32)), None);
        assert_eq!(fault(&many(33)), Some((18, 64)));
        assert_eq!(fault(&(many(32) + "71 01")), Some((16, 64)));
        let chain = "e1 08 e1 06 e1 04 71 02 86 00";
        assert_eq!(fault(&(many(28) + chain)), Some((17, 64)));
        assert_eq!(fault(&(many(29) + chain)), Some((18, 64)));
    }

    #[test]
    fn order_of_a_writer() {
        let number = |objects: &[Object]| written(objects, &[0; 4], &RULES).map_err(Refusal::number);
        let top = object(BEFORE, 1, 0, 0);
        assert_eq!(number(&[]), Err(16));
        assert_eq!(number(&[object(BEFORE, 1, 9, 9)]), Ok(bytes("71 00")));
        assert_eq!(number(&[top, object(COMMAND, 2, 4, 0)]), Ok(bytes("71 02 86 00")));
        assert_eq!(number(&[top, object(COMMAND, 2, 5, 0)]), Err(1));
        assert_eq!(number(&[top, object(COMMAND, 2, 1, 4)]), Err(1));
        assert_eq!(number(&[object(0, 0, 0, 0), object(IDENTIFIER, 9, 4, 1)]), Err(1));
        assert_eq!(number(&[object(BEFORE, 0, 0, 0)]), Err(16));
        assert_eq!(number(&[object(BEFORE, 2, 0, 0)]), Err(16));
        assert_eq!(number(&[top, object(COMMAND, 3, 0, 0)]), Err(16));
        assert_eq!(number(&[top, object(COMMAND, 2, 0, 0), object(COMMAND, 3, 0, 0)]), Err(16));
        assert_eq!(number(&[top, object(IDENTIFIER, 2, 0, 3)]), Err(16));
        assert_eq!(number(&[top, object(IDENTIFIER, 2, 0, 4)]), Ok(bytes("71 07 9f18 04 00000000")));
        let chain = [object(OUTER, 1, 0, 0), object(OUTER, 2, 0, 0), object(OUTER, 3, 0, 0), object(AFTER, 4, 0, 0), object(COMMAND, 5, 0, 0)];
        assert_eq!(number(&chain[..4]), Ok(bytes("e1 06 e1 04 e1 02 72 00")));
        assert_eq!(number(&chain), Err(17));
        assert_eq!(number(&[top; 32]).map(|bytes| bytes.len()), Ok(64));
        assert_eq!(number(&[top; 33]), Err(18));
    }

    /// A template is judged where it stands, by all that comes after it at deeper levels.
    #[test]
    fn what_a_template_would_hold() {
        let source = vec![0x5a; 255];
        let number = |objects: &[Object]| written(objects, &source, &RULES).map(|bytes| bytes.len()).map_err(Refusal::number);
        let top = object(OUTER, 1, 0, 0);
        let data = |level, length| object(COMMAND, level, 0, length);
        assert_eq!(number(&[object(AFTER, 1, 0, 0), data(2, 252)]), Ok(258));
        assert_eq!(number(&[object(AFTER, 1, 0, 0), data(2, 253)]), Err(16));
        // 127 empty templates at level 2 are 254 bytes, 128 are 256: 18 at the 33rd, or 16 at the first
        let empty = object(0x1234, 2, 0, 0);
        let inner = object(BEFORE, 2, 0, 0);
        assert_eq!(number(&[&[top][..], &[inner; 127]].concat()), Err(18));
        assert_eq!(number(&[&[top][..], &[inner; 128]].concat()), Err(16));
        assert_eq!(number(&[&[top][..], &[inner; 126], &[empty, object(9, 65535, 0, 0)]].concat()), Err(16));
        assert_eq!(number(&[&[top][..], &[inner; 126], &[empty, object(9, 1, 0, 0)]].concat()), Err(18));
    }

    /// The length of each object by counting, byte by byte and object by object, what lies in it.
    fn counted(objects: &[Object], i: usize) -> usize {
        if objects[i].is_data() {
            return objects[i].length.into();
        }
        let inside = (i + 1..objects.len()).take_while(|&j| objects[j].level > objects[i].level);
        inside.map(|j| own(objects, j)).sum()
    }

    fn own(objects: &[Object], i: usize) -> usize {
        let length = counted(objects, i);
        let field = if length < 128 { 1 } else { 2 };
        let tag = if objects[i].tag == IDENTIFIER { 2 } else { 1 };
        tag + field + if objects[i].is_data() { length } else { 0 }
    }

    #[test]
    fn lengths_as_counted() {
        let mut random = Random::new(6);
        for _ in 0..2000 {
            let count = random.within(1, 12);
            let objects: Vec<Object> = (0..count)
                .map(|_| {
                    let tag = random.choose(&[BEFORE, AFTER, OUTER, OUTER, COMMAND, COMMAND, IDENTIFIER, 0x0186]);
                    object(tag, random.below(6) as u16, random.below(9) as u32, random.choose(&[0, 4, 40, 120]))
                })
                .collect();
            let source = random.bytes(128);
            let (bytes, lengths) = laid(&objects, &source).expect("data in the source");
            let wanted: Vec<usize> = (0..count).map(|i| counted(&objects, i)).collect();
            // above 255 there is no field, here, and none is needed
            if wanted.iter().all(|&length| length <= LARGEST) {
                assert_eq!(lengths, wanted);
                assert_eq!(bytes.len(), (0..count).map(|i| own(&objects, i)).sum::<usize>());
            } else {
                let above = |lengths: &[usize]| lengths.iter().map(|&length| length > LARGEST).collect::<Vec<bool>>();
                assert_eq!(above(&lengths), above(&wanted));
            }
        }
    }
}
