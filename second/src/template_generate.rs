//! Random calls of the functions for script templates: objects at every edge, damaged ones, and bytes of tags and small numbers.

use crate::forms::{Form, FORMS};
use crate::lent::buffer;
use crate::message::length_field;
use crate::random::Random;
use crate::template_cases::{Case, NUMBER, OBJECTS};
use crate::templates::{laid, read, written, Object, AFTER, BEFORE, COMMAND, IDENTIFIER, LONG_TAG, OUTER, RULES};

/// Lengths at the edges of the two forms, and of what a template holds.
const EDGES: [usize; 14] = [0, 1, 3, 4, 5, 126, 127, 128, 129, 251, 252, 253, 254, 255];
/// What a template may be made to hold.
const CONTENTS: [usize; 7] = [0, 126, 127, 128, 254, 255, 256];

/// An object that is to be made: its tag, the objects in it or its data, and how its length is written.
#[derive(Clone)]
struct Node {
    tag: u16,
    inside: Vec<Node>,
    data: Vec<u8>,
    form: Option<&'static Form>,
}

fn data(tag: u16, data: Vec<u8>) -> Node {
    Node { tag, inside: vec![], data, form: None }
}

fn template(tag: u16, inside: Vec<Node>) -> Node {
    Node { tag, inside, data: vec![], form: None }
}

impl Node {
    fn bytes(&self) -> Vec<u8> {
        let content = [&self.inside.iter().flat_map(Node::bytes).collect::<Vec<u8>>()[..], &self.data].concat();
        let tag = self.tag.to_be_bytes();
        let tag = if tag[0] == LONG_TAG { &tag[..] } else { &tag[1..] };
        let long = || [&[0x82], &(content.len() as u16).to_be_bytes()[..]].concat();
        let field = self.form.map_or_else(|| length_field(content.len()).unwrap_or_else(long), |form| form.field(content.len()));
        [tag, &field, &content].concat()
    }

    fn count(&self) -> usize {
        1 + self.inside.iter().map(Node::count).sum::<usize>()
    }

    /// The i-th object of this one and those in it.
    fn at(&mut self, mut i: usize) -> &mut Node {
        if i == 0 {
            return self;
        }
        i -= 1;
        for node in &mut self.inside {
            let count = node.count();
            if i < count {
                return node.at(i);
            }
            i -= count;
        }
        unreachable!("no such object")
    }
}

pub struct Cases {
    random: Random,
}

impl Iterator for Cases {
    type Item = Case;

    fn next(&mut self) -> Option<Case> {
        Some(self.case())
    }
}

impl Cases {
    pub fn new(seed: u64) -> Cases {
        Cases { random: Random::new(seed) }
    }

    pub fn case(&mut self) -> Case {
        if self.random.once_in(2) {
            self.reading()
        } else {
            self.writing()
        }
    }

    /// Mostly the right length, now and then one near it, or none.
    fn room(&mut self, right: usize) -> usize {
        if !self.random.once_in(40) {
            return right;
        }
        self.random.choose(&[0, right - 1, right + 1, right + Object::SIZE, 2 * right])
    }

    fn reading(&mut self) -> Case {
        let input = match self.random.below(32) {
            0 => vec![],
            1..=5 => self.tags_and_numbers(),
            _ => {
                let mut nodes = self.nodes();
                if self.random.once_in(3) {
                    self.change(&mut nodes);
                }
                let mut input: Vec<u8> = nodes.iter().flat_map(Node::bytes).collect();
                if self.random.once_in(3) {
                    self.damage(&mut input);
                }
                input
            }
        };
        Case::Read { input, objects: self.room(OBJECTS), place: self.room(NUMBER) }
    }

    fn template_tag(&mut self) -> u16 {
        self.random.choose(&[BEFORE, AFTER])
    }

    /// Few bytes mostly, or a length at an edge.
    fn data_length(&mut self) -> usize {
        if self.random.once_in(12) {
            return self.random.choose(&EDGES);
        }
        self.random.below(9)
    }

    fn command(&mut self) -> Node {
        let length = self.data_length();
        data(COMMAND, self.random.bytes(length))
    }

    fn identifier(&mut self) -> Node {
        let length = if self.random.once_in(8) { self.random.choose(&[0, 3, 5, 127, 128]) } else { 4 };
        data(IDENTIFIER, self.random.bytes(length))
    }

    /// A template with commands, perhaps with its identifier.
    fn script(&mut self) -> Node {
        let mut inside = vec![];
        if self.random.once_in(2) {
            inside.push(self.identifier());
        }
        for _ in 0..self.random.choose(&[0, 0, 1, 1, 1, 2, 3]) {
            inside.push(self.command());
        }
        if self.random.once_in(16) {
            let place = self.random.below(inside.len() + 1);
            inside.insert(place, self.identifier());
        }
        template(self.template_tag(), inside)
    }

    /// Templates in templates down to so many levels.
    fn outer(&mut self, levels: usize) -> Node {
        if levels <= 1 || self.random.once_in(3) {
            return self.script();
        }
        let count = self.random.choose(&[0, 1, 1, 1, 2, 3]);
        template(OUTER, (0..count).map(|_| self.outer(levels - 1)).collect())
    }

    /// One template in another, so many of them, and in the innermost perhaps an object more.
    fn chain(&mut self) -> Node {
        let levels = self.random.choose(&[1, 2, 3, 3, 4, 4, 4, 5, 6]);
        let mut node = match self.random.below(4) {
            0 => template(OUTER, vec![]),
            1 => self.script(),
            2 => template(self.template_tag(), vec![data(COMMAND, vec![])]),
            _ => template(self.template_tag(), vec![]),
        };
        for _ in 1..levels {
            node = template(OUTER, vec![node]);
            if self.random.once_in(8) {
                let beside = self.script();
                node.inside.push(beside);
            }
        }
        node
    }

    /// So many objects, small ones, on several levels.
    fn many(&mut self) -> Vec<Node> {
        let total = self.random.choose(&[30, 31, 32, 32, 32, 33, 33, 33, 34, 40]);
        let mut nodes = vec![];
        let mut count = 0;
        while count < total {
            let left = total - count;
            let node = match self.random.below(6) {
                0 if left >= 2 => {
                    let most = left.min(20);
                    let commands = self.random.within(1, most - 1);
                    template(self.template_tag(), vec![data(COMMAND, vec![]); commands])
                }
                1 if left >= 6 => template(OUTER, vec![template(OUTER, vec![template(OUTER, vec![template(BEFORE, vec![]); left.min(9) - 3])])]),
                2 if left >= 3 => {
                    let length = self.random.below(2);
                    template(OUTER, vec![template(self.template_tag(), vec![data(COMMAND, vec![7; length])])])
                }
                _ => template(self.random.choose(&[BEFORE, AFTER, OUTER]), vec![]),
            };
            count += node.count();
            nodes.push(node);
        }
        nodes
    }

    /// So many objects, the last of which has any tag and stands at any level, down to one too deep.
    fn many_and_one(&mut self) -> Vec<Node> {
        let total = self.random.choose(&[31, 32, 32, 33, 33, 33, 33, 34]);
        let tag = self.random.choose(&[BEFORE, AFTER, OUTER, COMMAND, IDENTIFIER]);
        let script = tag == COMMAND || tag == IDENTIFIER;
        let level = self.random.within(if script { 2 } else { 1 }, 5);
        let mut node = if tag == IDENTIFIER { data(tag, self.random.bytes(4)) } else { template(tag, vec![]) };
        for above in 1..level {
            let holder = if above == 1 && script { self.template_tag() } else { OUTER };
            node = template(holder, vec![node]);
        }
        let mut nodes: Vec<Node> = (level..total).map(|_| template(self.random.choose(&[BEFORE, AFTER, OUTER]), vec![])).collect();
        nodes.push(node);
        nodes
    }

    /// A template that holds exactly so many bytes.
    fn full(&mut self, levels: usize) -> Node {
        let wanted = self.random.choose(&CONTENTS);
        self.holding(wanted, levels)
    }

    fn holding(&mut self, wanted: usize, levels: usize) -> Node {
        let mut inside = vec![];
        let mut size = 0;
        if levels == 1 && wanted >= 7 && self.random.once_in(3) {
            inside.push(data(IDENTIFIER, self.random.bytes(4)));
            size = 7;
        }
        // a part of it first
        if wanted > 150 && self.random.once_in(2) {
            let length = self.random.below(100);
            let node = if levels == 1 { data(COMMAND, vec![0x5a; length]) } else { self.holding(length, levels - 1) };
            size += node.bytes().len();
            inside.push(node);
        }
        // before its own bytes the last one has two, or three: by one alone 1 and 130 cannot be had
        if wanted.saturating_sub(size) == 130 {
            inside.push(if levels == 1 { data(COMMAND, vec![]) } else { template(AFTER, vec![]) });
            size += 2;
        }
        match wanted.saturating_sub(size) {
            0 => {}
            1 => return self.script(),
            left => {
                let length = if left < 130 { left - 2 } else { left - 3 };
                inside.push(if levels == 1 { data(COMMAND, self.random.bytes(length)) } else { self.holding(length, levels - 1) });
            }
        }
        template(if levels == 1 { self.template_tag() } else { OUTER }, inside)
    }

    fn nodes(&mut self) -> Vec<Node> {
        match self.random.weighted(&[10, 4, 4, 2, 2]) {
            0 => {
                let count = self.random.choose(&[1, 1, 1, 2, 3]);
                (0..count).map(|_| self.outer(4)).collect()
            }
            1 => {
                let mut nodes = vec![self.chain()];
                if self.random.once_in(3) {
                    nodes.insert(self.random.below(2), self.script());
                }
                nodes
            }
            2 if self.random.once_in(2) => self.many_and_one(),
            2 => self.many(),
            3 => {
                let levels = self.random.within(1, 3);
                vec![self.full(levels)]
            }
            _ => {
                let length = self.random.choose(&EDGES);
                vec![template(self.template_tag(), vec![data(COMMAND, self.random.bytes(length))])]
            }
        }
    }

    fn tag(&mut self) -> u16 {
        let any = u16::from(self.random.byte());
        self.random.choose(&[BEFORE, AFTER, OUTER, COMMAND, IDENTIFIER, 0x9f17, 0x9f19, 0x70, 0x73, 0x00, any])
    }

    /// One object with another tag, with its length in a form that is not read, or with the beginning of an object at its end; the rest fits it.
    fn change(&mut self, nodes: &mut [Node]) {
        let top = self.random.below(nodes.len());
        let i = self.random.below(nodes[top].count());
        let node = nodes[top].at(i);
        let length = node.inside.iter().map(|node| node.bytes().len()).sum::<usize>() + node.data.len();
        let start = self.random.below(FORMS.len());
        let form = FORMS.iter().cycle().skip(start).take(FORMS.len()).find(|form| form.takes(length));
        match self.random.below(5) {
            0 | 1 if form.is_some() => node.form = form,
            2 => node.data.extend(self.random.choose(&[&[LONG_TAG][..], &[LONG_TAG, 0x18], &[0x86], &[0x86, 0x81], &[0x71], &[0x72, 0x81]])),
            _ => node.tag = self.tag(),
        }
    }

    /// Bytes changed, cut, added or exchanged, or a length that is one more or less.
    fn damage(&mut self, input: &mut Vec<u8>) {
        let place = self.random.below(input.len());
        match self.random.below(7) {
            0 => input[place] = self.small(),
            1 => input[place] ^= 1 << self.random.below(8),
            2 => input.truncate(place),
            3 => {
                let count = self.random.within(1, 4);
                for _ in 0..count {
                    let byte = self.small();
                    input.push(byte);
                }
            }
            4 => {
                let other = self.random.below(input.len());
                input.swap(place, other);
            }
            5 => {
                input.remove(place);
            }
            _ => {
                let objects = read(input, &RULES).objects;
                if !objects.is_empty() {
                    let place = self.random.choose(&objects).place as usize - 1;
                    input[place] = if self.random.once_in(2) { input[place].wrapping_add(1) } else { input[place].wrapping_sub(1) };
                }
            }
        }
    }

    /// A byte that means something in a template.
    fn small(&mut self) -> u8 {
        let any = self.random.byte();
        self.random.choose(&[
            0x71, 0x72, 0xe1, 0x71, 0xe1, 0x86, 0x86, 0x9f, 0x18, 0x00, 0x00, 0x01, 0x02, 0x03, 0x04, 0x05, 0x06, 0x7f, 0x80, 0x81, 0x82, any,
        ])
    }

    fn tags_and_numbers(&mut self) -> Vec<u8> {
        let length = self.random.below(24);
        let mut bytes: Vec<u8> = (0..length).map(|_| self.small()).collect();
        if self.random.once_in(2) && length > 1 {
            bytes[0] = self.random.choose(&[0x71, 0x72, 0xe1]);
            bytes[1] = (length - 2) as u8;
        }
        bytes
    }

    /// Objects with their data in a source; of a template, place and length are any.
    fn flat(&mut self, node: &Node, level: u16, source: &mut Vec<u8>, objects: &mut Vec<Object>) {
        let is_data = node.tag == COMMAND || node.tag == IDENTIFIER;
        let (mut place, mut length) = (self.random.next() as u32, self.random.next() as u16);
        if is_data {
            let gap = self.random.choose(&[0, 0, 1, 3]);
            source.extend(self.random.bytes(gap));
            place = source.len() as u32;
            length = node.data.len() as u16;
            source.extend(&node.data);
        }
        objects.push(Object { tag: node.tag, level, length, place });
        node.inside.iter().for_each(|node| self.flat(node, level + 1, source, objects));
    }

    fn writing(&mut self) -> Case {
        let mut nodes = self.nodes();
        if self.random.once_in(6) {
            self.change(&mut nodes);
        }
        let mut source = vec![];
        let mut objects = vec![];
        nodes.iter().for_each(|node| self.flat(node, 1, &mut source, &mut objects));
        // what was read, with the input as the source
        if self.random.once_in(8) {
            source = nodes.iter().flat_map(Node::bytes).collect();
            objects = read(&source, &RULES).objects;
        }
        if self.random.once_in(12) {
            objects = self.brink(&mut source);
        }
        if self.random.once_in(3) {
            let more = if self.random.once_in(20) { 300 } else { 2 };
            source.extend(self.random.bytes(more));
        }
        if self.random.once_in(12) {
            self.lengthen(&mut objects);
        }
        if self.random.once_in(3) {
            let changes = self.random.choose(&[1, 1, 1, 2, 3]);
            (0..changes).for_each(|_| self.change_object(&mut objects, source.len()));
        }
        let mut bytes: Vec<u8> = objects.iter().flat_map(|object| object.to_bytes()).collect();
        if self.random.once_in(40) {
            let length = self.random.choose(&[0, bytes.len() + 1, bytes.len().saturating_sub(1), bytes.len() + 9]);
            bytes.resize(length, 0);
        }
        let size = written(&objects, &source, &RULES).map_or(self.random.below(40), |written| written.len());
        let (buffer, place) = buffer(&mut self.random, size);
        Case::Write { objects: bytes, source, buffer, place, size: self.room(NUMBER) }
    }

    /// A template that would hold 255 bytes, or a few less or more, with one object in it that is too deep or one too many, and then any.
    fn brink(&mut self, source: &mut Vec<u8>) -> Vec<Object> {
        let object = |tag, level| Object { tag, level, length: 0, place: 0 };
        let mut objects = vec![object(OUTER, 1)];
        if self.random.once_in(2) {
            objects.extend([object(BEFORE, 2); 32]);
        } else {
            objects.extend([object(OUTER, 2), object(OUTER, 3), object(AFTER, 4), object(COMMAND, 5)]);
        }
        for _ in 0..self.random.below(30) {
            let any = self.random.next() as u16;
            let tag = if self.random.once_in(4) { any } else { self.tag() };
            objects.push(Object { tag, level: self.random.within(2, 8) as u16, length: self.random.below(5) as u16, place: 0 });
        }
        *source = self.random.bytes(255);
        let held = laid(&objects, source).expect("data in the source").1[0];
        let left = self.random.within(253, 257).saturating_sub(held);
        if left >= 2 {
            objects.push(Object { length: (if left < 130 { left - 2 } else { left - 3 }) as u16, ..object(COMMAND, 2) });
        }
        objects
    }

    /// Many objects more, at any level or at one.
    fn lengthen(&mut self, objects: &mut Vec<Object>) {
        let count = self.random.choose(&[1, 20, 33, 100, 130, 260]);
        let one = self.random.below(7) as u16;
        let tag = self.tag();
        let varied = self.random.once_in(2);
        let place = self.random.below(objects.len() + 1);
        let more: Vec<Object> = (0..count)
            .map(|_| {
                let level = if varied { self.random.choose(&[1, 2, 3, 4, 5, 0, 65535]) } else { one };
                let tag = if self.random.once_in(20) { self.tag() } else { tag };
                Object { tag, level, length: 0, place: 0 }
            })
            .collect();
        objects.splice(place..place, more);
    }

    fn change_object(&mut self, objects: &mut Vec<Object>, source: usize) {
        if objects.is_empty() {
            return;
        }
        let i = self.random.below(objects.len());
        let (any, tag) = (self.random.next(), self.tag());
        let object = &mut objects[i];
        match self.random.below(10) {
            0 => object.level = self.random.choose(&[0, object.level.wrapping_add(1), object.level.wrapping_sub(1), 5, 255, 256, 65535, any as u16]),
            1 => object.level = object.level.wrapping_add(1),
            2 => object.tag = self.random.choose(&[tag, tag, 0x0171, 0x7100, 0x8600, 0x0186, 0x189f, any as u16]),
            3 => {
                object.length = self.random.choose(&[0, 3, 4, 5, 255, 256, 257, 65535, object.length.wrapping_add(1), object.length.wrapping_sub(1)]);
            }
            4 => {
                let end = source as u32;
                object.place =
                    self.random.choose(&[0, end, end + 1, end.wrapping_sub(object.length.into()), u32::MAX, 1 << 31, object.place.wrapping_add(1)]);
            }
            5 => {
                objects.remove(i);
            }
            6 => {
                let j = self.random.below(objects.len());
                objects.swap(i, j);
            }
            7 => objects.insert(i, Object { tag, level: self.random.within(1, 5) as u16, length: 0, place: 0 }),
            8 => objects.truncate(i),
            // an empty piece at the end of the source, or past it
            _ => {
                object.length = 0;
                object.place = source as u32 + self.random.below(2) as u32;
            }
        }
    }
}
