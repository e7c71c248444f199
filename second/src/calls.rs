//! Calls of the library for C (include/box.h), one a line, with the number and the lent bytes that must come of each.
//!
//! A line is the function's name, the number, and a word for each argument: digits for a string, `-` for an empty one, `null` for a null
//! pointer with length 0; digits for a number; two words for a lent output, before and after the call. tests/calls.c makes the calls.

use crate::cipher::{code, decipher, encipher};
use crate::cryptogram::{arpc, cryptogram, Kind};
use crate::derive::derive;
use crate::forms::Form;
use crate::hash::hash;
use crate::hmac::hmac;
use crate::keys::{card_key, card_key_packed, counter_key, idn, script_key, session_key};
use crate::message::{coded, open, wrap, wrapped, CLEAR, ENCIPHERED, LARGEST, LARGEST_SHORT};
use crate::octets::{bytes_of, exact, word_of};
use crate::pin;
use crate::random::Random;
use crate::refusal::{number_of, Refusal};

/// An argument; a string or an output without a pointer is null.
#[derive(Clone)]
pub enum Argument {
    Text(Option<Vec<u8>>),
    Number(u64),
    Lent(Option<Vec<u8>>),
}
use Argument::{Lent, Number, Text};

/// Name and arguments: `s` a string, `b` a byte, `w` a counter of two bytes, `o` a lent output, `z` a place.
pub struct Function {
    name: &'static str,
    takes: &'static str,
}

const fn function(name: &'static str, takes: &'static str) -> Function {
    Function { name, takes }
}

/// The functions of box.h.
const LIBRARY: [Function; 17] = [
    function("box_encipher", "sso"),
    function("box_decipher", "sso"),
    function("box_code", "sso"),
    function("box_derive", "sso"),
    function("box_card_key", "ssbo"),
    function("box_card_key_packed", "ssbo"),
    function("box_card_keys", "sso"),
    function("box_session_key", "swo"),
    function("box_script_key", "sso"),
    function("box_counter_key", "so"),
    function("box_idn", "swo"),
    function("box_write_pin", "so"),
    function("box_read_pin", "so"),
    function("box_cryptogram", "sbwso"),
    function("box_arpc", "ssso"),
    function("box_wrap", "ssbsoz"),
    function("box_open", "ssso"),
];

/// Not in the library, but what a judge may ask.
const BENEATH: [Function; 2] = [function("hash", "so"), function("hmac", "sso")];

/// The arguments of a call, each as what it is.
struct Given<'a>(&'a [Argument]);

impl Given<'_> {
    fn text(&self, i: usize) -> &[u8] {
        match &self.0[i] {
            Text(bytes) => bytes.as_deref().unwrap_or(&[]),
            _ => unreachable!("not a string"),
        }
    }

    fn array<const N: usize>(&self, i: usize) -> Result<[u8; N], Refusal> {
        exact(self.text(i))
    }

    fn number(&self, i: usize) -> u64 {
        match self.0[i] {
            Number(number) => number,
            _ => unreachable!("not a number"),
        }
    }

    fn byte(&self, i: usize) -> u8 {
        self.number(i) as u8
    }

    fn counter(&self, i: usize) -> u16 {
        self.number(i) as u16
    }
}

/// What a call writes over its lent output, which must have that length.
fn value(name: &str, given: &Given, room: usize) -> Result<Vec<u8>, Refusal> {
    let fits = |length: usize| if room == length { Ok(()) } else { Err(Refusal::Input) };
    match name {
        "box_encipher" => fits(8).and(Ok(encipher(&given.array(0)?, &given.array(1)?).to_vec())),
        "box_decipher" => fits(8).and(Ok(decipher(&given.array(0)?, &given.array(1)?).to_vec())),
        "box_code" => fits(4).and(Ok(code(&given.array(0)?, given.text(1))?.to_vec())),
        "box_derive" => fits(32).and(Ok(derive(&given.array(0)?, &given.array(1)?).to_vec())),
        "box_card_key" | "box_card_key_packed" => {
            let issuer = given.array(0)?;
            fits(32)?;
            let make = if name == "box_card_key" { card_key } else { card_key_packed };
            Ok(make(&issuer, given.text(1), given.byte(2))?.to_vec())
        }
        "box_card_keys" => {
            let (issuer, cards) = (given.array(0)?, given.text(1).chunks_exact(21));
            if !cards.remainder().is_empty() {
                return Err(Refusal::Input);
            }
            fits(32 * cards.len())?;
            let mut keys = Vec::new();
            for card in cards {
                let pan = card[1..20].get(..card[0] as usize).ok_or(Refusal::CardNumber)?;
                keys.extend(card_key(&issuer, pan, card[20])?);
            }
            Ok(keys)
        }
        "box_session_key" => fits(32).and(Ok(session_key(&given.array(0)?, given.counter(1)).to_vec())),
        "box_script_key" => fits(32).and(Ok(script_key(&given.array(0)?, &given.array(1)?).to_vec())),
        "box_counter_key" => fits(32).and(Ok(counter_key(&given.array(0)?).to_vec())),
        "box_idn" => idn(&given.array(0)?, given.counter(1), room),
        "box_write_pin" => {
            fits(8)?;
            Ok(pin::write(given.text(0))?.to_vec())
        }
        "box_read_pin" => {
            let block = given.array(0)?;
            fits(13)?;
            let pin = pin::read(&block)?;
            Ok([&[pin.count], &pin.places[..]].concat())
        }
        "box_cryptogram" => {
            let kind = Kind::of_byte(given.byte(1)).ok_or(Refusal::Input)?;
            fits(8).and(Ok(cryptogram(&given.array(0)?, kind, given.counter(2), &given.array(3)?).to_vec()))
        }
        "box_arpc" => fits(8).and(Ok(arpc(&given.array(0)?, &given.array(1)?, &given.array(2)?).to_vec())),
        "box_open" => {
            let (key, header) = (given.array(0)?, given.array(1)?);
            fits(3)?;
            let opened = open(&key, &header, given.text(2))?;
            Ok(vec![opened.tag, opened.place as u8, opened.length as u8])
        }
        "hash" => fits(32).and(Ok(hash(given.text(0)).to_vec())),
        "hmac" => fits(32).and(Ok(hmac(&given.array(0)?, given.text(1)).to_vec())),
        _ => unreachable!("no such function"),
    }
}

fn wrap_into(given: &Given, buffer: &mut [u8]) -> Result<(), Refusal> {
    let (key, header) = (given.array(0)?, given.array(1)?);
    wrap(&key, &header, given.byte(2), given.text(3), buffer, given.number(5))
}

/// The number of a call, and the lent bytes after it: on a refusal as before.
fn outcome(name: &str, arguments: &[Argument]) -> (u8, Vec<u8>) {
    let lent = arguments.iter().find_map(|argument| match argument {
        Lent(bytes) => Some(bytes.clone().unwrap_or_default()),
        _ => None,
    });
    let mut lent = lent.expect("every function has an output");
    let given = Given(arguments);
    if name == "box_wrap" {
        let number = number_of(&wrap_into(&given, &mut lent));
        return (number, lent);
    }
    match value(name, &given, lent.len()) {
        Ok(bytes) => (0, bytes),
        Err(refusal) => (refusal.number(), lent),
    }
}

fn pointed_word(bytes: Option<&[u8]>) -> String {
    bytes.map_or_else(|| "null".to_string(), word_of)
}

/// The line of a call.
fn line(function: &Function, arguments: &[Argument]) -> String {
    let (number, after) = outcome(function.name, arguments);
    let words: Vec<String> = arguments
        .iter()
        .map(|argument| match argument {
            Text(bytes) => pointed_word(bytes.as_deref()),
            Number(number) => format!("{number:x}"),
            Lent(before) => format!("{} {}", pointed_word(before.as_deref()), word_of(&after)),
        })
        .collect();
    format!("{} {number} {}", function.name, words.join(" "))
}

/// Whether a line says what we compute.
pub fn check(text: &str) -> Result<&'static str, String> {
    let mut words = text.split(' ');
    let name = words.next().unwrap_or("");
    let known = LIBRARY.iter().chain(&BENEATH).find(|function| function.name == name);
    let function = known.ok_or_else(|| format!("no such function: {text}"))?;
    let _number = words.next();
    let arguments: Option<Vec<Argument>> = function.takes.chars().map(|letter| read(letter, &mut words)).collect();
    let arguments = arguments.ok_or_else(|| format!("cannot be read: {text}"))?;
    let ours = line(function, &arguments);
    if ours == text {
        Ok(function.name)
    } else {
        Err(format!("given:      {text}\nwe compute: {ours}"))
    }
}

fn read<'a>(letter: char, words: &mut impl Iterator<Item = &'a str>) -> Option<Argument> {
    let word = words.next()?;
    let bytes = |word: &str| match word {
        "null" => Some(None),
        _ => bytes_of(word).map(Some),
    };
    match letter {
        's' => Some(Text(bytes(word)?)),
        'o' => {
            words.next()?;
            Some(Lent(bytes(word)?))
        }
        _ => Some(Number(u64::from_str_radix(word, 16).ok()?)),
    }
}

/// Random calls, good and bad.
pub struct Caller {
    random: Random,
    /// Once in so many times a length is wrong.
    fault: usize,
}

impl Caller {
    pub fn new(seed: u64) -> Caller {
        Caller { random: Random::new(seed), fault: 1 }
    }

    /// The i-th call: the functions take turns.
    pub fn call(&mut self, i: usize) -> String {
        let function = &LIBRARY[i % LIBRARY.len()];
        self.fault = self.random.choose(&[2, 12, 12, 1000]);
        let arguments = self.arguments(function);
        line(function, &arguments)
    }

    fn arguments(&mut self, function: &Function) -> Vec<Argument> {
        match function.name {
            "box_code" => vec![self.text(32), self.string(), self.lent(4)],
            "box_card_key" | "box_card_key_packed" => vec![self.text(32), self.card_number(), self.sequence(), self.lent(32)],
            "box_card_keys" => {
                let count = self.random.below(5);
                vec![self.text(32), self.cards(count), self.lent(32 * count)]
            }
            "box_session_key" => vec![self.text(32), self.counter(), self.lent(32)],
            "box_derive" | "box_script_key" => vec![self.text(32), self.text(8), self.lent(32)],
            "box_counter_key" => vec![self.text(32), self.lent(32)],
            "box_idn" => {
                let length = self.random.below(10);
                vec![self.text(32), self.counter(), self.lent(length)]
            }
            "box_write_pin" => vec![self.pin(), self.lent(8)],
            "box_read_pin" => vec![self.pin_block(), self.lent(13)],
            "box_cryptogram" => vec![self.text(32), self.kind(), self.counter(), self.text(65), self.lent(8)],
            "box_arpc" => vec![self.text(32), self.text(8), self.text(4), self.lent(8)],
            "box_wrap" => self.wrapping(),
            "box_open" => self.opening(),
            _ => vec![self.text(32), self.text(8), self.lent(8)],
        }
    }

    /// Mostly the right length, else none, one near it, or one far off.
    fn length(&mut self, right: usize) -> usize {
        if !self.random.once_in(self.fault) {
            return right;
        }
        match self.random.below(6) {
            0 => 0,
            1 => right + 1,
            2 => right.saturating_sub(1),
            3 => 2 * right,
            4 => self.random.below(3000),
            _ => self.random.below(100),
        }
    }

    /// An empty string may be null.
    fn pointed(&mut self, bytes: Vec<u8>) -> Option<Vec<u8>> {
        if bytes.is_empty() && self.random.once_in(2) {
            return None;
        }
        Some(bytes)
    }

    fn given(&mut self, bytes: Vec<u8>) -> Argument {
        Text(self.pointed(bytes))
    }

    fn text(&mut self, right: usize) -> Argument {
        let length = self.length(right);
        let bytes = self.random.bytes(length);
        self.given(bytes)
    }

    fn lent(&mut self, right: usize) -> Argument {
        let length = self.length(right);
        let bytes = self.random.bytes(length);
        Lent(self.pointed(bytes))
    }

    fn counter(&mut self) -> Argument {
        let any = self.random.below(65536) as u64;
        Number(self.random.choose(&[0, 1, 255, 256, 65534, 65535, any]))
    }

    /// Whole blocks mostly, up to 1,024 bytes and beyond.
    fn string(&mut self) -> Argument {
        let any = self.random.below(150);
        let blocks = self.random.choose(&[1, 2, 9, 34, 128, 129, any]);
        let length = self.length(8 * blocks);
        let bytes = self.random.bytes(length);
        self.given(bytes)
    }

    /// Mostly 12 to 19 digits; at times one above 9.
    fn card_number(&mut self) -> Argument {
        let count = if self.random.once_in(4) { self.random.below(24) } else { self.random.within(12, 19) };
        let mut digits = self.random.digits(count);
        self.damage_digit(&mut digits);
        self.given(digits)
    }

    /// Cards of 21 bytes: mostly 12 to 19 digits, any bytes after them, and a sequence number; at times one of another form, or a byte too few.
    fn cards(&mut self, count: usize) -> Argument {
        let mut cards = Vec::new();
        for _ in 0..count {
            let number = if self.random.once_in(12) { self.random.below(256) } else { self.random.within(12, 19) };
            let mut card = self.random.bytes(21);
            let mut digits = self.random.digits(number.min(19));
            if self.random.once_in(8) {
                self.damage_digit(&mut digits);
            }
            card[0] = number as u8;
            card[1..=digits.len()].copy_from_slice(&digits);
            card[20] = if self.random.once_in(12) { 100 } else { self.random.below(100) as u8 };
            cards.extend(card);
        }
        if self.random.once_in(12) {
            cards.pop();
        }
        self.given(cards)
    }

    fn pin(&mut self) -> Argument {
        let count = if self.random.once_in(3) { self.random.below(17) } else { self.random.within(4, 12) };
        let mut digits = self.random.digits(count);
        self.damage_digit(&mut digits);
        self.given(digits)
    }

    fn damage_digit(&mut self, digits: &mut [u8]) {
        if !digits.is_empty() && self.random.once_in(6) {
            let place = self.random.below(digits.len());
            digits[place] = self.random.choose(&[10, 15, 16, b'0', 128, 255]);
        }
    }

    fn sequence(&mut self) -> Argument {
        let sequence = if self.random.once_in(6) { self.random.choose(&[100, 101, 255]) } else { self.random.below(100) };
        Number(sequence as u64)
    }

    fn kind(&mut self) -> Argument {
        let other = self.random.byte();
        Number(self.random.choose(&[0x80, 0x40, 0x00, 0x80, 0x40, 0x00, other, 0xc0]).into())
    }

    /// A good block, one with a half-byte changed, one of a wrong count, or any.
    fn pin_block(&mut self) -> Argument {
        let count = self.random.within(4, 12);
        let mut block = pin::write(&self.random.digits(count)).expect("digits").to_vec();
        match self.random.below(4) {
            0 => {
                let place = self.random.below(16);
                block[place / 2] ^= (self.random.within(1, 15) << (4 * (1 - place % 2))) as u8;
            }
            1 if self.random.once_in(4) => block = self.random.bytes(8),
            1 if self.random.once_in(2) => {
                let count = self.random.choose(&[0, 3, 13, 14]);
                block = pin::written(count as u8, &self.random.digits(count)).to_vec();
            }
            _ => {}
        }
        let length = self.length(8);
        block.resize(length, 0xff);
        self.given(block)
    }

    fn tag(&mut self) -> u8 {
        let other = self.random.byte();
        self.random.choose(&[ENCIPHERED, CLEAR, ENCIPHERED, CLEAR, ENCIPHERED, CLEAR, other, 0x86])
    }

    /// Data up to 255 bytes mostly, and places that fit, just fit, just do not, or lie far beyond.
    fn wrapping(&mut self) -> Vec<Argument> {
        let any = self.random.below(LARGEST + 1);
        let mut length = self.random.choose(&[0, 1, 8, 126, 127, 128, 129, 254, 255, any, any, any, any, any]);
        if self.random.once_in(12) {
            length = self.random.choose(&[256, 257, 264, 300]);
        }
        let data = self.random.bytes(length);
        let size = length as u64 + if length <= LARGEST_SHORT { 8 } else { 9 };
        let beside = self.random.below(40) as u64;
        let place = self.random.choose(&[0, beside, beside]);
        let buffer = if self.random.once_in(6) { self.random.below(280) } else { (size + beside) as usize };
        let near = self.random.below(300) as u64;
        let end = buffer as u64;
        let short = end.saturating_sub(size) + 1;
        let far = [end, end + 1, u64::MAX, u64::MAX - near, u64::MAX - size, (u64::MAX - size) + 1, 1 << 63, 1 << 32];
        let far = self.random.choose(&far);
        let place = self.random.choose(&[place, place, place, place, place, short, far, far]);
        let (key, header) = (self.text(32), self.text(4));
        let tag = Number(self.tag().into());
        let buffer = self.random.bytes(buffer);
        vec![key, header, tag, self.given(data), Lent(self.pointed(buffer)), Number(place)]
    }

    /// A wrapped message, mostly whole; else with a byte changed, cut, lengthened, its length in a form that is not read, or a few bytes.
    fn opening(&mut self) -> Vec<Argument> {
        let (key, header) = (self.random.array::<32>(), self.random.array::<4>());
        let any = self.random.below(LARGEST + 1);
        let length = self.random.choose(&[0, 127, 128, 255, any, any, any, any]);
        let tag = self.random.choose(&[ENCIPHERED, CLEAR]);
        let mut message = wrapped(&key, &header, tag, &self.random.bytes(length)).expect("good tag and length");
        match self.random.below(13) {
            0 => {
                let place = message.len() - 1 - self.random.below(4);
                message[place] ^= 1 << self.random.below(8);
            }
            1 => {
                let place = self.random.below(message.len());
                message[place] ^= 1 << self.random.below(8);
            }
            2 => message.truncate(self.random.below(message.len())),
            3 => message.push(self.random.byte()),
            4 => message.extend(self.random.bytes(256)),
            5..=7 => {
                let form = Form::any(&mut self.random);
                let length = form.length(&mut self.random);
                message = coded(&key, &header, tag, &form.field(length), &self.random.bytes(length));
            }
            8 => {
                let few = [&[][..], &[0x87], &[0x81, 0], &[0x87, 0x81], &[0x87, 0x81, 0x80], &[0x81, 0x81, 0], &[0x81, 0, 0x8e, 4, 0, 0, 0]];
                message = self.random.choose(&few).to_vec();
            }
            _ => {}
        }
        let key = self.resized(key.to_vec());
        let header = self.resized(header.to_vec());
        vec![key, header, self.given(message), self.lent(3)]
    }

    /// The bytes, at times with a wrong length.
    fn resized(&mut self, mut bytes: Vec<u8>) -> Argument {
        let length = self.length(bytes.len());
        bytes.resize(length, 0);
        self.given(bytes)
    }
}

#[cfg(test)]
mod tests {
    use super::*;
    use crate::octets::from_hex;

    #[test]
    fn lines_are_read_as_written() {
        let mut caller = Caller::new(1);
        for i in 0..500 {
            let line = caller.call(i);
            assert_eq!(check(&line), Ok(LIBRARY[i % 17].name));
        }
    }

    /// The calls that tests/second makes have the edges of the two forms of a length among them.
    #[test]
    fn lengths_that_must_come() {
        let mut caller = Caller::new(20171219);
        let lines: Vec<String> = (0..24000).map(|i| caller.call(i)).collect();
        let of = |name| lines.iter().map(|line| line.split(' ').collect::<Vec<_>>()).filter(move |words| words[0] == name).collect::<Vec<_>>();
        let (wraps, opens) = (of("box_wrap"), of("box_open"));
        let size = |word: &str| from_hex(word.as_bytes()).map_or(0, |bytes| bytes.len());
        // key, header and tag are right, and from the place on the buffer has so many bytes
        let wrap = |number: &str, length: usize, room: usize| {
            wraps.iter().any(|words| {
                let right = size(words[2]) == 32 && size(words[3]) == 4 && ["81", "87"].contains(&words[4]);
                let place = u64::from_str_radix(words[8], 16).expect("a number");
                right && words[1] == number && size(words[5]) == length && place.checked_add(room as u64) == Some(size(words[6]) as u64)
            })
        };
        for length in [0, 126, 127] {
            assert!(wrap("0", length, length + 8) && wrap("3", length, length + 7), "{length}");
        }
        for length in [128, 129, 254, 255] {
            assert!(wrap("0", length, length + 9) && wrap("3", length, length + 8), "{length}");
        }
        for length in [256, 257, 300] {
            assert!(wrap("1", length, length + 9), "{length}");
        }
        let open = |number: &str, field: &str, length: usize| {
            let fits = |message: &str| size(message) == 1 + size(field) + length + 6 && message[2..].starts_with(field);
            opens.iter().any(|words| words[1] == number && fits(words[4]))
        };
        for (field, length) in [("00", 0), ("7f", 127), ("8180", 128), ("81ff", 255)] {
            assert!(open("0", field, length), "{field}");
        }
        for (field, length) in [("80", 128), ("ff", 255), ("8100", 0), ("817f", 127), ("8200ff", 255)] {
            assert!(open("4", field, length), "{field}");
        }
    }

    #[test]
    fn a_wrong_line_is_found() {
        let line = format!("box_encipher 0 {} {} {} {}", "00".repeat(32), "00".repeat(8), "00".repeat(8), "00".repeat(8));
        assert!(check(&line).is_err());
        assert!(check("box_encipher 1 null null - -").is_ok());
        assert!(check("box_encipher 0 null null - -").is_err());
    }
}
