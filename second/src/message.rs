//! Script messages (R 1323565.1.008, clause 4.1; the forms of their length as Wish 1 has them) and the commands that the card knows.

use std::ops::Range;

use crate::cipher::code as authentication_code;
use crate::octets::Key;
use crate::refusal::Refusal;

pub const ENCIPHERED: u8 = 0x87;
pub const CLEAR: u8 = 0x81;
/// The largest length of the data, the largest that one byte writes, and the first of two bytes that write a length.
pub const LARGEST: usize = 255;
pub const LARGEST_SHORT: usize = 127;
pub const LONG: u8 = 0x81;

pub type Header = [u8; 4];

/// Where the data of a message stand.
#[derive(Clone, Copy, Debug, PartialEq, Eq)]
pub struct Opened {
    pub tag: u8,
    pub place: usize,
    pub length: usize,
}

fn known(tag: u8) -> bool {
    tag == ENCIPHERED || tag == CLEAR
}

/// The field that writes a length: 0 to 127 as one byte, 128 to 255 as 81 and the length; there is none for more.
pub fn length_field(length: usize) -> Option<Vec<u8>> {
    let byte = u8::try_from(length).ok()?;
    Some(if length <= LARGEST_SHORT { vec![byte] } else { vec![LONG, byte] })
}

/// The length that the bytes start with, and the size of its field; no other form is read.
pub fn read_length(bytes: &[u8]) -> Option<(usize, usize)> {
    match *bytes {
        [length @ 0x00..=0x7f, ..] => Some((length.into(), 1)),
        [LONG, length @ 0x80..=0xff, ..] => Some((length.into(), 2)),
        _ => None,
    }
}

/// Table 2: tag, length, data, 8e, 04, code of four bytes; nothing follows.
pub fn shape(message: &[u8]) -> Result<Opened, Refusal> {
    let (&tag, rest) = message.split_first().ok_or(Refusal::ShapeWrong)?;
    let (length, field) = read_length(rest).ok_or(Refusal::ShapeWrong)?;
    let place = 1 + field;
    let end = place + length;
    if known(tag) && message.len() == end + 6 && message[end..end + 2] == [0x8e, 0x04] {
        Ok(Opened { tag, place, length })
    } else {
        Err(Refusal::ShapeWrong)
    }
}

/// The code of clause 4.1.1: X is header, 80 and three 00; Y is the message without its code, 80, and zeros up to 264 bytes.
pub fn code(key: &Key, header: &Header, uncoded: &[u8]) -> [u8; 4] {
    let mut string = [header, &[0x80, 0, 0, 0], uncoded, &[0x80][..]].concat();
    string.resize(8 + 264, 0);
    authentication_code(key, &string).expect("34 blocks")
}

/// The code that stands in a message of good shape is that of its other bytes.
pub fn code_matches(key: &Key, header: &Header, message: &[u8]) -> bool {
    let (uncoded, written) = message.split_at(message.len() - 4);
    code(key, header, uncoded) == *written
}

/// Opening alone: 4, 8.
pub fn open(key: &Key, header: &Header, message: &[u8]) -> Result<Opened, Refusal> {
    let opened = shape(message)?;
    if code_matches(key, header, message) {
        Ok(opened)
    } else {
        Err(Refusal::CodeDiffers)
    }
}

/// The data under a tag and a length field, whatever they say, and the code of that.
pub fn coded(key: &Key, header: &Header, tag: u8, field: &[u8], data: &[u8]) -> Vec<u8> {
    let uncoded = [&[tag], field, data, &[0x8e, 0x04]].concat();
    [&uncoded[..], &code(key, header, &uncoded)].concat()
}

/// A message of good shape, or refusal 1 for its tag or length.
pub fn wrapped(key: &Key, header: &Header, tag: u8, data: &[u8]) -> Result<Vec<u8>, Refusal> {
    let field = length_field(data.len()).filter(|_| known(tag)).ok_or(Refusal::Input)?;
    Ok(coded(key, header, tag, &field, data))
}

/// Writes a message into the buffer from the place on: 1, 3. Every other byte stays.
pub fn wrap(key: &Key, header: &Header, tag: u8, data: &[u8], buffer: &mut [u8], place: u64) -> Result<(), Refusal> {
    lay(&wrapped(key, header, tag, data)?, buffer, place)
}

/// Where so many bytes from the place on lie in a buffer, if they do.
fn part(size: usize, buffer: usize, place: u64) -> Option<Range<usize>> {
    let from = usize::try_from(place).ok()?;
    let to = from.checked_add(size).filter(|&to| to <= buffer)?;
    Some(from..to)
}

pub fn fits(size: usize, buffer: usize, place: u64) -> bool {
    part(size, buffer, place).is_some()
}

/// Writes bytes into the buffer from the place on, or refusal 3 where they do not fit.
pub fn lay(bytes: &[u8], buffer: &mut [u8], place: u64) -> Result<(), Refusal> {
    let part = part(bytes.len(), buffer.len(), place).ok_or(Refusal::NoRoom)?;
    buffer[part].copy_from_slice(bytes);
    Ok(())
}

#[derive(Clone, Copy, Debug, PartialEq, Eq)]
pub enum Command {
    ChangePin,
    Block,
    Unblock,
}

impl Command {
    pub const CLASS: u8 = 0x84;
    pub const ALL: [Command; 3] = [Command::ChangePin, Command::Block, Command::Unblock];

    pub fn header(self) -> Header {
        match self {
            Command::ChangePin => [Self::CLASS, 0x24, 0x00, 0x02],
            Command::Block => [Self::CLASS, 0x1e, 0x00, 0x00],
            Command::Unblock => [Self::CLASS, 0x18, 0x00, 0x00],
        }
    }

    pub fn tag(self) -> u8 {
        match self {
            Command::ChangePin => ENCIPHERED,
            Command::Block | Command::Unblock => CLEAR,
        }
    }

    pub fn length(self) -> usize {
        match self {
            Command::ChangePin => 8,
            Command::Block | Command::Unblock => 0,
        }
    }

    /// The command with this header, tag and length, else refusal 5.
    pub fn of(header: &Header, opened: &Opened) -> Result<Command, Refusal> {
        let same = |c: &Command| c.header() == *header && c.tag() == opened.tag && c.length() == opened.length;
        Self::ALL.into_iter().find(same).ok_or(Refusal::NotListed)
    }
}

#[cfg(test)]
mod tests {
    use super::*;
    use crate::random::Random;

    const KEY: Key = [3; 32];
    const HEADER: Header = [1, 2, 3, 4];

    #[test]
    fn opening_what_was_wrapped() {
        for length in 0..=260 {
            let data = Random::new(length as u64).bytes(length);
            for tag in [ENCIPHERED, CLEAR] {
                let made = wrapped(&KEY, &HEADER, tag, &data);
                if length > 255 {
                    assert_eq!(made, Err(Refusal::Input));
                    continue;
                }
                let message = made.unwrap();
                let place = if length < 128 { 2 } else { 3 };
                assert_eq!(message.len(), place + length + 6);
                assert_eq!(open(&KEY, &HEADER, &message), Ok(Opened { tag, place, length }));
                assert_eq!(message[place..place + length], data);
                assert_eq!(open(&KEY, &[1, 2, 3, 5], &message), Err(Refusal::CodeDiffers));
            }
        }
        assert_eq!(wrapped(&KEY, &HEADER, 0x86, &[]), Err(Refusal::Input));
    }

    /// Fields of one, two and three bytes, and the length that each would mean.
    fn fields() -> Vec<(Vec<u8>, usize)> {
        let one = (0..=255).map(|l| vec![l]);
        let two = (0..=255).map(|l| vec![0x81, l]);
        let other = (0x80..=0xff).filter(|&first| first != 0x81).flat_map(|first| [0x00, 0x08, 0x7f, 0x80, 0xff].map(|l| vec![first, l]));
        let three = (0..=255).map(|l| vec![0x82, 0, l]);
        one.chain(two).chain(other).chain(three).map(|field| (field.clone(), field[field.len() - 1].into())).collect()
    }

    /// Size and code fit the length. One form of each is read, and wrapping the data gives the same message; any other is 4.
    #[test]
    fn wrapping_what_was_opened() {
        for tag in [ENCIPHERED, CLEAR] {
            let mut read = vec![];
            for (field, length) in fields() {
                let data = vec![0x5a; length];
                let message = coded(&KEY, &HEADER, tag, &field, &data);
                match open(&KEY, &HEADER, &message) {
                    Ok(opened) => {
                        assert_eq!(opened, Opened { tag, place: 1 + field.len(), length });
                        assert_eq!(wrapped(&KEY, &HEADER, tag, &data), Ok(message));
                        read.push(field);
                    }
                    Err(refusal) => assert_eq!(refusal, Refusal::ShapeWrong, "{field:02x?}"),
                }
            }
            let short = (0x00..=0x7f).map(|l| vec![l]);
            let long = (0x80..=0xff).map(|l| vec![0x81, l]);
            assert_eq!(read, short.chain(long).collect::<Vec<_>>());
        }
    }

    /// 81 as a length of one byte: its first data byte is read as the length, and fits where that is 80.
    #[test]
    fn the_byte_81_is_no_length() {
        for first in 0..=255 {
            let message = coded(&KEY, &HEADER, CLEAR, &[0x81], &[&[first], &[0x5a; 128][..]].concat());
            let wanted = if first == 0x80 { Ok(Opened { tag: CLEAR, place: 3, length: 128 }) } else { Err(Refusal::ShapeWrong) };
            assert_eq!(open(&KEY, &HEADER, &message), wanted);
        }
    }

    /// Of every length: a byte less, one more, and as many more as a size of one byte would not show.
    #[test]
    fn nothing_lacks_and_nothing_follows() {
        for length in 0..=255 {
            let message = wrapped(&KEY, &HEADER, CLEAR, &vec![0x5a; length]).unwrap();
            assert_eq!(shape(&message[..message.len() - 1]), Err(Refusal::ShapeWrong));
            for more in [1, 2, 128, 256, 65536] {
                assert_eq!(shape(&[&message[..], &vec![0; more]].concat()), Err(Refusal::ShapeWrong));
            }
        }
    }

    /// The rule before Wish 1.
    fn old_shape(message: &[u8]) -> Result<Opened, Refusal> {
        let (tag, length) = match *message {
            [tag, length, ..] => (tag, length),
            _ => return Err(Refusal::ShapeWrong),
        };
        let length = usize::from(length);
        let good = known(tag) && length <= 127 && message.len() == length + 8 && message[2 + length..4 + length] == [0x8e, 0x04];
        if good {
            Ok(Opened { tag, place: 2, length })
        } else {
            Err(Refusal::ShapeWrong)
        }
    }

    /// Messages of a size, with each first byte of a length and some second ones; 8e 04 stand all over, at the end too.
    fn of_size(size: usize) -> Vec<Vec<u8>> {
        let mut messages = vec![];
        for tag in [ENCIPHERED, CLEAR, 0x86] {
            for length in 0..=255 {
                for second in [0x00, 0x08, 0x7f, 0x80, size.saturating_sub(9) as u8, 0xff] {
                    let mut message: Vec<u8> = [0x8e, 0x04].into_iter().cycle().skip(size % 2).take(size).collect();
                    [tag, length, second].into_iter().zip(&mut message).for_each(|(byte, place)| *place = byte);
                    messages.push(message);
                }
            }
        }
        messages
    }

    /// Up to 135 bytes; none of 136 is good, and with 137 the two-byte form begins.
    #[test]
    fn short_messages_are_read_as_before() {
        let mut random = Random::new(0);
        let mut good = 0;
        for size in 0..=136 {
            for message in of_size(size) {
                assert_eq!(shape(&message), old_shape(&message), "{message:02x?}");
                good += usize::from(shape(&message).is_ok());
            }
            for _ in 0..200 {
                let mut message = random.bytes(size);
                if size >= 8 {
                    message[0] = random.choose(&[ENCIPHERED, CLEAR]);
                    message[1] = random.choose(&[(size - 8) as u8, LONG, message[1]]);
                    message[2] = random.choose(&[(size - 8) as u8, size.saturating_sub(9) as u8, message[2]]);
                    message[size - 6..size - 4].copy_from_slice(&[0x8e, 0x04]);
                }
                assert_eq!(shape(&message), old_shape(&message), "{message:02x?}");
                good += usize::from(shape(&message).is_ok());
            }
        }
        assert!(good > 128 * 50, "{good}");
        for message in of_size(137) {
            assert_eq!(shape(&message).is_ok(), known(message[0]) && message[1..3] == [0x81, 0x80]);
        }
    }

    #[test]
    fn places() {
        for place in [0, 1, 5, 6, 7, 13, 14, u64::MAX - 8, u64::MAX - 7, u64::MAX] {
            let mut buffer = [0xaa; 14];
            let fits = place <= 6;
            assert_eq!(wrap(&KEY, &HEADER, CLEAR, &[], &mut buffer, place).is_ok(), fits);
            let written = if fits { place as usize..place as usize + 8 } else { 0..0 };
            assert!((0..14).filter(|i| !written.contains(i)).all(|i| buffer[i] == 0xaa));
        }
    }

    /// A buffer that just holds a message, or lacks a byte for it.
    #[test]
    fn rooms() {
        for (length, size) in [(0, 8), (127, 135), (128, 137), (255, 264)] {
            let data = vec![0x5a; length];
            let mut buffer = vec![0xaa; size + 1];
            assert_eq!(wrap(&KEY, &HEADER, CLEAR, &data, &mut buffer, 2), Err(Refusal::NoRoom));
            assert_eq!(buffer, vec![0xaa; size + 1]);
            assert_eq!(wrap(&KEY, &HEADER, CLEAR, &data, &mut buffer, 1), Ok(()));
            assert_eq!(buffer[0], 0xaa);
            assert_eq!(buffer[1..], wrapped(&KEY, &HEADER, CLEAR, &data).unwrap());
        }
        assert_eq!(wrap(&KEY, &HEADER, CLEAR, &[0; 256], &mut [], u64::MAX), Err(Refusal::Input));
    }
}
