//! Lengths in forms that are not read (Wish 1): written by the generators, and known again for the tally and the slips.

use crate::message::{coded, shape, Header, CLEAR, ENCIPHERED};
use crate::octets::Key;
use crate::random::Random;

/// The bytes before the length's own, and the lengths that are wrong in this form.
pub struct Form {
    pub name: &'static str,
    pub before: &'static [u8],
    from: usize,
    to: usize,
}

pub const FORMS: [Form; 7] = [
    Form { name: "80", before: &[], from: 128, to: 128 },
    Form { name: "81", before: &[], from: 129, to: 129 },
    Form { name: "82 to ff", before: &[], from: 130, to: 255 },
    Form { name: "81 00 to 81 7f", before: &[0x81], from: 0, to: 127 },
    Form { name: "80 00 to 80 ff", before: &[0x80], from: 0, to: 255 },
    Form { name: "82 00 to 82 ff", before: &[0x82], from: 0, to: 255 },
    Form { name: "82 00 00 to 82 00 ff", before: &[0x82, 0x00], from: 0, to: 255 },
];

impl Form {
    pub fn any(random: &mut Random) -> &'static Form {
        &FORMS[random.weighted(&[2, 1, 2, 4, 1, 1, 1])]
    }

    pub fn takes(&self, length: usize) -> bool {
        (self.from..=self.to).contains(&length)
    }

    /// One of the lengths, often the last or the first.
    pub fn length(&self, random: &mut Random) -> usize {
        let any = random.within(self.from, self.to);
        random.choose(&[self.from, self.to, self.to, any, any])
    }

    pub fn field(&self, length: usize) -> Vec<u8> {
        [self.before, &[length as u8]].concat()
    }

    fn made(&self, key: &Key, header: &Header, message: &[u8]) -> bool {
        let place = 2 + self.before.len();
        let data = match message.get(place..message.len().saturating_sub(6)) {
            Some(data) => data,
            None => return false,
        };
        let tag = message[0];
        self.takes(data.len()) && [ENCIPHERED, CLEAR].contains(&tag) && coded(key, header, tag, &self.field(data.len()), data) == message
    }
}

/// The form of a message of wrong shape whose tag, size, end and code are right.
pub fn form_of(key: &Key, header: &Header, message: &[u8]) -> Option<&'static Form> {
    FORMS.iter().filter(|_| shape(message).is_err()).find(|form| form.made(key, header, message))
}

#[cfg(test)]
mod tests {
    use super::*;
    use crate::message::{open, wrapped};
    use crate::refusal::Refusal;

    const KEY: Key = [3; 32];
    const HEADER: Header = [1, 2, 3, 4];

    #[test]
    fn forms_are_known_again_and_not_read() {
        for form in &FORMS {
            for length in form.from..=form.to {
                let mut message = coded(&KEY, &HEADER, CLEAR, &form.field(length), &vec![0x5a; length]);
                assert_eq!(open(&KEY, &HEADER, &message), Err(Refusal::ShapeWrong));
                // the first that fits: 82 00 80 and 128 bytes are 82 and 130 bytes as well
                assert!(form.made(&KEY, &HEADER, &message) && form_of(&KEY, &HEADER, &message).is_some());
                *message.last_mut().unwrap() ^= 1;
                assert!(form_of(&KEY, &HEADER, &message).is_none());
            }
        }
        for length in 0..=255 {
            let message = wrapped(&KEY, &HEADER, CLEAR, &vec![0x5a; length]).unwrap();
            assert!(form_of(&KEY, &HEADER, &message).is_none());
        }
        assert!((0..8).all(|size| form_of(&KEY, &HEADER, &vec![0x81; size]).is_none()));
    }
}
