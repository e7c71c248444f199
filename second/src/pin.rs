//! PIN blocks and counter blocks (R 1323565.1.008, clauses 4.2.1 and 4.3).

use crate::refusal::Refusal;

/// A PIN of twelve places with its count; unused places are zero.
#[derive(Clone, Copy, Debug, PartialEq, Eq)]
pub struct Pin {
    pub count: u8,
    pub places: [u8; 12],
}

impl Pin {
    pub const NONE: Pin = Pin { count: 0, places: [0; 12] };

    /// The PIN of 4 to 12 digits, else refusal 12.
    pub fn of_digits(digits: &[u8]) -> Result<Pin, Refusal> {
        if !(4..=12).contains(&digits.len()) || digits.iter().any(|&d| d > 9) {
            return Err(Refusal::PinDigits);
        }
        let mut places = [0; 12];
        places[..digits.len()].copy_from_slice(digits);
        Ok(Pin { count: digits.len() as u8, places })
    }

    /// 4 to 12 digits from 0 to 9 with zeros in the unused places.
    pub fn sound(&self) -> bool {
        let used = usize::from(self.count);
        (4..=12).contains(&used) && self.places[..used].iter().all(|&d| d <= 9) && self.places[used..].iter().all(|&d| d == 0)
    }
}

fn half_bytes(block: &[u8; 8]) -> [u8; 16] {
    std::array::from_fn(|i| if i % 2 == 0 { block[i / 2] >> 4 } else { block[i / 2] & 15 })
}

fn joined(halves: [u8; 16]) -> [u8; 8] {
    std::array::from_fn(|i| halves[2 * i] << 4 | halves[2 * i + 1])
}

/// 2, the number of digits, the digits, f to the end.
pub fn write(digits: &[u8]) -> Result<[u8; 8], Refusal> {
    let pin = Pin::of_digits(digits)?;
    Ok(written(pin.count, digits))
}

/// The block of up to 14 digits, as it would be written of any count.
pub fn written(count: u8, digits: &[u8]) -> [u8; 8] {
    let mut halves = [15; 16];
    halves[0] = 2;
    halves[1] = count;
    halves[2..2 + digits.len()].copy_from_slice(digits);
    joined(halves)
}

/// The PIN of a block. The filler is not free: each half-byte after the digits is f.
pub fn read(block: &[u8; 8]) -> Result<Pin, Refusal> {
    let halves = half_bytes(block);
    let count = usize::from(halves[1]);
    if halves[0] != 2 || !(4..=12).contains(&count) || halves[2 + count..].iter().any(|&h| h != 15) {
        return Err(Refusal::PinFormat);
    }
    Pin::of_digits(&halves[2..2 + count]).map_err(|_| Refusal::PinFormat)
}

#[derive(Clone, Copy, Debug, Default, PartialEq, Eq)]
pub struct Counters {
    pub session: u16,
    pub failure: u16,
    pub pin: u16,
    pub mutual: u16,
}

impl Counters {
    /// The counter block: high bytes first, in the order of clause 3.
    pub fn block(&self) -> [u8; 8] {
        let each = [self.session, self.failure, self.pin, self.mutual];
        std::array::from_fn(|i| each[i / 2].to_be_bytes()[i % 2])
    }

    pub fn of_block(block: &[u8; 8]) -> Counters {
        let at = |i: usize| u16::from_be_bytes([block[i], block[i + 1]]);
        Counters { session: at(0), failure: at(2), pin: at(4), mutual: at(6) }
    }
}

#[cfg(test)]
mod tests {
    use super::*;

    #[test]
    fn reading_what_was_written() {
        for count in 0..16u8 {
            let digits: Vec<u8> = (0..count).map(|i| i % 10).collect();
            let written = write(&digits);
            assert_eq!(written.is_ok(), (4..=12).contains(&count));
            if let Ok(block) = written {
                assert_eq!(read(&block), Pin::of_digits(&digits));
            }
        }
        assert_eq!(write(&[1, 2, 3, 10]), Err(Refusal::PinDigits));
    }

    #[test]
    fn every_half_byte_is_looked_at() {
        let good = [0x24, 0x12, 0x34, 0xff, 0xff, 0xff, 0xff, 0xff];
        for place in 0..16 {
            for value in 0..16 {
                let mut halves = half_bytes(&good);
                halves[place] = value;
                let accepted = match place {
                    0 => value == 2,
                    1 => value == 4,
                    2..=5 => value <= 9,
                    _ => value == 15,
                };
                assert_eq!(read(&joined(halves)).is_ok(), accepted, "place {place} value {value}");
            }
        }
    }

    #[test]
    fn counter_blocks() {
        let counters = Counters { session: 0x0102, failure: 0x0304, pin: 0x0506, mutual: 0x0708 };
        assert_eq!(counters.block(), [1, 2, 3, 4, 5, 6, 7, 8]);
        assert_eq!(Counters::of_block(&counters.block()), counters);
    }
}
