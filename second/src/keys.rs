//! Card, session and counter keys (R 1323565.1.010) and the IDN (R 1323565.1.016, clause 4.1).

use crate::cipher::encipher;
use crate::derive::{derive, Seed};
use crate::hash::hash;
use crate::octets::Key;
use crate::refusal::Refusal;

/// Y as its 16 digits: the last 16 of card number and sequence number; a shorter X, of 14 or 15, gets zero digits before it.
fn last_digits(pan: &[u8], sequence: u8) -> Result<[u8; 16], Refusal> {
    if !(12..=19).contains(&pan.len()) || pan.iter().any(|&d| d > 9) || sequence > 99 {
        return Err(Refusal::CardNumber);
    }
    let x = [&[0, 0], pan, &[sequence / 10, sequence % 10]].concat();
    Ok(x[x.len() - 16..].try_into().expect("16 digits"))
}

fn paired(digits: [u8; 16], base: u8) -> Seed {
    std::array::from_fn(|i| base * digits[2 * i] + digits[2 * i + 1])
}

/// Y by the rule of paper 01 and annex A of 003: each pair of digits is its number, 0 to 99.
pub fn seed(pan: &[u8], sequence: u8) -> Result<Seed, Refusal> {
    Ok(paired(last_digits(pan, sequence)?, 10))
}

/// Y packed, a digit a half-byte: this gives the master keys that 003 prints.
pub fn seed_packed(pan: &[u8], sequence: u8) -> Result<Seed, Refusal> {
    Ok(paired(last_digits(pan, sequence)?, 16))
}

/// The card master key (clause 4.1); sequence 0 is an absent one.
pub fn card_key(issuer: &Key, pan: &[u8], sequence: u8) -> Result<Key, Refusal> {
    Ok(derive(issuer, &seed(pan, sequence)?))
}

pub fn card_key_packed(issuer: &Key, pan: &[u8], sequence: u8) -> Result<Key, Refusal> {
    Ok(derive(issuer, &seed_packed(pan, sequence)?))
}

/// The session key for cryptograms (clause 4.2.1).
pub fn session_key(master: &Key, counter: u16) -> Key {
    let [high, low] = counter.to_be_bytes();
    derive(master, &[high, low, 0xf0, 0, 0, 0, 0, 0])
}

/// The session keys for scripts (clauses 4.2.2 and 4.2.3): the seed is the cryptogram.
pub fn script_key(master: &Key, cryptogram: &[u8; 8]) -> Key {
    derive(master, cryptogram)
}

/// The key for counter blocks (R 1323565.1.008, clause 4.3.1).
pub fn counter_key(session: &Key) -> Key {
    hash(session)
}

/// The first n bytes, 2 to 8, of the counter and six 00 enciphered.
pub fn idn(key: &Key, counter: u16, n: usize) -> Result<Vec<u8>, Refusal> {
    if !(2..=8).contains(&n) {
        return Err(Refusal::Input);
    }
    let [high, low] = counter.to_be_bytes();
    Ok(encipher(key, &[high, low, 0, 0, 0, 0, 0, 0])[..n].to_vec())
}

#[cfg(test)]
mod tests {
    use super::*;

    #[test]
    fn card_numbers_and_sequences() {
        for length in 0..30 {
            let wanted = (12..=19).contains(&length);
            assert_eq!(card_key(&[0; 32], &vec![9; length], 99).is_ok(), wanted);
            assert_eq!(card_key_packed(&[0; 32], &vec![9; length], 99).is_ok(), wanted);
        }
        assert_eq!(seed(&[0; 12], 100), Err(Refusal::CardNumber));
        for place in 0..12 {
            let mut pan = [0; 12];
            pan[place] = 10;
            assert_eq!(seed(&pan, 0), Err(Refusal::CardNumber));
        }
    }

    #[test]
    fn short_numbers_get_zero_digits_before_them() {
        assert_eq!(seed(&[1; 12], 23), Ok([0, 11, 11, 11, 11, 11, 11, 23]));
        assert_eq!(seed(&[1; 13], 23), Ok([1, 11, 11, 11, 11, 11, 11, 23]));
        assert_eq!(seed_packed(&[1; 13], 23), Ok([0x01, 0x11, 0x11, 0x11, 0x11, 0x11, 0x11, 0x23]));
        assert_eq!(seed(&[1; 14], 23), Ok([11, 11, 11, 11, 11, 11, 11, 23]));
    }

    /// The digits with the zeros after a short X, as paper 01 had it.
    fn zeros_after(pan: &[u8], sequence: u8) -> [u8; 16] {
        let mut x = [pan, &[sequence / 10, sequence % 10]].concat();
        x.resize(x.len().max(16), 0);
        x[x.len() - 16..].try_into().unwrap()
    }

    /// The side matters exactly for X of 14 or 15 digits of which one at least is not 0.
    #[test]
    fn only_short_numbers_are_touched() {
        for length in 12..=19 {
            let zeros = vec![0; length];
            let ones = (0..length).map(|place| (0..length).map(|i| (i == place) as u8).collect());
            for pan in ones.chain([zeros]) {
                for sequence in [0, 1, 10, 99] {
                    let touched = length < 14 && (sequence > 0 || pan.contains(&1));
                    let after = zeros_after(&pan, sequence);
                    assert_eq!(seed(&pan, sequence) != Ok(paired(after, 10)), touched);
                    assert_eq!(seed_packed(&pan, sequence) != Ok(paired(after, 16)), touched);
                }
            }
        }
    }
}
