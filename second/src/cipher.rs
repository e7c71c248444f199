//! GOST 28147-89 (RFC 5830) with the substitution set id-tc26-gost-28147-param-Z (RFC 7836).
//!
//! Octets stand least significant first in key, block and code: of the two readings only this one gives the published values.

use crate::octets::Key;
use crate::refusal::Refusal;

pub type Block = [u8; 8];

/// RFC 7836: row i substitutes the i-th half-byte, counted from the least significant.
const SET_Z: [[u8; 16]; 8] = [
    [12, 4, 6, 2, 10, 5, 11, 9, 14, 8, 13, 7, 0, 3, 15, 1],
    [6, 8, 2, 3, 9, 10, 5, 12, 1, 14, 4, 7, 11, 13, 0, 15],
    [11, 3, 5, 8, 2, 15, 10, 13, 14, 1, 7, 4, 12, 9, 6, 0],
    [12, 8, 2, 1, 13, 4, 15, 6, 7, 0, 10, 5, 3, 14, 9, 11],
    [7, 15, 5, 10, 8, 1, 6, 13, 0, 9, 3, 14, 11, 4, 2, 12],
    [5, 13, 15, 6, 9, 2, 12, 10, 11, 7, 8, 1, 4, 3, 14, 0],
    [8, 14, 2, 5, 6, 9, 1, 12, 15, 4, 11, 0, 13, 10, 3, 7],
    [1, 7, 14, 13, 0, 5, 8, 3, 4, 15, 10, 6, 9, 12, 11, 2],
];

/// The two halves of a block; the subkey is added to the first.
#[derive(Clone, Copy)]
struct Halves {
    n1: u32,
    n2: u32,
}

/// Subkeys X0 to X7, four octets of the key each.
fn subkeys(key: &Key) -> [u32; 8] {
    std::array::from_fn(|i| word(&key[4 * i..4 * i + 4]))
}

fn word(octets: &[u8]) -> u32 {
    octets.iter().rev().fold(0, |sum, &octet| sum << 8 | u32::from(octet))
}

fn halves(block: &Block) -> Halves {
    Halves { n1: word(&block[..4]), n2: word(&block[4..]) }
}

fn substitute(value: u32) -> u32 {
    SET_Z.iter().enumerate().fold(0, |sum, (i, row)| {
        let half_byte = value >> (4 * i) & 15;
        sum | u32::from(row[half_byte as usize]) << (4 * i)
    })
}

/// One round (RFC 5830, clause 5.1): the addition drops its carry on purpose.
fn round(state: Halves, subkey: u32) -> Halves {
    let mixed = substitute(state.n1.wrapping_add(subkey)).rotate_left(11);
    Halves { n1: state.n2 ^ mixed, n2: state.n1 }
}

/// All rounds of simple replacement. The last one keeps its halves in place, so they are written swapped.
fn replace(block: &Block, order: impl Iterator<Item = u32>) -> Block {
    let end = order.fold(halves(block), round);
    let mut out = [0; 8];
    out[..4].copy_from_slice(&end.n2.to_le_bytes());
    out[4..].copy_from_slice(&end.n1.to_le_bytes());
    out
}

/// Simple replacement: the subkeys three times forward and once backward.
pub fn encipher(key: &Key, block: &Block) -> Block {
    let x = subkeys(key);
    replace(block, (0..24).map(|i| x[i % 8]).chain((0..8).rev().map(|i| x[i])))
}

/// The other way: once forward and three times backward.
pub fn decipher(key: &Key, block: &Block) -> Block {
    let x = subkeys(key);
    replace(block, (0..8).map(|i| x[i]).chain((0..24).rev().map(|i| x[i % 8])))
}

/// The 32-bit authentication code (RFC 5830, clause 8) of one or more whole blocks: each is added to the state, which then goes through
/// the first 16 rounds; the code is N1. Nothing is appended to a single block.
pub fn code(key: &Key, string: &[u8]) -> Result<[u8; 4], Refusal> {
    let blocks = string.chunks_exact(8);
    if string.is_empty() || !blocks.remainder().is_empty() {
        return Err(Refusal::Input);
    }
    let x = subkeys(key);
    let end = blocks.fold(Halves { n1: 0, n2: 0 }, |state, block| {
        let sum = Halves { n1: state.n1 ^ word(&block[..4]), n2: state.n2 ^ word(&block[4..]) };
        (0..16).map(|i| x[i % 8]).fold(sum, round)
    });
    Ok(end.n1.to_le_bytes())
}

#[cfg(test)]
mod tests {
    use super::*;

    #[test]
    fn deciphering_undoes_enciphering() {
        let key: Key = std::array::from_fn(|i| (i * 37 + 5) as u8);
        for start in 0..=255u8 {
            let block: Block = std::array::from_fn(|i| start.wrapping_mul(i as u8 + 1));
            assert_eq!(decipher(&key, &encipher(&key, &block)), block);
            assert_eq!(encipher(&key, &decipher(&key, &block)), block);
        }
    }

    #[test]
    fn the_code_takes_whole_blocks() {
        for length in 0..40 {
            let refused = code(&[7; 32], &vec![0; length]) == Err(Refusal::Input);
            assert_eq!(refused, length == 0 || length % 8 != 0);
        }
    }
}
