//! HMAC_GOSTR3411_2012_256 (R 50.1.113-2016, RFC 7836, clause 4.1.1).

use crate::hash::{hash, BLOCK};
use crate::octets::Key;

fn pad(key: &Key, mask: u8) -> Vec<u8> {
    let mut block = vec![mask; BLOCK];
    block.iter_mut().zip(key).for_each(|(octet, k)| *octet ^= k);
    block
}

pub fn hmac(key: &Key, message: &[u8]) -> [u8; 32] {
    let inner = hash(&[&pad(key, 0x36), message].concat());
    hash(&[&pad(key, 0x5c), &inner[..]].concat())
}
