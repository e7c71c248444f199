//! KDF_GOSTR3411_2012_256 (RFC 7836, clause 4.5), with the label of card keys (R 1323565.1.010, clause 3.2).

use crate::hmac::hmac;
use crate::octets::Key;

pub const LABEL: [u8; 4] = [0x21, 0x07, 0x22, 0xe6];

pub type Seed = [u8; 8];

/// HMAC under the key of 01, label, 00, seed, 01, 00.
pub fn derive_labelled(key: &Key, label: &[u8], seed: &[u8]) -> Key {
    hmac(key, &[&[1], label, &[0], seed, &[1, 0]].concat())
}

pub fn derive(key: &Key, seed: &Seed) -> Key {
    derive_labelled(key, &LABEL, seed)
}
