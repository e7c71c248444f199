//! Application cryptograms and the issuer's answer (R 1323565.1.009).

use crate::cipher::code;
use crate::octets::Key;

pub type Cryptogram = [u8; 8];

#[derive(Clone, Copy, Debug, PartialEq, Eq)]
pub enum Kind {
    Arqc,
    Tc,
    Aac,
}

impl Kind {
    /// The byte that names the kind outside (R 1323565.1.016, clause 3, CID).
    pub fn byte(self) -> u8 {
        match self {
            Kind::Arqc => 0x80,
            Kind::Tc => 0x40,
            Kind::Aac => 0x00,
        }
    }

    pub fn of_byte(byte: u8) -> Option<Kind> {
        [Kind::Arqc, Kind::Tc, Kind::Aac].into_iter().find(|kind| kind.byte() == byte)
    }

    /// Table 2: no second command, and the kind in answer to the first.
    fn upper_bits(self) -> u8 {
        match self {
            Kind::Arqc => 0b1010,
            Kind::Tc => 0b1001,
            Kind::Aac => 0b1000,
        }
    }
}

/// The 65 bytes as the card completes them: its counter at offsets 31 and 32, the kind in the upper half of offset 36.
pub fn completed(kind: Kind, counter: u16, data: &[u8; 65]) -> [u8; 65] {
    let mut full = *data;
    full[31..33].copy_from_slice(&counter.to_be_bytes());
    full[36] = kind.upper_bits() << 4 | full[36] & 15;
    full
}

fn twice(code: [u8; 4]) -> Cryptogram {
    std::array::from_fn(|i| code[i % 4])
}

/// The code of a text and 80 00 .. up to 72 bytes, written twice.
pub fn sealed(key: &Key, text: &[u8]) -> Cryptogram {
    let mut string = text.to_vec();
    string.push(0x80);
    string.resize(72, 0);
    twice(code(key, &string).expect("nine blocks"))
}

/// ARQC, TC or AAC (clause 4.1): Pad7 is 80 and six 00.
pub fn cryptogram(key: &Key, kind: Kind, counter: u16, data: &[u8; 65]) -> Cryptogram {
    sealed(key, &completed(kind, counter, data))
}

/// ARPC (clause 4.2): cryptogram, CSU, four 00; Pad56 is 80 and fifty-five 00.
pub fn arpc(key: &Key, cryptogram: &Cryptogram, csu: &[u8; 4]) -> Cryptogram {
    sealed(key, &[&cryptogram[..], csu, &[0; 4]].concat())
}
