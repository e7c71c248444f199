//! Octets and their hexadecimal digits.

use crate::refusal::Refusal;

pub type Key = [u8; 32];

/// The bytes as an array of the length that the paper states; any other length is refusal 1.
pub fn exact<const N: usize>(bytes: &[u8]) -> Result<[u8; N], Refusal> {
    bytes.try_into().map_err(|_| Refusal::Input)
}

/// The value of a digit; capitals are foreign signs.
pub fn digit(sign: u8) -> Option<u8> {
    match sign {
        b'0'..=b'9' => Some(sign - b'0'),
        b'a'..=b'f' => Some(sign - b'a' + 10),
        _ => None,
    }
}

/// The bytes that an even number of digits writes.
pub fn from_hex(digits: &[u8]) -> Option<Vec<u8>> {
    if digits.len() % 2 == 1 {
        return None;
    }
    digits.chunks(2).map(|pair| Some(digit(pair[0])? << 4 | digit(pair[1])?)).collect()
}

pub fn to_hex(bytes: &[u8]) -> String {
    let sign = |half: u8| char::from_digit(half.into(), 16).expect("a half-byte");
    bytes.iter().flat_map(|byte| [sign(byte >> 4), sign(byte & 15)]).collect()
}

/// The word of a string in a line: its digits, or `-` where it is empty.
pub fn word_of(bytes: &[u8]) -> String {
    if bytes.is_empty() {
        return "-".to_string();
    }
    to_hex(bytes)
}

/// The string that a word writes.
pub fn bytes_of(word: &str) -> Option<Vec<u8>> {
    match word {
        "-" => Some(vec![]),
        _ => from_hex(word.as_bytes()),
    }
}

/// Test data: the array that the digits write.
#[cfg(test)]
pub fn hex<const N: usize>(digits: &str) -> [u8; N] {
    from_hex(digits.as_bytes()).expect("digits").try_into().expect("length")
}

#[cfg(test)]
mod tests {
    use super::*;

    #[test]
    fn digits_both_ways() {
        assert_eq!(from_hex(b"00ff1e"), Some(vec![0, 255, 30]));
        assert_eq!(to_hex(&[0, 255, 30]), "00ff1e");
        for wrong in [&b"0"[..], b"0A", b"0g", b"0 ", b"/0", b":0", b"`0", b"\x80\x80"] {
            assert_eq!(from_hex(wrong), None);
        }
    }
}
