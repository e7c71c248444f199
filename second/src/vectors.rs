//! The published vectors as lines: document, clause, operation and inputs, answered by document, clause, operation and value.

use crate::cipher::{code, decipher, encipher};
use crate::cryptogram::{cryptogram, Kind};
use crate::derive::derive_labelled;
use crate::hash::hash;
use crate::hmac::hmac;
use crate::keys::{card_key, card_key_packed, counter_key, idn, script_key, session_key};
use crate::octets::{exact, from_hex, to_hex};
use crate::pin;
use crate::refusal::Refusal;

/// The value of an operation on its inputs.
fn value(operation: &str, inputs: &[Vec<u8>]) -> Result<Vec<u8>, Refusal> {
    let given = |i: usize| inputs.get(i).map(Vec::as_slice).ok_or(Refusal::Input);
    let key = exact::<32>(given(0)?);
    let counter = || Ok(u16::from_be_bytes(exact(given(1)?)?));
    let byte = |i| Ok(exact::<1>(given(i)?)?[0]);
    let sealed = |kind| Ok(cryptogram(&key?, kind, counter()?, &exact(given(2)?)?).to_vec());
    match operation {
        "encipher" => Ok(encipher(&key?, &exact(given(1)?)?).to_vec()),
        "decipher" => Ok(decipher(&key?, &exact(given(1)?)?).to_vec()),
        "code" => Ok(code(&key?, given(1)?)?.to_vec()),
        "hash" => Ok(hash(given(0)?).to_vec()),
        "hmac" => Ok(hmac(&key?, given(1)?).to_vec()),
        "derive" => Ok(derive_labelled(&key?, given(1)?, given(2)?).to_vec()),
        "card-key" => Ok(card_key(&key?, given(1)?, byte(2)?)?.to_vec()),
        "card-key-packed" => Ok(card_key_packed(&key?, given(1)?, byte(2)?)?.to_vec()),
        "session-key" => Ok(session_key(&key?, counter()?).to_vec()),
        "script-key" => Ok(script_key(&key?, &exact(given(1)?)?).to_vec()),
        "counter-key" => Ok(counter_key(&key?).to_vec()),
        "idn" => idn(&key?, counter()?, byte(2)?.into()),
        "arqc" => sealed(Kind::Arqc),
        "tc" => sealed(Kind::Tc),
        "aac" => sealed(Kind::Aac),
        "write-pin" => Ok(pin::write(given(0)?)?.to_vec()),
        "encipher-pin" => Ok(encipher(&key?, &pin::write(given(1)?)?).to_vec()),
        _ => Err(Refusal::Unreadable),
    }
}

/// The answer to one line.
pub fn answer(line: &str) -> String {
    let words: Vec<&str> = line.split(' ').collect();
    let (document, clause, operation, inputs) = match &words[..] {
        [document, clause, operation, inputs @ ..] => (document, clause, operation, inputs),
        _ => return format!("not a vector: {line}"),
    };
    let inputs: Option<Vec<Vec<u8>>> = inputs.iter().map(|digits| from_hex(digits.as_bytes())).collect();
    let result = inputs.map_or(Err(Refusal::Unreadable), |inputs| value(operation, &inputs));
    match result {
        Ok(bytes) => format!("{document} {clause} {operation} {}", to_hex(&bytes)),
        Err(refusal) => format!("{document} {clause} {operation} refusal {}", refusal.number()),
    }
}
