//! The functions for the issuer's desk, for the comparison: our answers, and for which of its causes each is given.

use crate::cryptogram::{cryptogram, sealed, Cryptogram, Kind};
use crate::desk::{command_of, size_of, Card, Check, Data, Desk, Named, Wrap, ARPC, CARDS, COUNTER, KIND, KNOWN, RULES, TABLE};
use crate::desk_calls::{table_line, Call, What};
use crate::desk_generate::{other_held, Case, Cases};
use crate::keys::{seed, session_key};
use crate::lent::{cause_of_room, compared};
use crate::message::{fits, Command};
use crate::octets::{exact, Key};
use crate::peer::Subject;
use crate::pin;
use crate::refusal::{number_of, Refusal};

/// Causes that must be reached.
const CAUSES: &[&str] = &[
    "add 0 0 held",
    "add 0 12 digits",
    "add 0 13 digits",
    "add 0 14 digits",
    "add 0 15 digits",
    "add 0 16 digits",
    "add 0 17 digits",
    "add 0 18 digits",
    "add 0 19 digits",
    "add 0 62 held",
    "add 0 63 held",
    "add 0 a counter in the entry that is taken",
    "add 0 a held one differs after the digits alone",
    "add 0 a held one differs in a length above 19",
    "add 0 a held one differs in length alone",
    "add 0 a held one differs in sequence alone",
    "add 0 a held one differs in zeros before it",
    "add 0 a held one shares Y",
    "add 0 a table with other numbers than 1",
    "add 0 an entry between others",
    "add 0 an entry without a card has its bytes",
    "add 0 another card held twice",
    "add 0 bytes in an entry without a card",
    "add 0 bytes in the entry that is taken",
    "add 0 forgotten with a last counter",
    "add 0 sequence 0",
    "add 0 sequence 99",
    "add 0 some held",
    "add 0 the entry after all others",
    "add 0 the first entry",
    "add 0 the last entry",
    "add 1 a table of 0",
    "add 1 a table of 1599",
    "add 1 a table of 1601",
    "add 1 a table of another length",
    "add 2 0 digits",
    "add 2 11 digits",
    "add 2 20 digits",
    "add 2 a digit 10",
    "add 2 a digit above 10",
    "add 2 a table with other numbers than 1",
    "add 2 another number of digits",
    "add 2 no room",
    "add 2 sequence 100",
    "add 2 sequence above 100",
    "add 20 62 held",
    "add 20 63 held",
    "add 20 64 held",
    "add 20 a table with other numbers than 1",
    "add 20 held twice",
    "add 20 some held",
    "add 21 64 held",
    "add 21 a table with other numbers than 1",
    "add 21 another card held twice",
    "check 0 12 digits by pairs",
    "check 0 12 digits packed",
    "check 0 13 digits by pairs",
    "check 0 13 digits packed",
    "check 0 14 digits by pairs",
    "check 0 14 digits packed",
    "check 0 15 digits by pairs",
    "check 0 15 digits packed",
    "check 0 16 digits by pairs",
    "check 0 16 digits packed",
    "check 0 17 digits by pairs",
    "check 0 17 digits packed",
    "check 0 18 digits by pairs",
    "check 0 18 digits packed",
    "check 0 19 digits by pairs",
    "check 0 19 digits packed",
    "check 0 a held one differs after the digits alone",
    "check 0 a held one differs in a length above 19",
    "check 0 a held one differs in length alone",
    "check 0 a held one differs in sequence alone",
    "check 0 a held one differs in zeros before it",
    "check 0 a held one shares Y",
    "check 0 a table with other numbers than 1",
    "check 0 an entry without a card has its bytes",
    "check 0 bytes in an entry without a card",
    "check 0 counter 0 and no last one",
    "check 0 counter 1 above",
    "check 0 counter 65535",
    "check 0 counter above",
    "check 0 counter above, its low byte below",
    "check 0 counter no last one",
    "check 0 counter not above that of another entry of the card",
    "check 0 counter not above that of before",
    "check 0 held twice",
    "check 0 offset 36 1010 as sent",
    "check 0 offset 36 of another kind as sent",
    "check 0 sequence 0",
    "check 0 sequence 99",
    "check 1 a table of 0",
    "check 1 a table of 1599",
    "check 1 a table of 1601",
    "check 1 a table of another length",
    "check 1 digits 2",
    "check 1 digits above 2",
    "check 1 else 19",
    "check 1 else 2",
    "check 1 else neither 2 nor 19",
    "check 1 length of ARPC, else 0",
    "check 1 length of ARPC, else 22",
    "check 1 length of ARPC, else 23",
    "check 1 no bytes of ARPC",
    "check 1 no bytes of ARQC",
    "check 1 no bytes of CSU",
    "check 1 no bytes of data",
    "check 1 no bytes of the issuer's key",
    "check 1 too few bytes of ARPC",
    "check 1 too few bytes of ARQC",
    "check 1 too few bytes of CSU",
    "check 1 too few bytes of data",
    "check 1 too few bytes of the issuer's key",
    "check 1 too many bytes of ARPC",
    "check 1 too many bytes of ARQC",
    "check 1 too many bytes of CSU",
    "check 1 too many bytes of data",
    "check 1 too many bytes of the issuer's key",
    "check 2 0 digits",
    "check 2 11 digits",
    "check 2 20 digits",
    "check 2 a digit 10",
    "check 2 a digit above 10",
    "check 2 a table with other numbers than 1",
    "check 2 another number of digits",
    "check 2 no room",
    "check 2 sequence 100",
    "check 2 sequence above 100",
    "check 19 a held one differs after the digits alone",
    "check 19 a held one differs in a length above 19",
    "check 19 a held one differs in length alone",
    "check 19 a held one differs in sequence alone",
    "check 19 a held one differs in zeros before it",
    "check 19 a held one shares Y",
    "check 19 a table with other numbers than 1",
    "check 19 an entry without a card has its bytes",
    "check 19 else 0",
    "check 19 else 22",
    "check 19 no card is held",
    "check 22 a TC",
    "check 22 a bit of its first half",
    "check 22 a bit of its second half",
    "check 22 a table with other numbers than 1",
    "check 22 an AAC",
    "check 22 another ARQC",
    "check 22 counter good",
    "check 22 counter not above",
    "check 22 held twice",
    "check 22 the ARQC by the other reading",
    "check 22 the ARQC of another card held",
    "check 22 the kind as sent",
    "check 22 under the key of the next counter",
    "check 22 under the master key",
    "check 23 a table with other numbers than 1",
    "check 23 counter 0",
    "check 23 counter 0 again",
    "check 23 counter 1 below",
    "check 23 counter 65535 again",
    "check 23 counter above that of another entry of the card",
    "check 23 counter below",
    "check 23 counter below, its low byte above",
    "check 23 counter the last one",
    "check 23 held twice",
    "forget 0 1 held",
    "forget 0 12 digits",
    "forget 0 13 digits",
    "forget 0 14 digits",
    "forget 0 15 digits",
    "forget 0 16 digits",
    "forget 0 17 digits",
    "forget 0 18 digits",
    "forget 0 19 digits",
    "forget 0 64 held",
    "forget 0 a held one differs after the digits alone",
    "forget 0 a held one differs in a length above 19",
    "forget 0 a held one differs in length alone",
    "forget 0 a held one differs in sequence alone",
    "forget 0 a held one differs in zeros before it",
    "forget 0 a held one shares Y",
    "forget 0 a last counter",
    "forget 0 a table with other numbers than 1",
    "forget 0 an entry without a card has its bytes",
    "forget 0 bytes in an entry without a card",
    "forget 0 held twice",
    "forget 0 no last counter",
    "forget 0 sequence 0",
    "forget 0 sequence 99",
    "forget 0 the first entry",
    "forget 0 the last entry",
    "forget 1 a table of 0",
    "forget 1 a table of 1599",
    "forget 1 a table of 1601",
    "forget 1 a table of another length",
    "forget 2 0 digits",
    "forget 2 11 digits",
    "forget 2 20 digits",
    "forget 2 a digit 10",
    "forget 2 a digit above 10",
    "forget 2 a table with other numbers than 1",
    "forget 2 another number of digits",
    "forget 2 no room",
    "forget 2 sequence 100",
    "forget 2 sequence above 100",
    "forget 19 a held one differs after the digits alone",
    "forget 19 a held one differs in a length above 19",
    "forget 19 a held one differs in length alone",
    "forget 19 a held one differs in sequence alone",
    "forget 19 a held one differs in zeros before it",
    "forget 19 a held one shares Y",
    "forget 19 a table with other numbers than 1",
    "forget 19 an entry without a card has its bytes",
    "forget 19 no card is held",
    "wrap 0 12 bytes, fits exactly from 0",
    "wrap 0 12 bytes, fits exactly from a place",
    "wrap 0 12 bytes, fits with room after it from 0",
    "wrap 0 12 bytes, fits with room after it from a place",
    "wrap 0 18 by pairs",
    "wrap 0 18 packed",
    "wrap 0 1e by pairs",
    "wrap 0 1e packed",
    "wrap 0 20 bytes, fits exactly from 0",
    "wrap 0 20 bytes, fits exactly from a place",
    "wrap 0 20 bytes, fits with room after it from 0",
    "wrap 0 20 bytes, fits with room after it from a place",
    "wrap 0 24 by pairs",
    "wrap 0 24 packed",
    "wrap 0 PIN of 10",
    "wrap 0 PIN of 11",
    "wrap 0 PIN of 12",
    "wrap 0 PIN of 4",
    "wrap 0 PIN of 5",
    "wrap 0 PIN of 6",
    "wrap 0 PIN of 7",
    "wrap 0 PIN of 8",
    "wrap 0 PIN of 9",
    "wrap 0 a PIN that is not looked at",
    "wrap 0 a PIN that is not looked at, 13 digits",
    "wrap 0 a PIN that is not looked at, 3 digits",
    "wrap 0 a PIN that is not looked at, a digit 10",
    "wrap 0 a PIN that is not looked at, a digit above 10",
    "wrap 0 a PIN that is not looked at, another number of digits",
    "wrap 0 a PIN that is not looked at, no digits",
    "wrap 0 a held one differs after the digits alone",
    "wrap 0 a held one differs in a length above 19",
    "wrap 0 a held one differs in length alone",
    "wrap 0 a held one differs in sequence alone",
    "wrap 0 a held one differs in zeros before it",
    "wrap 0 a held one shares Y",
    "wrap 0 a last counter",
    "wrap 0 a table with other numbers than 1",
    "wrap 0 an entry without a card has its bytes",
    "wrap 0 bytes in an entry without a card",
    "wrap 0 held twice",
    "wrap 0 no last counter",
    "wrap 0 sequence 0",
    "wrap 0 sequence 99",
    "wrap 1 a table of 0",
    "wrap 1 a table of 1599",
    "wrap 1 a table of 1601",
    "wrap 1 a table of another length",
    "wrap 1 another instruction",
    "wrap 1 digits 2",
    "wrap 1 digits above 2",
    "wrap 1 else 0",
    "wrap 1 else 12",
    "wrap 1 else 19",
    "wrap 1 else 2",
    "wrap 1 else 3",
    "wrap 1 no bytes of SMC",
    "wrap 1 no bytes of SMI",
    "wrap 1 no bytes of cryptogram",
    "wrap 1 too few bytes of SMC",
    "wrap 1 too few bytes of SMI",
    "wrap 1 too few bytes of cryptogram",
    "wrap 1 too many bytes of SMC",
    "wrap 1 too many bytes of SMI",
    "wrap 1 too many bytes of cryptogram",
    "wrap 2 0 digits",
    "wrap 2 11 digits",
    "wrap 2 20 digits",
    "wrap 2 a digit 10",
    "wrap 2 a digit above 10",
    "wrap 2 a table with other numbers than 1",
    "wrap 2 another number of digits",
    "wrap 2 no room",
    "wrap 2 sequence 100",
    "wrap 2 sequence above 100",
    "wrap 3 12 bytes, at the end",
    "wrap 3 12 bytes, bytes too few",
    "wrap 3 12 bytes, one byte too few",
    "wrap 3 12 bytes, past the end",
    "wrap 3 12 bytes, the sum does not fit",
    "wrap 3 20 bytes, at the end",
    "wrap 3 20 bytes, bytes too few",
    "wrap 3 20 bytes, one byte too few",
    "wrap 3 20 bytes, past the end",
    "wrap 3 20 bytes, the sum does not fit",
    "wrap 3 a table with other numbers than 1",
    "wrap 3 held twice",
    "wrap 12 13 digits",
    "wrap 12 3 digits",
    "wrap 12 a digit 10",
    "wrap 12 a digit above 10",
    "wrap 12 a table with other numbers than 1",
    "wrap 12 another number of digits",
    "wrap 12 else 0",
    "wrap 12 else 3",
    "wrap 12 held twice",
    "wrap 12 no digits",
    "wrap 19 a held one differs after the digits alone",
    "wrap 19 a held one differs in a length above 19",
    "wrap 19 a held one differs in length alone",
    "wrap 19 a held one differs in sequence alone",
    "wrap 19 a held one differs in zeros before it",
    "wrap 19 a held one shares Y",
    "wrap 19 a table with other numbers than 1",
    "wrap 19 an entry without a card has its bytes",
    "wrap 19 else 0",
    "wrap 19 else 12",
    "wrap 19 else 3",
    "wrap 19 no card is held",
];

/// The four functions, for the comparison.
pub struct DeskCalls;

impl Subject for DeskCalls {
    const NAME: &'static str = "desk";
    const CAUSES: &'static [&'static str] = CAUSES;
    type Case = Case;
    type Cases = Cases;

    fn cases(seed: u64) -> Cases {
        Cases::new(seed)
    }

    fn line(case: &Case) -> String {
        case.line()
    }

    fn answer(case: &Case) -> (String, Vec<String>) {
        (case.answer.clone(), causes(case))
    }

    /// A desk is its table, so that two lines lead there.
    fn shown(case: &Case) -> String {
        format!("{}\n{}", table_line(case.desk.table()), case.call.line())
    }
}

fn name(what: &What) -> &'static str {
    match what {
        What::Add => "add",
        What::Forget => "forget",
        What::Check(_) => "check",
        What::Wrap(_) => "wrap",
    }
}

/// Function, number and cause, for each cause that holds.
fn causes(case: &Case) -> Vec<String> {
    let Case { desk, call, number, .. } = case;
    let number = *number;
    let mut found = match (number, call.card.card()) {
        (1, _) => causes_of_1(desk, call),
        (2, _) => causes_of_2(desk, &call.card),
        (_, Ok(card)) => causes_of_card(desk, call, &card, number),
        (_, Err(_)) => vec!["a card number that was not refused".to_string()],
    };
    match (&call.what, number, case.former) {
        (What::Add, 0, Some(_)) => found.push("forgotten with a last counter".to_string()),
        (What::Check(check), 0, Some(former)) if counter_of(&check.data) <= former => found.push("counter not above that of before".to_string()),
        _ => {}
    }
    if number > 1 && !in_its_form(desk) {
        found.push("a table with other numbers than 1".to_string());
    }
    found.sort();
    found.dedup();
    found.into_iter().map(|cause| format!("{} {number} {cause}", name(&call.what))).collect()
}

/// Every number that says whether is 0 or 1.
fn in_its_form(desk: &Desk) -> bool {
    (0..CARDS).all(|place| [0, KNOWN].into_iter().all(|i| desk.entry(place)[i] < 2))
}

fn causes_of_1(desk: &Desk, call: &Call) -> Vec<String> {
    if desk.whole().is_err() {
        return vec![match desk.table().len() {
            length if [0, TABLE - 1, TABLE + 1].contains(&length) => format!("a table of {length}"),
            _ => "a table of another length".to_string(),
        }];
    }
    let mut causes: Vec<String> = lengths(&call.what)
        .into_iter()
        .filter(|(_, length, right)| length != right)
        .map(|(name, length, right)| format!("{} bytes of {name}", compared(length, right)))
        .collect();
    match digits_of(&call.what) {
        0 | 1 => {}
        2 => causes.push("digits 2".to_string()),
        _ => causes.push("digits above 2".to_string()),
    }
    if let What::Wrap(wrap) = &call.what {
        if command_of(wrap.instruction).is_none() {
            causes.push("another instruction".to_string());
        }
    }
    match call.card.card() {
        Err(_) => causes.push("else 2".to_string()),
        Ok(card) if desk.places(&card).is_empty() => causes.push("else 19".to_string()),
        Ok(_) => causes.extend(causes_of_1_held(desk, call)),
    }
    causes
}

/// What else a call of a held card is refused for.
fn causes_of_1_held(desk: &Desk, call: &Call) -> Vec<String> {
    match &call.what {
        What::Add | What::Forget => vec![],
        What::Check(check) => {
            // the output's length alone, which a program may look at last
            let mended = desk.clone().check(&call.card, &Check { arpc: ARPC, ..check.clone() });
            if mended == Err(Refusal::Input) {
                return vec!["else neither 2 nor 19".to_string()];
            }
            vec![format!("length of ARPC, else {}", number_of(&mended))]
        }
        What::Wrap(wrap) => {
            let roomy = fits(command_of(wrap.instruction).map_or(0, size_of), wrap.buffer, wrap.place);
            vec![format!("else {}", if cause_of_pin(&wrap.pin).is_some() { 12 } else { 3 * u8::from(!roomy) })]
        }
    }
}

/// The lengths that are stated, with what they are and must be.
fn lengths(what: &What) -> Vec<(&'static str, usize, usize)> {
    match what {
        What::Add | What::Forget => vec![],
        What::Check(Check { issuer, data, arqc, csu, arpc, .. }) => {
            vec![
                ("the issuer's key", issuer.len(), 32),
                ("data", data.len(), 65),
                ("ARQC", arqc.len(), 8),
                ("CSU", csu.len(), 4),
                ("ARPC", *arpc, ARPC),
            ]
        }
        What::Wrap(Wrap { smi, smc, cryptogram, .. }) => vec![("SMI", smi.len(), 32), ("SMC", smc.len(), 32), ("cryptogram", cryptogram.len(), 8)],
    }
}

fn digits_of(what: &What) -> u8 {
    match what {
        What::Add | What::Forget => 0,
        What::Check(check) => check.digits,
        What::Wrap(wrap) => wrap.digits,
    }
}

fn causes_of_2(desk: &Desk, card: &Named) -> Vec<String> {
    let mut causes = vec![match card.pan.len() {
        12..=19 => match (card.pan.iter().find(|&&digit| digit > 9), card.sequence) {
            (Some(10), _) => "a digit 10".to_string(),
            (Some(_), _) => "a digit above 10".to_string(),
            (None, 100) => "sequence 100".to_string(),
            (None, _) => "sequence above 100".to_string(),
        },
        count if [0, 11, 20].contains(&count) => format!("{count} digits"),
        _ => "another number of digits".to_string(),
    }];
    if desk.free() == 0 {
        causes.push("no room".to_string());
    }
    causes
}

/// Causes that a good call of a good card has, and what else is wrong where it is refused.
fn causes_of_card(desk: &Desk, call: &Call, card: &Card, number: u8) -> Vec<String> {
    let places = desk.places(card);
    let mut causes = vec![];
    if number == 0 || number == 19 {
        causes.extend(relations(desk, card).into_iter().map(str::to_string));
    }
    if number != 19 && places.len() > 1 {
        causes.push("held twice".to_string());
    }
    if number == 0 {
        if !in_its_form(desk) {
            causes.push("a table with other numbers than 1".to_string());
        }
        if (0..CARDS).any(|place| desk.held_at(place).is_none() && desk.entry(place).iter().any(|&byte| byte != 0)) {
            causes.push("bytes in an entry without a card".to_string());
        }
        if matches!(call.what, What::Add | What::Forget) {
            causes.push(format!("{} digits", call.card.pan.len()));
        }
        if [0, 99].contains(&call.card.sequence) {
            causes.push(format!("sequence {}", call.card.sequence));
        }
    }
    causes.extend(match &call.what {
        What::Add => causes_of_add(desk, number),
        What::Forget if number == 0 => causes_of_forget(desk, places),
        What::Forget => vec![],
        What::Check(check) => causes_of_check(desk, &call.card, card, check, number),
        What::Wrap(wrap) => causes_of_wrap(desk, &call.card, wrap, number),
    });
    if number == 19 && desk.free() == CARDS {
        causes.push("no card is held".to_string());
    }
    causes
}

/// The number of a card without zeros before it.
fn value(card: &Named) -> &[u8] {
    let zeros = card.pan.iter().take_while(|&&digit| digit == 0).count();
    &card.pan[zeros..]
}

/// Entries that could be taken for those of a card.
fn relations(desk: &Desk, card: &Card) -> Vec<&'static str> {
    let named = Named::of(card).expect("a card");
    let y = seed(&named.pan, named.sequence);
    let count = named.pan.len();
    let mut found = vec![];
    for place in 0..CARDS {
        let other = desk.named_at(place);
        if other == *card && desk.held_at(place).is_none() {
            found.push("an entry without a card has its bytes");
        }
        if desk.held_at(place).is_none() || other == *card {
            continue;
        }
        if other[..20] == card[..20] {
            found.push("a held one differs in sequence alone");
        }
        if other[1..] == card[1..] {
            found.push(if other[0] > 19 { "a held one differs in a length above 19" } else { "a held one differs in length alone" });
        }
        if other[..=count] == card[..=count] && other[20] == card[20] {
            found.push("a held one differs after the digits alone");
        }
        if let Some(other) = Named::of(&other) {
            if seed(&other.pan, other.sequence) == y {
                found.push("a held one shares Y");
            }
            if value(&other) == value(&named) && other.sequence == named.sequence {
                found.push("a held one differs in zeros before it");
            }
        }
    }
    found
}

fn held_of(desk: &Desk) -> usize {
    CARDS - desk.free()
}

fn causes_of_add(desk: &Desk, number: u8) -> Vec<String> {
    let held = held_of(desk);
    let what = match held {
        0 | 62 | 63 | 64 => format!("{held} held"),
        _ => "some held".to_string(),
    };
    let mut causes = vec![what];
    if number != 20 && (0..CARDS).any(|place| desk.held_at(place).map_or(false, |card| desk.places(&card).len() > 1)) {
        causes.push("another card held twice".to_string());
    }
    if number == 0 {
        let place = (0..CARDS).find(|&place| desk.held_at(place).is_none()).expect("a free place");
        causes.push(match place {
            0 => "the first entry".to_string(),
            63 => "the last entry".to_string(),
            _ if place < held => "an entry between others".to_string(),
            _ => "the entry after all others".to_string(),
        });
        if desk.entry(place).iter().any(|&byte| byte != 0) {
            causes.push("bytes in the entry that is taken".to_string());
        }
        if desk.entry(place)[KNOWN] != 0 {
            causes.push("a counter in the entry that is taken".to_string());
        }
    }
    causes
}

fn causes_of_forget(desk: &Desk, places: &[usize]) -> Vec<String> {
    let mut causes = vec![if desk.last_at(places[0]).is_some() { "a last counter" } else { "no last counter" }.to_string()];
    if [1, CARDS].contains(&held_of(desk)) {
        causes.push(format!("{} held", held_of(desk)));
    }
    for (place, what) in [(0, "the first entry"), (CARDS - 1, "the last entry")] {
        if places.contains(&place) {
            causes.push(what.to_string());
        }
    }
    causes
}

fn counter_of(data: &[u8]) -> u16 {
    u16::from_be_bytes([data[COUNTER], data[COUNTER + 1]])
}

/// A counter beside the last one.
fn cause_of_counter(counter: u16, last: Option<u16>) -> String {
    let low = |counter: u16| counter & 255;
    let last = match last {
        None if counter == 0 => return "0 and no last one".to_string(),
        None => return "no last one".to_string(),
        Some(last) => last,
    };
    match counter {
        _ if counter == last && [0, 65535].contains(&counter) => format!("{counter} again"),
        _ if counter == last => "the last one".to_string(),
        65535 => "65535".to_string(),
        0 => "0".to_string(),
        _ if counter.checked_sub(1) == Some(last) => "1 above".to_string(),
        _ if counter.checked_add(1) == Some(last) => "1 below".to_string(),
        _ if counter > last => if low(counter) < low(last) { "above, its low byte below" } else { "above" }.to_string(),
        _ => if low(counter) > low(last) { "below, its low byte above" } else { "below" }.to_string(),
    }
}

fn causes_of_check(desk: &Desk, named: &Named, card: &Card, check: &Check, number: u8) -> Vec<String> {
    let data: Data = exact(&check.data).expect("65 bytes");
    let arqc: Cryptogram = exact(&check.arqc).expect("8 bytes");
    let issuer: Key = exact(&check.issuer).expect("32 bytes");
    let counter = counter_of(&data);
    let places = desk.places(card);
    let of_counter = cause_of_counter(counter, desk.last(card));
    let good = |place: usize| desk.last_at(place).map_or(true, |last| counter > last);
    let mut causes = vec![];
    let master = |named: &Named, digits: u8| (RULES.reading)(digits).expect("a reading")(&issuer, &named.pan, named.sequence).expect("a card");
    let right = |master: &Key| cryptogram(&session_key(master, counter), Kind::Arqc, counter, &data);
    match number {
        0 => {
            let reading = if check.digits == 0 { "by pairs" } else { "packed" };
            causes.push(format!("{} digits {reading}", named.pan.len()));
            causes.push(format!("offset 36 {}", if data[KIND] >> 4 == 10 { "1010 as sent" } else { "of another kind as sent" }));
            if counter == 65535 {
                causes.push("counter 65535".to_string());
            }
            causes.push(format!("counter {of_counter}"));
            if places[1..].iter().any(|&place| !good(place)) {
                causes.push("counter not above that of another entry of the card".to_string());
            }
        }
        19 => {
            let matches = right(&master(named, check.digits)) == arqc;
            causes.push(format!("else {}", if matches { 0 } else { 22 }));
        }
        22 => {
            causes.push(format!("counter {}", if good(places[0]) { "good" } else { "not above" }));
            causes.push(cause_of_arqc(&arqc, &master(named, check.digits), counter, &data).unwrap_or_else(|| {
                match other_held(desk, named) {
                    _ if right(&master(named, 1 - check.digits)) == arqc => "the ARQC by the other reading",
                    Some(other) if right(&master(&other, check.digits)) == arqc => "the ARQC of another card held",
                    _ => "another ARQC",
                }
                .to_string()
            }));
        }
        _ => {
            causes.push(format!("counter {of_counter}"));
            if places[1..].iter().any(|&place| good(place)) {
                causes.push("counter above that of another entry of the card".to_string());
            }
        }
    }
    causes
}

/// What stands in place of the ARQC, if it is of this card's key.
fn cause_of_arqc(arqc: &Cryptogram, master: &Key, counter: u16, data: &Data) -> Option<String> {
    let session = session_key(master, counter);
    let right = u64::from_be_bytes(cryptogram(&session, Kind::Arqc, counter, data));
    let wrong = right ^ u64::from_be_bytes(*arqc);
    let what = match () {
        _ if wrong.count_ones() == 1 => {
            if wrong >> 32 == 0 {
                "a bit of its second half"
            } else {
                "a bit of its first half"
            }
        }
        _ if cryptogram(&session, Kind::Tc, counter, data) == *arqc => "a TC",
        _ if cryptogram(&session, Kind::Aac, counter, data) == *arqc => "an AAC",
        _ if sealed(&session, data) == *arqc => "the kind as sent",
        _ if cryptogram(master, Kind::Arqc, counter, data) == *arqc => "under the master key",
        _ if cryptogram(&session_key(master, counter.wrapping_add(1)), Kind::Arqc, counter, data) == *arqc => "under the key of the next counter",
        _ => return None,
    };
    Some(what.to_string())
}

fn causes_of_wrap(desk: &Desk, named: &Named, wrap: &Wrap, number: u8) -> Vec<String> {
    let command = command_of(wrap.instruction).expect("a command");
    let size = size_of(command);
    let of_room = format!("{size} bytes, {}", cause_of_room(size, wrap.buffer, wrap.place));
    let roomy = fits(size, wrap.buffer, wrap.place);
    let after_card = match pin::write(&wrap.pin) {
        Err(_) if command == Command::ChangePin => 12,
        _ if !roomy => 3,
        _ => 0,
    };
    match number {
        0 => {
            let reading = if wrap.digits == 0 { "by pairs" } else { "packed" };
            let pin = match (command, cause_of_pin(&wrap.pin)) {
                (Command::ChangePin, _) => format!("PIN of {}", wrap.pin.len()),
                (_, None) => "a PIN that is not looked at".to_string(),
                (_, Some(cause)) => format!("a PIN that is not looked at, {cause}"),
            };
            let last = if named.card().ok().and_then(|card| desk.last(&card)).is_some() { "a last counter" } else { "no last counter" };
            vec![of_room, format!("{:x} {reading}", wrap.instruction), pin, last.to_string()]
        }
        19 => vec![format!("else {after_card}")],
        12 => {
            vec![cause_of_pin(&wrap.pin).unwrap_or("a good PIN").to_string(), format!("else {}", if roomy { 0 } else { 3 })]
        }
        _ => vec![of_room],
    }
}

/// Why a PIN is none.
fn cause_of_pin(pin: &[u8]) -> Option<&'static str> {
    Some(match (pin.len(), pin.iter().find(|&&digit| digit > 9)) {
        (0, _) => "no digits",
        (3, _) => "3 digits",
        (13, _) => "13 digits",
        (4..=12, None) => return None,
        (4..=12, Some(10)) => "a digit 10",
        (4..=12, Some(_)) => "a digit above 10",
        _ => "another number of digits",
    })
}
