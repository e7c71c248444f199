//! Wrong desks, each with one slip, to see that the comparison finds them.

use crate::cryptogram::{cryptogram, sealed, Kind};
use crate::desk::{command_of, size_of, Card, Desk, Named, Reading, Rules, Wrap, CARDS, COUNTER, ENTRY, KNOWN, RULES};
use crate::desk_calls::{Call, What};
use crate::keys::{card_key, seed};
use crate::lent::lent;

#[derive(Clone, Copy, PartialEq, Eq)]
pub enum Slip {
    /// The last counter is good again.
    CounterAgain,
    /// Without a last counter 0 is not good.
    ZeroRefused,
    /// The low bytes of counters are compared first.
    LowByteFirst,
    /// The counter of the data has its low byte first.
    CounterTurned,
    /// 23 is looked at ahead of 22.
    CounterBeforeArqc,
    /// 22 is looked at ahead of 19.
    ArqcBeforeCard,
    /// The counter is kept although the answer is 23.
    KeptBy23,
    /// The counter is kept although the answer is 22.
    KeptBy22,
    /// Of the ARQC the first half alone is compared.
    HalfArqc,
    /// The upper half at offset 36 is taken as it was sent.
    KindAsSent,
    /// A TC and an AAC are good as well.
    AnyKind,
    /// The ARPC is made under the card's master key.
    ArpcMasterKey,
    /// The ARPC is made under the session key of the counter before.
    ArpcBefore,
    /// 21 is looked at ahead of 20.
    FullBeforeHeld,
    /// There is room for 63 cards.
    SixtyThree,
    /// A card is added after the last one, and the room of a forgotten one is not used.
    RoomAfterLast,
    /// There is no room where the last entry is taken.
    RoomByLastPlace,
    /// A card is added at the last free entry.
    LastFree,
    /// A forgotten card leaves its counter to the one that comes into its room.
    CounterLeft,
    /// A card is forgotten by its number, with whatever sequence number.
    ForgotByNumber,
    /// Cards are told by their number alone.
    WithoutSequence,
    /// Cards are told by the nineteen places and the sequence number, without the number of digits.
    WithoutLength,
    /// Cards that share Y are one.
    BySeed,
    /// Of a card that is held twice the first entry alone is kept or forgotten.
    FirstAlone,
    /// Of a card that is held twice the last entry is asked.
    LastAsked,
    /// Another number than 1 in place of a 1 is read as 0.
    OneAlone,
    /// What an accepted call does not touch is left as it was, another number than 1 included.
    NotAnew,
    /// An accepted call clears what entries without a card hold.
    FreeCleared,
    /// A refused call writes the table anew.
    AnewByRefusal,
    /// Wrapping writes the table anew.
    AnewByWrap,
    /// Another number for the reading of digits than 0 and 1 is taken as 1.
    AnyDigits,
    /// Digits are taken by pairs whatever is said.
    PairsAlone,
    /// 12 is looked at ahead of 19.
    PinBeforeCard,
    /// 3 is looked at ahead of 12.
    RoomBeforePin,
    /// The PIN is looked at for block and unblock too.
    PinForAll,
    /// The keys for SMI and SMC are exchanged.
    KeysExchanged,
    /// The header is not written.
    NoHeader,
    /// What fits is written before it is refused with 3.
    WritesBefore3,
    /// A place whose sum does not fit is accepted.
    PlaceWraps,
}

pub const SLIPS: [(&str, Slip); 39] = [
    ("counter-again", Slip::CounterAgain),
    ("zero-refused", Slip::ZeroRefused),
    ("low-byte-first", Slip::LowByteFirst),
    ("counter-turned", Slip::CounterTurned),
    ("counter-before-arqc", Slip::CounterBeforeArqc),
    ("arqc-before-card", Slip::ArqcBeforeCard),
    ("kept-by-23", Slip::KeptBy23),
    ("kept-by-22", Slip::KeptBy22),
    ("half-arqc", Slip::HalfArqc),
    ("kind-as-sent", Slip::KindAsSent),
    ("any-kind", Slip::AnyKind),
    ("arpc-master-key", Slip::ArpcMasterKey),
    ("arpc-before", Slip::ArpcBefore),
    ("full-before-held", Slip::FullBeforeHeld),
    ("63-cards", Slip::SixtyThree),
    ("room-after-last", Slip::RoomAfterLast),
    ("room-by-last-place", Slip::RoomByLastPlace),
    ("last-free", Slip::LastFree),
    ("counter-left", Slip::CounterLeft),
    ("forgot-by-number", Slip::ForgotByNumber),
    ("without-sequence", Slip::WithoutSequence),
    ("without-length", Slip::WithoutLength),
    ("by-seed", Slip::BySeed),
    ("first-alone", Slip::FirstAlone),
    ("last-asked", Slip::LastAsked),
    ("one-alone", Slip::OneAlone),
    ("not-anew", Slip::NotAnew),
    ("free-cleared", Slip::FreeCleared),
    ("anew-by-refusal", Slip::AnewByRefusal),
    ("anew-by-wrap", Slip::AnewByWrap),
    ("any-digits", Slip::AnyDigits),
    ("pairs-alone", Slip::PairsAlone),
    ("pin-before-card", Slip::PinBeforeCard),
    ("room-before-pin", Slip::RoomBeforePin),
    ("pin-for-all", Slip::PinForAll),
    ("keys-exchanged", Slip::KeysExchanged),
    ("no-header", Slip::NoHeader),
    ("writes-before-3", Slip::WritesBefore3),
    ("place-wraps", Slip::PlaceWraps),
];

/// Y and nothing else, of a card that has one.
fn by_seed(card: &Card) -> Card {
    let y = Named::of(card).and_then(|named| seed(&named.pan, named.sequence).ok());
    y.map_or(*card, |y| std::array::from_fn(|i| if i < 8 { y[i] } else { 0 }))
}

fn without(card: &Card, place: usize) -> Card {
    std::array::from_fn(|i| if i == place { 0 } else { card[i] })
}

impl Slip {
    pub fn rules(self) -> Rules {
        let [held, full] = RULES.adding;
        let [unknown, differs, below] = RULES.checking;
        let [_, pin, room] = RULES.wrapping;
        match self {
            Slip::CounterAgain => Rules { above: |counter, last| last.map_or(true, |last| counter >= last), ..RULES },
            Slip::ZeroRefused => Rules { above: |counter, last| counter > last.unwrap_or(0), ..RULES },
            Slip::LowByteFirst => Rules { above: |counter, last| last.map_or(true, |last| counter.swap_bytes() > last.swap_bytes()), ..RULES },
            Slip::CounterTurned => Rules { counter: |data| (RULES.counter)(data).swap_bytes(), ..RULES },
            Slip::CounterBeforeArqc => Rules { checking: [unknown, below, differs], ..RULES },
            Slip::ArqcBeforeCard => Rules { checking: [differs, unknown, below], ..RULES },
            Slip::HalfArqc => {
                Rules { matches: |arqc, session, counter, data| cryptogram(session, Kind::Arqc, counter, data)[..4] == arqc[..4], ..RULES }
            }
            Slip::KindAsSent => Rules { matches: |arqc, session, _, data| sealed(session, data) == *arqc, ..RULES },
            Slip::AnyKind => Rules {
                matches: |arqc, session, counter, data| {
                    [Kind::Arqc, Kind::Tc, Kind::Aac].into_iter().any(|kind| cryptogram(session, kind, counter, data) == *arqc)
                },
                ..RULES
            },
            Slip::ArpcMasterKey => Rules { answering: |master, _| *master, ..RULES },
            Slip::ArpcBefore => Rules { answering: |master, counter| (RULES.answering)(master, counter.wrapping_sub(1)), ..RULES },
            Slip::FullBeforeHeld => Rules { adding: [full, held], ..RULES },
            Slip::SixtyThree => Rules { room: |free| (RULES.room)(free).filter(|_| free.len() > 1), ..RULES },
            Slip::RoomAfterLast => Rules { room: |free| (0..CARDS).rev().take_while(|place| free.contains(place)).last(), ..RULES },
            Slip::RoomByLastPlace => Rules { room: |free| (RULES.room)(free).filter(|_| free.contains(&(CARDS - 1))), ..RULES },
            Slip::LastFree => Rules { room: |free| free.iter().next_back().copied(), ..RULES },
            Slip::WithoutSequence => Rules { told_by: |card| without(card, 20), ..RULES },
            Slip::WithoutLength => Rules { told_by: |card| without(card, 0), ..RULES },
            Slip::BySeed => Rules { told_by: by_seed, ..RULES },
            Slip::FirstAlone => Rules { changed: |places| &places[..places.len().min(1)], ..RULES },
            Slip::LastAsked => Rules { asked: |places| places[places.len() - 1], ..RULES },
            Slip::OneAlone => Rules { is_set: |byte| byte == 1, ..RULES },
            Slip::NotAnew => Rules { written_anew: |_| (), ..RULES },
            Slip::FreeCleared => Rules {
                written_anew: |entry| {
                    (RULES.written_anew)(entry);
                    if entry[0] == 0 {
                        entry.fill(0);
                    }
                },
                ..RULES
            },
            Slip::AnyDigits => Rules { reading: |digits| (RULES.reading)(digits.min(1)), ..RULES },
            Slip::PairsAlone => Rules { reading: |digits| (RULES.reading)(digits).map(|_| card_key as Reading), ..RULES },
            Slip::PinBeforeCard => Rules { wrapping: [pin, unknown, room], ..RULES },
            Slip::RoomBeforePin => Rules { wrapping: [unknown, room, pin], ..RULES },
            Slip::PinForAll => Rules { has_pin: |_| true, ..RULES },
            Slip::KeptBy23 | Slip::KeptBy22 | Slip::CounterLeft | Slip::ForgotByNumber | Slip::AnewByRefusal | Slip::AnewByWrap => RULES,
            Slip::KeysExchanged | Slip::NoHeader | Slip::WritesBefore3 | Slip::PlaceWraps => RULES,
        }
    }

    /// A call made with this slip.
    pub fn made(self, desk: &mut Desk, call: &Call) -> (u8, Option<Vec<u8>>) {
        let before = desk.clone();
        let (mut number, mut output) = call.made(desk);
        match (self, &call.what) {
            (Slip::KeptBy23, What::Check(check)) if number == 23 => keep(desk, call, &check.data),
            (Slip::KeptBy22, What::Check(check)) if number == 22 => keep(desk, call, &check.data),
            (Slip::CounterLeft, What::Add | What::Forget) if number == 0 => leave_counters(desk, &before),
            (Slip::ForgotByNumber, What::Forget) => {
                let forget = |desk: &mut Desk, sequence| desk.forget(&Named { sequence, ..call.card.clone() }).is_ok();
                if call.card.card().is_ok() && (0..100).filter(|&sequence| forget(desk, sequence)).count() > 0 {
                    number = 0;
                }
            }
            (Slip::AnewByRefusal, _) if number > 1 => desk.write_anew(),
            (Slip::AnewByWrap, What::Wrap(_)) if number == 0 => desk.write_anew(),
            (Slip::KeysExchanged, What::Wrap(wrap)) => {
                let exchanged = Wrap { smi: wrap.smc.clone(), smc: wrap.smi.clone(), ..wrap.clone() };
                return Call { what: What::Wrap(exchanged), ..call.clone() }.made(desk);
            }
            (Slip::NoHeader, What::Wrap(wrap)) if number == 0 => {
                let from = wrap.place as usize;
                let as_lent = lent(wrap.buffer);
                output.iter_mut().for_each(|buffer| buffer[from..from + 4].copy_from_slice(&as_lent[from..from + 4]));
            }
            (Slip::WritesBefore3, What::Wrap(wrap)) if number == 3 => {
                let roomy = Wrap { buffer: 64, place: 0, ..wrap.clone() };
                let bytes = desk.wrap(&call.card, &roomy).expect("room");
                let from = usize::try_from(wrap.place).ok();
                let room = from.and_then(|from| output.as_mut()?.get_mut(from..)).unwrap_or_default();
                room.iter_mut().zip(&bytes).for_each(|(place, &byte)| *place = byte);
            }
            (Slip::PlaceWraps, What::Wrap(wrap)) if number == 3 => {
                let size = command_of(wrap.instruction).map_or(0, size_of) as u64;
                number = if wrap.place.checked_add(size).is_none() { 0 } else { 3 };
            }
            _ => {}
        }
        (number, output)
    }
}

/// The counter of refused data is kept.
fn keep(desk: &mut Desk, call: &Call, data: &[u8]) {
    if let Ok(card) = call.card.card() {
        desk.keep(&card, u16::from_be_bytes([data[COUNTER], data[COUNTER + 1]]));
    }
}

/// Entries that came or went have the counters of those before them.
fn leave_counters(desk: &mut Desk, before: &Desk) {
    let mut table = desk.table().to_vec();
    for (entry, former) in table.chunks_mut(ENTRY).zip(before.table().chunks(ENTRY)).filter(|(entry, former)| entry[..KNOWN] != former[..KNOWN]) {
        entry[KNOWN..].copy_from_slice(&former[KNOWN..]);
    }
    *desk = Desk::new(table, desk.rules);
    desk.write_anew();
}

#[cfg(test)]
mod tests {
    use super::*;
    use crate::desk_calls::Answering;
    use crate::desk_generate::Cases;
    use crate::slips::named;

    /// On generated calls a desk with a slip answers otherwise.
    #[test]
    fn each_slip_answers_otherwise() {
        for (name, slip) in SLIPS {
            let mut wrong = Answering::new(Some(slip));
            let first = Cases::new(1).take(20000).position(|case| {
                if case.begins {
                    wrong.lend(case.desk.table().to_vec());
                }
                wrong.call(&case.call) != (case.number, case.answer)
            });
            assert!(first.is_some(), "{name}");
        }
    }

    #[test]
    fn names_are_told_apart() {
        for (i, (name, slip)) in SLIPS.iter().enumerate() {
            assert!(SLIPS[..i].iter().all(|(other, same)| other != name && same != slip));
            assert!(named(&SLIPS, name) == Some(*slip));
        }
    }
}
