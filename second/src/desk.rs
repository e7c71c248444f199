//! The issuer's desk (Wish 7): the cards that it holds, each with its last transaction counter; an ARQC checked and answered, a command wrapped.
//!
//! What it keeps is a table that the caller lends: 64 entries of 25 bytes, each whether it holds a card, the number of digits, nineteen places for
//! them, the sequence number, whether there is a last counter, and that counter. Here a table is read once; from then on cards are found in a map of their
//! places, an added one takes the first of the free places, and the bytes are written after both.

use std::collections::{BTreeMap, BTreeSet};

use crate::cipher::encipher;
use crate::cryptogram::{arpc, cryptogram, Cryptogram, Kind};
use crate::keys::{card_key, card_key_packed, script_key, seed, session_key};
use crate::message::{fits, wrapped, Command};
use crate::octets::{exact, Key};
use crate::pin;
use crate::refusal::Refusal;

pub const CARDS: usize = 64;
pub const ENTRY: usize = 25;
pub const TABLE: usize = CARDS * ENTRY;
/// Where an entry has whether there is a last counter; the counter follows.
pub const KNOWN: usize = 22;
pub const ARPC: usize = 8;
/// Where the data have the transaction counter, and the kind in an upper half.
pub const COUNTER: usize = 31;
pub const KIND: usize = 36;

pub type Data = [u8; 65];
/// How the card's key comes of the issuer's: by pairs, or packed.
pub type Reading = fn(&Key, &[u8], u8) -> Result<Key, Refusal>;

/// A card as an entry has it: the number of digits, nineteen places with zeros after the digits, the sequence number.
pub type Card = [u8; 21];

/// A card as a caller names it.
#[derive(Clone, Debug, PartialEq, Eq)]
pub struct Named {
    pub pan: Vec<u8>,
    pub sequence: u8,
}

impl Named {
    pub fn card(&self) -> Result<Card, Refusal> {
        seed(&self.pan, self.sequence)?;
        let mut card = [0; 21];
        card[0] = self.pan.len() as u8;
        card[1..=self.pan.len()].copy_from_slice(&self.pan);
        card[20] = self.sequence;
        Ok(card)
    }

    /// The card of an entry, unless its digits are those of no card number.
    pub fn of(card: &Card) -> Option<Named> {
        let named = Named { pan: card[1..20].get(..card[0].into())?.to_vec(), sequence: card[20] };
        Some(named).filter(|named| named.card() == Ok(*card))
    }
}

/// What is lent for a check besides table and card; of the ARPC the length.
#[derive(Clone, Debug, PartialEq, Eq)]
pub struct Check {
    pub issuer: Vec<u8>,
    pub digits: u8,
    pub data: Vec<u8>,
    pub arqc: Vec<u8>,
    pub csu: Vec<u8>,
    pub arpc: usize,
}

/// What is lent for a wrapping besides table and card; of the buffer the length.
#[derive(Clone, Debug, PartialEq, Eq)]
pub struct Wrap {
    pub smi: Vec<u8>,
    pub smc: Vec<u8>,
    pub digits: u8,
    pub instruction: u8,
    pub cryptogram: Vec<u8>,
    pub pin: Vec<u8>,
    pub buffer: usize,
    pub place: u64,
}

/// What the wish fixes. `RULES` are its own; a slip has others.
#[derive(Clone, Copy)]
pub struct Rules {
    /// Whether a byte of an entry says yes.
    pub is_set: fn(u8) -> bool,
    /// What of a card tells it from others.
    pub told_by: fn(&Card) -> Card,
    /// Of the entries that hold a card: the one that is asked for its counter, and those that change.
    pub asked: fn(&[usize]) -> usize,
    pub changed: fn(&[usize]) -> &[usize],
    /// The place of the next card, among those that are free.
    pub room: fn(&BTreeSet<usize>) -> Option<usize>,
    /// An entry as an accepted call leaves it.
    pub written_anew: fn(&mut [u8]),
    /// How card digits are taken, by the number that says it.
    pub reading: fn(u8) -> Option<Reading>,
    /// The counter that data have, and whether it is good after the last one.
    pub counter: fn(&Data) -> u16,
    pub above: fn(u16, Option<u16>) -> bool,
    /// Whether this is the ARQC of data and counter under a session key.
    pub matches: fn(&Cryptogram, &Key, u16, &Data) -> bool,
    /// The key for the ARPC, of the card's master key.
    pub answering: fn(&Key, u16) -> Key,
    /// Whether a command's PIN is looked at.
    pub has_pin: fn(Command) -> bool,
    /// The orders of refusals.
    pub adding: [Refusal; 2],
    pub checking: [Refusal; 3],
    pub wrapping: [Refusal; 3],
}

pub const RULES: Rules = Rules {
    is_set: |byte| byte != 0,
    told_by: |card| *card,
    asked: |places| places[0],
    changed: |places| places,
    room: |free| free.iter().next().copied(),
    written_anew: |entry| [0, KNOWN].into_iter().for_each(|i| entry[i] = u8::from(entry[i] != 0)),
    reading: |digits| [card_key as Reading, card_key_packed].get(usize::from(digits)).copied(),
    counter: |data| u16::from_be_bytes([data[COUNTER], data[COUNTER + 1]]),
    above: |counter, last| last.map_or(true, |last| counter > last),
    matches: |arqc, session, counter, data| cryptogram(session, Kind::Arqc, counter, data) == *arqc,
    answering: session_key,
    has_pin: |command| command == Command::ChangePin,
    adding: [Refusal::AlreadyHeld, Refusal::TableFull],
    checking: [Refusal::UnknownCard, Refusal::ArqcDiffers, Refusal::CounterNotAbove],
    wrapping: [Refusal::UnknownCard, Refusal::PinDigits, Refusal::NoRoom],
};

/// The first refusal in order that holds.
fn refuse<const N: usize>(order: [Refusal; N], holds: impl Fn(Refusal) -> bool) -> Result<(), Refusal> {
    order.into_iter().find(|&refusal| holds(refusal)).map_or(Ok(()), Err)
}

#[derive(Clone)]
pub struct Desk {
    table: Vec<u8>,
    /// The entries that hold a card, in order.
    cards: BTreeMap<Card, Vec<usize>>,
    free: BTreeSet<usize>,
    pub rules: Rules,
}

impl Desk {
    /// A table of any length: of another one than its own every call is 1.
    pub fn new(table: Vec<u8>, rules: Rules) -> Desk {
        let mut desk = Desk { table, cards: BTreeMap::new(), free: BTreeSet::new(), rules };
        if desk.whole().is_ok() {
            for place in 0..CARDS {
                match desk.held_at(place) {
                    Some(card) => desk.cards.entry((rules.told_by)(&card)).or_default().push(place),
                    None => drop(desk.free.insert(place)),
                }
            }
        }
        desk
    }

    pub fn table(&self) -> &[u8] {
        &self.table
    }

    pub fn whole(&self) -> Result<(), Refusal> {
        exact::<TABLE>(&self.table).map(|_| ())
    }

    pub fn entry(&self, place: usize) -> &[u8] {
        &self.table[ENTRY * place..ENTRY * (place + 1)]
    }

    fn entry_mut(&mut self, place: usize) -> &mut [u8] {
        &mut self.table[ENTRY * place..ENTRY * (place + 1)]
    }

    /// The card that an entry names, whether it holds it or not.
    pub fn named_at(&self, place: usize) -> Card {
        exact(&self.entry(place)[1..KNOWN]).expect("21 bytes")
    }

    pub fn held_at(&self, place: usize) -> Option<Card> {
        (self.rules.is_set)(self.entry(place)[0]).then(|| self.named_at(place))
    }

    /// The last counter that an entry has.
    pub fn last_at(&self, place: usize) -> Option<u16> {
        let entry = self.entry(place);
        (self.rules.is_set)(entry[KNOWN]).then(|| u16::from_be_bytes([entry[KNOWN + 1], entry[KNOWN + 2]]))
    }

    /// The entries that hold a card.
    pub fn places(&self, card: &Card) -> &[usize] {
        self.cards.get(&(self.rules.told_by)(card)).map_or(&[], |places| places)
    }

    /// How many entries are free.
    pub fn free(&self) -> usize {
        self.free.len()
    }

    /// The last counter of a card, if it is held and has one.
    pub fn last(&self, card: &Card) -> Option<u16> {
        let places = self.places(card);
        if places.is_empty() {
            return None;
        }
        self.last_at((self.rules.asked)(places))
    }

    /// The whole table in its own form: 0 or 1 for whether.
    pub fn write_anew(&mut self) {
        self.table.chunks_mut(ENTRY).for_each(self.rules.written_anew);
    }

    /// 1, 2, 20, 21.
    pub fn add(&mut self, named: &Named) -> Result<(), Refusal> {
        self.whole()?;
        let card = named.card()?;
        let room = (self.rules.room)(&self.free);
        refuse(self.rules.adding, |refusal| match refusal {
            Refusal::AlreadyHeld => !self.places(&card).is_empty(),
            _ => room.is_none(),
        })?;
        let place = room.expect("a free place");
        self.free.remove(&place);
        self.cards.insert((self.rules.told_by)(&card), vec![place]);
        let entry = self.entry_mut(place);
        entry.fill(0);
        entry[0] = 1;
        entry[1..KNOWN].copy_from_slice(&card);
        self.write_anew();
        Ok(())
    }

    /// 1, 2, 19.
    pub fn forget(&mut self, named: &Named) -> Result<(), Refusal> {
        self.whole()?;
        let card = (self.rules.told_by)(&named.card()?);
        let mut places = self.cards.remove(&card).ok_or(Refusal::UnknownCard)?;
        for place in (self.rules.changed)(&places).to_vec() {
            self.entry_mut(place).fill(0);
            self.free.insert(place);
            places.retain(|&other| other != place);
        }
        if !places.is_empty() {
            self.cards.insert(card, places);
        }
        self.write_anew();
        Ok(())
    }

    /// The counter is the last one of the card from now on.
    pub fn keep(&mut self, card: &Card, counter: u16) {
        for place in (self.rules.changed)(self.places(card)).to_vec() {
            let [high, low] = counter.to_be_bytes();
            self.entry_mut(place)[KNOWN..].copy_from_slice(&[1, high, low]);
        }
        self.write_anew();
    }

    /// The ARPC: 1, 2, 19, 22, 23.
    pub fn check(&mut self, named: &Named, lent: &Check) -> Result<Cryptogram, Refusal> {
        self.whole()?;
        let (issuer, data, arqc, csu) = (exact(&lent.issuer)?, exact(&lent.data)?, exact(&lent.arqc)?, exact(&lent.csu)?);
        let reading = (self.rules.reading)(lent.digits).filter(|_| lent.arpc == ARPC).ok_or(Refusal::Input)?;
        let card = named.card()?;
        let counter = (self.rules.counter)(&data);
        let master = reading(&issuer, &named.pan, named.sequence)?;
        refuse(self.rules.checking, |refusal| match refusal {
            Refusal::UnknownCard => self.places(&card).is_empty(),
            Refusal::ArqcDiffers => !(self.rules.matches)(&arqc, &session_key(&master, counter), counter, &data),
            _ => !(self.rules.above)(counter, self.last(&card)),
        })?;
        self.keep(&card, counter);
        Ok(arpc(&(self.rules.answering)(&master, counter), &arqc, &csu))
    }

    /// Header and message for the buffer, where they fit: 1, 2, 19, 12, 3.
    pub fn wrap(&self, named: &Named, lent: &Wrap) -> Result<Vec<u8>, Refusal> {
        self.whole()?;
        let (smi, smc, cryptogram) = (exact(&lent.smi)?, exact(&lent.smc)?, exact(&lent.cryptogram)?);
        let reading = (self.rules.reading)(lent.digits).ok_or(Refusal::Input)?;
        let command = command_of(lent.instruction).ok_or(Refusal::Input)?;
        let card = named.card()?;
        let block = pin::write(&lent.pin);
        refuse(self.rules.wrapping, |refusal| match refusal {
            Refusal::UnknownCard => self.places(&card).is_empty(),
            Refusal::PinDigits => (self.rules.has_pin)(command) && block.is_err(),
            _ => !fits(size_of(command), lent.buffer, lent.place),
        })?;
        let session = |issuer: &Key| Ok(script_key(&reading(issuer, &named.pan, named.sequence)?, &cryptogram));
        let data = match command {
            Command::ChangePin => encipher(&session(&smc)?, &block?).to_vec(),
            Command::Block | Command::Unblock => vec![],
        };
        let header = command.header();
        Ok([&header[..], &wrapped(&session(&smi)?, &header, command.tag(), &data)?].concat())
    }
}

pub fn command_of(instruction: u8) -> Option<Command> {
    Command::ALL.into_iter().find(|command| command.header()[1] == instruction)
}

/// Header, tag, length, data, 8e, 04 and code.
pub fn size_of(command: Command) -> usize {
    4 + command.length() + 8
}

#[cfg(test)]
mod tests {
    use super::*;
    use crate::desk_generate::Cases;
    use crate::octets::hex;

    fn named(digits: &str, sequence: u8) -> Named {
        Named { pan: digits.bytes().map(|sign| sign - b'0').collect(), sequence }
    }

    fn number(i: u64) -> Named {
        named(&format!("{i:016}"), 0)
    }

    fn full() -> Desk {
        let mut desk = Desk::new(vec![0; TABLE], RULES);
        (0..CARDS as u64).for_each(|i| assert_eq!(desk.add(&number(i)), Ok(())));
        desk
    }

    #[test]
    fn sixty_four_cards() {
        let mut desk = full();
        assert_eq!(desk.add(&number(64)), Err(Refusal::TableFull));
        assert_eq!(desk.add(&number(0)), Err(Refusal::AlreadyHeld));
        assert_eq!(desk.forget(&number(64)), Err(Refusal::UnknownCard));
        let before = desk.table().to_vec();
        // the room of the fifth and of the third is used for the next, the first of them first
        assert_eq!([4, 2].map(|i| desk.forget(&number(i))), [Ok(()); 2]);
        assert_eq!(desk.entry(4), [0; ENTRY]);
        assert_eq!([64, 4, 2].map(|i| desk.add(&number(i))), [Ok(()), Ok(()), Err(Refusal::TableFull)]);
        assert_eq!(desk.named_at(2), number(64).card().unwrap());
        assert_eq!(desk.entry(4), &before[4 * ENTRY..5 * ENTRY]);
        assert_eq!(desk.add(&named("12345678901", 0)), Err(Refusal::CardNumber));
    }

    #[test]
    fn cards_that_are_two() {
        let mut desk = Desk::new(vec![0; TABLE], RULES);
        let cards = [
            named("123456789012345", 0),
            named("123456789012345", 1),
            named("1234567890123450", 0),
            named("0123456789012345", 0),
            named("923456789012345", 0),
        ];
        assert_eq!(seed(&cards[0].pan, 0), seed(&cards[4].pan, 0));
        cards.iter().for_each(|card| assert_eq!(desk.add(card), Ok(())));
        assert_eq!(desk.forget(&cards[0]), Ok(()));
        cards[1..].iter().for_each(|card| assert_eq!(desk.add(card), Err(Refusal::AlreadyHeld)));
    }

    /// An ARQC for the first card of the full desk.
    fn check(counter: u16, kind: u8) -> Check {
        let mut data = [7; 65];
        data[COUNTER..COUNTER + 2].copy_from_slice(&counter.to_be_bytes());
        data[KIND] = kind;
        let session = session_key(&card_key(&[1; 32], &number(0).pan, 0).unwrap(), counter);
        let arqc = cryptogram(&session, Kind::Arqc, counter, &data);
        Check { issuer: vec![1; 32], digits: 0, data: data.to_vec(), arqc: arqc.to_vec(), csu: vec![3; 4], arpc: ARPC }
    }

    #[test]
    fn counters_rise() {
        let mut desk = full();
        let card = number(0);
        for (counter, wanted) in [(0, 0), (0, 23), (5, 0), (4, 23), (5, 23), (256, 0), (255, 23), (65535, 0), (65535, 23), (0, 23)] {
            let before = desk.table().to_vec();
            let checked = desk.check(&card, &check(counter, 0x37));
            assert_eq!(checked.map_err(Refusal::number).err().unwrap_or(0), wanted, "{counter}");
            match checked {
                Ok(_) => assert_eq!(desk.last(&card.card().unwrap()), Some(counter)),
                Err(_) => assert_eq!(desk.table(), before),
            }
        }
        // forgotten and added again it has no last one
        assert!(desk.forget(&card).is_ok() && desk.add(&card).is_ok());
        assert_eq!(desk.check(&card, &check(0, 0xa0)).map(|_| ()), Ok(()));
        // a wrong ARQC goes ahead of the counter, an unknown card ahead of both
        let mut wrong = check(0, 0xa0);
        wrong.arqc[7] ^= 1;
        assert_eq!(desk.check(&card, &wrong), Err(Refusal::ArqcDiffers));
        assert_eq!(desk.check(&number(64), &wrong), Err(Refusal::UnknownCard));
        assert_eq!(desk.check(&named("1", 0), &wrong), Err(Refusal::CardNumber));
        assert_eq!(desk.check(&named("1", 0), &Check { digits: 2, ..wrong }), Err(Refusal::Input));
    }

    /// Issuer keys, card, cryptogram and PIN of the first examples of R 1323565.1.010 and 008: the enciphered PIN is the published one.
    #[test]
    fn a_published_pin() {
        let issuer = |last: u8| (0..31).chain([last]).collect::<Vec<u8>>();
        let card = named("123456789012345671", 95);
        let mut desk = Desk::new(vec![0; TABLE], RULES);
        let lent = Wrap {
            smi: issuer(0x12),
            smc: issuer(0x13),
            digits: 1,
            instruction: 0x24,
            cryptogram: hex::<8>("9f64235a71ddee5b").to_vec(),
            pin: vec![1, 2, 3, 4, 5, 6, 7],
            buffer: 20,
            place: 0,
        };
        assert_eq!(desk.wrap(&card, &lent), Err(Refusal::UnknownCard));
        assert_eq!(desk.add(&card), Ok(()));
        assert_eq!(desk.wrap(&card, &lent).unwrap()[..4 + 10], hex::<14>("8424000287089073bb4f8f08f916"));
        assert_eq!(desk.wrap(&card, &Wrap { place: 1, ..lent.clone() }), Err(Refusal::NoRoom));
        let short = Wrap { pin: vec![1, 2, 3], place: u64::MAX, ..lent };
        assert_eq!(desk.wrap(&card, &short), Err(Refusal::PinDigits));
        assert_eq!(desk.wrap(&card, &Wrap { instruction: 0x1e, ..short.clone() }), Err(Refusal::NoRoom));
        let block = desk.wrap(&card, &Wrap { instruction: 0x1e, place: 8, ..short.clone() }).unwrap();
        assert_eq!((block.len(), &block[..8]), (12, &hex::<8>("841e000081008e04")[..]));
        assert_eq!(desk.wrap(&named("1", 0), &Wrap { instruction: 0x1f, ..short }), Err(Refusal::Input));
    }

    /// What a desk knows besides the bytes is what they say, after any call.
    #[test]
    fn places_are_those_of_the_bytes() {
        for case in Cases::new(3).take(5000) {
            let again = Desk::new(case.desk.table().to_vec(), RULES);
            assert!(again.cards == case.desk.cards && again.free == case.desk.free);
        }
    }
}
