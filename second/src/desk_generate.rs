//! Random calls of the functions for the issuer's desk, in runs: each begins with a table, full, empty, damaged or of any bytes, and goes on with it.

use std::collections::{BTreeMap, BTreeSet};

use crate::cryptogram::{cryptogram, sealed, Cryptogram, Kind};
use crate::desk::{command_of, size_of, Card, Check, Data, Desk, Named, Wrap, ARPC, CARDS, COUNTER, ENTRY, KIND, KNOWN, RULES, TABLE};
use crate::desk_calls::{table_line, Answering, Call, What};
use crate::keys::session_key;
use crate::lent::buffer;
use crate::octets::Key;
use crate::random::Random;

/// A call, the desk before it, and what we answer.
pub struct Case {
    /// A run begins with it.
    pub begins: bool,
    pub desk: Desk,
    /// The last counter that the card had when it was forgotten in this run.
    pub former: Option<u16>,
    pub call: Call,
    pub number: u8,
    pub answer: String,
}

impl Case {
    pub fn line(&self) -> String {
        let table = if self.begins { table_line(self.desk.table()) + "\n" } else { String::new() };
        table + &self.call.line()
    }
}

pub struct Cases {
    random: Random,
    /// The desk after the calls so far, and how many are left in this run.
    answering: Answering,
    left: usize,
    ac: Key,
    smi: Key,
    smc: Key,
    digits: u8,
    /// Cards of this run, held or not, many of them like others.
    cards: Vec<Named>,
    /// The last counters of those that were forgotten.
    former: BTreeMap<Card, u16>,
}

impl Iterator for Cases {
    type Item = Case;

    fn next(&mut self) -> Option<Case> {
        let begins = self.left == 0;
        if begins {
            self.begin();
        }
        self.left -= 1;
        let call = self.call();
        let desk = self.answering.desk.clone();
        let (number, answer) = self.answering.call(&call);
        let card = call.card.card().ok();
        let former = card.and_then(|card| self.former.get(&card).copied());
        if let (What::Forget, Some(card)) = (&call.what, card) {
            desk.last(&card).and_then(|last| self.former.insert(card, last));
        }
        Some(Case { begins, desk, former, call, number, answer })
    }
}

fn entry(card: &Card, last: Option<u16>) -> Vec<u8> {
    let [high, low] = last.unwrap_or(0).to_be_bytes();
    [&[1], &card[..], &[u8::from(last.is_some()), high, low]].concat()
}

impl Cases {
    pub fn new(seed: u64) -> Cases {
        let answering = Answering::new(None);
        Cases {
            random: Random::new(seed),
            answering,
            left: 0,
            ac: [0; 32],
            smi: [0; 32],
            smc: [0; 32],
            digits: 0,
            cards: vec![],
            former: BTreeMap::new(),
        }
    }

    /// A run of its own.
    fn begin(&mut self) {
        self.ac = self.random.array();
        self.smi = self.random.array();
        self.smc = self.random.array();
        self.digits = self.random.below(2) as u8;
        self.cards.clear();
        self.former.clear();
        for _ in 0..self.random.within(2, 5) {
            let card = self.new_card();
            self.cards.push(card);
            for _ in 0..self.random.below(7) {
                let of = self.random.below(self.cards.len());
                let like = self.like(&self.cards[of].clone());
                self.cards.push(like);
            }
        }
        let table = self.table();
        self.left = if table.len() == TABLE { self.random.choose(&[4, 12, 30, 30, 60, 100]) } else { self.random.within(2, 10) };
        self.answering.lend(table);
    }

    fn new_card(&mut self) -> Named {
        let count = self.random.within(12, 19);
        let mut pan = self.random.digits(count);
        // zeros at either end
        let zeros = self.random.choose(&[0, 0, 0, 1, 2, count]);
        match self.random.below(2) {
            0 => pan[..zeros].fill(0),
            _ => pan[count - zeros..].fill(0),
        }
        Named { pan, sequence: self.sequence() }
    }

    fn sequence(&mut self) -> u8 {
        let any = self.random.below(100) as u8;
        self.random.choose(&[0, 0, 1, 10, 99, any, any])
    }

    /// Another card that is taken for this one easily.
    fn like(&mut self, card: &Named) -> Named {
        let mut like = card.clone();
        let count = card.pan.len();
        match self.random.below(7) {
            0 | 1 => like.sequence = self.sequence(),
            // a zero more at the end: the same places; at the beginning: the same number, and Y
            2 if count < 19 => like.pan.push(0),
            3 if count < 19 => like.pan.insert(0, 0),
            // Y has the last fourteen digits
            4 if count > 14 => {
                let place = self.random.below(count - 14);
                like.pan[place] = self.random.below(10) as u8;
            }
            5 if count > 12 => drop(like.pan.pop()),
            _ => {
                let place = self.random.below(count);
                like.pan[place] = self.random.below(10) as u8;
            }
        }
        like
    }

    fn last(&mut self) -> Option<u16> {
        let any = self.random.next() as u16;
        let last = self.random.choose(&[0, 1, 255, 256, 65534, 65535, any, any, any & 4095]);
        Some(last).filter(|_| !self.random.once_in(4))
    }

    fn table(&mut self) -> Vec<u8> {
        match self.random.weighted(&[3, 6, 8, 3, 2]) {
            0 => vec![0; TABLE],
            1 => {
                let count = self.random.within(1, 20);
                let mut table = self.holding(count);
                self.damage(&mut table);
                table
            }
            2 => {
                let count = self.random.choose(&[61, 62, 63, 63, 63, 64, 64, 64]);
                let mut table = self.holding(count);
                self.damage(&mut table);
                table
            }
            3 => self.any_bytes(),
            _ => {
                let length = self.random.choose(&[0, 0, 1, TABLE - ENTRY, TABLE - 1, TABLE - 1, TABLE + 1, TABLE + 1, TABLE + ENTRY, 2 * TABLE]);
                let mut table = self.holding(30);
                table.resize(length, 0);
                table
            }
        }
    }

    /// So many cards at any places, none twice; up to half of those of this run are among them.
    fn holding(&mut self, count: usize) -> Vec<u8> {
        let mut cards = BTreeSet::new();
        for _ in 0..self.cards.len() / 2 {
            let named = &self.cards[self.random.below(self.cards.len())];
            cards.insert(named.card().expect("a card"));
        }
        while cards.len() < count {
            cards.insert(self.new_card().card().expect("a card"));
        }
        let mut table = vec![0; TABLE];
        let mut free: Vec<usize> = (0..CARDS).collect();
        for card in cards.iter().take(count) {
            let place = free.swap_remove(self.random.below(free.len()));
            let last = self.last();
            table[ENTRY * place..ENTRY * (place + 1)].copy_from_slice(&entry(card, last));
        }
        table
    }

    /// Random bytes, in which cards of this run are held here and there.
    fn any_bytes(&mut self) -> Vec<u8> {
        let mut table = self.random.bytes(TABLE);
        let free = self.random.choose(&[1, 4, 1000]);
        for place in 0..CARDS {
            let bytes = &mut table[ENTRY * place..ENTRY * (place + 1)];
            if self.random.once_in(free) {
                bytes[0] = 0;
            }
            if self.random.once_in(6) {
                let card = self.cards[self.random.below(self.cards.len())].card();
                bytes[1..KNOWN].copy_from_slice(&card.expect("a card"));
            }
        }
        table
    }

    /// Entries as no desk writes them, at times.
    fn damage(&mut self, table: &mut [u8]) {
        for _ in 0..self.random.choose(&[0, 0, 0, 1, 3, 8, 20]) {
            let place = self.random.below(CARDS);
            let other = self.random.below(CARDS);
            let last = self.last();
            let any = self.random.byte();
            let from = table[ENTRY * other..ENTRY * (other + 1)].to_vec();
            let bytes = &mut table[ENTRY * place..ENTRY * (place + 1)];
            let what = self.random.below(11);
            if what > 5 && self.random.once_in(2) {
                let card = self.cards[self.random.below(self.cards.len())].card();
                bytes.copy_from_slice(&entry(&card.expect("a card"), last));
            }
            let count = usize::from(bytes[1]);
            match what {
                // a card twice, with another counter
                0 | 1 => {
                    bytes.copy_from_slice(&from);
                    bytes[KNOWN..].copy_from_slice(&entry(&[0; 21], last)[KNOWN..]);
                }
                2 if bytes[0] != 0 => bytes[0] = any.max(2),
                3 if bytes[KNOWN] != 0 => bytes[KNOWN] = any.max(2),
                // free, with the card's bytes left
                4 => bytes[0] = 0,
                5 if bytes[0] == 0 => {
                    bytes.copy_from_slice(&self.random.bytes(ENTRY));
                    bytes[0] = 0;
                }
                // no card that could be asked for
                6 => bytes[1] = self.random.choose(&[20, 255, 0, 11, bytes[1] | 32, bytes[1] | 128]),
                7 => bytes[2 + self.random.below(19)] |= 16,
                8 => bytes[KNOWN - 1] = self.random.choose(&[100, 101, 255, bytes[KNOWN - 1] | 128]),
                9 if count < 19 => bytes[2 + count + self.random.below(19 - count)] |= self.random.choose(&[1, 16, 128]),
                // the same number with other digits counted
                _ => bytes[1] = self.random.choose(&[bytes[1].wrapping_add(1), bytes[1].wrapping_sub(1)]),
            }
        }
    }

    /// A card that is held, if any is.
    fn held_card(&mut self) -> Option<Named> {
        self.answering.desk.whole().ok()?;
        let from = self.random.below(CARDS);
        (0..CARDS).find_map(|i| Named::of(&self.answering.desk.held_at((from + i) % CARDS)?))
    }

    /// A card that is held, one of this run, one that is like them, a new one, or none.
    fn card(&mut self, weights: &[usize; 5]) -> Named {
        let i = self.random.below(self.cards.len());
        let one = self.cards[i].clone();
        match self.random.weighted(weights) {
            0 => self.held_card().unwrap_or(one),
            1 => one,
            2 => {
                let of = self.held_card().unwrap_or(one);
                self.like(&of)
            }
            3 => {
                let card = self.new_card();
                self.cards[i] = card.clone();
                card
            }
            _ => self.no_card(&one),
        }
    }

    /// A number of too few or too many digits, with one above 9, or a sequence number above 99.
    fn no_card(&mut self, card: &Named) -> Named {
        let mut wrong = card.clone();
        match self.random.below(3) {
            0 => {
                let count = self.random.choose(&[0, 1, 11, 11, 20, 20, 21, 30]);
                wrong.pan.resize(count, 7);
            }
            1 => {
                let place = self.random.below(wrong.pan.len());
                wrong.pan[place] = self.random.choose(&[10, 10, 11, 15, 16, b'0', 128, 255]);
            }
            _ => wrong.sequence = self.random.choose(&[100, 100, 101, 128, 255]),
        }
        wrong
    }

    fn call(&mut self) -> Call {
        let (card, what) = match self.random.weighted(&[6, 5, 12, 6]) {
            0 => (self.card(&[3, 5, 2, 4, 1]), What::Add),
            1 => {
                let card = self.card(&[10, 4, 2, 0, 1]);
                // to be added again
                if card.card().is_ok() && self.random.once_in(2) {
                    let i = self.random.below(self.cards.len());
                    self.cards[i] = card.clone();
                }
                (card, What::Forget)
            }
            2 => {
                let card = self.card(&[16, 3, 2, 0, 1]);
                let check = self.check(&card);
                (card, What::Check(check))
            }
            _ => {
                let card = self.card(&[12, 3, 2, 0, 1]);
                (card, What::Wrap(self.wrap()))
            }
        };
        Call { card, what }
    }

    /// Mostly the right length, now and then one near it, or none.
    fn room(&mut self, right: usize) -> usize {
        if !self.random.once_in(60) {
            return right;
        }
        self.random.choose(&[0, right - 1, right + 1, 2 * right])
    }

    /// The bytes, now and then with another length.
    fn sized(&mut self, bytes: &[u8]) -> Vec<u8> {
        let length = self.room(bytes.len());
        let mut sized = bytes.to_vec();
        sized.resize(length, 0x5a);
        sized
    }

    /// As this run takes card digits, or the other way, or neither.
    fn reading(&mut self) -> u8 {
        match self.random.below(50) {
            0 => self.random.choose(&[2, 2, 3, 128, 255]),
            1 => 1 - self.digits,
            _ => self.digits,
        }
    }

    /// A counter after the last one: above it mostly, else it again, below it, or at an end.
    fn counter(&mut self, last: Option<u16>) -> u16 {
        let any = self.random.next() as u16;
        let last = match last {
            None => return self.random.choose(&[0, 0, 1, 255, 256, 65535, any, any & 4095, any & 4095]),
            Some(last) => last,
        };
        let more = self.random.within(1, 400) as u16;
        let turned = last.wrapping_add(0x100) & 0xff00;
        match self.random.below(12) {
            0 | 1 => last,
            2 => last.wrapping_sub(1),
            3 => last.saturating_sub(more),
            4 => self.random.choose(&[0, 65535, any, last.swap_bytes()]),
            // above with a low byte that is below, and the other way
            5 => turned | any & 255,
            6 => last.saturating_sub(0x100) | 255,
            7 | 8 => last.saturating_add(1),
            _ => last.saturating_add(more),
        }
    }

    fn check(&mut self, card: &Named) -> Check {
        let own = card.card().ok();
        let mut counter = self.counter(own.and_then(|card| self.answering.desk.last(&card)));
        if self.random.once_in(3) {
            counter = own.and_then(|card| self.former.get(&card).copied()).unwrap_or(counter);
        }
        let mut data: Data = self.random.array();
        data[COUNTER..COUNTER + 2].copy_from_slice(&counter.to_be_bytes());
        if self.random.once_in(3) {
            data[KIND] = 0xa0 | data[KIND] & 15;
        }
        let digits = self.reading();
        let arqc = self.arqc(card, digits, counter, &data);
        let csu: [u8; 4] = self.random.array();
        let issuer = self.ac;
        Check { issuer: self.sized(&issuer), digits, data: self.sized(&data), arqc: self.sized(&arqc), csu: self.sized(&csu), arpc: self.room(ARPC) }
    }

    /// The right ARQC mostly; else with a wrong bit, or another that could be taken for it.
    fn arqc(&mut self, card: &Named, digits: u8, counter: u16, data: &Data) -> Cryptogram {
        let master = |card: &Named, digits: u8| (RULES.reading)(digits & 1).and_then(|reading| reading(&self.ac, &card.pan, card.sequence).ok());
        let own = match master(card, digits) {
            Some(master) => master,
            None => return self.random.array(),
        };
        let right = |master: &Key| cryptogram(&session_key(master, counter), Kind::Arqc, counter, data);
        match self.random.below(24) {
            0 | 1 => {
                let mut arqc = right(&own);
                arqc[self.random.below(8)] ^= 1 << self.random.below(8);
                arqc
            }
            2 => cryptogram(&session_key(&own, counter), Kind::Tc, counter, data),
            3 => cryptogram(&session_key(&own, counter), Kind::Aac, counter, data),
            4 => sealed(&session_key(&own, counter), data),
            5 => other_held(&self.answering.desk, card).and_then(|other| master(&other, digits)).map_or([0; 8], |other| right(&other)),
            6 => master(card, 1 - (digits & 1)).map_or([0; 8], |other| right(&other)),
            7 => cryptogram(&own, Kind::Arqc, counter, data),
            8 => cryptogram(&session_key(&own, counter.wrapping_add(1)), Kind::Arqc, counter, data),
            9 => self.random.array(),
            _ => right(&own),
        }
    }

    fn wrap(&mut self) -> Wrap {
        let any = self.random.byte();
        let other = self.random.choose(&[0x00, 0x1f, 0x25, 0x84, 0xff, 0x87, any]);
        let instruction = self.random.choose(&[0x24, 0x24, 0x24, 0x24, 0x24, 0x24, 0x1e, 0x1e, 0x1e, 0x18, 0x18, 0x18, other]);
        let size = command_of(instruction).map_or(20, size_of);
        let (buffer, place) = buffer(&mut self.random, size);
        let cryptogram: Cryptogram = self.random.array();
        let (smi, smc) = (self.smi, self.smc);
        Wrap {
            smi: self.sized(&smi),
            smc: self.sized(&smc),
            digits: self.reading(),
            instruction,
            cryptogram: self.sized(&cryptogram),
            pin: self.pin(),
            buffer,
            place,
        }
    }

    fn pin(&mut self) -> Vec<u8> {
        let count = if self.random.once_in(5) { self.random.choose(&[0, 1, 3, 3, 13, 13, 14, 30]) } else { self.random.within(4, 12) };
        let mut pin = self.random.digits(count);
        if count > 0 && self.random.once_in(10) {
            pin[self.random.below(count)] = self.random.choose(&[10, 10, 11, 15, b'0', 255]);
        }
        pin
    }
}

/// The first card that is held and is not this one.
pub fn other_held(desk: &Desk, card: &Named) -> Option<Named> {
    desk.whole().ok()?;
    (0..CARDS).find_map(|place| Named::of(&desk.held_at(place)?).filter(|other| other != card))
}
