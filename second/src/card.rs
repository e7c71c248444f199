//! The soft card: its record, and the calls that take the record and hand back the record after them (paper 01).

use crate::cipher::{decipher, encipher};
use crate::cryptogram::{arpc, cryptogram, Cryptogram, Kind};
use crate::keys::{counter_key, script_key, session_key};
use crate::message::{code_matches, shape, Command};
use crate::octets::{exact, Key};
use crate::pin::{self, Counters, Pin};
use crate::refusal::Refusal;

#[derive(Clone, Copy, Debug, PartialEq, Eq)]
pub enum Phase {
    None,
    Arqc,
    Aac,
}

#[derive(Clone, Copy, Debug, PartialEq, Eq)]
pub enum PendingMark {
    None,
    Set,
    Clear,
}

#[derive(Clone, Debug, PartialEq, Eq)]
pub struct Record {
    pub ac: Key,
    pub smi: Key,
    pub smc: Key,
    pub pin: Pin,
    pub tries: u8,
    pub transaction_counter: u16,
    pub counters: Counters,
    pub blocked: bool,
    pub phase: Phase,
    pub cryptogram: Cryptogram,
    pub pending_pin: Pin,
    pub pending_mark: PendingMark,
    pub spoilt: bool,
}

/// The tries for a PIN, where none was taken or all were restored (Wish 4).
pub const ALL_TRIES: u8 = 3;

/// What every call gives: the record after it, and the bytes or the refusal.
pub type After<T> = (Record, Result<T, Refusal>);

#[derive(Clone, Copy, Debug, PartialEq, Eq)]
pub struct Answer {
    pub kind: Kind,
    pub cryptogram: Cryptogram,
}

impl Record {
    /// A fresh record, with no transaction open.
    pub fn new(keys: [Key; 3], transaction_counter: u16, counters: Counters, blocked: bool, pin: Pin, tries: u8) -> Record {
        let [ac, smi, smc] = keys;
        Record {
            ac,
            smi,
            smc,
            pin,
            tries,
            transaction_counter,
            counters,
            blocked,
            phase: Phase::None,
            cryptogram: [0; 8],
            pending_pin: Pin::NONE,
            pending_mark: PendingMark::None,
            spoilt: false,
        }
    }

    pub fn sound(&self) -> bool {
        let pending_good = self.pending_pin == Pin::NONE || self.pending_pin.sound();
        self.pin.sound() && self.tries <= ALL_TRIES && pending_good && (self.is_open() || self.transaction_is_zero())
    }

    pub fn is_open(&self) -> bool {
        self.phase != Phase::None
    }

    fn transaction_is_zero(&self) -> bool {
        self.cryptogram == [0; 8] && self.pending_pin == Pin::NONE && self.pending_mark == PendingMark::None && !self.spoilt
    }

    fn end_transaction(&mut self) {
        self.phase = Phase::None;
        self.cryptogram = [0; 8];
        self.pending_pin = Pin::NONE;
        self.pending_mark = PendingMark::None;
        self.spoilt = false;
    }

    /// An unsound record is 1 ahead of all other checks.
    fn check_sound(&self) -> Result<(), Refusal> {
        if self.sound() {
            Ok(())
        } else {
            Err(Refusal::Input)
        }
    }

    fn check_open(&self) -> Result<(), Refusal> {
        self.check_sound()?;
        if self.is_open() {
            Ok(())
        } else {
            Err(Refusal::PhaseWrong)
        }
    }

    /// Open: 6, 1, 7. Both counters are looked at before either grows.
    pub fn open(mut self, data: &[u8]) -> After<Answer> {
        let answer = self.try_open(data);
        (self, answer)
    }

    fn try_open(&mut self, data: &[u8]) -> Result<Answer, Refusal> {
        self.check_sound()?;
        if self.is_open() {
            return Err(Refusal::PhaseWrong);
        }
        let data = exact::<65>(data)?;
        if self.transaction_counter == u16::MAX || self.counters.session == u16::MAX {
            return Err(Refusal::CounterFull);
        }
        self.transaction_counter += 1;
        self.counters.session += 1;
        let kind = if self.blocked { Kind::Aac } else { Kind::Arqc };
        let key = session_key(&self.ac, self.transaction_counter);
        self.phase = if self.blocked { Phase::Aac } else { Phase::Arqc };
        self.cryptogram = cryptogram(&key, kind, self.transaction_counter, &data);
        Ok(Answer { kind, cryptogram: self.cryptogram })
    }

    /// Issuer answer: 6, 1, 11. A match resets the session counter (R 1323565.1.008, clause 3).
    pub fn issuer_answer(mut self, answer: &[u8], csu: &[u8]) -> After<()> {
        let result = self.try_issuer_answer(answer, csu);
        (self, result)
    }

    fn try_issuer_answer(&mut self, answer: &[u8], csu: &[u8]) -> Result<(), Refusal> {
        self.check_open()?;
        if self.phase == Phase::Aac {
            return Err(Refusal::PhaseWrong);
        }
        let (answer, csu) = (exact::<8>(answer)?, exact::<4>(csu)?);
        let key = session_key(&self.ac, self.transaction_counter);
        if arpc(&key, &self.cryptogram, &csu) != answer {
            return Err(Refusal::ArpcDiffers);
        }
        self.counters.session = 0;
        Ok(())
    }

    /// Script: 6, 1 (header), 4, 5, 7, 8, 9. Every refusal in an open transaction spoils it.
    pub fn script(mut self, header: &[u8], message: &[u8]) -> After<()> {
        if let Err(refusal) = self.check_open() {
            return (self, Err(refusal));
        }
        let result = self.judge_script(header, message);
        self.spoilt |= result.is_err();
        (self, result)
    }

    fn judge_script(&mut self, header: &[u8], message: &[u8]) -> Result<(), Refusal> {
        let header = exact::<4>(header)?;
        let opened = shape(message)?;
        let command = Command::of(&header, &opened)?;
        self.count_key(&header, message)?;
        match command {
            Command::ChangePin => self.pending_pin = self.decipher_pin(&message[opened.place..opened.place + opened.length])?,
            Command::Block => self.pending_mark = PendingMark::Set,
            Command::Unblock => self.pending_mark = PendingMark::Clear,
        }
        Ok(())
    }

    /// A fresh SMI key is counted, and uncounted on a match (R 1323565.1.008, clause 4.1.2); at 65535 it cannot be counted.
    fn count_key(&mut self, header: &[u8; 4], message: &[u8]) -> Result<(), Refusal> {
        self.counters.failure = self.counters.failure.checked_add(1).ok_or(Refusal::CounterFull)?;
        let key = script_key(&self.smi, &self.cryptogram);
        if !code_matches(&key, header, message) {
            return Err(Refusal::CodeDiffers);
        }
        self.counters.failure -= 1;
        Ok(())
    }

    fn decipher_pin(&self, data: &[u8]) -> Result<Pin, Refusal> {
        let key = script_key(&self.smc, &self.cryptogram);
        pin::read(&decipher(&key, &exact::<8>(data)?))
    }

    /// Close: 6, 10. Unspoilt, what is pending becomes the kept one.
    pub fn close(mut self) -> After<()> {
        if let Err(refusal) = self.check_open() {
            return (self, Err(refusal));
        }
        let result = if self.spoilt { Err(Refusal::SpoiltClosed) } else { Ok(()) };
        if result.is_ok() {
            self.keep_pending();
        }
        self.end_transaction();
        (self, result)
    }

    /// A PIN change restores the tries, also one to the same PIN; a mark does not.
    fn keep_pending(&mut self) {
        if self.pending_pin != Pin::NONE {
            self.pin = self.pending_pin;
            self.tries = ALL_TRIES;
        }
        match self.pending_mark {
            PendingMark::None => {}
            PendingMark::Set => self.blocked = true,
            PendingMark::Clear => self.blocked = false,
        }
    }

    /// Withdraw: drops what is pending; with none open it changes nothing.
    pub fn withdraw(mut self) -> After<()> {
        if let Err(refusal) = self.check_sound() {
            return (self, Err(refusal));
        }
        self.end_transaction();
        (self, Ok(()))
    }

    /// Counters: 6. The counter block under the hash of the current session key.
    pub fn counters(self) -> After<[u8; 8]> {
        let result = self.check_open().map(|()| {
            let key = counter_key(&session_key(&self.ac, self.transaction_counter));
            encipher(&key, &self.counters.block())
        });
        (self, result)
    }

    /// PIN check: 6, 1, 15, 7, 9, 14, in both kinds of transaction; no refusal spoils it. What 9 counts and 14 takes stays taken.
    pub fn check_pin(mut self, block: &[u8]) -> After<()> {
        let result = self.try_check_pin(block);
        (self, result)
    }

    fn try_check_pin(&mut self, block: &[u8]) -> Result<(), Refusal> {
        self.check_open()?;
        let block = exact::<8>(block)?;
        if self.tries == 0 {
            return Err(Refusal::NoTries);
        }
        let counted = self.counters.pin.checked_add(1).ok_or(Refusal::CounterFull)?;
        let given = self.decipher_pin(&block).map_err(|refusal| {
            self.counters.pin = counted;
            refusal
        })?;
        if given != self.pin {
            self.tries -= 1;
            return Err(Refusal::WrongPin);
        }
        self.tries = ALL_TRIES;
        Ok(())
    }
}

#[cfg(test)]
mod tests {
    use super::*;
    use crate::message::{coded, wrapped, CLEAR, ENCIPHERED};

    fn fresh() -> Record {
        let pin = Pin::of_digits(&[1, 2, 3, 4]).unwrap();
        Record::new([[1; 32], [2; 32], [3; 32]], 7, Counters { session: 1, failure: 2, pin: 3, mutual: 4 }, false, pin, 2)
    }

    fn opened() -> Record {
        let (record, answer) = fresh().open(&[0; 65]);
        answer.unwrap();
        record
    }

    /// The message of a command under the record's keys.
    fn message_for(record: &Record, command: Command, digits: &[u8]) -> Vec<u8> {
        let key = script_key(&record.smi, &record.cryptogram);
        let data = match command {
            Command::ChangePin => encipher(&script_key(&record.smc, &record.cryptogram), &pin::write(digits).unwrap()).to_vec(),
            _ => vec![],
        };
        wrapped(&key, &command.header(), command.tag(), &data).unwrap()
    }

    fn accept(record: Record, command: Command, digits: &[u8]) -> Record {
        let message = message_for(&record, command, digits);
        let (record, result) = record.script(&command.header(), &message);
        assert_eq!(result, Ok(()));
        record
    }

    /// The record is as before but for the spoilt mark.
    fn spoils(record: &Record, header: &[u8], message: &[u8], refusal: Refusal) {
        let (after, result) = record.clone().script(header, message);
        assert_eq!(result, Err(refusal));
        assert_eq!(after, Record { spoilt: true, ..record.clone() });
    }

    fn unsound() -> Vec<Record> {
        let pin = |count, places| Pin { count, places };
        let mut records = vec![];
        for base in [fresh(), opened()] {
            for bad in [pin(3, [0; 12]), pin(13, [0; 12]), pin(0, [0; 12]), pin(255, [0; 12]), pin(4, [10; 12]), pin(4, [1; 12])] {
                records.push(Record { pin: bad, ..base.clone() });
            }
            let last_place = std::array::from_fn(|i| u8::from(i == 11));
            for bad in [pin(1, [0; 12]), pin(3, [0; 12]), pin(0, last_place), pin(11, last_place), pin(13, [0; 12]), pin(12, [10; 12])] {
                records.push(Record { pending_pin: bad, ..base.clone() });
            }
        }
        for base in [fresh(), opened()] {
            records.extend([4, 5, 255].map(|tries| Record { tries, ..base.clone() }));
        }
        let pending_pin = fresh().pin;
        records.push(Record { pending_pin, ..fresh() });
        records.push(Record { pending_mark: PendingMark::Set, ..fresh() });
        records.push(Record { pending_mark: PendingMark::Clear, ..fresh() });
        records.push(Record { spoilt: true, ..fresh() });
        records.push(Record { cryptogram: [0, 0, 0, 0, 0, 0, 0, 1], ..fresh() });
        records
    }

    #[test]
    fn an_unsound_record_gets_1_and_comes_back() {
        for record in unsound() {
            assert!(!record.sound());
            let message = message_for(&record, Command::Block, &[]);
            let header = Command::Block.header();
            assert_eq!(record.clone().open(&[0; 65]), (record.clone(), Err(Refusal::Input)));
            assert_eq!(record.clone().open(&[0; 64]), (record.clone(), Err(Refusal::Input)));
            assert_eq!(record.clone().issuer_answer(&[0; 8], &[0; 4]), (record.clone(), Err(Refusal::Input)));
            assert_eq!(record.clone().script(&header, &message), (record.clone(), Err(Refusal::Input)));
            assert_eq!(record.clone().script(&[], &[]), (record.clone(), Err(Refusal::Input)));
            assert_eq!(record.clone().close(), (record.clone(), Err(Refusal::Input)));
            assert_eq!(record.clone().withdraw(), (record.clone(), Err(Refusal::Input)));
            assert_eq!(record.clone().counters(), (record.clone(), Err(Refusal::Input)));
            assert_eq!(record.clone().check_pin(&[0; 8]), (record.clone(), Err(Refusal::Input)));
            assert_eq!(record.clone().check_pin(&[]), (record.clone(), Err(Refusal::Input)));
        }
    }

    #[test]
    fn sound_as_the_paper_says_and_no_more() {
        assert!(fresh().sound() && opened().sound());
        assert!(Record { blocked: true, ..opened() }.sound());
        assert!(Record { spoilt: true, pending_mark: PendingMark::Set, pending_pin: fresh().pin, ..opened() }.sound());
        assert!(Record { cryptogram: [0; 8], ..opened() }.sound());
        assert!((0..=3).all(|tries| Record { tries, ..fresh() }.sound() && Record { tries, ..opened() }.sound()));
    }

    #[test]
    fn opening() {
        let record = opened();
        assert_eq!((record.transaction_counter, record.counters.session, record.phase), (8, 2, Phase::Arqc));
        assert_eq!(record.clone().open(&[0; 65]), (record.clone(), Err(Refusal::PhaseWrong)));
        assert_eq!(record.clone().open(&[]), (record, Err(Refusal::PhaseWrong)));
        assert_eq!(fresh().open(&[0; 64]), (fresh(), Err(Refusal::Input)));
        assert_eq!(fresh().open(&[0; 66]), (fresh(), Err(Refusal::Input)));
        let session = Counters { session: u16::MAX, ..fresh().counters };
        for full in [Record { transaction_counter: u16::MAX, ..fresh() }, Record { counters: session, ..fresh() }] {
            assert_eq!(full.clone().open(&[0; 65]), (full.clone(), Err(Refusal::CounterFull)));
            assert_eq!(full.clone().open(&[0; 64]), (full, Err(Refusal::Input)));
        }
        let (blocked, answer) = Record { blocked: true, ..fresh() }.open(&[0; 65]);
        assert_eq!((answer.unwrap().kind, blocked.phase, blocked.counters.session), (Kind::Aac, Phase::Aac, 2));
    }

    #[test]
    fn what_the_input_holds_where_the_card_writes_does_not_matter() {
        let mut data = [0; 65];
        data[31] = 0xff;
        data[32] = 0xff;
        data[36] = 0xf0;
        assert_eq!(fresh().open(&data), fresh().open(&[0; 65]));
        data[36] = 0xf1;
        assert_ne!(fresh().open(&data), fresh().open(&[0; 65]));
    }

    #[test]
    fn issuer_answers() {
        let record = opened();
        let key = session_key(&record.ac, record.transaction_counter);
        let good = arpc(&key, &record.cryptogram, &[9; 4]);
        let (after, result) = record.clone().issuer_answer(&good, &[9; 4]);
        assert_eq!(result, Ok(()));
        let zero = Counters { session: 0, ..record.counters };
        assert_eq!(after, Record { counters: zero, ..record.clone() });
        assert_eq!(after.clone().issuer_answer(&good, &[9; 4]), (after, Ok(())));
        let spoilt = Record { spoilt: true, ..record.clone() };
        assert_eq!(spoilt.issuer_answer(&good, &[9; 4]).1, Ok(()));
        for place in 0..8 {
            let mut wrong = good;
            wrong[place] ^= 1;
            assert_eq!(record.clone().issuer_answer(&wrong, &[9; 4]), (record.clone(), Err(Refusal::ArpcDiffers)));
        }
        assert_eq!(record.clone().issuer_answer(&good[..7], &[9; 4]), (record.clone(), Err(Refusal::Input)));
        assert_eq!(record.clone().issuer_answer(&good, &[9; 5]), (record, Err(Refusal::Input)));
        assert_eq!(fresh().issuer_answer(&[], &[]), (fresh(), Err(Refusal::PhaseWrong)));
        let (aac, _) = Record { blocked: true, ..fresh() }.open(&[0; 65]);
        assert_eq!(aac.clone().issuer_answer(&[], &[]), (aac, Err(Refusal::PhaseWrong)));
    }

    #[test]
    fn the_order_of_a_scripts_refusals() {
        let record = opened();
        let full = Record { counters: Counters { failure: u16::MAX, ..record.counters }, ..record.clone() };
        let good = message_for(&record, Command::Block, &[]);
        let block = Command::Block.header();
        assert_eq!(fresh().script(&block, &good), (fresh(), Err(Refusal::PhaseWrong)));
        assert_eq!(fresh().script(&[], &[]), (fresh(), Err(Refusal::PhaseWrong)));
        spoils(&record, &block[..3], &good, Refusal::Input);
        spoils(&record, &[], &[], Refusal::Input);
        spoils(&record, &block, &[], Refusal::ShapeWrong);
        spoils(&record, &[0; 4], &good[..7], Refusal::ShapeWrong);
        spoils(&full, &[0; 4], &good, Refusal::NotListed);
        spoils(&full, &block, &good, Refusal::CounterFull);
        spoils(&full, &block, &[&good[..4], &[0; 4]].concat(), Refusal::CounterFull);
    }

    #[test]
    fn listed_commands_only() {
        let record = opened();
        let key = script_key(&record.smi, &record.cryptogram);
        for command in Command::ALL {
            for place in 0..4 {
                let mut header = command.header();
                header[place] ^= 0x40;
                let message = wrapped(&key, &header, command.tag(), &vec![0; command.length()]).unwrap();
                spoils(&record, &header, &message, Refusal::NotListed);
            }
            for (tag, length) in [(ENCIPHERED, 0), (CLEAR, 8), (command.tag(), command.length() + 1), (command.tag(), command.length() + 128)] {
                let message = wrapped(&key, &command.header(), tag, &vec![0; length]).unwrap();
                spoils(&record, &command.header(), &message, Refusal::NotListed);
            }
        }
    }

    /// A reader of other forms would take these for the command.
    #[test]
    fn a_listed_length_in_another_form() {
        let record = opened();
        let key = script_key(&record.smi, &record.cryptogram);
        for command in Command::ALL {
            let data = message_for(&record, command, &[1, 1, 1, 1])[2..2 + command.length()].to_vec();
            for before in [&[0x81][..], &[0x82, 0x00], &[0x81, 0x80]] {
                let field = [before, &[data.len() as u8]].concat();
                let message = coded(&key, &command.header(), command.tag(), &field, &data);
                spoils(&record, &command.header(), &message, Refusal::ShapeWrong);
            }
        }
    }

    #[test]
    fn only_a_differing_code_is_counted() {
        let record = opened();
        let mut message = message_for(&record, Command::ChangePin, &[1, 1, 1, 1]);
        message[15] ^= 1;
        let (after, result) = record.clone().script(&Command::ChangePin.header(), &message);
        assert_eq!(result, Err(Refusal::CodeDiffers));
        let counted = Counters { failure: 3, ..record.counters };
        assert_eq!(after, Record { counters: counted, spoilt: true, ..record.clone() });
        let key = script_key(&record.smi, &record.cryptogram);
        let header = Command::ChangePin.header();
        let no_pin = wrapped(&key, &header, ENCIPHERED, &[0; 8]).unwrap();
        spoils(&record, &header, &no_pin, Refusal::PinFormat);
    }

    #[test]
    fn the_last_pin_and_the_last_mark_are_kept_at_close() {
        let mut record = accept(opened(), Command::ChangePin, &[5, 5, 5, 5, 5, 5]);
        record = accept(record, Command::Block, &[]);
        record = accept(record, Command::ChangePin, &[9, 8, 7, 6]);
        assert_eq!((record.pin, record.blocked), (fresh().pin, false));
        let (closed, result) = record.clone().close();
        assert_eq!(result, Ok(()));
        let wanted = Record { pin: Pin::of_digits(&[9, 8, 7, 6]).unwrap(), tries: 3, blocked: true, ..fresh() };
        let counters = Counters { session: 2, ..wanted.counters };
        assert_eq!(closed, Record { transaction_counter: 8, counters, ..wanted });
        let unblocked = accept(record, Command::Unblock, &[]);
        assert!(!unblocked.close().0.blocked);
    }

    #[test]
    fn a_spoilt_transaction_is_dropped_at_close() {
        let record = accept(opened(), Command::ChangePin, &[5, 5, 5, 5, 5, 5]);
        let (record, _) = record.script(&[], &[]);
        let record = accept(record, Command::Block, &[]);
        let (closed, result) = record.close();
        assert_eq!(result, Err(Refusal::SpoiltClosed));
        let counters = Counters { session: 2, ..fresh().counters };
        assert_eq!(closed, Record { transaction_counter: 8, counters, ..fresh() });
        assert_eq!(fresh().close(), (fresh(), Err(Refusal::PhaseWrong)));
    }

    #[test]
    fn withdrawing() {
        assert_eq!(fresh().withdraw(), (fresh(), Ok(())));
        let record = accept(opened(), Command::ChangePin, &[5, 5, 5, 5, 5, 5]);
        let mut message = message_for(&record, Command::Block, &[]);
        message[7] ^= 1;
        let (record, _) = record.script(&Command::Block.header(), &message);
        let (withdrawn, result) = record.withdraw();
        assert_eq!(result, Ok(()));
        let counters = Counters { session: 2, failure: 3, ..fresh().counters };
        assert_eq!(withdrawn, Record { transaction_counter: 8, counters, ..fresh() });
    }

    #[test]
    fn counters_in_an_open_transaction() {
        assert_eq!(fresh().counters(), (fresh(), Err(Refusal::PhaseWrong)));
        let (aac, _) = Record { blocked: true, ..fresh() }.open(&[0; 65]);
        for record in [opened(), Record { spoilt: true, ..opened() }, aac] {
            let (after, block) = record.clone().counters();
            assert_eq!(after, record);
            let key = counter_key(&session_key(&record.ac, 8));
            assert_eq!(Counters::of_block(&decipher(&key, &block.unwrap())), record.counters);
        }
    }

    /// The block of digits under the record's key for secrecy.
    fn block_for(record: &Record, digits: &[u8]) -> [u8; 8] {
        encipher(&script_key(&record.smc, &record.cryptogram), &pin::write(digits).unwrap())
    }

    /// Open transactions of both kinds, spoilt and not, with another PIN pending and without.
    fn every_open() -> Vec<Record> {
        let (aac, _) = Record { blocked: true, ..fresh() }.open(&[0; 65]);
        let pending_pin = Pin::of_digits(&[5, 5, 5, 5, 5]).unwrap();
        let each = [opened(), aac].into_iter().flat_map(|record| [record.clone(), Record { pending_pin, ..record }]);
        each.flat_map(|record| [record.clone(), Record { spoilt: true, ..record }]).collect()
    }

    #[test]
    fn pin_checks() {
        for record in every_open() {
            let right = block_for(&record, &[1, 2, 3, 4]);
            assert_eq!(record.clone().check_pin(&right), (Record { tries: 3, ..record.clone() }, Ok(())));
            // the pending PIN, another digit, one fewer, and places that are the kept ones but for the count
            for digits in [&[5, 5, 5, 5, 5][..], &[1, 2, 3, 5], &[1, 2, 3, 4, 0], &[1, 2, 3, 4, 0, 0, 0, 0, 0, 0, 0, 0]] {
                let wrong = block_for(&record, digits);
                assert_eq!(record.clone().check_pin(&wrong), (Record { tries: 1, ..record.clone() }, Err(Refusal::WrongPin)));
            }
            let counted = Counters { pin: 4, ..record.counters };
            let misformed = encipher(&script_key(&record.smc, &record.cryptogram), &[0x24, 0x12, 0x34, 0x5f, 0xff, 0xff, 0xff, 0xff]);
            assert_eq!(record.clone().check_pin(&misformed), (Record { counters: counted, ..record.clone() }, Err(Refusal::PinFormat)));
        }
    }

    #[test]
    fn the_order_of_a_checks_refusals() {
        assert_eq!(fresh().check_pin(&[0; 8]), (fresh(), Err(Refusal::PhaseWrong)));
        assert_eq!(fresh().check_pin(&[]), (fresh(), Err(Refusal::PhaseWrong)));
        for record in every_open() {
            let full = Counters { pin: u16::MAX, ..record.counters };
            let none_left = Record { tries: 0, counters: full, ..record.clone() };
            let full = Record { counters: full, ..record.clone() };
            let right = block_for(&record, &[1, 2, 3, 4]);
            for length in [0, 7, 9, 16, 264] {
                let mut block = right.to_vec();
                block.resize(length, 0);
                assert_eq!(none_left.clone().check_pin(&block), (none_left.clone(), Err(Refusal::Input)));
            }
            for block in [right, block_for(&record, &[1, 2, 3, 5]), [0; 8]] {
                assert_eq!(none_left.clone().check_pin(&block), (none_left.clone(), Err(Refusal::NoTries)));
                assert_eq!(full.clone().check_pin(&block), (full.clone(), Err(Refusal::CounterFull)));
            }
        }
    }

    #[test]
    fn tries_run_down_and_are_restored() {
        let wrong = |record: Record| {
            let block = block_for(&record, &[4, 3, 2, 1]);
            record.check_pin(&block)
        };
        let (record, first) = wrong(opened());
        let (record, second) = wrong(record);
        let (record, third) = wrong(record);
        assert_eq!([first, second, third], [Err(Refusal::WrongPin), Err(Refusal::WrongPin), Err(Refusal::NoTries)]);
        assert_eq!((record.tries, record.spoilt), (0, false));
        assert_eq!(record.clone().withdraw().0.tries, 0);
        assert_eq!(record.clone().close().0.tries, 0);
        assert_eq!(accept(record.clone(), Command::Block, &[]).close().0.tries, 0);
        let changed = accept(record.clone(), Command::ChangePin, &[1, 2, 3, 4]);
        assert_eq!(changed.tries, 0);
        assert_eq!(changed.clone().withdraw().0.tries, 0);
        assert_eq!(Record { spoilt: true, ..changed.clone() }.close().0.tries, 0);
        assert_eq!(changed.close().0.tries, 3);
    }
}
