//! Traces made from a seed, valid and damaged: over many seeds every answer of every frame is reached. The generator answers each line
//! itself, so that it has the keys and the cryptogram for the next one.

use crate::card::{Phase, Record, ALL_TRIES};
use crate::cipher::encipher;
use crate::cryptogram::arpc;
use crate::forms::Form;
use crate::keys::{script_key, session_key};
use crate::message::{coded, wrapped, Command, CLEAR, ENCIPHERED, LARGEST, LARGEST_SHORT};
use crate::octets::{to_hex, Key};
use crate::pin::{self, Pin};
use crate::random::Random;
use crate::trace::{Run, LAST_FRAME, LONGEST};

type Line = Vec<u8>;

/// The most bytes that follow the first one of a frame.
const MOST: usize = LONGEST / 2 - 1;

/// The trace of a seed.
pub fn trace(seed: u64) -> Vec<u8> {
    let mut clerk = Clerk::new(seed);
    let length = clerk.random.within(15, 85);
    if clerk.random.once_in(2) {
        for _ in 0..clerk.random.within(1, 4) {
            let line = clerk.early();
            clerk.say(line);
        }
    }
    if !clerk.random.once_in(50) {
        let line = clerk.personalise();
        clerk.say(line);
    }
    while clerk.lines.len() < length {
        let line = clerk.next();
        clerk.say(line);
    }
    clerk.end()
}

/// 200,000 lines of no digit or few, so that the answers to a block of them are far longer than the block.
pub fn short_lines() -> Vec<u8> {
    let mut random = Random::new(0);
    let mut lines = vec![b'\n'; 100_000];
    (0..100_000)
        .for_each(|_| lines.extend(random.choose(&[&b"\n"[..], b"\n", b"\n", b"0\n", b"05\n", b"06\n", b"07\n", b"08\n", b"zz\n", b"0401\n"])));
    lines
}

/// One card, 300 transactions, and the counters asked some 60 times in each: 3 signs are answered by 19.
pub fn long_answers() -> Vec<u8> {
    let mut clerk = Clerk::new(0);
    let block = clerk.good_pin_block();
    clerk.lines.push(frame(0, &[&[7; 96][..], &[0; 11], &block].concat()));
    for _ in 0..300 {
        let line = clerk.open();
        clerk.lines.push(line);
        for _ in 0..clerk.random.within(40, 80) {
            clerk.lines.push(frame(6, &[]));
        }
        clerk.lines.push(frame(5, &[]));
    }
    clerk.lines.push(vec![]);
    clerk.lines.join(&b'\n')
}

struct Clerk {
    random: Random,
    run: Run,
    lines: Vec<Line>,
    /// Once in so many times a line is damaged.
    damage: usize,
    /// How often a PIN is checked in an open transaction, beside some 80 other lines.
    checks: usize,
    /// A script of an earlier transaction.
    old_script: Option<Line>,
}

fn frame(first: u8, rest: &[u8]) -> Line {
    format!("{first:02x}{}", to_hex(rest)).into_bytes()
}

fn script(header: &[u8], message: &[u8]) -> Line {
    frame(3, &[header, message].concat())
}

impl Clerk {
    fn new(seed: u64) -> Clerk {
        let mut random = Random::new(seed);
        let damage = random.choose(&[1000, 40, 20, 10, 5]);
        let checks = random.choose(&[4, 15, 40]);
        Clerk { random, run: Run::default(), lines: vec![], damage, checks, old_script: None }
    }

    fn say(&mut self, line: Line) {
        // what is accepted or refused shows in the record
        let _ = self.run.answer(&line);
        self.lines.push(line);
    }

    /// Lines ended by line feeds; at times the last one is torn, or lacks only its line feed.
    fn end(mut self) -> Vec<u8> {
        let torn = self.random.below(6);
        let mut trace = self.lines.join(&b'\n');
        let last = self.lines.last().map_or(0, Vec::len);
        match torn {
            0 => trace.truncate(trace.len() - self.random.below(last + 1)),
            1 => {}
            _ => trace.push(b'\n'),
        }
        trace
    }

    fn next(&mut self) -> Line {
        if self.random.once_in(self.damage) {
            return self.unreadable();
        }
        match self.run.record.as_ref().map(|record| record.phase) {
            None if self.random.once_in(4) => self.personalise(),
            None => self.early(),
            Some(Phase::None) => self.between(),
            Some(_) => self.inside(),
        }
    }

    fn record(&self) -> &Record {
        self.run.record.as_ref().expect("a record")
    }

    /// Before a record: any frame of any length.
    fn early(&mut self) -> Line {
        match self.random.below(6) {
            0 => self.unreadable(),
            1 => self.spoilt_personalise(),
            _ => self.any_frame(1),
        }
    }

    /// With no transaction open. A card at the end of its counters is mostly personalised anew.
    fn between(&mut self) -> Line {
        let record = self.record();
        let spent = record.transaction_counter == u16::MAX || record.counters.session == u16::MAX;
        let again = if spent { 30 } else { 2 };
        match self.random.weighted(&[60, 4, 4, 2, again, 2, 6, 1]) {
            0 => self.open(),
            1 => self.open_of_wrong_length(),
            2 => frame(5, &[]),
            3 => self.with_bytes_after(),
            4 => self.personalise(),
            5 => self.spoilt_personalise(),
            6 => self.stray(),
            _ => self.any_frame(0),
        }
    }

    /// In an open transaction. An undamaged trace has few refusals, so that its commands are kept.
    fn inside(&mut self) -> Line {
        let bad = match self.damage {
            1000 => 1,
            40 => 6,
            _ => 22,
        };
        match self.random.weighted(&[34, bad, 8, 5, 6, 13, 7, 3, 4, 1, 2, self.checks, 1]) {
            0 => self.good_script(),
            1 => self.bad_script(),
            2 => self.issuer_answer(),
            3 => self.wrong_issuer_answer(),
            4 => frame(6, &[]),
            5 => frame(4, &[]),
            6 => frame(5, &[]),
            7 if self.random.once_in(3) => self.open_of_wrong_length(),
            7 => self.open(),
            8 => self.with_bytes_after(),
            9 => self.personalise(),
            10 => self.spoilt_personalise(),
            11 => self.pin_check(),
            _ => self.any_frame(0),
        }
    }

    /// Any frame from a first one on, of any length that can be read.
    fn any_frame(&mut self, from: u8) -> Line {
        let first = self.random.within(from.into(), LAST_FRAME.into()) as u8;
        let any = self.random.below(MOST + 1);
        let length = self.random.choose(&[0, 0, 1, 3, 4, 8, 12, 65, 115, 116, any]);
        frame(first, &self.random.bytes(length))
    }

    /// Frames that need an open transaction, of the right length.
    fn stray(&mut self) -> Line {
        match self.random.below(5) {
            0 => frame(2, &self.random.bytes(12)),
            1 => self.old_script.clone().unwrap_or_else(|| script(&Command::Block.header(), &[])),
            2 => frame(4, &[]),
            3 => self.pin_check(),
            _ => frame(6, &[]),
        }
    }

    fn with_bytes_after(&mut self) -> Line {
        let first = self.random.choose(&[4, 5, 6]);
        let count = self.random.choose(&[1, 1, 2, 139, 256, 256, MOST]);
        frame(first, &self.random.bytes(count))
    }

    /// A counter, often near its end.
    fn counter(&mut self) -> u16 {
        let any = self.random.next() as u16;
        self.random.choose(&[0, 0, 1, 255, 256, any, any, 65530, 65532, 65533, 65534, 65534, 65535])
    }

    fn key(&mut self) -> Key {
        if self.random.once_in(8) {
            return [0; 32];
        }
        self.random.array()
    }

    fn good_pin_block(&mut self) -> [u8; 8] {
        let count = self.random.within(4, 12);
        pin::write(&self.random.digits(count)).expect("digits")
    }

    /// A block with one half-byte that it must not have, one of too few or too many digits, or any bytes.
    fn bad_pin_block(&mut self) -> [u8; 8] {
        loop {
            let mut block = self.good_pin_block();
            let place = self.random.choose(&[0, 1, 1, 1, 2, 5, 6, 13, 14, 15]);
            block[place / 2] ^= (self.random.within(1, 15) << (4 * (1 - place % 2))) as u8;
            match self.random.below(10) {
                0 => block = self.random.array(),
                1..=3 => block = self.block_of_wrong_count(),
                _ => {}
            }
            if pin::read(&block).is_err() {
                return block;
            }
        }
    }

    /// Written by the rule, but for fewer than 4 digits or more than 12.
    fn block_of_wrong_count(&mut self) -> [u8; 8] {
        let count = self.random.choose(&[0, 1, 2, 3, 3, 13, 13, 14]);
        pin::written(count as u8, &self.random.digits(count))
    }

    /// With the byte for the tries or without. Often few are left, and then the PIN decipherment counter is often full or nearly so.
    fn personalise_with(&mut self, mark: u8, block: [u8; 8]) -> Vec<u8> {
        let tries = self.random.choose(&[&[][..], &[], &[], &[3], &[2], &[1], &[1], &[0]]);
        let keys = [self.key(), self.key(), self.key()].concat();
        let mut counters = [0; 5].map(|_| self.counter());
        if self.random.once_in(3) && (tries == [0] || tries == [1]) {
            counters[3] = self.random.choose(&[65533, 65534, 65535, 65535]);
        }
        let counters: Vec<u8> = counters.iter().flat_map(|counter| counter.to_be_bytes()).collect();
        [&keys[..], &counters, &[mark], &block, tries].concat()
    }

    /// The same with tries that no card has.
    fn personalise_with_tries_above(&mut self, mark: u8, block: [u8; 8]) -> Line {
        let mut rest = self.personalise_with(mark, block);
        rest.truncate(115);
        rest.push(self.random.choose(&[ALL_TRIES + 1, ALL_TRIES + 1, 5, 0x80, 0x83, 0xff]));
        frame(0, &rest)
    }

    fn personalise(&mut self) -> Line {
        let block = self.good_pin_block();
        let mark = self.random.choose(&[0, 0, 0, 1]);
        frame(0, &self.personalise_with(mark, block))
    }

    fn spoilt_personalise(&mut self) -> Line {
        let (good, bad) = (self.good_pin_block(), self.bad_pin_block());
        match self.random.below(9) {
            0 => {
                let mark = self.random.choose(&[2, 0x80, 0xff]);
                frame(0, &self.personalise_with(mark, good))
            }
            1 => frame(0, &self.personalise_with(2, bad)),
            2 => {
                let mut rest = self.personalise_with(0, good);
                rest.truncate(self.random.choose(&[0, 1, 106, 114]));
                frame(0, &rest)
            }
            3 => {
                let rest = self.personalise_with(0, good);
                let least = 117 - rest.len();
                let any = self.random.within(least, MOST - rest.len());
                let extra = self.random.choose(&[least, least, 24, 25, any]);
                frame(0, &[rest, self.random.bytes(extra)].concat())
            }
            4 | 5 => self.personalise_with_tries_above(0, good),
            6 => self.personalise_with_tries_above(0, bad),
            _ => frame(0, &self.personalise_with(0, bad)),
        }
    }

    fn open(&mut self) -> Line {
        let data = if self.random.once_in(5) { vec![0; 65] } else { self.random.bytes(65) };
        frame(1, &data)
    }

    fn open_of_wrong_length(&mut self) -> Line {
        let any = self.random.below(MOST + 1);
        let length = self.random.choose(&[0, 64, 66, any]);
        frame(1, &self.random.bytes(length))
    }

    /// The answer that the issuer would give, to this transaction.
    fn issuer_answer(&mut self) -> Line {
        let csu = self.random.array();
        let record = self.record();
        let key = session_key(&record.ac, record.transaction_counter);
        frame(2, &[&arpc(&key, &record.cryptogram, &csu)[..], &csu].concat())
    }

    fn wrong_issuer_answer(&mut self) -> Line {
        let mut line = self.issuer_answer();
        match self.random.below(5) {
            0 => line.truncate(2 * self.random.within(1, 12)),
            1 => line.extend(b"00"),
            2 => line.resize(LONGEST, b'0'),
            _ => {
                let place = self.random.within(2, 25);
                line[place] = if line[place] == b'0' { b'1' } else { b'0' };
            }
        }
        line
    }

    fn smi(&self) -> Key {
        script_key(&self.record().smi, &self.record().cryptogram)
    }

    fn enciphered(&self, block: &[u8; 8]) -> Vec<u8> {
        encipher(&script_key(&self.record().smc, &self.record().cryptogram), block).to_vec()
    }

    /// The block of a kept or pending PIN.
    fn block_of(pin: &Pin) -> [u8; 8] {
        pin::written(pin.count, &pin.places[..pin.count.into()])
    }

    /// A PIN check: the right PIN, a wrong one, the pending one, a badly formed block, one that is not enciphered for this transaction, or one of
    /// another length. Wrong ones are the most, for each of the others may restore the tries or take none.
    fn pin_check(&mut self) -> Line {
        let (kept, pending) = (self.record().pin, self.record().pending_pin);
        let right = self.enciphered(&Self::block_of(&kept));
        let block = match self.random.weighted(&[14, 24, 9, 9, 2, 5]) {
            0 => right,
            2 if pending != Pin::NONE => self.enciphered(&Self::block_of(&pending)),
            1 | 2 => {
                let block = self.wrong_pin_block(&kept);
                self.enciphered(&block)
            }
            3 => {
                let block = self.bad_pin_block();
                self.enciphered(&block)
            }
            4 => {
                let (smi, clear) = (self.smi(), Self::block_of(&kept));
                let any = self.random.array();
                self.random.choose(&[clear, encipher(&smi, &clear), encipher(&self.record().smc, &clear), any]).to_vec()
            }
            _ => {
                let any = self.random.below(MOST + 1);
                let length = self.random.choose(&[0, 7, 9, 16, 8 + 256, 8 + 256, MOST, any]);
                let after = self.random.bytes(length);
                right.into_iter().chain(after.into_iter().skip(8)).take(length).collect()
            }
        };
        frame(7, &block)
    }

    /// Another PIN than the kept one, often one like it: a digit changed, a digit less, or zeros after it, which leave its twelve places as they are.
    fn wrong_pin_block(&mut self, kept: &Pin) -> [u8; 8] {
        let count = usize::from(kept.count);
        let mut digits = kept.places[..count].to_vec();
        match self.random.below(5) {
            0 | 1 => {
                let place = self.random.below(count);
                digits[place] = (digits[place] + self.random.within(1, 9) as u8) % 10;
            }
            2 if count < 12 => digits.resize(self.random.within(count + 1, 12), 0),
            3 if count > 4 => digits.truncate(count - 1),
            _ => loop {
                let block = self.good_pin_block();
                if block != Self::block_of(kept) {
                    return block;
                }
            },
        }
        pin::write(&digits).expect("digits")
    }

    /// Of a PIN change mostly a new PIN, at times the kept one.
    fn good_data(&mut self, command: Command) -> Vec<u8> {
        let block = if self.random.once_in(5) { Self::block_of(&self.record().pin) } else { self.good_pin_block() };
        if command == Command::ChangePin {
            self.enciphered(&block)
        } else {
            vec![]
        }
    }

    fn good_message(&mut self, command: Command) -> Vec<u8> {
        let data = self.good_data(command);
        wrapped(&self.smi(), &command.header(), command.tag(), &data).expect("a listed command")
    }

    fn command(&mut self) -> Command {
        self.random.choose(&Command::ALL)
    }

    fn good_script(&mut self) -> Line {
        let command = self.command();
        let line = script(&command.header(), &self.good_message(command));
        if self.random.once_in(3) {
            self.old_script = Some(line.clone());
        }
        line
    }

    fn bad_script(&mut self) -> Line {
        match self.random.weighted(&[2, 6, 6, 6, 6, 6]) {
            0 => {
                let length = self.random.below(4);
                script(&self.command().header()[..length], &[])
            }
            1 => self.misshapen_script(),
            2 => self.misformed_script(),
            3 => self.unlisted_script(),
            4 => self.miscoded_script(),
            _ => {
                let block = self.bad_pin_block();
                let header = Command::ChangePin.header();
                script(&header, &wrapped(&self.smi(), &header, ENCIPHERED, &self.enciphered(&block)).expect("8 bytes"))
            }
        }
    }

    /// Refusal 4: one part of the shape is wrong, of a listed command or of a message with a length of two bytes.
    fn misshapen_script(&mut self) -> Line {
        let command = self.command();
        let header = command.header();
        let data = if self.random.once_in(3) {
            let length = self.random.within(LARGEST_SHORT + 1, LARGEST);
            self.random.bytes(length)
        } else {
            self.good_data(command)
        };
        let mut message = wrapped(&self.smi(), &header, command.tag(), &data).expect("known tag");
        let end = message.len() - 6;
        let place = end - data.len();
        match self.random.below(11) {
            0 => message.clear(),
            1 => message[0] = self.random.choose(&[0x86, 0x88, 0x80, 0x00, 0x07]),
            2 => message[place - 1] = message[place - 1].wrapping_add(1),
            3 => message[place - 1] = message[place - 1].wrapping_sub(1),
            4 => message[1] ^= 0x80,
            5 => message[end] ^= 1 << self.random.below(8),
            6 => message[end + 1] ^= 1 << self.random.below(8),
            7 => message.truncate(self.random.below(message.len())),
            8 => message.truncate(self.random.within(1, place)),
            9 if data.is_empty() => message.extend(self.random.bytes(256)),
            _ => {
                let extra = self.random.within(1, 10);
                message.extend(self.random.bytes(extra));
            }
        }
        script(&header, &message)
    }

    /// Refusal 4: all is right but the form of the length; one who reads that form at times sees a listed command.
    fn misformed_script(&mut self) -> Line {
        let command = self.command();
        let header = command.header();
        let form = Form::any(&mut self.random);
        let data = if form.takes(command.length()) && self.random.once_in(2) {
            self.good_data(command)
        } else {
            let length = form.length(&mut self.random);
            self.random.bytes(length)
        };
        script(&header, &coded(&self.smi(), &header, command.tag(), &form.field(data.len()), &data))
    }

    /// Refusal 5: a good code, mostly, on a command that is not listed.
    fn unlisted_script(&mut self) -> Line {
        let command = self.command();
        let (mut header, mut tag, mut length) = (command.header(), command.tag(), command.length());
        match self.random.below(11) {
            place @ 0..=3 => header[place] = self.random.byte(),
            4 => header[1] = self.random.choose(&[0x24, 0x1e, 0x18, 0x16]),
            5 => tag ^= ENCIPHERED ^ CLEAR,
            6 => length = self.random.choose(&[length + 1, 7, 9]),
            7 | 8 => length = self.random.choose(&[LARGEST_SHORT, LARGEST_SHORT + 1, length + 128, LARGEST]),
            _ => length = self.random.below(LARGEST + 1),
        }
        let mut message = wrapped(&self.smi(), &header, tag, &self.random.bytes(length)).expect("known tag");
        if self.random.once_in(4) {
            let last = message.len() - 1;
            message[last] ^= 1;
        }
        script(&header, &message)
    }

    /// Refusal 8: a listed command whose code is another's.
    fn miscoded_script(&mut self) -> Line {
        let command = self.command();
        let header = command.header();
        let mut message = self.good_message(command);
        let end = message.len();
        match self.random.below(6) {
            0 => message[end - 1 - self.random.below(4)] ^= 1 << self.random.below(8),
            1 => message[end - 4..].fill(0),
            2 => {
                let key = script_key(&self.record().smc, &self.record().cryptogram);
                message = wrapped(&key, &header, command.tag(), &message[2..end - 6]).expect("known tag");
            }
            3 => message = wrapped(&self.record().smi, &header, command.tag(), &message[2..end - 6]).expect("known tag"),
            4 if command == Command::ChangePin => message[2 + self.random.below(8)] ^= 1 << self.random.below(8),
            4 => {
                let other = if command == Command::Block { Command::Unblock } else { Command::Block };
                return script(&other.header(), &message);
            }
            _ => {
                if let Some(line) = &self.old_script {
                    return line.clone();
                }
                message[end - 2] ^= 0x55;
            }
        }
        script(&header, &message)
    }

    /// A line that could stand here.
    fn plain(&mut self) -> Line {
        let open = self.run.record.as_ref().map_or(false, Record::is_open);
        match self.random.below(6) {
            0 => self.open(),
            1 if open => self.good_script(),
            2 if open => self.issuer_answer(),
            3 => self.personalise(),
            4 if open => self.pin_check(),
            _ => frame(self.random.within(4, 6) as u8, &[]),
        }
    }

    /// Refusal 13 for each of its causes, alone and with others; among them lines at the edge that can be read.
    fn unreadable(&mut self) -> Line {
        let mut line = self.plain();
        match self.random.below(14) {
            0 => line.clear(),
            1 => {
                let place = self.random.below(line.len());
                line.remove(place);
            }
            2 => line.push(b'\r'),
            3 => {
                let place = self.random.below(line.len() + 1);
                line.insert(place, b' ');
            }
            4 => self.capital(&mut line),
            5 => self.put(&mut line, &[0]),
            6 => {
                let high = self.random.within(0x80, 0xff) as u8;
                self.put(&mut line, &[high]);
            }
            7 => self.put(&mut line, b"/:@G`g\x0b\x1a\x7f{-"),
            8 => self.put(&mut line, b" \t"),
            9 => self.put(&mut line, b"\r"),
            10 => {
                let first = format!("{:02x}", self.random.choose(&[8, 8, 0x0f, 0x10, 0x70, 0xff]));
                line[..2].copy_from_slice(first.as_bytes());
            }
            11 | 12 => line = self.line_at_the_edge(),
            _ if self.random.once_in(12) => line = vec![b'0'; self.random.within(541, 70_000)],
            _ => {
                let length = self.random.within(1, 560);
                line = self.random.bytes(length).into_iter().filter(|&byte| byte != b'\n').collect();
            }
        }
        line
    }

    /// One of the signs in the place of a digit, or beside the digits: a reader that skips it would see a good line.
    fn put(&mut self, line: &mut Line, signs: &[u8]) {
        let sign = self.random.choose(signs);
        let place = self.random.choose(&[0, 1, line.len() - 1, line.len() / 2]);
        match self.random.below(4) {
            0 => line.insert(place, sign),
            1 => line.splice(place..place, [sign, sign]).for_each(drop),
            _ => line[place] = sign,
        }
    }

    /// A capital in the place of its small letter, or of another digit.
    fn capital(&mut self, line: &mut Line) {
        match line.iter().position(|sign| sign.is_ascii_lowercase()) {
            Some(place) if self.random.once_in(2) => line[place] = line[place].to_ascii_uppercase(),
            _ => self.put(line, b"ABCDEF"),
        }
    }

    /// 537 to 541 digits, or 279 to 283, where the edge was before Wish 1. The 538 of a script with the most data are a frame like any other, and so
    /// are the 280 with the most that have a length of one byte.
    fn line_at_the_edge(&mut self) -> Line {
        let open = self.run.record.as_ref().map_or(false, Record::is_open);
        let key = if open { self.smi() } else { [0; 32] };
        let header = self.command().header();
        let (length, edge) = self.random.choose(&[(LARGEST, LONGEST), (LARGEST, LONGEST), (LARGEST_SHORT, 280)]);
        let message = wrapped(&key, &header, ENCIPHERED, &self.random.bytes(length)).expect("up to 255 bytes");
        let mut line = script(&header, &message);
        line.resize(self.random.within(edge - 1, edge + 3), b'0');
        line[1] = self.random.choose(b"333330124567");
        line
    }
}

#[cfg(test)]
mod tests {
    use super::*;

    #[test]
    fn the_same_seed_makes_the_same_trace() {
        assert_eq!(trace(7), trace(7));
        assert_ne!(trace(7), trace(8));
    }

    #[test]
    fn about_fifty_lines() {
        let lines: usize = (0..200).map(|seed| trace(seed).split(|&byte| byte == b'\n').count()).sum();
        assert!((40..60).contains(&(lines / 200)), "{lines}");
    }
}
