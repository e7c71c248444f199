//! How often each answer of each frame was reached, and for which of its causes.

use std::collections::{BTreeMap, BTreeSet};
use std::fmt::Write;

use crate::card::{PendingMark, Phase, Record, ALL_TRIES};
use crate::cipher::decipher;
use crate::cryptogram::arpc;
use crate::forms::form_of;
use crate::keys::{script_key, session_key};
use crate::message::{code_matches, open, shape, Command, Header, Opened};
use crate::octets::{digit, exact, from_hex, Key};
use crate::pin::{self, Pin};
use crate::refusal::{number_of, Refusal};
use crate::trace::{Answered, Run, LAST_FRAME, LONGEST};

/// Which numbers paper 01 and Wish 4 name for a frame; 13 for a line that starts like it.
const NAMED: [(u8, &[u8]); 8] = [
    (0, &[0, 1, 9, 13]),
    (1, &[0, 1, 6, 7, 13]),
    (2, &[0, 1, 6, 11, 13]),
    (3, &[0, 1, 4, 5, 6, 7, 8, 9, 13]),
    (4, &[0, 1, 6, 10, 13]),
    (5, &[0, 1, 6, 13]),
    (6, &[0, 1, 6, 13]),
    (7, &[0, 1, 6, 7, 9, 13, 14, 15]),
];

/// The greatest number of a refusal.
const LAST_NUMBER: u8 = Refusal::NoTries as u8;

/// Causes that must be reached too.
const CAUSES: &[&str] = &[
    "00 0 again, none open",
    "00 0 again, open",
    "00 0 first",
    "00 0 no byte for the tries",
    "00 0 tries 0",
    "00 0 tries 1",
    "00 0 tries 2",
    "00 0 tries 3",
    "00 1 length",
    "00 1 mark",
    "00 1 mark, and PIN block wrong",
    "00 1 mark, with tries",
    "00 1 one byte more than the tries",
    "00 1 tries 4",
    "00 1 tries above 3",
    "00 1 tries above 3, and PIN block wrong",
    "00 9 no byte for the tries",
    "00 9 with a record",
    "00 9 with none",
    "00 9 with tries",
    "01 0 AAC",
    "01 0 ARQC",
    "01 0 session counter reaches 65535",
    "01 0 transaction counter reaches 65535",
    "01 1 length",
    "01 6 before a record",
    "01 6 open already",
    "01 6 open already, wrong length",
    "01 7 session counter",
    "01 7 transaction counter",
    "02 0 once more",
    "02 0 session counter at 0",
    "02 0 session counter reset",
    "02 0 spoilt",
    "02 1 length",
    "02 1 right answer and 256 bytes",
    "02 11 code differs",
    "02 6 after an AAC",
    "02 6 before a record",
    "02 6 none open",
    "03 0 Block",
    "03 0 Block after Block",
    "03 0 Block after ChangePin",
    "03 0 Block after Unblock",
    "03 0 ChangePin",
    "03 0 ChangePin after Block",
    "03 0 ChangePin after ChangePin",
    "03 0 ChangePin after Unblock",
    "03 0 Unblock",
    "03 0 Unblock after Block",
    "03 0 Unblock after ChangePin",
    "03 0 Unblock after Unblock",
    "03 0 in an AAC transaction",
    "03 0 in an ARQC transaction",
    "03 0 in a spoilt transaction",
    "03 1 header",
    "03 4 length as 80",
    "03 4 length as 80 00 to 80 ff",
    "03 4 length as 81",
    "03 4 length as 81 00 to 81 7f",
    "03 4 length as 81 7f",
    "03 4 length as 82 00 00 to 82 00 ff",
    "03 4 length as 82 00 to 82 ff",
    "03 4 length as 82 to ff",
    "03 4 listed but for length as 80 00 to 80 ff",
    "03 4 listed but for length as 81 00 to 81 7f",
    "03 4 listed but for length as 82 00 00 to 82 00 ff",
    "03 4 listed but for length as 82 00 to 82 ff",
    "03 4 right message and 256 bytes",
    "03 4 shape",
    "03 5 127 data bytes, good code",
    "03 5 128 data bytes, good code",
    "03 5 255 data bytes, good code",
    "03 5 command",
    "03 5 length of one byte, good code",
    "03 5 length of one byte, wrong code",
    "03 5 length of two bytes, good code",
    "03 5 length of two bytes, wrong code",
    "03 5 listed but for 128 data bytes more, good code",
    "03 6 before a record",
    "03 6 none open",
    "03 7 failure counter",
    "03 8 code",
    "03 8 failure counter reaches 65535",
    "03 9 PIN block",
    "04 0 clears the mark",
    "04 0 new PIN",
    "04 0 mark alone, tries below three",
    "04 0 new PIN and mark",
    "04 0 new PIN restores the tries",
    "04 0 no tries left, new PIN restores them",
    "04 0 nothing pending",
    "04 0 same PIN restores the tries",
    "04 0 sets the mark",
    "04 1 256 bytes after",
    "04 1 bytes after, open",
    "04 10 nothing pending",
    "04 10 pending PIN dropped, tries below three",
    "04 10 pending dropped",
    "04 6 before a record",
    "04 6 none open",
    "05 0 after 01",
    "05 0 after 02",
    "05 0 after 03 accepted",
    "05 0 after 03 refused",
    "05 0 after 06",
    "05 0 after 07 accepted",
    "05 0 after 07 refused",
    "05 0 none open",
    "05 0 pending PIN dropped, tries below three",
    "05 0 pending dropped",
    "05 0 spoilt",
    "05 1 256 bytes after",
    "05 1 bytes after, none open",
    "05 1 bytes after, open",
    "05 6 before a record",
    "06 0 AAC",
    "06 0 ARQC",
    "06 0 spoilt",
    "06 1 256 bytes after",
    "06 1 bytes after, open",
    "06 6 before a record",
    "06 6 none open",
    "07 0 AAC",
    "07 0 ARQC",
    "07 0 another PIN pending",
    "07 0 restores the tries",
    "07 0 same PIN pending",
    "07 0 spoilt",
    "07 0 tries at three",
    "07 1 PIN decipherment counter at 65535",
    "07 1 length",
    "07 1 no tries left",
    "07 1 right PIN and 256 bytes",
    "07 6 before a record",
    "07 6 none open",
    "07 6 none open, wrong length",
    "07 7 PIN block",
    "07 7 right PIN",
    "07 7 wrong PIN",
    "07 9 AAC",
    "07 9 ARQC",
    "07 9 PIN decipherment counter reaches 65535",
    "07 9 last try left",
    "07 9 spoilt",
    "07 14 AAC",
    "07 14 ARQC",
    "07 14 another count, the same places",
    "07 14 spoilt",
    "07 14 takes the last try",
    "07 14 the pending PIN",
    "07 14 three tries",
    "07 15 PIN block",
    "07 15 PIN decipherment counter at 65535",
    "07 15 right PIN",
    "07 15 the pending PIN",
    "07 15 wrong PIN",
    "13 alone: capital",
    "13 alone: carriage return",
    "13 alone: empty",
    "13 alone: first byte above 07",
    "13 alone: high byte",
    "13 alone: more than 538 digits",
    "13 alone: odd count",
    "13 alone: other sign",
    "13 alone: NUL",
    "13 alone: blank",
    "13 before a record",
    "line of 279 signs",
    "line of 280 signs, read",
    "line of 281 signs",
    "line of 282 signs, read",
    "line of 283 signs",
    "line of 537 signs",
    "line of 538 signs, read",
    "line of 539 signs",
    "line of 540 signs",
    "line of 541 signs",
    "torn last line",
];

#[derive(Default)]
pub struct Tally {
    numbers: BTreeMap<(String, u8), usize>,
    causes: BTreeMap<String, usize>,
    run: Run,
    /// The last command accepted in this transaction, and the last frame with its number.
    command: Option<Command>,
    last: (u8, u8),
    pub lines: usize,
}

impl Tally {
    /// Counts every line that a run is fed, from no record on.
    pub fn count(&mut self, input: &[u8]) {
        self.run = Run::default();
        self.command = None;
        self.last = (0, 0);
        let mut lines: Vec<&[u8]> = input.split(|&byte| byte == b'\n').collect();
        match lines.pop() {
            Some(last) if !last.is_empty() => {
                lines.push(last);
                self.cause("torn last line".into());
            }
            _ => {}
        }
        lines.into_iter().for_each(|line| self.count_line(line));
    }

    fn count_line(&mut self, line: &[u8]) {
        let before = self.run.clone();
        let answer = self.run.answer(line);
        let number = number_of(&answer);
        self.lines += 1;
        *self.numbers.entry((row(line), number)).or_default() += 1;
        let read = number != Refusal::Unreadable.number();
        if (279..=283).contains(&line.len()) || (537..=541).contains(&line.len()) {
            self.cause(format!("line of {} signs{}", line.len(), if read { ", read" } else { "" }));
        }
        if !read {
            self.count_unreadable(line, before.record.is_none());
            return;
        }
        let frame = from_hex(line).expect("a readable line");
        for cause in self.causes_of(&before, &frame, &answer) {
            self.cause(format!("{:02x} {number} {cause}", frame[0]));
        }
        self.remember(&frame, number);
    }

    fn cause(&mut self, cause: String) {
        *self.causes.entry(cause).or_default() += 1;
    }

    fn count_unreadable(&mut self, line: &[u8], early: bool) {
        let faults = faults(line);
        for fault in &faults {
            let alone = if faults.len() == 1 { "alone" } else { "with others" };
            self.cause(format!("13 {alone}: {fault}"));
        }
        if early {
            self.cause("13 before a record".into());
        }
    }

    fn remember(&mut self, frame: &[u8], number: u8) {
        self.last = (frame[0], number);
        match frame[0] {
            3 if number == 0 => self.command = command_of(frame),
            _ if !self.run.record.as_ref().map_or(false, Record::is_open) => self.command = None,
            _ => {}
        }
    }

    /// Why a frame got its number; a frame may have several causes to count.
    fn causes_of(&self, before: &Run, frame: &[u8], answer: &Answered) -> Vec<String> {
        let number = number_of(answer);
        let record = match &before.record {
            Some(record) => record,
            None => return causes_early(frame, number),
        };
        let open = record.is_open();
        let phase = if record.phase == Phase::Aac { "AAC" } else { "ARQC" };
        let text = |cause: &str| vec![cause.to_string()];
        match (frame[0], number) {
            (0, 0) => causes_of_personalise(if open { "again, open" } else { "again, none open" }, frame),
            (0, 1) => causes_of_personalise_fault(frame),
            (0, _) => causes_of_personalise("with a record", frame),
            (1, 0) => self.causes_of_open(),
            (1, 6) if frame.len() != 66 => text("open already, wrong length"),
            (1, 6) => text("open already"),
            (1, 7) if record.transaction_counter == u16::MAX => text("transaction counter"),
            (1, 7) => text("session counter"),
            (1, 1) => text("length"),
            (2, 1) => causes_of_answer_length(record, frame),
            (2, 0) => causes_of_answer(record, self.last == (2, 0)),
            (2, 6) if open => text("after an AAC"),
            (2, 11) => text("code differs"),
            (3, 0) => self.causes_of_script(record, frame, phase),
            (3, 6) => text("none open"),
            (3, _) => self.causes_of_bad_script(record, frame, number),
            (4, 0) => causes_of_close(record),
            (4, 10) if pending(record) => causes_of_dropping(record),
            (4, 10) => text("nothing pending"),
            (4..=6, 1) if frame.len() == 257 => text("256 bytes after"),
            (4..=6, 1) => text(if open { "bytes after, open" } else { "bytes after, none open" }),
            (5, 0) => self.causes_of_withdraw(record),
            (6, 0) if record.spoilt => vec![phase.to_string(), "spoilt".to_string()],
            (6, 0) => text(phase),
            (7, 6) if frame.len() != 9 => vec!["none open".to_string(), "none open, wrong length".to_string()],
            (7, 1) => causes_of_block_length(record, frame),
            (7, 0 | 7 | 9 | 14 | 15) => self.causes_of_check(record, frame, number, phase),
            _ => text("none open"),
        }
    }

    fn causes_of_open(&self) -> Vec<String> {
        let after = self.run.record.as_ref().expect("a record");
        let mut causes = vec![if after.phase == Phase::Aac { "AAC" } else { "ARQC" }.to_string()];
        if after.transaction_counter == u16::MAX {
            causes.push("transaction counter reaches 65535".to_string());
        }
        if after.counters.session == u16::MAX {
            causes.push("session counter reaches 65535".to_string());
        }
        causes
    }

    fn causes_of_script(&self, record: &Record, frame: &[u8], phase: &str) -> Vec<String> {
        let command = command_of(frame).expect("an accepted command");
        let mut causes = vec![format!("{command:?}"), format!("in an {phase} transaction")];
        causes.extend(self.command.map(|earlier| format!("{command:?} after {earlier:?}")));
        if record.spoilt {
            causes.push("in a spoilt transaction".to_string());
        }
        causes
    }

    fn causes_of_bad_script(&self, record: &Record, frame: &[u8], number: u8) -> Vec<String> {
        let cause = match number {
            1 => "header",
            4 => "shape",
            5 => "command",
            7 => "failure counter",
            8 => "code",
            _ => "PIN block",
        };
        let mut causes = vec![cause.to_string()];
        match number {
            4 => causes.extend(causes_of_shape(record, frame)),
            5 => causes.extend(causes_of_length(record, frame)),
            _ => {}
        }
        let failures = self.run.record.as_ref().map(|after| after.counters.failure);
        if number == 8 && failures == Some(u16::MAX) {
            causes.push("failure counter reaches 65535".to_string());
        }
        causes
    }

    /// What a check of the right length shows: the block against kept and pending PIN, the tries and the counter before it, and the counter after it.
    fn causes_of_check(&self, record: &Record, frame: &[u8], number: u8, phase: &str) -> Vec<String> {
        let block = exact::<8>(&frame[1..]).expect("a block");
        let given = pin::read(&decipher(&script_key(&record.smc, &record.cryptogram), &block)).ok();
        let full = |record: &Record| record.counters.pin == u16::MAX;
        let mut causes = vec![];
        let mut add = |holds: bool, cause: &str| causes.extend(holds.then(|| cause.to_string()));
        match given {
            _ if [0, 9, 14].contains(&number) => {}
            None => add(true, "PIN block"),
            Some(given) => add(true, if given == record.pin { "right PIN" } else { "wrong PIN" }),
        }
        let same_places = given.map_or(false, |given| given.places == record.pin.places && given.count != record.pin.count);
        let same_pending = record.pending_pin == record.pin;
        let is_pending = given == Some(record.pending_pin) && !same_pending;
        if number != 7 && number != 15 {
            add(true, phase);
            add(record.spoilt, "spoilt");
        }
        match number {
            0 => {
                add(record.tries < ALL_TRIES, "restores the tries");
                add(record.tries == ALL_TRIES, "tries at three");
                add(same_pending, "same PIN pending");
                add(record.pending_pin != Pin::NONE && !same_pending, "another PIN pending");
            }
            9 => {
                add(record.tries == 1, "last try left");
                add(self.run.record.as_ref().map_or(false, full), "PIN decipherment counter reaches 65535");
            }
            14 => {
                add(is_pending, "the pending PIN");
                add(same_places, "another count, the same places");
                add(record.tries == 1, "takes the last try");
                add(record.tries == ALL_TRIES, "three tries");
            }
            15 => {
                add(is_pending, "the pending PIN");
                add(full(record), "PIN decipherment counter at 65535");
            }
            _ => {}
        }
        causes
    }

    fn causes_of_withdraw(&self, record: &Record) -> Vec<String> {
        if !record.is_open() {
            return vec!["none open".to_string()];
        }
        let mut causes = vec![];
        match self.last {
            (first @ (3 | 7), 0) => causes.push(format!("after {first:02x} accepted")),
            (first @ (3 | 7), _) => causes.push(format!("after {first:02x} refused")),
            (first, 0) => causes.push(format!("after {first:02x}")),
            _ => {}
        }
        if pending(record) {
            causes.extend(causes_of_dropping(record));
        }
        if record.spoilt {
            causes.push("spoilt".to_string());
        }
        causes
    }

    /// What was named and never reached.
    pub fn missing(&self) -> Vec<String> {
        let numbers = NAMED.iter().flat_map(|(first, numbers)| numbers.iter().map(move |&number| (format!("{first:02x}"), number)));
        let unreached = numbers.filter(|key| !self.numbers.contains_key(key)).map(|(row, number)| format!("frame {row} number {number}"));
        let causes = CAUSES.iter().filter(|cause| !self.causes.contains_key(**cause)).map(|cause| cause.to_string());
        unreached.chain(causes).collect()
    }

    /// Prints what was reached; true where nothing that is named is missing.
    pub fn print(&self) -> bool {
        print!("{}", self.report());
        let missing = self.missing();
        missing.iter().for_each(|what| println!("never reached: {what}"));
        missing.is_empty()
    }

    /// The table of frames and numbers, and the causes beneath it.
    fn report(&self) -> String {
        let rows: BTreeSet<&String> = self.numbers.keys().map(|(row, _)| row).collect();
        let mut text = String::from("frame ");
        (0..=LAST_NUMBER).for_each(|number| write!(text, "{number:>7}").expect("memory"));
        for row in rows {
            write!(text, "\n{row:<6}").expect("memory");
            for number in 0..=LAST_NUMBER {
                let count = self.numbers.get(&(row.clone(), number));
                write!(text, "{:>7}", count.map_or(String::new(), usize::to_string)).expect("memory");
            }
        }
        text.push('\n');
        for (cause, count) in &self.causes {
            writeln!(text, "{count:>7}  {cause}").expect("memory");
        }
        text
    }
}

/// The row of a line: the frame that it starts with.
fn row(line: &[u8]) -> String {
    match line {
        [b'0', first @ b'0'..=b'7', ..] => format!("0{}", char::from(*first)),
        _ => "other".to_string(),
    }
}

/// Everything that makes a line unreadable.
fn faults(line: &[u8]) -> BTreeSet<&'static str> {
    let mut faults: BTreeSet<&str> = line.iter().filter(|&&sign| digit(sign).is_none()).map(|&sign| sign_name(sign)).collect();
    if line.is_empty() {
        faults.insert("empty");
    }
    if line.len() % 2 == 1 {
        faults.insert("odd count");
    }
    if line.len() > LONGEST {
        faults.insert("more than 538 digits");
    }
    let first = line.get(..2).and_then(from_hex);
    if first.map_or(false, |first| first[0] > LAST_FRAME) {
        faults.insert("first byte above 07");
    }
    faults
}

fn sign_name(sign: u8) -> &'static str {
    match sign {
        0 => "NUL",
        b'\r' => "carriage return",
        b' ' | b'\t' => "blank",
        b'A'..=b'F' => "capital",
        0x80.. => "high byte",
        _ => "other sign",
    }
}

fn causes_early(frame: &[u8], number: u8) -> Vec<String> {
    match (frame[0], number) {
        (0, 0) => causes_of_personalise("first", frame),
        (0, 1) => causes_of_personalise_fault(frame),
        (0, _) => causes_of_personalise("with none", frame),
        _ => vec!["before a record".to_string()],
    }
}

/// The byte for the tries of a frame 00, in the length that has it.
fn tries_of(frame: &[u8]) -> Option<u8> {
    frame.get(116).copied().filter(|_| frame.len() == 117)
}

/// An accepted frame 00, or one that is 9.
fn causes_of_personalise(cause: &str, frame: &[u8]) -> Vec<String> {
    let mut causes = vec![cause.to_string()];
    match tries_of(frame) {
        Some(tries) => causes.extend(["with tries".to_string(), format!("tries {tries}")]),
        None => causes.push("no byte for the tries".to_string()),
    }
    causes
}

fn causes_of_personalise_fault(frame: &[u8]) -> Vec<String> {
    if ![116, 117].contains(&frame.len()) {
        let more = if frame.len() == 118 { vec!["one byte more than the tries".to_string()] } else { vec![] };
        return [vec!["length".to_string()], more].concat();
    }
    let mut faults = vec![];
    if frame[107] > 1 {
        faults.push("mark");
    }
    let tries = tries_of(frame);
    if tries.map_or(false, |tries| tries > ALL_TRIES) {
        faults.push("tries above 3");
    }
    if pin::read(&std::array::from_fn(|i| frame[108 + i])).is_err() {
        faults.push("and PIN block wrong");
    }
    let mut causes = vec![faults.join(", ")];
    match tries {
        Some(4) => causes.push("tries 4".to_string()),
        Some(0..=3) => causes.push("mark, with tries".to_string()),
        _ => {}
    }
    causes
}

/// A PIN check of another length than 8.
fn causes_of_block_length(record: &Record, frame: &[u8]) -> Vec<String> {
    let mut causes = vec!["length".to_string()];
    if record.tries == 0 {
        causes.push("no tries left".to_string());
    }
    if record.counters.pin == u16::MAX {
        causes.push("PIN decipherment counter at 65535".to_string());
    }
    if frame.len() == 1 + 8 + 256 {
        let block = std::array::from_fn(|i| frame[1 + i]);
        if pin::read(&decipher(&script_key(&record.smc, &record.cryptogram), &block)) == Ok(record.pin) {
            causes.push("right PIN and 256 bytes".to_string());
        }
    }
    causes
}

/// Something pending, by Withdraw or by Close of a spoilt transaction.
fn causes_of_dropping(record: &Record) -> Vec<String> {
    let mut causes = vec!["pending dropped".to_string()];
    if record.pending_pin != Pin::NONE && record.tries < ALL_TRIES {
        causes.push("pending PIN dropped, tries below three".to_string());
    }
    causes
}

fn command_of(frame: &[u8]) -> Option<Command> {
    let header = frame.get(1..5)?.try_into().ok()?;
    Command::of(&header, &shape(&frame[5..]).ok()?).ok()
}

/// The SMI key for a script, its header and its message.
fn taken_apart<'a>(record: &Record, frame: &'a [u8]) -> (Key, Header, &'a [u8]) {
    let header = std::array::from_fn(|i| frame[1 + i]);
    (script_key(&record.smi, &record.cryptogram), header, &frame[5..])
}

/// What alone is wrong with a shape: the form of the length, or 256 bytes after a message.
fn causes_of_shape(record: &Record, frame: &[u8]) -> Vec<String> {
    let (key, header, message) = taken_apart(record, frame);
    let mut causes = vec![];
    if let Some(form) = form_of(&key, &header, message) {
        let place = 2 + form.before.len();
        let length = message.len() - 6 - place;
        causes.push(format!("length as {}", form.name));
        if form.before == [0x81] && message[2] == 0x7f {
            causes.push("length as 81 7f".to_string());
        }
        if Command::of(&header, &Opened { tag: message[0], place, length }).is_ok() {
            causes.push(format!("listed but for length as {}", form.name));
        }
    }
    if message.len() > 256 && open(&key, &header, &message[..message.len() - 256]).is_ok() {
        causes.push("right message and 256 bytes".to_string());
    }
    causes
}

/// What the length of a message shows that has a good shape and is no command's.
fn causes_of_length(record: &Record, frame: &[u8]) -> Vec<String> {
    let (key, header, message) = taken_apart(record, frame);
    let opened = shape(message).expect("a good shape");
    let form = if opened.place == 2 { "one byte" } else { "two bytes" };
    let code = if code_matches(&key, &header, message) { "good code" } else { "wrong code" };
    let mut causes = vec![format!("length of {form}, {code}")];
    if [127, 128, 255].contains(&opened.length) {
        causes.push(format!("{} data bytes, {code}", opened.length));
    }
    let less = opened.length.checked_sub(128).map(|length| Opened { length, ..opened });
    if less.map_or(false, |less| Command::of(&header, &less).is_ok()) {
        causes.push(format!("listed but for 128 data bytes more, {code}"));
    }
    causes
}

fn causes_of_answer_length(record: &Record, frame: &[u8]) -> Vec<String> {
    let mut causes = vec!["length".to_string()];
    if frame.len() == 1 + 12 + 256 {
        let csu = std::array::from_fn(|i| frame[9 + i]);
        let right = arpc(&session_key(&record.ac, record.transaction_counter), &record.cryptogram, &csu);
        if frame[1..9] == right {
            causes.push("right answer and 256 bytes".to_string());
        }
    }
    causes
}

fn pending(record: &Record) -> bool {
    record.pending_pin != Pin::NONE || record.pending_mark != PendingMark::None
}

fn causes_of_answer(record: &Record, again: bool) -> Vec<String> {
    let reset = if record.counters.session == 0 { "session counter at 0" } else { "session counter reset" };
    let mut causes = vec![reset.to_string()];
    if again {
        causes.push("once more".to_string());
    }
    if record.spoilt {
        causes.push("spoilt".to_string());
    }
    causes
}

fn causes_of_close(record: &Record) -> Vec<String> {
    let mut causes = vec![];
    let new_pin = record.pending_pin != Pin::NONE;
    match record.pending_mark {
        PendingMark::None if !new_pin => causes.push("nothing pending"),
        PendingMark::None => {}
        PendingMark::Set => causes.push("sets the mark"),
        PendingMark::Clear => causes.push("clears the mark"),
    }
    if new_pin {
        causes.push(if record.pending_mark == PendingMark::None { "new PIN" } else { "new PIN and mark" });
    }
    match record.tries {
        ALL_TRIES => {}
        _ if !new_pin && record.pending_mark != PendingMark::None => causes.push("mark alone, tries below three"),
        _ if !new_pin => {}
        tries => {
            causes.push(if record.pending_pin == record.pin { "same PIN restores the tries" } else { "new PIN restores the tries" });
            if tries == 0 {
                causes.push("no tries left, new PIN restores them");
            }
        }
    }
    causes.into_iter().map(str::to_string).collect()
}
