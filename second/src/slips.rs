//! Wrong cards, each with one slip, to see that the comparison finds them. They are the slips of paper 01, those that PIN checks invite, and a few
//! beside.

use std::io::{self, Read};

use crate::card::{PendingMark, Phase, Record, ALL_TRIES};
use crate::forms::form_of;
use crate::keys::script_key;
use crate::octets::from_hex;
use crate::pin::Pin;
use crate::refusal::{number_of, Refusal};
use crate::trace::{read_frame, Answered, Run, LONGEST};

#[derive(Clone, Copy, PartialEq, Eq)]
pub enum Slip {
    /// The failure counter is lowered on a match without the raise before it.
    FailureLowered,
    /// Withdraw drops the failures counted in its transaction.
    FailuresDropped,
    /// Withdraw keeps a pending mark.
    MarkKept,
    /// An accepted script mends a spoilt transaction.
    SpoiltMended,
    /// The issuer's answer leaves the session counter as it was.
    SessionKept,
    /// A line of more than 538 digits is read as a script of wrong shape.
    LongLine,
    /// A length of 127 that is written 81 7f is read.
    ShortForm,
    /// A byte of 80 and more is read as the length.
    LongAsOne,
    /// The size of a message is compared as one byte, so that 256 bytes may follow.
    SizeAsByte,
    /// The end of what was read at once is taken for the end of a line.
    TornReads,
    /// A PIN check compares the pending PIN, where there is one.
    PendingCompared,
    /// A PIN check compares the twelve places and not the count.
    CountIgnored,
    /// Withdraw gives back the tries that were taken in its transaction.
    TriesGivenBack,
    /// Withdraw drops what was added to the PIN decipherment counter in its transaction.
    DeciphermentsDropped,
    /// A badly formed block takes a try too.
    TryTakenBy9,
    /// A wrong PIN adds to the PIN decipherment counter too.
    CountedBy14,
    /// A mark kept at Close restores the tries.
    MarkRestores,
    /// A PIN change that Close drops restores the tries.
    DroppedRestores,
    /// A PIN change kept at Close leaves the tries as they were.
    TriesKept,
    /// An accepted check leaves the tries as they were.
    NotRestored,
    /// A wrong PIN spoils the transaction.
    SpoiltBy14,
    /// A full counter is looked at ahead of the tries.
    CounterBeforeTries,
    /// A full counter is looked at after the block.
    CounterAfterBlock,
    /// The tries of a frame 00 are not looked at.
    ThreeTries,
    /// Tries of 4 are taken for 3.
    FourTries,
}

pub const SLIPS: [(&str, Slip); 25] = [
    ("failure-lowered", Slip::FailureLowered),
    ("failures-dropped", Slip::FailuresDropped),
    ("mark-kept", Slip::MarkKept),
    ("spoilt-mended", Slip::SpoiltMended),
    ("session-kept", Slip::SessionKept),
    ("long-line", Slip::LongLine),
    ("short-form", Slip::ShortForm),
    ("long-as-one", Slip::LongAsOne),
    ("size-as-byte", Slip::SizeAsByte),
    ("torn-reads", Slip::TornReads),
    ("pending-compared", Slip::PendingCompared),
    ("count-ignored", Slip::CountIgnored),
    ("tries-given-back", Slip::TriesGivenBack),
    ("decipherments-dropped", Slip::DeciphermentsDropped),
    ("try-taken-by-9", Slip::TryTakenBy9),
    ("counted-by-14", Slip::CountedBy14),
    ("mark-restores", Slip::MarkRestores),
    ("dropped-restores", Slip::DroppedRestores),
    ("tries-kept", Slip::TriesKept),
    ("not-restored", Slip::NotRestored),
    ("spoilt-by-14", Slip::SpoiltBy14),
    ("counter-before-tries", Slip::CounterBeforeTries),
    ("counter-after-block", Slip::CounterAfterBlock),
    ("three-tries", Slip::ThreeTries),
    ("four-tries", Slip::FourTries),
];

pub struct Slipping {
    slip: Slip,
    run: Run,
    /// The failure counter, the PIN decipherment counter and the tries when the transaction was opened.
    failures: u16,
    decipherments: u16,
    tries: u8,
}

impl Slipping {
    pub fn new(slip: Slip) -> Slipping {
        Slipping { slip, run: Run::default(), failures: 0, decipherments: 0, tries: 0 }
    }

    pub fn answer(&mut self, line: &[u8]) -> Answered {
        let before = self.run.record.clone();
        let answer = self.run.answer(&self.misread(line));
        let first = from_hex(line).and_then(|frame| frame.first().copied());
        if let (Some(before), Some(first)) = (before, first) {
            self.slip(&before, first, number_of(&answer));
            if answer == Err(Refusal::ShapeWrong) {
                return self.reshaped(before, line);
            }
            if first == 7 {
                return self.rechecked(before, line, answer);
            }
        }
        if self.slip == Slip::LongLine && line.len() > LONGEST && self.run.record.is_some() {
            return Err(Refusal::ShapeWrong);
        }
        answer
    }

    /// The answer to a script whose shape is wrong, if it is not wrong for this slip. No command has a length of 127 and more.
    fn reshaped(&mut self, before: Record, line: &[u8]) -> Answered {
        let frame = from_hex(line).expect("a script");
        let header = std::array::from_fn(|i| frame[1 + i]);
        let form = form_of(&script_key(&before.smi, &before.cryptogram), &header, &frame[5..]);
        match self.slip {
            Slip::ShortForm if form.map_or(false, |form| form.before == [0x81]) && frame[7] == 0x7f => Err(Refusal::NotListed),
            Slip::LongAsOne if form.map_or(false, |form| form.before.is_empty()) => Err(Refusal::NotListed),
            Slip::SizeAsByte if frame.len() > 256 => {
                let mut run = Run { record: Some(before) };
                let accepted = run.answer(&line[..line.len() - 512]).map_err(|_| Refusal::ShapeWrong)?;
                self.run = run;
                Ok(accepted)
            }
            _ => Err(Refusal::ShapeWrong),
        }
    }

    /// A frame 00 with its tries as this slip reads them.
    fn misread(&self, line: &[u8]) -> Vec<u8> {
        let mut line = line.to_vec();
        let tries = read_frame(&line).ok().filter(|frame| frame[0] == 0 && frame.len() == 117).map(|frame| frame[116]);
        match (self.slip, tries) {
            (Slip::ThreeTries, Some(_)) | (Slip::FourTries, Some(4)) => line[2 * 116..].copy_from_slice(b"03"),
            _ => {}
        }
        line
    }

    /// The answer to a PIN check, and the record after it, where this slip has others.
    fn rechecked(&mut self, before: Record, line: &[u8], answer: Answered) -> Answered {
        let (kept, pending, full) = (before.pin, before.pending_pin, before.counters.pin == u16::MAX);
        let counters = before.counters;
        let mut judged = before.clone();
        match self.slip {
            Slip::PendingCompared if pending != Pin::NONE => judged.pin = pending,
            // as if the kept PIN had the count of the one given
            Slip::CountIgnored if answer == Err(Refusal::WrongPin) => {
                let accepts = |pin: &Pin| Run { record: Some(Record { pin: *pin, ..before.clone() }) }.answer(line).is_ok();
                judged.pin = (4..=12).map(|count| Pin { count, ..kept }).filter(Pin::sound).find(accepts).unwrap_or(kept);
            }
            Slip::CounterBeforeTries if full && answer == Err(Refusal::NoTries) => return Err(Refusal::CounterFull),
            Slip::CounterAfterBlock if full && answer == Err(Refusal::CounterFull) => judged.counters.pin = 0,
            _ => return answer,
        }
        let mut run = Run { record: Some(judged) };
        let answer = run.answer(line);
        if self.slip == Slip::CounterAfterBlock && answer == Err(Refusal::PinFormat) {
            return Err(Refusal::CounterFull);
        }
        self.run.record = run.record.map(|after| Record { pin: kept, counters: if full { counters } else { after.counters }, ..after });
        answer
    }

    fn slip(&mut self, before: &Record, first: u8, number: u8) {
        let after = match self.run.record.as_mut() {
            Some(after) => after,
            None => return,
        };
        let (changes_pin, changes_mark) = (before.pending_pin != Pin::NONE, before.pending_mark != PendingMark::None);
        if (first, number) == (1, 0) {
            self.failures = after.counters.failure;
            self.decipherments = after.counters.pin;
            self.tries = after.tries;
        }
        match (self.slip, first, number) {
            (Slip::FailureLowered, 3, 0) => after.counters.failure = after.counters.failure.wrapping_sub(1),
            (Slip::FailuresDropped, 5, 0) if before.phase != Phase::None => after.counters.failure = self.failures,
            (Slip::MarkKept, 5, 0) if before.pending_mark == PendingMark::Set => after.blocked = true,
            (Slip::SpoiltMended, 3, 0) => after.spoilt = false,
            (Slip::SessionKept, 2, 0) => after.counters.session = before.counters.session,
            (Slip::TriesGivenBack, 5, 0) if before.phase != Phase::None => after.tries = after.tries.max(self.tries),
            (Slip::DeciphermentsDropped, 5, 0) if before.phase != Phase::None => after.counters.pin = self.decipherments,
            (Slip::TryTakenBy9, 7, 9) => after.tries -= 1,
            (Slip::CountedBy14, 7, 14) => after.counters.pin += 1,
            (Slip::MarkRestores, 4, 0) if changes_mark => after.tries = ALL_TRIES,
            (Slip::DroppedRestores, 4, 10) if changes_pin => after.tries = ALL_TRIES,
            (Slip::TriesKept, 4, 0) | (Slip::NotRestored, 7, 0) => after.tries = before.tries,
            (Slip::SpoiltBy14, 7, 14) => after.spoilt = true,
            _ => {}
        }
    }
}

/// Reads with a line feed after each part.
struct Torn<R>(R);

impl<R: Read> Read for Torn<R> {
    fn read(&mut self, part: &mut [u8]) -> io::Result<usize> {
        let room = part.len() - 1;
        let count = self.0.read(&mut part[..room])?;
        if count == 0 || part[count - 1] == b'\n' {
            return Ok(count);
        }
        part[count] = b'\n';
        Ok(count + 1)
    }
}

/// The input as a program with this slip sees it.
pub fn input(slip: Slip, input: impl Read + 'static) -> Box<dyn Read> {
    match slip {
        Slip::TornReads => Box::new(Torn(input)),
        _ => Box::new(input),
    }
}

/// The slip of this name, and the names of all.
pub fn named<S: Copy>(slips: &[(&str, S)], name: &str) -> Option<S> {
    slips.iter().find(|(known, _)| *known == name).map(|&(_, slip)| slip)
}

pub fn names<S>(slips: &[(&str, S)]) -> String {
    slips.iter().map(|(name, _)| *name).collect::<Vec<&str>>().join(", ")
}
