//! The clerk's trace: one frame a line in lower-case hexadecimal, each answered by one line.

use std::io::{self, Read, Write};

use crate::card::{After, Phase, Record, ALL_TRIES};
use crate::octets::{from_hex, to_hex};
use crate::pin::{self, Counters};
use crate::refusal::{number_of, Refusal};

/// The longest line that is read, in digits, and the last frame.
pub const LONGEST: usize = 538;
pub const LAST_FRAME: u8 = 7;

/// What a line is answered: the bytes of an accepted frame, or the refusal.
pub type Answered = Result<Vec<u8>, Refusal>;

/// The frame that a line writes, or 13.
pub fn read_frame(line: &[u8]) -> Result<Vec<u8>, Refusal> {
    if line.is_empty() || line.len() > LONGEST {
        return Err(Refusal::Unreadable);
    }
    let frame = from_hex(line).ok_or(Refusal::Unreadable)?;
    if frame[0] > LAST_FRAME {
        return Err(Refusal::Unreadable);
    }
    Ok(frame)
}

/// The line of an answer, without its line feed.
pub fn written(answer: &Answered) -> String {
    let bytes = answer.as_deref().unwrap_or(&[]);
    format!("{:02x}{}", number_of(answer), to_hex(bytes))
}

/// A run: the record, once there is one.
#[derive(Clone, Default)]
pub struct Run {
    pub record: Option<Record>,
}

impl Run {
    pub fn answer(&mut self, line: &[u8]) -> Answered {
        let frame = read_frame(line)?;
        let (first, rest) = (frame[0], &frame[1..]);
        if first == 0 {
            self.record = Some(personalised(rest)?);
            return Ok(vec![]);
        }
        let record = self.record.clone().ok_or(Refusal::PhaseWrong)?;
        let (after, answer) = call(record, first, rest);
        self.record = Some(after);
        answer
    }
}

/// Frame 00: keys AC, SMI and SMC, counter, counter block, mark, clear PIN block, and at times the tries, three where they are left out. 1 (length, mark,
/// tries) goes ahead of 9.
fn personalised(rest: &[u8]) -> Result<Record, Refusal> {
    let (fields, tries) = match rest.len() {
        115 => (rest, ALL_TRIES),
        116 => (&rest[..115], rest[115]),
        _ => return Err(Refusal::Input),
    };
    let key = |i: usize| std::array::from_fn(|j| fields[32 * i + j]);
    let block = |from: usize| std::array::from_fn(|j| fields[from + j]);
    let mark = fields[106];
    if mark > 1 || tries > ALL_TRIES {
        return Err(Refusal::Input);
    }
    let pin = pin::read(&block(107))?;
    let counter = u16::from_be_bytes([fields[96], fields[97]]);
    Ok(Record::new([key(0), key(1), key(2)], counter, Counters::of_block(&block(98)), mark == 1, pin, tries))
}

/// Frames 01 to 07 on a record.
fn call(record: Record, first: u8, rest: &[u8]) -> After<Vec<u8>> {
    match first {
        1 => bytes(record.open(rest), |answer| [&[answer.kind.byte()], &answer.cryptogram[..]].concat()),
        2 => {
            let (answer, csu) = rest.split_at(rest.len().min(8));
            bytes(record.issuer_answer(answer, csu), |()| vec![])
        }
        3 => {
            let (header, message) = rest.split_at(rest.len().min(4));
            bytes(record.script(header, message), |()| vec![])
        }
        4 => within(record, rest, |record| bytes(record.close(), |()| vec![])),
        5 if rest.is_empty() => bytes(record.withdraw(), |()| vec![]),
        5 => (record, Err(Refusal::Input)),
        6 => within(record, rest, |record| bytes(record.counters(), |block| block.to_vec())),
        _ => bytes(record.check_pin(rest), |()| vec![]),
    }
}

fn bytes<T>((record, answer): After<T>, write: impl Fn(T) -> Vec<u8>) -> After<Vec<u8>> {
    (record, answer.map(write))
}

/// Close and Counters have no field: phase first, then the length.
fn within(record: Record, rest: &[u8], call: impl Fn(Record) -> After<Vec<u8>>) -> After<Vec<u8>> {
    if record.phase != Phase::None && !rest.is_empty() {
        return (record, Err(Refusal::Input));
    }
    call(record)
}

/// Cuts the input into lines, however it arrives. It keeps no more of a line than tells that it is too long.
#[derive(Default)]
pub struct Lines {
    line: Vec<u8>,
}

impl Lines {
    pub fn feed(&mut self, part: &[u8], mut each: impl FnMut(&[u8])) {
        for &byte in part {
            if byte == b'\n' {
                each(&self.line);
                self.line.clear();
            } else if self.line.len() <= LONGEST {
                self.line.push(byte);
            }
        }
    }

    /// A last line without a line feed counts unless empty.
    pub fn end(self, mut each: impl FnMut(&[u8])) {
        if !self.line.is_empty() {
            each(&self.line);
        }
    }
}

/// The trace program: answers go out at the latest when a part of the input is used up.
pub fn run(mut input: impl Read, mut output: impl Write, mut answer: impl FnMut(&[u8]) -> Answered) -> io::Result<()> {
    let mut lines = Lines::default();
    let mut part = [0; 65536];
    let mut answers = String::new();
    loop {
        let count = match input.read(&mut part) {
            Ok(count) => count,
            Err(error) if error.kind() == io::ErrorKind::Interrupted => continue,
            Err(error) => return Err(error),
        };
        if count == 0 {
            break;
        }
        lines.feed(&part[..count], |line| push(&mut answers, &answer(line)));
        output.write_all(answers.as_bytes())?;
        output.flush()?;
        answers.clear();
    }
    lines.end(|line| push(&mut answers, &answer(line)));
    output.write_all(answers.as_bytes())?;
    output.flush()
}

fn push(answers: &mut String, answer: &Answered) {
    answers.push_str(&written(answer));
    answers.push('\n');
}

/// All answers to a trace.
pub fn answers(trace: &[u8]) -> Vec<u8> {
    let mut output = vec![];
    let mut clerk = Run::default();
    run(trace, &mut output, |line| clerk.answer(line)).expect("memory");
    output
}

#[cfg(test)]
mod tests {
    use super::*;
    use crate::message::{wrapped, CLEAR, LARGEST};
    use crate::random::Random;

    fn text(trace: &[u8]) -> String {
        String::from_utf8(answers(trace)).unwrap()
    }

    fn personalise(counter: &str, mark: &str, block: &str) -> String {
        format!("00{}{counter}{}{mark}{block}\n", "0".repeat(192), "0".repeat(16))
    }

    const PIN: &str = "241234ffffffffff";

    #[test]
    fn whole_case() {
        let trace = format!("05\n\n{}01{}\n04\n05\n06\n", personalise("ffff", "00", PIN), "0".repeat(130));
        assert_eq!(text(trace.as_bytes()), "06\n0d\n00\n07\n06\n00\n06\n");
    }

    #[test]
    fn ends_of_lines() {
        assert_eq!(text(b""), "");
        assert_eq!(text(b"\n"), "0d\n");
        assert_eq!(text(b"05"), "06\n");
        assert_eq!(text(b"05\n0"), "06\n0d\n");
        assert_eq!(text(b"05\r\n"), "0d\n");
    }

    #[test]
    fn unreadable_lines() {
        for line in ["", "0", "050", "0g", "0A", "05 ", " 05", "08", "0f", "ff", "0\x005"] {
            assert_eq!(text(format!("{line}\n").as_bytes()), "0d\n", "{line}");
        }
        for high in 0x80..=0xff {
            assert_eq!(text(&[b'0', b'5', high, high, b'\n']), "0d\n");
        }
        for length in (278..=284).chain(536..=541).chain([1076, 100_000]) {
            let line = format!("03{}\n", "0".repeat(length - 2));
            let read = length % 2 == 0 && length <= 538;
            assert_eq!(text(line.as_bytes()), if read { "06\n" } else { "0d\n" }, "{length}");
        }
    }

    #[test]
    fn the_longest_script_is_the_longest_line() {
        let message = wrapped(&[0; 32], &[0; 4], CLEAR, &[0; LARGEST]).unwrap();
        assert_eq!((message.len(), 2 * (1 + 4 + message.len())), (264, LONGEST));
    }

    /// The rule before Wish 1, with the frame that Wish 4 adds.
    fn old_read_frame(line: &[u8]) -> Result<Vec<u8>, Refusal> {
        if line.is_empty() || line.len() > 280 {
            return Err(Refusal::Unreadable);
        }
        let frame = from_hex(line).ok_or(Refusal::Unreadable)?;
        if frame[0] > 7 {
            return Err(Refusal::Unreadable);
        }
        Ok(frame)
    }

    /// Up to 280 signs. What a frame is answered depends on nothing else that has changed but the shape of a message, and one of such a line has
    /// up to 135 bytes (`message::tests`).
    #[test]
    fn short_lines_are_read_as_before() {
        let mut random = Random::new(0);
        for length in 0..=280 {
            for first in b'0'..=b'9' {
                let mut line: Vec<u8> = (0..length).map(|_| random.choose(b"0123456789abcdef")).collect();
                [b'0', first].into_iter().zip(&mut line).for_each(|(sign, place)| *place = sign);
                assert_eq!(read_frame(&line), old_read_frame(&line));
                if length > 0 {
                    line[random.below(length)] = random.byte();
                    assert_eq!(read_frame(&line), old_read_frame(&line));
                }
            }
        }
    }

    #[test]
    fn before_a_record() {
        for first in 1..=7 {
            for rest in [0, 1, 8, 12, 65, 139, 140, 268] {
                let line = format!("{first:02x}{}\n", "00".repeat(rest));
                assert_eq!(text(line.as_bytes()), "06\n");
            }
        }
    }

    #[test]
    fn personalise_frames() {
        let good = personalise("0000", "00", PIN);
        assert_eq!(text(good.as_bytes()), "00\n");
        assert_eq!(text(personalise("0000", "01", PIN).as_bytes()), "00\n");
        assert_eq!(text(personalise("0000", "02", PIN).as_bytes()), "01\n");
        assert_eq!(text(personalise("0000", "02", "2312ffffffffffff").as_bytes()), "01\n");
        assert_eq!(text(personalise("0000", "00", "2312ffffffffffff").as_bytes()), "09\n");
        assert_eq!(text(format!("00{good}").as_bytes()), "01\n");
        assert_eq!(text(b"00\n"), "01\n");
    }

    fn personalise_with_tries(counters: &str, block: &str, tries: &str) -> String {
        format!("00{}0000{counters}00{block}{tries}\n", "0".repeat(192))
    }

    /// Above 3 they are 1, ahead of 9; left out, they are three.
    #[test]
    fn tries_of_personalise_frames() {
        let zeros = "0".repeat(16);
        for tries in 0..=255 {
            let wanted = if tries > 3 { "01\n" } else { "00\n" };
            assert_eq!(text(personalise_with_tries(&zeros, PIN, &format!("{tries:02x}")).as_bytes()), wanted);
            let wanted = if tries > 3 { "01\n" } else { "09\n" };
            assert_eq!(text(personalise_with_tries(&zeros, "2412345fffffffff", &format!("{tries:02x}")).as_bytes()), wanted);
        }
        assert_eq!(text(personalise_with_tries(&zeros, PIN, "0303").as_bytes()), "01\n");
        let left = |tries: &str| {
            let mut run = Run::default();
            run.answer(personalise_with_tries(&zeros, PIN, tries).trim_end().as_bytes()).unwrap();
            run.record.unwrap().tries
        };
        assert_eq!(["", "03", "02", "01", "00"].map(left), [3, 3, 2, 1, 0]);
    }

    /// Phase, length, tries and counter go ahead of the block, and none of them shows in the counters.
    #[test]
    fn frames_07() {
        let open = format!("01{}\n", "0".repeat(130));
        let any = format!("07{}\n", "0".repeat(16));
        let ends = |card: String, wanted: &str| {
            let answers = text(format!("{card}{any}{open}07\n0700\n07{}\n{any}04\n", "0".repeat(18)).as_bytes());
            assert!(answers.starts_with("00\n06\n0080") && answers.ends_with(&format!("\n01\n01\n01\n{wanted}\n00\n")), "{answers}");
        };
        ends(personalise_with_tries("0000000000000000", PIN, ""), "09");
        ends(personalise_with_tries("00000000fffe0000", PIN, "01"), "09");
        ends(personalise_with_tries("00000000ffff0000", PIN, "03"), "07");
        ends(personalise_with_tries("00000000ffff0000", PIN, "00"), "0f");
    }

    #[test]
    fn lengths_in_a_trace() {
        let open = format!("01{}\n", "0".repeat(130));
        let card = personalise("0000", "00", PIN);
        assert_eq!(text(format!("{card}0400\n0600\n0500\n03\n02\n01\n").as_bytes()), "00\n06\n06\n01\n06\n06\n01\n");
        let opened = format!("{card}{open}0400\n0600\n0500\n02\n04\n");
        let answers = text(opened.as_bytes());
        let answers: Vec<&str> = answers.lines().collect();
        assert_eq!(answers[2..], ["01", "01", "01", "01", "00"]);
        let spoilt = text(format!("{card}{open}030000\n04\n04\n").as_bytes());
        assert!(spoilt.ends_with("\n01\n0a\n06\n"));
        // lengths that are right but for 256
        let after = "00".repeat(256);
        let longer = text(format!("{card}{open}04{after}\n06{after}\n05{after}\n02{after}{}\n04\n", "00".repeat(12)).as_bytes());
        assert!(longer.ends_with("\n01\n01\n01\n01\n00\n"));
    }

    #[test]
    fn a_second_personalise_frame_starts_a_new_history() {
        let open = format!("01{}\n", "0".repeat(130));
        let card = personalise("0000", "00", PIN);
        let refused = personalise("0000", "00", "ffffffffffffffff");
        let answers = text(format!("{card}{open}{refused}{open}{card}04\n{open}").as_bytes());
        let answers: Vec<&str> = answers.lines().collect();
        assert_eq!(answers[2..6], ["09", "06", "00", "06"]);
        assert_eq!(answers[1], answers[6]);
    }

    #[test]
    fn cut_anyhow_the_lines_are_the_same() {
        let input: &[u8] = b"05\n\n0400\nzz\n05";
        for cut in 0..=input.len() {
            let mut lines = Lines::default();
            let mut seen = vec![];
            lines.feed(&input[..cut], |line| seen.push(line.to_vec()));
            lines.feed(&input[cut..], |line| seen.push(line.to_vec()));
            lines.end(|line| seen.push(line.to_vec()));
            assert_eq!(seen, [&b"05"[..], b"", b"0400", b"zz", b"05"]);
        }
    }
}
