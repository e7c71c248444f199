//! Calls of the library's functions for the issuer's desk, one a line, and the lines that answer them; tests/desk-calls.c answers them too.
//!
//!     table LENGTH BYTES                  the table from now on, with zeros after the bytes; it is not answered
//!     add PAN SEQUENCE                    box_desk_add
//!     forget PAN SEQUENCE                 box_desk_forget
//!     check PAN SEQUENCE ISSUER DIGITS DATA ARQC CSU ARPC               box_desk_check; the length of the ARPC
//!     wrap PAN SEQUENCE SMI SMC DIGITS INSTRUCTION CRYPTOGRAM PIN BUFFER PLACE     box_desk_wrap; the length of the buffer
//!
//! A string is digits, `-` where it is empty; a number is hexadecimal. The table goes on from call to call; the byte i of a lent output is 29 i + 11 before
//! the call. An answer is `NUMBER TABLE`, and for check and wrap ` OUTPUT`: the output after the call, and of the table the entries that the call
//! changed, `PLACE:BYTES` with commas between; `=` where they are as before.

use crate::desk::{Check, Desk, Named, Rules, Wrap, ENTRY, RULES};
use crate::desk_slips::Slip;
use crate::lent::{lent, word_after};
use crate::message::lay;
use crate::octets::{bytes_of, to_hex, word_of};
use crate::refusal::number_of;

#[derive(Clone, Debug, PartialEq, Eq)]
pub enum What {
    Add,
    Forget,
    Check(Check),
    Wrap(Wrap),
}

#[derive(Clone, Debug, PartialEq, Eq)]
pub struct Call {
    pub card: Named,
    pub what: What,
}

/// The line of a table.
pub fn table_line(table: &[u8]) -> String {
    let end = table.iter().rposition(|&byte| byte != 0).map_or(0, |last| last + 1);
    format!("table {:x} {}", table.len(), word_of(&table[..end]))
}

fn number(word: &str) -> Option<u64> {
    u64::from_str_radix(word, 16).ok()
}

fn length(word: &str) -> Option<usize> {
    usize::try_from(number(word)?).ok()
}

fn byte(word: &str) -> Option<u8> {
    u8::try_from(number(word)?).ok()
}

fn table_of_line(line: &str) -> Option<Vec<u8>> {
    let (size, bytes) = line.strip_prefix("table ")?.split_once(' ')?;
    let (size, mut table) = (length(size)?, bytes_of(bytes)?);
    if table.len() > size {
        return None;
    }
    table.resize(size, 0);
    Some(table)
}

impl Call {
    pub fn line(&self) -> String {
        let card = format!("{} {:x}", word_of(&self.card.pan), self.card.sequence);
        match &self.what {
            What::Add => format!("add {card}"),
            What::Forget => format!("forget {card}"),
            What::Check(Check { issuer, digits, data, arqc, csu, arpc }) => {
                format!("check {card} {} {digits:x} {} {} {} {arpc:x}", word_of(issuer), word_of(data), word_of(arqc), word_of(csu))
            }
            What::Wrap(Wrap { smi, smc, digits, instruction, cryptogram, pin, buffer, place }) => {
                let keys = format!("{} {}", word_of(smi), word_of(smc));
                format!("wrap {card} {keys} {digits:x} {instruction:x} {} {} {buffer:x} {place:x}", word_of(cryptogram), word_of(pin))
            }
        }
    }

    pub fn of_line(line: &str) -> Option<Call> {
        let words: Vec<&str> = line.split(' ').collect();
        let card = Named { pan: bytes_of(words.get(1)?)?, sequence: byte(words.get(2)?)? };
        let what = match (words[0], &words[3..]) {
            ("add", []) => What::Add,
            ("forget", []) => What::Forget,
            ("check", [issuer, digits, data, arqc, csu, arpc]) => What::Check(Check {
                issuer: bytes_of(issuer)?,
                digits: byte(digits)?,
                data: bytes_of(data)?,
                arqc: bytes_of(arqc)?,
                csu: bytes_of(csu)?,
                arpc: length(arpc)?,
            }),
            ("wrap", [smi, smc, digits, instruction, cryptogram, pin, buffer, place]) => What::Wrap(Wrap {
                smi: bytes_of(smi)?,
                smc: bytes_of(smc)?,
                digits: byte(digits)?,
                instruction: byte(instruction)?,
                cryptogram: bytes_of(cryptogram)?,
                pin: bytes_of(pin)?,
                buffer: length(buffer)?,
                place: number(place)?,
            }),
            _ => return None,
        };
        Some(Call { card, what })
    }

    /// The number, and the output as the call leaves it, if it has one.
    pub fn made(&self, desk: &mut Desk) -> (u8, Option<Vec<u8>>) {
        match &self.what {
            What::Add => (number_of(&desk.add(&self.card)), None),
            What::Forget => (number_of(&desk.forget(&self.card)), None),
            What::Check(check) => {
                let arpc = desk.check(&self.card, check);
                (number_of(&arpc), Some(arpc.map_or_else(|_| lent(check.arpc), |arpc| arpc.to_vec())))
            }
            What::Wrap(wrap) => {
                let mut buffer = lent(wrap.buffer);
                let laid = desk.wrap(&self.card, wrap).and_then(|bytes| lay(&bytes, &mut buffer, wrap.place));
                (number_of(&laid), Some(buffer))
            }
        }
    }
}

/// What a call changed in a table.
fn changes(before: &[u8], after: &[u8]) -> String {
    let entries = before.chunks(ENTRY).zip(after.chunks(ENTRY)).enumerate();
    let changed: Vec<String> =
        entries.filter(|(_, (before, after))| before != after).map(|(i, (_, after))| format!("{i:x}:{}", to_hex(after))).collect();
    if changed.is_empty() {
        return "=".to_string();
    }
    changed.join(",")
}

/// A desk that answers lines, by the rules or with a slip.
pub struct Answering {
    pub desk: Desk,
    slip: Option<Slip>,
}

impl Answering {
    pub fn new(slip: Option<Slip>) -> Answering {
        Answering { desk: Desk::new(vec![], rules(slip)), slip }
    }

    pub fn lend(&mut self, table: Vec<u8>) {
        self.desk = Desk::new(table, rules(self.slip));
    }

    /// The number of a call, and the line that answers it.
    pub fn call(&mut self, call: &Call) -> (u8, String) {
        let before = self.desk.table().to_vec();
        let (number, output) = match self.slip {
            None => call.made(&mut self.desk),
            Some(slip) => slip.made(&mut self.desk, call),
        };
        let output = output.map_or(String::new(), |output| format!(" {}", word_after(&output)));
        (number, format!("{number} {}{output}", changes(&before, self.desk.table())))
    }

    /// The line that answers a line, if it is a call.
    pub fn line(&mut self, line: &str) -> Option<String> {
        if let Some(table) = table_of_line(line) {
            self.lend(table);
            return None;
        }
        Some(Call::of_line(line).map_or_else(|| format!("cannot be read: {line}"), |call| self.call(&call).1))
    }
}

fn rules(slip: Option<Slip>) -> Rules {
    slip.map_or(RULES, Slip::rules)
}

#[cfg(test)]
mod tests {
    use super::*;
    use crate::desk_generate::Cases;

    #[test]
    fn lines_are_read_as_written() {
        let mut desk = Answering::new(None);
        for case in Cases::new(1).take(3000) {
            assert_eq!(Call::of_line(&case.call.line()), Some(case.call.clone()));
            let answers: Vec<String> = case.line().lines().filter_map(|line| desk.line(line)).collect();
            assert_eq!(answers, [case.answer]);
        }
    }

    #[test]
    fn answers() {
        let mut desk = Answering::new(None);
        let card = "010203040506070809000102";
        let lines = [
            ("table 640 -".to_string(), None),
            (format!("forget {card} 5"), Some("19 =".to_string())),
            (format!("add {card} 5"), Some(format!("0 0:010c{card}{}05000000", "00".repeat(7)))),
            (format!("add {card} 5"), Some("20 =".to_string())),
            (format!("add {card} 64"), Some("2 =".to_string())),
            (format!("check {card} 5 - 0 - - - 8"), Some("1 = =".to_string())),
            (format!("forget {card} 5"), Some(format!("0 0:{}", "00".repeat(25)))),
            ("table 641 05".to_string(), None),
            (format!("add {card} 5"), Some("1 =".to_string())),
            // another number than 1, in an entry that is not asked for
            (format!("table 640 {}07", "00".repeat(25 * 63)), None),
            (format!("forget {card} 5"), Some("19 =".to_string())),
            (format!("add {card} 5"), Some(format!("0 0:010c{card}{}05000000,3f:01{}", "00".repeat(7), "00".repeat(24)))),
            ("forget".to_string(), Some("cannot be read: forget".to_string())),
        ];
        for (line, answer) in lines {
            assert_eq!(desk.line(&line), answer, "{line}");
        }
    }
}
