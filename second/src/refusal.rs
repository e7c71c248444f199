//! The numbered refusals of paper 01. tests/refusals holds names, numbers and words to include/refusals.h.

#[derive(Clone, Copy, Debug, PartialEq, Eq)]
#[repr(u8)]
pub enum Refusal {
    /// An input has not the length or range stated.
    Input = 1,
    /// The card number is not 12 to 19 digits, or the sequence number is above 99.
    CardNumber = 2,
    /// The output does not fit from the named place.
    NoRoom = 3,
    /// The shape of the message is wrong.
    ShapeWrong = 4,
    /// Header, tag and length are of no listed command.
    NotListed = 5,
    /// Not a call of this phase, or no record yet.
    PhaseWrong = 6,
    /// A counter stands at 65535.
    CounterFull = 7,
    /// The code of the message differs.
    CodeDiffers = 8,
    /// The format of the PIN block is wrong.
    PinFormat = 9,
    /// The transaction was spoilt, and nothing of it is kept.
    SpoiltClosed = 10,
    /// The ARPC differs.
    ArpcDiffers = 11,
    /// The PIN is not 4 to 12 digits.
    PinDigits = 12,
    /// The line cannot be read.
    Unreadable = 13,
    /// The PIN is not the kept one.
    WrongPin = 14,
    /// No tries are left for a PIN.
    NoTries = 15,
    /// An object is out of place, of a wrong length or past its holder's end, or there is none.
    BadObject = 16,
    /// An object stands deeper than four levels.
    TooDeep = 17,
    /// There are more than 32 objects.
    TooMany = 18,
    /// The desk does not hold this card.
    UnknownCard = 19,
    /// The desk already holds this card.
    AlreadyHeld = 20,
    /// The desk holds 64 cards, and has no room for another.
    TableFull = 21,
    /// The ARQC differs.
    ArqcDiffers = 22,
    /// The transaction counter is not above the last one of this card.
    CounterNotAbove = 23,
}

impl Refusal {
    pub fn number(self) -> u8 {
        self as u8
    }
}

/// The number that an answer carries: 0 where the call is accepted.
pub fn number_of<T>(answer: &Result<T, Refusal>) -> u8 {
    answer.as_ref().err().map_or(0, |refusal| refusal.number())
}
