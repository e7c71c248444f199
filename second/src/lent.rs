//! Outputs that a caller lends, for calls that are given as lines: what they hold before and after, and buffers with a place in them.

use crate::octets::word_of;
use crate::random::Random;

/// Lent bytes before a call.
pub fn lent(length: usize) -> Vec<u8> {
    (0..length).map(|i| (29 * i + 11) as u8).collect()
}

/// The word of lent bytes after a call: `=` where they are as before.
pub fn word_after(after: &[u8]) -> String {
    if after == lent(after.len()) {
        return "=".to_string();
    }
    word_of(after)
}

/// A buffer for so many bytes and a place in it: with room to spare, exactly enough, a byte too few, at the end, past it, or where a sum would not fit.
pub fn buffer(random: &mut Random, size: usize) -> (usize, u64) {
    let (before, after) = (random.below(12), random.below(12));
    let room = before + size + after;
    let far = random.below(300) as u64;
    match random.below(12) {
        0 => (before + size.saturating_sub(1), before as u64),
        1 => (room, room as u64),
        2 => (room, room as u64 + 1),
        3 => {
            let place = [u64::MAX, u64::MAX - far, u64::MAX - size as u64, (u64::MAX - size as u64).wrapping_add(1), 1 << 63, 1 << 32];
            (room, random.choose(&place))
        }
        4 => (size, 0),
        5 => (before + size, before as u64),
        6 => (random.below(room + 1), random.below(4) as u64),
        _ => (room, before as u64),
    }
}

/// How so many bytes fit from a place of a buffer, or why they do not.
pub fn cause_of_room(size: usize, buffer: usize, place: u64) -> String {
    let (size, buffer) = (size as u64, buffer as u64);
    match place.checked_add(size) {
        None => "the sum does not fit".to_string(),
        Some(end) if end <= buffer => {
            let exact = if end == buffer { "exactly" } else { "with room after it" };
            format!("fits {exact} from {}", if place == 0 { "0" } else { "a place" })
        }
        Some(end) if end == buffer + 1 => "one byte too few".to_string(),
        _ if place == buffer => "at the end".to_string(),
        _ if place > buffer => "past the end".to_string(),
        _ => "bytes too few".to_string(),
    }
}

/// How a length compares with the right one.
pub fn compared(length: usize, right: usize) -> &'static str {
    match length {
        0 => "no",
        _ if length < right => "too few",
        _ => "too many",
    }
}
