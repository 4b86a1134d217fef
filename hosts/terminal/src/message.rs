//! What the bytes of a message say, of either direction, in words; and what is wrong with those that say nothing.

use station::words::{line_of, Wrong};
use station::{Parts, Record};

pub const BEGIN_IN: u8 = 1;
pub const BEGIN_OUT: u8 = 2;
pub const EVENTS: [&str; 5] = ["no event", "begin in", "begin out", "ended and done", "ended and not done"];
pub const ENDINGS: [&str; 3] = ["failed", "done", "stuck"];
/// The least and the greatest length of a message, which counts what follows it.
pub const LENGTHS: std::ops::RangeInclusive<usize> = 2..=43;
/// The kinds that a station answers with.
pub const ANSWER: u16 = 128;
pub const HELD: u16 = 129;

const NO_KIND: &str = "which is none: 1 request, 2 event, 3 result, 4 image to take, 5 ask, 128 answer, 129 image";

/// A message by its kind, with its fields, in range or not.
pub enum Message {
    Request(Vec<[u8; 5]>),
    Event(u8),
    Result {
        issue: u16,
        number: u8,
        ending: u8,
    },
    Image {
        record: Record,
        apart: Parts,
    },
    Ask,
    Answer {
        number: u8,
        place: u8,
        issue: u16,
    },
    Held {
        record: Record,
        apart: Parts,
    },
    /// None of these: what is wrong with it.
    Unread(String),
}

/// A number of one byte, in decimal and in hexadecimal.
pub fn both(number: u8) -> String {
    format!("{number} = 0x{number:02X}")
}

/// The same of two bytes.
pub fn both_wide(number: u16) -> String {
    format!("{number} = 0x{number:04X}")
}

pub fn hexadecimal(bytes: &[u8]) -> String {
    bytes.iter().map(|byte| format!("{byte:02X}")).collect::<Vec<_>>().join(" ")
}

/// The length that a message gives itself.
pub fn length(bytes: &[u8]) -> usize {
    usize::from(u16::from_le_bytes([bytes[0], bytes[1]]))
}

/// The kind of a whole message.
pub fn kind(bytes: &[u8]) -> u16 {
    u16::from_le_bytes([bytes[2], bytes[3]])
}

/// Whether a whole message is of a kind that a station answers with.
pub fn is_answer(bytes: &[u8]) -> bool {
    matches!(kind(bytes), ANSWER | HELD)
}

/// The number that up to eight bytes say, the lowest first.
pub fn number_in(bytes: &[u8]) -> u64 {
    bytes.iter().rev().fold(0, |number, &byte| number << 8 | u64::from(byte))
}

/// The bytes of digits with blanks anywhere.
pub fn bytes_in(said: &str) -> Result<Vec<u8>, Wrong> {
    let digits: Vec<char> = said.chars().filter(|letter| !letter.is_whitespace()).collect();
    if let Some(other) = digits.iter().find(|digit| !digit.is_ascii_hexdigit()) {
        return Err(format!("expected digits in hexadecimal, found `{}`", other.escape_default()));
    }
    if digits.len() % 2 == 1 {
        return Err(format!("expected two digits for each byte, found {} digits", digits.len()));
    }
    let value = |digit: char| digit.to_digit(16).unwrap_or(0) as u8;
    Ok(digits.chunks_exact(2).map(|two| value(two[0]) << 4 | value(two[1])).collect())
}

/// A record, and what is set apart behind it.
pub fn two_numbers(bytes: &[u8]) -> (Record, Parts) {
    (Record(number_in(&bytes[..8])), Parts(number_in(&bytes[8..])))
}

fn unread(what: impl Into<String>) -> Message {
    Message::Unread(what.into())
}

/// What bytes say, whose length need not be in its range or all there.
pub fn read(bytes: &[u8]) -> Message {
    if bytes.len() < 2 {
        return unread("the first byte of a length, which has two");
    }
    let size = length(bytes);
    if !LENGTHS.contains(&size) {
        return unread(format!("a length of {}, which is not from 2 to 43", both_wide(size as u16)));
    }
    if bytes.len() < 2 + size {
        return unread(format!("a length of {}, of which {} are there", both_wide(size as u16), bytes.len() - 2));
    }
    let (kind, body) = (kind(bytes), &bytes[4..2 + size]);
    let wrong_length = |name: &str, wanted: String| unread(format!("{name} of length {size} = 0x{size:02X}, which should be {wanted}"));
    match (kind, body) {
        (1, []) => wrong_length("a request", "3 and five for each instruction".to_string()),
        (1, &[count, ref set @ ..]) if set.len() == 5 * usize::from(count) => {
            Message::Request(set.chunks_exact(5).map(|five| std::array::from_fn(|at| five[at])).collect())
        }
        (1, &[count, ..]) if count > 8 => unread(format!("a request that counts {} instructions", both(count))),
        (1, &[count, ..]) => wrong_length("a request", format!("{} for {count} instructions", 3 + 5 * usize::from(count))),
        (2, &[event]) => Message::Event(event),
        (2, _) => wrong_length("an event", "3".to_string()),
        (3, &[low, high, number, ending]) => Message::Result { issue: u16::from_le_bytes([low, high]), number, ending },
        (3, _) => wrong_length("a result", "6".to_string()),
        (4, _) if body.len() == 16 => {
            let (record, apart) = two_numbers(body);
            Message::Image { record, apart }
        }
        (4, _) => wrong_length("an image to take", "18".to_string()),
        (5, []) => Message::Ask,
        (5, _) => wrong_length("an ask", "2".to_string()),
        (ANSWER, &[number, place, low, high]) => Message::Answer { number, place, issue: u16::from_le_bytes([low, high]) },
        (ANSWER, _) => wrong_length("an answer", "6".to_string()),
        (HELD, _) if body.len() == 16 => {
            let (record, apart) = two_numbers(body);
            Message::Held { record, apart }
        }
        (HELD, _) => wrong_length("an image", "18".to_string()),
        _ => unread(format!("kind {}, {NO_KIND}", both_wide(kind))),
    }
}

/// The fields of an instruction behind its opcode, each with the numbers that it may have.
fn fields([op, a, ..]: [u8; 5]) -> [(&'static str, std::ops::RangeInclusive<u8>); 4] {
    let spare = ("a spare byte", 0..=0);
    match op {
        1 => [("row", 1..=3), ("mask of belts", 0..=if a == 1 { 31 } else { 7 }), ("toward", 0..=1), ("size", 0..=1)],
        2 => [("side", 0..=1), ("mask of rows", 0..=7), ("orientation", 0..=1), ("toward", 0..=1)],
        3 => [("side", 0..=1), ("row", 1..=3), ("orientation", 0..=1), spare],
        4 => [("height", 0..=2), spare.clone(), spare.clone(), spare],
        _ => [spare.clone(), spare.clone(), spare.clone(), spare],
    }
}

/// What is out of range in five bytes; nothing where they are an instruction.
pub fn bad_fields(five: [u8; 5]) -> Vec<String> {
    if !(1..=5).contains(&five[0]) {
        return vec![format!("{} is no instruction: there are 1 to 5", both(five[0]))];
    }
    let bad = |((name, range), at): ((&str, std::ops::RangeInclusive<u8>), usize)| {
        let wanted = if range.start() == range.end() { range.start().to_string() } else { format!("{} to {}", range.start(), range.end()) };
        (!range.contains(&five[at])).then(|| format!("{name} is {}, and should be {wanted}", both(five[at])))
    };
    fields(five).into_iter().zip(1..).filter_map(bad).collect()
}

/// An instruction in words, or its bytes where they are none.
pub fn instruction(five: [u8; 5]) -> String {
    if bad_fields(five).is_empty() {
        line_of(five)
    } else {
        format!("{}, which is no instruction", hexadecimal(&five))
    }
}

/// The word of an event or an ending, with its byte.
pub fn word(names: &[&'static str], at: u8, none: &str) -> String {
    format!("{}, {}", both(at), names.get(usize::from(at)).copied().unwrap_or(none))
}
