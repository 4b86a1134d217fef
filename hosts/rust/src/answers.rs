//! What a call is answered with.

use crate::{Number, Parts};
use std::error::Error;
use std::fmt;

/// The place where an answer names nothing, as the bytes have it.
const NOWHERE: u8 = 255;

/// The issue of a set: 0 for the first since the start, then one more for each set that is accepted, and 0 again after 65535. A result says
/// by it of which set it is.
#[derive(Clone, Copy, Debug, Default, PartialEq, Eq, Hash)]
pub struct Issue(pub u16);

impl fmt::Display for Issue {
    fn fmt(&self, f: &mut fmt::Formatter) -> fmt::Result {
        write!(f, "{}", self.0)
    }
}

/// An answer as an entry or a message gives it: a number of the table, a place, and the issue of the set where a request was taken, else 0.
#[derive(Clone, Copy, Debug, PartialEq, Eq, Hash)]
pub struct Answer {
    /// A number of the table.
    pub number: Number,
    /// What is at fault, counted from 0, where the number is told of one: of a request the instruction, of a plan the set, of a drawing the
    /// line, of totals the one that is full.
    pub place: Option<u8>,
    /// The issue of the set where a request was taken, else 0.
    pub issue: Issue,
}

impl Answer {
    /// What is answered to all that is taken and is no request, and to a request whose set has issue 0.
    pub const TAKEN: Answer = Answer { number: Number::Taken, place: None, issue: Issue(0) };

    /// What an entry of [`raw`](crate::raw) returned, taken apart. Each is proved to answer with a number of the table; with any other this
    /// panics.
    pub fn of(said: u32) -> Answer {
        let [number, place, low, high] = said.to_le_bytes();
        Answer { number: Number::of(number), place: place_in(place), issue: Issue(u16::from_le_bytes([low, high])) }
    }

    /// Whether that was taken.
    pub fn taken(self) -> bool {
        self.number == Number::Taken
    }

    /// The issue where it was taken, else the refusal.
    pub fn issued(self) -> Result<Issue, Refusal> {
        if self.taken() {
            Ok(self.issue)
        } else {
            Err(self.refusal())
        }
    }

    /// Nothing where it was taken, else the refusal.
    pub fn into_result(self) -> Result<(), Refusal> {
        self.issued().map(drop)
    }

    /// The number and the place alone.
    fn refusal(self) -> Refusal {
        Refusal { place: self.place, ..self.number.into() }
    }
}

/// A place by its byte.
pub(crate) fn place_in(byte: u8) -> Option<u8> {
    Some(byte).filter(|&place| place != NOWHERE)
}

/// A place's byte.
pub(crate) fn place_byte(place: Option<u8>) -> u8 {
    place.unwrap_or(NOWHERE)
}

/// Why a call isn't taken. What was called on is as it was.
///
/// ```
/// use station::{Height, Instruction, Station};
/// let mut station = Station::new();
/// let refusal = station.request(&[Instruction::Rotate]).unwrap_err();
/// assert_eq!(refusal.to_string(), "27 (not at rotation height) at 0: the lift");
/// assert!(refusal.parts.lift());
/// let down = Instruction::Lift { height: Height::Basement };
/// let refusal = station.request(&[down, "belts row 1 lift right, lower, full".parse().unwrap()]).unwrap_err();
/// assert_eq!(refusal.to_string(), "8 (overlap) at 1, with 0: cells 11 to 12, the lift");
/// let refusal = station.request(&[]).unwrap_err();
/// assert_eq!(refusal.to_string(), "7 (empty set)");
/// ```
#[derive(Clone, Copy, Debug, PartialEq, Eq, Hash)]
pub struct Refusal {
    /// A number of the table, not 0.
    pub number: Number,
    /// What is at fault, counted from 0, where the number is told of one: of a request the instruction, of a plan the set, of a drawing the
    /// line, of totals the one that is full.
    pub place: Option<u8>,
    /// Of an instruction, the parts of the garage that are at fault: those that decide its first condition that fails, that both have of an
    /// overlap, or that are set apart. None where no part is.
    pub parts: Parts,
    /// Of an overlap, the earlier instruction.
    pub earlier: Option<u8>,
}

impl Refusal {
    /// With a place.
    pub fn at(number: Number, place: u8) -> Refusal {
        Refusal { place: Some(place), ..number.into() }
    }
}

impl From<Number> for Refusal {
    fn from(number: Number) -> Refusal {
        Refusal { number, place: None, parts: Parts::NONE, earlier: None }
    }
}

/// A number, and the place where there is one.
fn told(f: &mut fmt::Formatter, number: Number, place: Option<u8>) -> fmt::Result {
    match place {
        None => write!(f, "{number}"),
        Some(place) => write!(f, "{number} at {place}"),
    }
}

impl fmt::Display for Answer {
    fn fmt(&self, f: &mut fmt::Formatter) -> fmt::Result {
        told(f, self.number, self.place)
    }
}

/// The number and its words, the place, the earlier one of an overlap, and the parts.
impl fmt::Display for Refusal {
    fn fmt(&self, f: &mut fmt::Formatter) -> fmt::Result {
        told(f, self.number, self.place)?;
        self.earlier.map_or(Ok(()), |earlier| write!(f, ", with {earlier}"))?;
        if self.parts.is_empty() {
            return Ok(());
        }
        write!(f, ": {}", self.parts)
    }
}

impl Error for Refusal {}

#[cfg(test)]
mod tests {
    use super::*;

    #[test]
    #[should_panic(expected = "a number of the table")]
    fn an_answer_outside_the_table_is_none() {
        Answer::of(14);
    }

    #[test]
    fn the_three_parts_of_an_answer() {
        assert_eq!(Answer::of(0xFF00), Answer::TAKEN);
        assert_eq!(Answer::of(0x1234_FF00).issued(), Ok(Issue(0x1234)));
        assert_eq!(Answer::of(0x0218).into_result(), Err(Refusal::at(Number::OddCount, 2)));
        assert_eq!(Answer::of(0xFF06).issued(), Err(Number::SetOutstanding.into()));
    }
}
