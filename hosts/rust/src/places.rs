//! Places of the floor, and parts of it.

use crate::words::{word, ORIENTATIONS, ROWS, SIDES};
#[cfg(feature = "entries")]
use crate::{answers::Refusal, lent};
use std::fmt;
use std::ops::BitAnd;

/// The first of the shuttles' slots.
const SLOT_FIRST: u8 = 40;
/// The bit of the lift, and of a car on it while it is raised.
const LIFT: u8 = 52;
/// The longest drawing of parts, in bytes.
#[cfg(feature = "entries")]
const DRAWING_MOST: usize = 56;

/// Where a car is: over a cell, in row 1 over this one and the next; or on the raised lift.
#[derive(Clone, Copy, Debug, PartialEq, Eq, Hash)]
pub enum Place {
    /// The cell where the car begins, 0 to 39 as in the record.
    Cell(u8),
    /// On the raised lift.
    Raised,
}

impl Place {
    pub(crate) fn of(bit: u8) -> Place {
        if bit == LIFT {
            Place::Raised
        } else {
            Place::Cell(bit)
        }
    }
}

impl fmt::Display for Place {
    fn fmt(&self, f: &mut fmt::Formatter) -> fmt::Result {
        match self {
            Place::Cell(cell) => write!(f, "cell {cell}"),
            Place::Raised => write!(f, "the raised lift"),
        }
    }
}

/// Where a card's car is.
#[derive(Clone, Copy, Debug, PartialEq, Eq, Hash)]
pub enum Whereabouts {
    /// There, for sure.
    At(Place),
    /// Its last known place: since a jam a part of it is set apart, and somebody has to look.
    LastKnown(Place),
    /// In motion: an instruction that waits for its result is to bring it from one place to the other.
    Moving {
        /// Where it was.
        from: Place,
        /// Where it would get.
        to: Place,
    },
    /// No car in the garage has the number.
    NotHere,
}

impl fmt::Display for Whereabouts {
    fn fmt(&self, f: &mut fmt::Formatter) -> fmt::Result {
        match self {
            Whereabouts::At(place) => write!(f, "at {place}"),
            Whereabouts::LastKnown(place) => write!(f, "last known at {place}"),
            Whereabouts::Moving { from, to } => write!(f, "moving from {from} to {to}"),
            Whereabouts::NotHere => write!(f, "not here"),
        }
    }
}

/// Parts of the floor, a bit for each: 0 to 39 the cells, 40 to 51 the shuttles' slots as in the record, 52 the lift.
#[derive(Clone, Copy, Debug, Default, PartialEq, Eq, Hash)]
pub struct Parts(pub u64);

impl Parts {
    /// No part.
    pub const NONE: Parts = Parts(0);

    /// All of them.
    pub const ALL: Parts = Parts((1 << (LIFT + 1)) - 1);

    /// Whether there is none.
    pub fn is_empty(self) -> bool {
        self == Parts::NONE
    }

    /// Whether the part with this bit is one of them.
    pub fn has(self, bit: u8) -> bool {
        bit < 64 && self.0 >> bit & 1 == 1
    }

    /// Whether the lift is one of them.
    pub fn lift(self) -> bool {
        self.has(LIFT)
    }

    /// The bits of all of them, from the lowest.
    pub fn bits(self) -> impl Iterator<Item = u8> {
        (0..64).filter(move |&bit| self.has(bit))
    }
}

#[cfg(feature = "entries")]
impl Parts {
    /// Their drawing, as that of what is set apart: six lines of text (docs/DRAWING.md). Refused with 15 where a bit is no part's.
    ///
    /// ```
    /// use station::Parts;
    /// let apart = Parts(3 << 11 | 1 << 52);
    /// let drawing = apart.drawing()?;
    /// assert_eq!(drawing, "...........xx.......\n..........\n..........\n---\n---\nlift\n");
    /// assert_eq!(Parts::from_drawing(&drawing), Ok(apart));
    /// # Ok::<(), station::Refusal>(())
    /// ```
    pub fn drawing(self) -> Result<String, Refusal> {
        let mut text = vec![0; DRAWING_MOST];
        let length = lent::drawing_write_apart(self.0, &mut text)?;
        text.truncate(length);
        Ok(String::from_utf8(text).expect("a drawing is ASCII"))
    }

    /// The parts of a drawing: 41 with the first line that isn't of its form as the place, from 0, and 6 where text follows the last.
    pub fn from_drawing(text: &str) -> Result<Parts, Refusal> {
        let mut room = [0; 8];
        lent::drawing_read_apart(text.as_bytes(), &mut room).into_result()?;
        Ok(Parts(u64::from_le_bytes(room)))
    }
}

/// Those that both have.
impl BitAnd for Parts {
    type Output = Parts;

    fn bitand(self, other: Parts) -> Parts {
        Parts(self.0 & other.0)
    }
}

/// Numbers, those that follow each other as a range.
fn runs(all: &[u8]) -> String {
    let run = |run: &[u8]| match run {
        [first, .., last] => format!("{first} to {last}"),
        one => one.iter().map(u8::to_string).collect(),
    };
    all.chunk_by(|one, next| one + 1 == *next).map(run).collect::<Vec<_>>().join(" and ")
}

/// In words: `cells 2 to 10, left row 3 lowered, the lift`.
impl fmt::Display for Parts {
    fn fmt(&self, f: &mut fmt::Formatter) -> fmt::Result {
        let cells: Vec<u8> = self.bits().filter(|&bit| bit < SLOT_FIRST).collect();
        let slot = |bit: u8| {
            let at = bit - SLOT_FIRST;
            format!("{} row {} {}", word(&SIDES, at / 3 % 2), word(&ROWS, at % 3), word(&ORIENTATIONS, at / 6))
        };
        let slots = self.bits().filter(|bit| (SLOT_FIRST..LIFT).contains(bit)).map(slot);
        let cells = (!cells.is_empty()).then(|| format!("{} {}", if cells.len() == 1 { "cell" } else { "cells" }, runs(&cells)));
        let lift = self.lift().then(|| "the lift".to_string());
        write!(f, "{}", cells.into_iter().chain(slots).chain(lift).collect::<Vec<_>>().join(", "))
    }
}
