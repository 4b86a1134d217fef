//! Records: questions for planning ahead, which need no station.

use crate::faults::of_one;
use crate::lent;
use crate::{Instruction, Number, Parts, Place, Refusal};
use std::fmt;
use std::str::FromStr;

/// The longest drawing, in bytes.
const DRAWING_MOST: usize = 66;
/// The bytes of a condition, and of the places of all cars.
const CONDITION: usize = 11;
const CARS: usize = 31;

/// The record of a garage, a number of 64 bits: which cells are occupied, where the shuttles stand, the lift, and a drive under way. As
/// text it is its drawing:
///
/// ```
/// use station::{Height, Instruction, Number, Record};
/// let down = Instruction::Lift { height: Height::Basement };
/// let record = Record::START.next(down)?;
/// assert_eq!(record.to_string(), "....................\n..........\n..........\nLLT\nLLT\nbasement\n");
/// assert_eq!(record.to_string().parse::<Record>()?, record);
/// assert_eq!(record.allowed(down).unwrap_err().number, Number::SameHeight);
/// # Ok::<(), station::Refusal>(())
/// ```
#[derive(Clone, Copy, Debug, PartialEq, Eq, Hash)]
pub struct Record(pub u64);

impl Record {
    /// The record of the start: no cars, rows 1 and 2 lowered and row 3 tilted on both sides, the lift at street height.
    pub const START: Record = Record(0x0009_1B00_0000_0000);

    /// The record of eight bytes, the lowest first.
    pub fn from_bytes(bytes: [u8; 8]) -> Record {
        Record(u64::from_le_bytes(bytes))
    }

    /// Its eight bytes, the lowest first.
    pub fn bytes(self) -> [u8; 8] {
        self.0.to_le_bytes()
    }

    /// Whether it is a possible garage.
    pub fn is_sound(self) -> bool {
        lent::garage_sound(self.0)
    }

    /// The number of cars, if it is sound.
    pub fn cars(self) -> Option<u32> {
        Some(lent::garage_cars(self.0)).filter(|&cars| cars != 255)
    }

    /// Whether a request of the one instruction would be taken here: 4 where it names a belt that its row doesn't have, 31 where a drive is
    /// under way and the lift is in its area, then the reason, 20 to 28. What is set apart a record doesn't know.
    pub fn allowed(self, instruction: Instruction) -> Result<(), Refusal> {
        lent::garage_allowed(self.0, &instruction.five()).into_result().map_err(|refusal| of_one(refusal, instruction, self))
    }

    /// The record after an instruction, or why it isn't allowed.
    pub fn next(self, instruction: Instruction) -> Result<Record, Refusal> {
        let mut next = [0; 8];
        lent::garage_next(self.0, &instruction.five(), &mut next).into_result().map_err(|refusal| of_one(refusal, instruction, self))?;
        Ok(Record::from_bytes(next))
    }

    /// The drawing, if it is sound: six lines of text (docs/DRAWING.md).
    pub fn drawing(self) -> Result<String, Refusal> {
        let mut text = vec![0; DRAWING_MOST];
        let length = lent::drawing_write(self.0, &mut text)?;
        text.truncate(length);
        Ok(String::from_utf8(text).expect("a drawing is ASCII"))
    }

    /// Where each car is, if it is sound: row 1 first, then rows 2 and 3, one on the raised lift last.
    pub fn places(self) -> Result<Vec<Place>, Refusal> {
        let mut room = [0; CARS];
        let cars = lent::panel_cars(self.0, &mut room)?;
        Ok(room[..cars].iter().copied().map(Place::of).collect())
    }

    /// Each of the paper's conditions for an instruction, in the paper's order, if the record is sound. Of a drive under way they know
    /// nothing.
    ///
    /// ```
    /// use station::{Instruction, Number, Record};
    /// let conditions = Record::START.conditions(Instruction::Rotate)?;
    /// assert_eq!(conditions.len(), 2);
    /// assert!(!conditions[0].holds && conditions[0].number == Number::NotAtRotation && conditions[0].parts.lift());
    /// assert!(conditions[1].holds);
    /// # Ok::<(), station::Refusal>(())
    /// ```
    pub fn conditions(self, instruction: Instruction) -> Result<Vec<Condition>, Refusal> {
        let mut all = Vec::new();
        loop {
            let mut room = [0; CONDITION];
            lent::panel_condition(self.0, &instruction.five(), all.len() as u8, &mut room).into_result()?;
            let [there, holds, number, parts @ ..] = room;
            if there == 0 {
                return Ok(all);
            }
            all.push(Condition { holds: holds == 1, number: Number::of(number), parts: Parts(u64::from_le_bytes(parts)) });
        }
    }
}

/// A condition of an instruction on a record.
#[derive(Clone, Copy, Debug, PartialEq, Eq, Hash)]
pub struct Condition {
    /// Whether it holds.
    pub holds: bool,
    /// What is told where it is the first that doesn't.
    pub number: Number,
    /// The parts that decide it; none where the instruction's own words do.
    pub parts: Parts,
}

/// The drawing; of a record that isn't sound its bytes in hexadecimal, the lowest first.
impl fmt::Display for Record {
    fn fmt(&self, f: &mut fmt::Formatter) -> fmt::Result {
        match self.drawing() {
            Ok(drawing) => write!(f, "{drawing}"),
            Err(_) => write!(f, "{}", self.bytes().map(|byte| format!("{byte:02X}")).join(" ")),
        }
    }
}

/// The record of a drawing: 41 with the first line that isn't of its form as the place, from 0, and 6 where text follows the last; 15 where
/// a garage is drawn that can't be.
impl FromStr for Record {
    type Err = Refusal;

    fn from_str(text: &str) -> Result<Record, Refusal> {
        let mut room = [0; 8];
        lent::drawing_read(text.as_bytes(), &mut room).into_result()?;
        Ok(Record::from_bytes(room))
    }
}
