//! Instructions: as cases, as five bytes, and in words.

use crate::words::{instruction, line_of, Words};
use crate::{Belt, Belts, Height, Number, Op, Orientation, Refusal, Row, Rows, Side, Size, Toward};
use std::error::Error;
use std::fmt;
use std::str::FromStr;

/// What a planner asks of the motors. In words as the texts of plans and of the panel have it:
///
/// ```
/// use station::{Belt, Belts, Instruction, Row, Size, Toward};
/// let right: Instruction = "belts row 1 left lift, higher, full".parse()?;
/// let belts = Belts::from([Belt::Left, Belt::Lift]);
/// assert_eq!(right, Instruction::Belts { row: Row::One, belts, toward: Toward::Higher, size: Size::Full });
/// assert_eq!(right.five(), [1, 1, 6, 1, 1]);
/// assert_eq!(right.to_string(), "belts row 1 left lift, higher, full");
/// let wrong = "lift cellar".parse::<Instruction>().unwrap_err();
/// assert_eq!(wrong.to_string(), "expected `street`, `rotation` or `basement`, found `cellar`");
/// # Ok::<(), station::NoInstruction>(())
/// ```
#[derive(Clone, Copy, Debug, PartialEq, Eq, Hash)]
pub enum Instruction {
    /// The cells of the belts shift.
    Belts {
        /// In which row.
        row: Row,
        /// Which of its belts. One that the row doesn't have makes bytes that are told 4, a field out of range.
        belts: Belts,
        /// Toward which columns.
        toward: Toward,
        /// How far.
        size: Size,
    },
    /// Shuttles go one row on; lowered ones take their cars along.
    Shuttles {
        /// On which side.
        side: Side,
        /// In which rows.
        rows: Rows,
        /// Those that stand so.
        orientation: Orientation,
        /// Toward which rows.
        toward: Toward,
    },
    /// A shuttle changes its orientation.
    Tilt {
        /// On which side.
        side: Side,
        /// In which row.
        row: Row,
        /// How it stands now.
        orientation: Orientation,
    },
    /// The lift moves.
    Lift {
        /// To which height.
        height: Height,
    },
    /// The lift turns.
    Rotate,
}

/// The belts of a row in the order of their bits; behind them those that the row doesn't have, whose bits are out of range there.
fn belts_of(row: Row) -> ([Belt; 6], usize) {
    match row {
        Row::One => ([Belt::LeftShuttle, Belt::Left, Belt::Lift, Belt::Right, Belt::RightShuttle, Belt::Middle], 5),
        Row::Two | Row::Three => ([Belt::LeftShuttle, Belt::Middle, Belt::RightShuttle, Belt::Left, Belt::Lift, Belt::Right], 3),
    }
}

/// A bit for each of some that is named.
fn mask<T: Copy>(all: &[T], named: impl Fn(T) -> bool) -> u8 {
    (0..).zip(all).filter(|(_, &one)| named(one)).fold(0, |bits, (at, _)| bits | 1 << at)
}

/// Those that the bits of a mask name, which has none past them.
fn named<T: Copy, S: FromIterator<T>>(all: &[T], mask: u8) -> Result<S, Refusal> {
    if mask >> all.len() != 0 {
        return Err(Number::BadField.into());
    }
    Ok((0..).zip(all).filter(|(at, _)| mask >> at & 1 == 1).map(|(_, &one)| one).collect())
}

impl Instruction {
    /// The five bytes: an opcode and four fields.
    pub fn five(&self) -> [u8; 5] {
        let op = self.op().byte();
        match *self {
            Instruction::Belts { row, belts, toward, size } => {
                [op, row.byte(), mask(&belts_of(row).0, |belt| belts.has(belt)), toward.byte(), size.byte()]
            }
            Instruction::Shuttles { side, rows, orientation, toward } => {
                [op, side.byte(), mask(Row::ALL, |row| rows.has(row)), orientation.byte(), toward.byte()]
            }
            Instruction::Tilt { side, row, orientation } => [op, side.byte(), row.byte(), orientation.byte(), 0],
            Instruction::Lift { height } => [op, height.byte(), 0, 0, 0],
            Instruction::Rotate => [op, 0, 0, 0, 0],
        }
    }

    /// Which of the five sorts it is.
    pub fn op(&self) -> Op {
        match self {
            Instruction::Belts { .. } => Op::Belts,
            Instruction::Shuttles { .. } => Op::Shuttles,
            Instruction::Tilt { .. } => Op::Tilt,
            Instruction::Lift { .. } => Op::Lift,
            Instruction::Rotate => Op::Rotate,
        }
    }
}

/// The bytes of a set, five for each instruction.
pub(crate) fn bytes_of(set: &[Instruction]) -> Vec<u8> {
    set.iter().flat_map(Instruction::five).collect()
}

/// Bytes that say no instruction are told 4, a field out of range, or a spare byte that isn't zero.
impl TryFrom<[u8; 5]> for Instruction {
    type Error = Refusal;

    fn try_from([op, a, b, c, d]: [u8; 5]) -> Result<Instruction, Refusal> {
        Ok(match (Op::try_from(op)?, [b, c, d]) {
            (Op::Belts, _) => {
                let (row, toward, size) = (Row::try_from(a)?, c.try_into()?, d.try_into()?);
                let (belts, count) = belts_of(row);
                Instruction::Belts { row, belts: named(&belts[..count], b)?, toward, size }
            }
            (Op::Shuttles, _) => {
                Instruction::Shuttles { side: a.try_into()?, rows: named(Row::ALL, b)?, orientation: c.try_into()?, toward: d.try_into()? }
            }
            (Op::Tilt, [.., 0]) => Instruction::Tilt { side: a.try_into()?, row: b.try_into()?, orientation: c.try_into()? },
            (Op::Lift, [0, 0, 0]) => Instruction::Lift { height: a.try_into()? },
            (Op::Rotate, [0, 0, 0]) if a == 0 => Instruction::Rotate,
            _ => return Err(Number::BadField.into()),
        })
    }
}

/// In words; of one that names a belt which its row doesn't have, its bytes.
impl fmt::Display for Instruction {
    fn fmt(&self, f: &mut fmt::Formatter) -> fmt::Result {
        let five = self.five();
        match Instruction::try_from(five) {
            Ok(_) => write!(f, "{}", line_of(five)),
            Err(_) => write!(f, "no instruction: {five:?}"),
        }
    }
}

/// What is wrong with words that say no instruction, in words.
#[derive(Clone, Debug, PartialEq, Eq)]
pub struct NoInstruction(String);

impl fmt::Display for NoInstruction {
    fn fmt(&self, f: &mut fmt::Formatter) -> fmt::Result {
        write!(f, "{}", self.0)
    }
}

impl Error for NoInstruction {}

impl FromStr for Instruction {
    type Err = NoInstruction;

    fn from_str(line: &str) -> Result<Instruction, NoInstruction> {
        let mut words = Words::of(line);
        let five = instruction(&mut words).and_then(|five| words.end().map(|()| five)).map_err(NoInstruction)?;
        Ok(Instruction::try_from(five).expect("words say instructions only"))
    }
}
