//! The reference's five instructions: which are well-formed, their areas, why one is not allowed, and the record after it.
use super::floor::ROTATION_CELLS;
use super::*;
use std::ops::RangeInclusive;

mod conditions;
pub use conditions::Condition;

/// An instruction, its fields as the message gives them.
#[derive(Clone, Copy, Debug, PartialEq, Eq)]
pub enum Instruction {
    Belts { row: u8, mask: u8, d: u8, size: u8 },
    Shuttles { side: u8, mask: u8, orientation: u8, d: u8 },
    Tilt { side: u8, row: u8, orientation: u8 },
    Lift { height: u8 },
    Rotate,
}
use Instruction::{Belts, Lift, Rotate, Shuttles, Tilt};

// Why an instruction is refused, by the numbers of the table.
const BAD_FIELD: u8 = 4;
const NOTHING_NAMED: u8 = 20;
const GAP: u8 = 21;
const NOT_AVAILABLE: u8 = 22; // of a tilt: not all lowered, or none tilted there
const NO_WAY: u8 = 23; // the end, the next row or the slot below is not free or not there
const ODD: u8 = 24;
const HALF_MOVE: u8 = 25; // in row 2 or 3
const SAME_HEIGHT: u8 = 26;
const NOT_AT_ROTATION: u8 = 27;
const CELLS_TAKEN: u8 = 28; // those of a tilt or a rotation
const OUT_OF_TURN: u8 = 31; // the lift, while a drive is under way

/// What each opcode is refused for where a sound record doesn't allow it: all pairs of opcode and number that there are.
pub const REASONS: [(u8, u8); 18] = [
    (1, HALF_MOVE),
    (1, NOTHING_NAMED),
    (1, GAP),
    (1, NOT_AVAILABLE),
    (1, NO_WAY),
    (1, ODD),
    (2, NOTHING_NAMED),
    (2, GAP),
    (2, NOT_AVAILABLE),
    (2, ODD),
    (2, NO_WAY),
    (3, NOT_AVAILABLE),
    (3, CELLS_TAKEN),
    (3, NO_WAY),
    (4, SAME_HEIGHT),
    (4, ODD),
    (5, NOT_AT_ROTATION),
    (5, CELLS_TAKEN),
];

/// Their numbers.
pub const REASON_NUMBERS: RangeInclusive<u8> = NOTHING_NAMED..=CELLS_TAKEN;

/// A condition: where it fails, its number is told.
fn holds(condition: bool, number: u8) -> Result<(), u8> {
    condition.then_some(()).ok_or(number)
}

pub fn named(mask: u8, at: u32) -> bool {
    bit(mask.into(), at)
}

/// The lowest and the highest bit named, if any is.
fn ends(mask: u8) -> Option<(u32, u32)> {
    Some((mask.trailing_zeros(), mask.checked_ilog2()?))
}

/// The cells from the lowest named belt to the highest.
fn span(row: u8, mask: u8) -> Range<u32> {
    ends(mask).map_or(0..0, |(low, high)| belt_cells(row, low).start..belt_cells(row, high).end)
}

/// How far a belt move shifts: two cells for a full move in row 1, else one.
fn shift(row: u8, size: u8) -> u32 {
    if row == 1 && size == FULL {
        2
    } else {
        1
    }
}

/// The rows a shuttle mask names; bit 0 is row 1.
fn rows(mask: u8) -> impl Iterator<Item = u8> {
    (1..=3).filter(move |&row| named(mask, u32::from(row) - 1))
}

/// The row one toward d, if there is one.
fn next_row(row: u8, d: u8) -> Option<u8> {
    Some(if d == HIGHER { row + 1 } else { row - 1 }).filter(|next| (1..=3).contains(next))
}

impl Instruction {
    /// Read from its own five bytes; nothing if a field is out of range or a spare byte not zero.
    pub fn read(bytes: [u8; 5]) -> Option<Self> {
        let instruction = match bytes {
            [1, row, mask, d, size] => Belts { row, mask, d, size },
            [2, side, mask, orientation, d] => Shuttles { side, mask, orientation, d },
            [3, side, row, orientation, 0] => Tilt { side, row, orientation },
            [4, height, 0, 0, 0] => Lift { height },
            [5, 0, 0, 0, 0] => Rotate,
            _ => return None,
        };
        instruction.well_formed().then_some(instruction)
    }

    /// Every field in its range; a mask may be zero or have gaps.
    pub fn well_formed(&self) -> bool {
        match *self {
            Belts { row: 1, mask, d, size } => mask <= 31 && d <= 1 && size <= 1,
            Belts { row, mask, d, size } => matches!(row, 2 | 3) && mask <= 7 && d <= 1 && size <= 1,
            Shuttles { side, mask, orientation, d } => side <= 1 && mask <= 7 && orientation <= 1 && d <= 1,
            Tilt { side, row, orientation } => side <= 1 && matches!(row, 1..=3) && orientation <= 1,
            Lift { height } => height <= 2,
            Rotate => true,
        }
    }

    /// All the instruction reads or writes, the same on every record; the lift reads besides how many cells on either side of it are
    /// occupied, odd or even. (Ill-formed: nothing.)
    pub fn area(&self) -> Parts {
        match *self {
            _ if !self.well_formed() => Parts::NONE,
            // The belts' cells, the lowered slots of shuttle belts, the lift with its belt.
            Belts { row, mask, .. } => (0..5).filter(|&belt| named(mask, belt)).fold(Parts::NONE, |area, belt| {
                let area = area.and_cells(belt_cells(row, belt));
                match shuttle_side(row, belt) {
                    Some(side) => area.and_slot(side, row, LOWERED),
                    None => {
                        if (row, belt) == (1, 2) {
                            area.and(Parts::LIFT)
                        } else {
                            area
                        }
                    }
                }
            }),
            // The named slots and for each the one a row toward d; lowered, their cells too.
            Shuttles { side, mask, orientation, d } => {
                let reached = rows(mask).flat_map(|row| [Some(row), next_row(row, d)]).flatten();
                reached.fold(Parts::NONE, |area, row| {
                    let area = area.and_slot(side, row, orientation);
                    if orientation == LOWERED {
                        area.and_cells(position(side, row))
                    } else {
                        area
                    }
                })
            }
            // Both slots and the cells of the position; from lowered, the side's three lowered slots.
            Tilt { side, row, orientation } => {
                let both = Parts::NONE.and_cells(position(side, row)).and_slot(side, row, LOWERED).and_slot(side, row, TILTED);
                if orientation == LOWERED {
                    (1..=3).fold(both, |area, row| area.and_slot(side, row, LOWERED))
                } else {
                    both
                }
            }
            // The lift and its two cells. What can go beside it leaves an even count even, so the row need not stop for it.
            Lift { .. } => Parts::LIFT.and_cells(LIFT_CELLS),
            // The lift and its six cells.
            Rotate => ROTATION_CELLS.into_iter().fold(Parts::LIFT, Parts::and_cells),
        }
    }

    /// Whether the lift is in its area.
    pub fn takes_lift(&self) -> bool {
        self.area().lift
    }

    /// Whether the instruction is allowed on this record. (Ill-formed: never.)
    pub fn allowed(&self, image: u64) -> bool {
        self.judge(image).is_ok()
    }

    /// Whether the instruction is allowed on this record, or else the number of the first of its conditions that fails, in the
    /// paper's order. (Ill-formed: that of a bad field.)
    pub fn judge(&self, image: u64) -> Result<(), u8> {
        match *self {
            _ if !self.well_formed() => Err(BAD_FIELD),
            Belts { row, mask, d, size } => {
                holds(row == 1 || size == FULL, HALF_MOVE)?; // only row 1 moves by halves
                let (low, high) = ends(mask).ok_or(NOTHING_NAMED)?;
                holds((low..=high).all(|belt| named(mask, belt)), GAP)?;
                // A shuttle belt needs its lowered shuttle, the lift belt the basement.
                let available = |belt| match shuttle_side(row, belt) {
                    Some(side) => bit(image, slot(side, row, LOWERED)),
                    None => (row, belt) != (1, 2) || height(image) == BASEMENT,
                };
                holds((low..=high).all(available), NOT_AVAILABLE)?;
                let (span, by) = (span(row, mask), shift(row, size));
                let end = if d == HIGHER { span.end - by..span.end } else { span.start..span.start + by };
                holds(free(image, end), NO_WAY)?; // at the end toward d, as many cells as the shift is long
                holds(row != 1 || even(image, span), ODD) // no car of row 1 is torn
            }
            Shuttles { side, mask, orientation, d } => {
                let (low, high) = ends(mask).map(|(low, high)| (low as u8 + 1, high as u8 + 1)).ok_or(NOTHING_NAMED)?;
                holds(rows(mask).eq(low..=high), GAP)?;
                let present = |row| bit(image, slot(side, row, orientation));
                holds(rows(mask).all(present), NOT_AVAILABLE)?;
                let whole = orientation != LOWERED || low != 1 || even(image, position(side, 1)); // no half car
                holds(whole, ODD)?;
                // The row they shift into exists and has no such shuttle.
                let next = next_row(if d == HIGHER { high } else { low }, d);
                holds(next.is_some_and(|row| !present(row)), NO_WAY)
            }
            // All three of the side are lowered and no car is on this one.
            Tilt { side, row, orientation: LOWERED } => {
                holds((1..=3).all(|row| bit(image, slot(side, row, LOWERED))), NOT_AVAILABLE)?;
                holds(free(image, position(side, row)), CELLS_TAKEN)
            }
            // A tilted one is there and no lowered one below it.
            Tilt { side, row, .. } => {
                holds(bit(image, slot(side, row, TILTED)), NOT_AVAILABLE)?;
                holds(!bit(image, slot(side, row, LOWERED)), NO_WAY)
            }
            // To another height; out of the basement only with the lift's cells free, or an even
            // number of cells occupied on either side of it, so that no car is torn.
            Lift { height: to } => {
                holds(height(image) != to, SAME_HEIGHT)?;
                let whole =
                    || free(image, LIFT_CELLS) || even(image, ROW_1.start..LIFT_CELLS.start) && even(image, LIFT_CELLS.end..ROW_1.end);
                holds(height(image) != BASEMENT || whole(), ODD)
            }
            // At rotation height, the six cells beside the lift free.
            Rotate => {
                holds(height(image) == ROTATION, NOT_AT_ROTATION)?;
                holds(ROTATION_CELLS.into_iter().all(|cells| free(image, cells)), CELLS_TAKEN)
            }
        }
    }

    /// What a request of this instruction alone would be told for it on this record: nothing takes the lift from a driver, and then
    /// it must be allowed.
    pub fn asked(&self, image: u64) -> Result<(), u8> {
        holds(!(drive_under_way(image) && self.takes_lift()), OUT_OF_TURN)?;
        self.judge(image)
    }

    /// The record after the instruction, meant for an allowed one. (Ill-formed: unchanged.)
    pub fn next(&self, image: u64) -> u64 {
        let mut after = image;
        match *self {
            _ if !self.well_formed() => {}
            // Each cell of the span takes what lay behind it; from outside the span comes nothing.
            Belts { row, mask, d, size } => {
                let (span, by) = (span(row, mask), shift(row, size));
                for cell in span.clone() {
                    let from = if d == HIGHER { cell.checked_sub(by) } else { Some(cell + by) };
                    let car = from.is_some_and(|from| span.contains(&from) && bit(image, from));
                    after = with(after, cell, car);
                }
            }
            // The slots shift by a row. Lowered shuttles leave their cells free and fill the cells
            // they come to: both halves in row 1, else the one. Tilted ones change no cell.
            Shuttles { side, mask, orientation, d } => {
                for row in rows(mask) {
                    after = with(after, slot(side, row, orientation), false);
                    if orientation == LOWERED {
                        after = with_all(after, position(side, row), false);
                    }
                }
                for (row, to) in rows(mask).filter_map(|row| Some((row, next_row(row, d)?))) {
                    after = with(after, slot(side, to, orientation), true);
                    let car = !free(image, position(side, row));
                    if orientation == LOWERED {
                        after = with_all(after, position(side, to), car);
                    }
                }
            }
            // The shuttle has the other orientation.
            Tilt { side, row, orientation } => {
                after = with(after, slot(side, row, orientation), false);
                after = with(after, slot(side, row, 1 - orientation), true);
            }
            // Leaving the basement, the lift bears a car if both cells did, and they are free;
            // arriving there, both cells take its car.
            Lift { height: to } => {
                if height(image) == BASEMENT {
                    after = with(after, LIFT_CAR, occupied(image, LIFT_CELLS) == 2);
                    after = with_all(after, LIFT_CELLS, false);
                } else if to == BASEMENT {
                    after = with_all(after, LIFT_CELLS, bit(image, LIFT_CAR));
                    after = with(after, LIFT_CAR, false);
                }
                after = after & !(3 << 53) | u64::from(to) << 53;
            }
            // The record stays the same.
            Rotate => {}
        }
        after
    }
}

/// The areas of up to eight instructions; behind them nothing.
pub fn areas(set: impl Iterator<Item = Instruction>) -> [Parts; LARGEST_SET] {
    let mut areas = [Parts::NONE; LARGEST_SET];
    areas.iter_mut().zip(set).for_each(|(area, instruction)| *area = instruction.area());
    areas
}

/// The least of some areas that shares a part with an earlier one, if there is one.
pub fn overlap(areas: &[Parts]) -> Option<usize> {
    let mut earlier = Parts::NONE;
    areas.iter().position(|area| {
        let met = earlier.meet(area);
        earlier = earlier.and(*area);
        met
    })
}

/// Reads up to eight instructions of five bytes each, or gives the place of the least bad one.
pub fn read_set(bytes: &[u8]) -> Result<[Instruction; LARGEST_SET], u8> {
    let mut set = [Rotate; LARGEST_SET];
    for (place, (instruction, five)) in (0..).zip(set.iter_mut().zip(bytes.chunks_exact(5))) {
        *instruction = five.first_chunk().and_then(|&five| Instruction::read(five)).ok_or(place)?;
    }
    Ok(set)
}
