//! The floor and its record: what stands where, and which records are sound.
use super::floor::{LEFT_BELT, LIFT_CELLS, OTHER_ROWS, RIGHT_BELT, ROW_1};
use std::ops::Range;

pub const LOWERED: u8 = 0; // orientations
pub(crate) const TILTED: u8 = 1;
pub(crate) const STREET: u8 = 0; // heights
pub(crate) const ROTATION: u8 = 1;
pub const BASEMENT: u8 = 2;
pub const HIGHER: u8 = 1; // d
pub const FULL: u8 = 1; // size
pub const LIFT_CAR: u32 = 52;
pub const DRIVE_IN: u32 = 55; // under way
pub const DRIVE_OUT: u32 = 56;
/// With so many cars no drive-in begins: what places are left are kept open, to move cars by.
pub(crate) const FILLED: u32 = 27;

pub fn bit(image: u64, at: u32) -> bool {
    image >> at & 1 == 1
}
pub(crate) fn with(image: u64, at: u32, value: bool) -> u64 {
    image & !(1 << at) | u64::from(value) << at
}
pub(crate) fn with_all(image: u64, cells: Range<u32>, value: bool) -> u64 {
    cells.fold(image, |now, cell| with(now, cell, value))
}
pub(crate) fn occupied(image: u64, cells: Range<u32>) -> u32 {
    cells.map(|cell| u32::from(bit(image, cell))).sum()
}
pub(crate) fn free(image: u64, mut cells: Range<u32>) -> bool {
    cells.all(|cell| !bit(image, cell))
}
pub(crate) fn even(image: u64, cells: Range<u32>) -> bool {
    occupied(image, cells) % 2 == 0
}
pub(crate) fn height(image: u64) -> u8 {
    (image >> 53 & 3) as u8
}
/// Whether a driver is still in the lift, coming or going.
pub fn drive_under_way(image: u64) -> bool {
    bit(image, DRIVE_IN) || bit(image, DRIVE_OUT)
}

/// The cells of a belt, counted from the left: five belts in row 1, three in rows 2 and 3.
pub fn belt_cells(row: u8, belt: u32) -> Range<u32> {
    let [second, third] = OTHER_ROWS;
    let other = if row == 2 { second } else { third };
    match (row, belt) {
        (1, 0) => ROW_1.start..LEFT_BELT.start,
        (1, 1) => LEFT_BELT,
        (1, 2) => LIFT_CELLS,
        (1, 3) => RIGHT_BELT,
        (1, 4) => RIGHT_BELT.end..ROW_1.end,
        (2 | 3, 0) => other.start..other.start + 1,
        (2 | 3, 1) => other.start + 1..other.end - 1,
        (2 | 3, 2) => other.end - 1..other.end,
        _ => 0..0,
    }
}

/// The side whose shuttle this belt is: a row's outermost belts are the shuttles'.
pub(crate) fn shuttle_side(row: u8, belt: u32) -> Option<u8> {
    match (row, belt) {
        (_, 0) => Some(0),
        (1, 4) | (2 | 3, 2) => Some(1),
        _ => None,
    }
}

/// The cells of a shuttle's position.
pub fn position(side: u8, row: u8) -> Range<u32> {
    belt_cells(
        row,
        match (side, row) {
            (0, _) => 0,
            (_, 1) => 4,
            _ => 2,
        },
    )
}

/// The bit of a shuttle's slot: lowered before tilted, left before right, then rows from 1.
pub(crate) fn slot(side: u8, row: u8, orientation: u8) -> u32 {
    39 + 6 * u32::from(orientation) + 3 * u32::from(side) + u32::from(row)
}

/// Sound: cars can be laid out over exactly the occupied cells; shuttles and lift agree with them.
pub fn sound(image: u64) -> bool {
    cars(image).is_some()
}

/// The number of cars in a sound record's layout; nothing for one that isn't sound.
pub fn cars(image: u64) -> Option<u32> {
    // In rows 2 and 3 a car is one cell; the raised lift bears one more.
    let others: u32 = OTHER_ROWS.into_iter().map(|row| occupied(image, row)).sum();
    let mut cars = others + u32::from(bit(image, LIFT_CAR));
    // In row 1 a car is two neighbours: from the left, a cell not yet covered pairs with the next.
    let mut cell = ROW_1.start;
    while cell < ROW_1.end {
        if !bit(image, cell) {
            cell += 1;
        } else if cell + 1 < ROW_1.end && bit(image, cell + 1) {
            cars += 1;
            cell += 2;
        } else {
            return None;
        }
    }
    // A shuttle's cells bear cars only on a lowered shuttle; each side has three shuttles, at most
    // one of them tilted.
    let shuttles = (0..2).all(|side| {
        let number = |orientation| (1..=3).filter(|&row| bit(image, slot(side, row, orientation))).count();
        let carried = |row| bit(image, slot(side, row, LOWERED)) || free(image, position(side, row));
        (1..=3).all(carried) && number(LOWERED) + number(TILTED) == 3 && number(TILTED) <= 1
    });
    // A car on the lift is in its two cells in the basement, on bit 52 above; no height is 3.
    let lift = match height(image) {
        STREET | ROTATION => free(image, LIFT_CELLS),
        BASEMENT => !bit(image, LIFT_CAR),
        _ => false,
    };
    // A drive is under way at street alone: into an empty lift or out of an occupied one, not both.
    let at_street = |car| height(image) == STREET && bit(image, LIFT_CAR) == car;
    let drives = match (bit(image, DRIVE_IN), bit(image, DRIVE_OUT)) {
        (false, false) => true,
        (true, false) => at_street(false),
        (false, true) => at_street(true),
        (true, true) => false,
    };
    (shuttles && lift && drives && image >> 57 == 0).then_some(cars)
}
