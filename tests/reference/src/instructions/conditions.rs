//! The reference's conditions one by one, for the panel: of each instruction those of document 01 in its order, with what is looked at to
//! decide them. `judge` goes by words of its own; a run holds the two against each other.
use super::*;

/// A condition on a record: whether it holds, the number that is told where it is the first to fail, and the parts that decide it.
#[derive(Clone, Copy, Debug, PartialEq, Eq)]
pub struct Condition {
    pub holds: bool,
    pub number: u8,
    pub parts: Parts,
}

/// One that the instruction's own words decide.
fn by_the_words(holds: bool, number: u8) -> Condition {
    Condition { holds, number, parts: Parts::NONE }
}

/// These cells as parts.
fn parts_of(cells: &[u32]) -> Parts {
    cells.iter().fold(Parts::NONE, |parts, &cell| parts.and_cells(cell..cell + 1))
}

/// How many of them are occupied.
fn occupied_of(image: u64, cells: &[u32]) -> usize {
    cells.iter().filter(|&&cell| bit(image, cell)).count()
}

/// Each of some cells is free.
fn cells_free(image: u64, cells: &[u32], number: u8) -> Condition {
    Condition { holds: occupied_of(image, cells) == 0, number, parts: parts_of(cells) }
}

/// Some slots of a side and an orientation, by their rows: each has a shuttle, or none has one.
fn slots_are(image: u64, (side, orientation): (u8, u8), rows: &[u8], there: bool, number: u8) -> Condition {
    let holds = rows.iter().all(|&row| bit(image, slot(side, row, orientation)) == there);
    Condition { holds, number, parts: rows.iter().fold(Parts::NONE, |parts, &row| parts.and_slot(side, row, orientation)) }
}

/// Each of some belts is available: a shuttle's needs its lowered shuttle, the lift's the lift in the basement.
fn belts_available(image: u64, row: u8, belts: &[u32]) -> Condition {
    let all = by_the_words(true, NOT_AVAILABLE);
    belts.iter().fold(all, |all, &belt| match shuttle_side(row, belt) {
        Some(side) => {
            let there = slots_are(image, (side, LOWERED), &[row], true, NOT_AVAILABLE);
            Condition { holds: all.holds && there.holds, parts: all.parts.and(there.parts), ..all }
        }
        None if (row, belt) == (1, 2) => {
            Condition { holds: all.holds && height(image) == BASEMENT, parts: all.parts.and(Parts::LIFT), ..all }
        }
        None => all,
    })
}

/// The first of some, or the last, so many of them, toward d.
fn end_of<T>(some: &[T], d: u8, many: usize) -> &[T] {
    let many = many.min(some.len());
    if d == HIGHER {
        &some[some.len() - many..]
    } else {
        &some[..many]
    }
}

impl Instruction {
    /// Its conditions in the paper's order. (Ill-formed: none.)
    pub fn conditions(&self, image: u64) -> Vec<Condition> {
        match *self {
            _ if !self.well_formed() => Vec::new(),
            Belts { row, mask, d, size } => {
                let belts: Vec<u32> = (0..5).filter(|&belt| named(mask, belt)).collect();
                let cells: Vec<u32> = belts.iter().flat_map(|&belt| belt_cells(row, belt)).collect();
                let even = Condition { holds: occupied_of(image, &cells) % 2 == 0, number: ODD, parts: parts_of(&cells) };
                vec![
                    by_the_words(row == 1 || size == FULL, HALF_MOVE),
                    by_the_words(!belts.is_empty(), NOTHING_NAMED),
                    by_the_words(belts.windows(2).all(|two| two[0] + 1 == two[1]), GAP),
                    belts_available(image, row, &belts),
                    cells_free(image, end_of(&cells, d, shift(row, size) as usize), NO_WAY),
                    if row == 1 { even } else { by_the_words(true, ODD) },
                ]
            }
            Shuttles { side, mask, orientation, d } => {
                let named: Vec<u8> = rows(mask).collect();
                let whole =
                    Condition { holds: even(image, position(side, 1)), number: ODD, parts: Parts::NONE.and_cells(position(side, 1)) };
                let next: Vec<u8> = end_of(&named, d, 1).iter().filter_map(|&row| next_row(row, d)).collect();
                let vacant = slots_are(image, (side, orientation), &next, false, NO_WAY);
                vec![
                    by_the_words(!named.is_empty(), NOTHING_NAMED),
                    by_the_words(named.windows(2).all(|two| two[0] + 1 == two[1]), GAP),
                    slots_are(image, (side, orientation), &named, true, NOT_AVAILABLE),
                    if orientation == LOWERED && named.contains(&1) { whole } else { by_the_words(true, ODD) },
                    Condition { holds: !next.is_empty() && vacant.holds, ..vacant },
                ]
            }
            Tilt { side, row, orientation: LOWERED } => {
                let cells: Vec<u32> = position(side, row).collect();
                vec![slots_are(image, (side, LOWERED), &[1, 2, 3], true, NOT_AVAILABLE), cells_free(image, &cells, CELLS_TAKEN)]
            }
            Tilt { side, row, .. } => {
                vec![
                    slots_are(image, (side, TILTED), &[row], true, NOT_AVAILABLE),
                    slots_are(image, (side, LOWERED), &[row], false, NO_WAY),
                ]
            }
            Lift { height: to } => {
                let [left, right] = [ROW_1.start..LIFT_CELLS.start, LIFT_CELLS.end..ROW_1.end].map(|side| even(image, side));
                let whole = height(image) != BASEMENT || free(image, LIFT_CELLS) || left && right;
                vec![
                    Condition { holds: height(image) != to, number: SAME_HEIGHT, parts: Parts::LIFT },
                    Condition { holds: whole, number: ODD, parts: Parts::LIFT.and_cells(ROW_1) },
                ]
            }
            Rotate => {
                let cells: Vec<u32> = ROTATION_CELLS.into_iter().flatten().collect();
                let turning = Condition { holds: height(image) == ROTATION, number: NOT_AT_ROTATION, parts: Parts::LIFT };
                vec![turning, cells_free(image, &cells, CELLS_TAKEN)]
            }
        }
    }
}
