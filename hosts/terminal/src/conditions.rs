//! Conditions in words: what each asks, in the paper's words, and where it is decided: what the cells, slots or lift are that decide it, and
//! which of them are at fault where it fails.

use station::words::{belts_of, named, word, HEIGHTS, ORIENTATIONS, ROWS, SIDES, SIZES, WAYS};
use station::{Condition, Instruction, Number, Record};

/// What a verdict says: of an instruction alone 0 and 31 say more than the table has for every call.
pub fn told(number: Number) -> &'static str {
    match number {
        Number::Taken => "allowed",
        Number::OutOfTurn => "the lift in an area while a drive is under way",
        other => other.words(),
    }
}

/// What a condition asks of the parts that decide it.
#[derive(Clone, Copy, PartialEq)]
enum Asks {
    /// A shuttle in each slot, the lift in the basement.
    There,
    /// Nothing in any cell or slot.
    Free,
    /// An even number of occupied cells.
    Even,
    /// The lift at another height, or at this one.
    Height,
    /// Of the lift that leaves the basement: its cells free, or an even number on either side.
    Whole,
}

/// A condition as the paper has it; and what is said where no part of the floor decides it, but the instruction alone.
struct Asked {
    words: String,
    asks: Asks,
    alone: String,
}

fn asked(words: impl Into<String>, asks: Asks, alone: impl Into<String>) -> Asked {
    Asked { words: words.into(), asks, alone: alone.into() }
}

/// What a mask names.
fn all_named(names: &[&'static str], mask: u8) -> String {
    let all = named(names, mask);
    if all.is_empty() {
        "none is named".to_string()
    } else {
        format!("named: {}", all.join(", "))
    }
}

/// The same, and behind it what it leaves out between two that it names.
fn with_gaps(names: &[&'static str], mask: u8) -> String {
    let inside = |at: u32| mask >> at & 1 == 0 && mask & ((1 << at) - 1) != 0 && mask >> at != 0;
    let gaps: Vec<&str> = (0..).zip(names).filter(|(at, _)| inside(*at)).map(|(_, name)| *name).collect();
    let all = all_named(names, mask);
    if gaps.is_empty() {
        all
    } else {
        format!("{all}; between them: {}", gaps.join(", "))
    }
}

/// The row that shuttles would move into, in words, where there is none.
fn no_next_row(mask: u8, toward: u8) -> String {
    if mask == 0 {
        return "no row is named".to_string();
    }
    format!("there is no row {} than row {}", word(&WAYS, toward), if toward == 0 { 1 } else { 3 })
}

const AVAILABLE: &str = "each is available: a shuttle belt needs its lowered shuttle, the lift belt basement height";
const LEAVING: &str =
    "leaving the basement, cells 11 and 12 are free, or cells 0 to 10 and cells 13 to 19 each hold an even number of occupied cells";

fn belts(row: u8, mask: u8, toward: u8, size: u8) -> Vec<Asked> {
    let long = if (row, size) == (1, 1) { "two cells" } else { "one cell" };
    let counted = if row == 1 { "no belt is named".to_string() } else { format!("row {row}: not asked") };
    vec![
        asked("rows 2 and 3 move full only", Asks::There, format!("row {row}, {}", word(&SIZES, size))),
        asked("at least one belt", Asks::There, all_named(belts_of(row), mask)),
        asked("the belts border each other without a gap", Asks::There, with_gaps(belts_of(row), mask)),
        asked(AVAILABLE, Asks::There, "no shuttle belt and no lift belt is named"),
        asked(format!("the end of the span toward {} is free: {long}", word(&WAYS, toward)), Asks::Free, "no belt is named"),
        asked("in row 1 the number of occupied cells in the span is even", Asks::Even, counted),
    ]
}

fn shuttles(side: u8, mask: u8, orientation: u8, toward: u8) -> Vec<Asked> {
    let (side, stands, way) = (word(&SIDES, side), word(&ORIENTATIONS, orientation), word(&WAYS, toward));
    let whole = format!("if lowered and row 1 is named, an even number of the {side} shuttle's two cells there is occupied");
    let uncounted = if orientation == 0 { "row 1 is not named: not asked" } else { "tilted: not asked" };
    vec![
        asked("at least one row", Asks::There, all_named(&ROWS, mask)),
        asked("no gap", Asks::There, with_gaps(&ROWS, mask)),
        asked(format!("each has a shuttle that is {stands}"), Asks::There, "no row is named"),
        asked(whole, Asks::Even, uncounted),
        asked(format!("a next row toward {way} exists and has no shuttle that is {stands}"), Asks::Free, no_next_row(mask, toward)),
    ]
}

/// The conditions of an instruction in the paper's order.
fn conditions([op, a, b, c, d]: [u8; 5]) -> Vec<Asked> {
    match op {
        1 => belts(a, b, c, d),
        2 => shuttles(a, b, c, d),
        3 if c == 0 => {
            let all = format!("all three of the {} side are lowered", word(&SIDES, a));
            vec![asked(all, Asks::There, ""), asked("the position's cells are free", Asks::Free, "")]
        }
        3 => vec![asked("a tilted one is there", Asks::There, ""), asked("no lowered one is there", Asks::Free, "")],
        4 => vec![asked("the height differs", Asks::Height, ""), asked(LEAVING, Asks::Whole, "")],
        _ => vec![asked("at rotation height", Asks::Height, ""), asked("cells 8, 9, 10, 13, 14, 15 are free", Asks::Free, "")],
    }
}

// ---- where

pub const CELLS: u8 = 40;
pub const SLOTS: std::ops::Range<u8> = 40..52;
pub const LIFT: u8 = 52;

pub fn has(image: u64, at: u8) -> bool {
    image >> at & 1 == 1
}

/// Some numbers, from three that follow each other on as a range.
fn numbers(all: &[u8]) -> String {
    let run = |run: &[u8]| match run {
        [first, _, .., last] => format!("{first} to {last}"),
        few => few.iter().map(u8::to_string).collect::<Vec<_>>().join(", "),
    };
    all.chunk_by(|one, next| one + 1 == *next).map(run).collect::<Vec<_>>().join(", ")
}

/// Some cells by their numbers.
pub fn cells(all: &[u8]) -> String {
    format!("{} {}", if all.len() == 1 { "cell" } else { "cells" }, numbers(all))
}

/// What some cells are, where they should be free, or an even number of them occupied; and whether they are not.
fn of_cells(image: u64, all: &[u8], even: bool) -> (String, bool) {
    let occupied: Vec<u8> = all.iter().copied().filter(|&cell| has(image, cell)).collect();
    let (count, odd) = (occupied.len(), occupied.len() % 2 == 1);
    match (count, even) {
        (0, _) => (format!("{}: free", cells(all)), false),
        (_, false) if all.len() == 1 => (format!("{}: occupied", cells(all)), true),
        (_, true) => (format!("{}: {count} occupied ({}), {}", cells(all), numbers(&occupied), if odd { "odd" } else { "even" }), odd),
        (_, false) => (format!("{}: {} occupied", cells(all), numbers(&occupied)), true),
    }
}

/// The words of a slot: its side, its row, and how a shuttle stands in it.
pub fn slot_words(slot: u8) -> [&'static str; 3] {
    let at = slot - SLOTS.start;
    [word(&SIDES, at / 3 % 2), word(&ROWS, at % 3), word(&ORIENTATIONS, at / 6)]
}

/// What a slot has, where a shuttle should be there or none; and whether that isn't so.
fn of_slot(image: u64, slot: u8, wanted: bool) -> (String, bool) {
    let (there, [side, row, tilted]) = (has(image, slot), slot_words(slot));
    (format!("{side} row {row}: {} {tilted} shuttle", if there { "a" } else { "no" }), there != wanted)
}

/// Where the lift is.
pub fn of_lift(image: u64) -> String {
    format!("lift at {}", word(&HEIGHTS, (image >> 53 & 3) as u8))
}

/// Cells in groups: those that follow each other; of a lift that leaves the basement its own two and those on either side.
fn groups(parts: u64, asks: Asks) -> Vec<Vec<u8>> {
    let all: Vec<u8> = (0..CELLS).filter(|&cell| has(parts, cell)).collect();
    match asks {
        Asks::Whole => [11..13, 0..11, 13..20].map(|group| all.iter().copied().filter(|cell| group.contains(cell)).collect()).into(),
        Asks::Even => {
            if all.is_empty() {
                Vec::new()
            } else {
                vec![all]
            }
        }
        _ => all.chunk_by(|one, next| one + 1 == *next).map(<[u8]>::to_vec).collect(),
    }
}

/// A condition of an instruction on a record: whether it holds, and its lines: what it asks, and what decides it.
pub struct Explained {
    pub holds: bool,
    pub lines: Vec<String>,
}

/// The conditions of an instruction on a sound record, in the paper's order.
pub fn explained(record: Record, instruction: Instruction) -> Vec<Explained> {
    let one = |(asked, condition): (Asked, Condition)| {
        let first = format!("{} {}  {}", condition.number as u8, if condition.holds { "yes" } else { "no " }, asked.words);
        let decided = decided(&asked, &condition, record.0).into_iter().map(|line| format!("        {line}"));
        Explained { holds: condition.holds, lines: std::iter::once(first).chain(decided).collect() }
    };
    let all = record.conditions(instruction).expect("a sound record and an instruction");
    conditions(instruction.five()).into_iter().zip(all).map(one).collect()
}

/// What decides a condition on a record: a line for each part, or for some that belong together.
fn decided(asked: &Asked, condition: &Condition, image: u64) -> Vec<String> {
    let mut lines = Vec::new();
    let mut line = |(what, amiss): (String, bool)| lines.push(if amiss && !condition.holds { format!("{what}, at fault") } else { what });
    if condition.parts.is_empty() {
        line((asked.alone.clone(), true));
        return lines;
    }
    let basement = image >> 53 & 3 == 2;
    if condition.parts.lift() {
        line((
            of_lift(image),
            match asked.asks {
                Asks::There => !basement,
                asks => asks == Asks::Height,
            },
        ));
    }
    for slot in SLOTS.filter(|&slot| condition.parts.has(slot)) {
        line(of_slot(image, slot, asked.asks == Asks::There));
    }
    for (at, group) in groups(condition.parts.0, asked.asks).iter().enumerate() {
        line(of_cells(
            image,
            group,
            match asked.asks {
                Asks::Whole => at > 0,
                asks => asks == Asks::Even,
            },
        ));
    }
    lines
}
