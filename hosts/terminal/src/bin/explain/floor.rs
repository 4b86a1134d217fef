//! A floor for the terminal: the drawing proper, and below it a wider view with the cells' numbers, the shuttles at both ends, the cars
//! with their cards where these are known, and `!` where a part is set apart; then the lift, the drive, what is set apart and the cars in
//! words.

use crate::follow::Floor;
use station::Place;
use terminal::conditions::{cells, has, of_lift, LIFT, SLOTS};
use terminal::facts::{drive, parts};
use terminal::sound::hints;

/// Where the cells begin in a line, and how wide a half cell is.
const MARGIN: usize = 9;
const HALF: usize = 3;

/// A line that is written at its columns.
struct Line(Vec<char>);

impl Line {
    fn put(&mut self, at: usize, text: &str) {
        for (letter, at) in text.chars().zip(at..) {
            if self.0.len() <= at {
                self.0.resize(at + 1, ' ');
            }
            self.0[at] = letter;
        }
    }

    fn text(self) -> String {
        self.0.into_iter().collect::<String>().trim_end().to_string()
    }
}

/// A row of the view: the first of its cells, how many there are and how many half cells each is wide.
struct Row {
    number: u8,
    first: u8,
    count: u8,
    wide: usize,
}

const ROWS: [Row; 3] = [
    Row { number: 1, first: 0, count: 20, wide: 1 },
    Row { number: 2, first: 20, count: 10, wide: 2 },
    Row { number: 3, first: 30, count: 10, wide: 2 },
];
/// The cells on the left of which row 1 has the borders of the lift's belt.
const BORDERS: [u8; 2] = [11, 13];

impl Row {
    /// The column of a cell; behind the left shuttle's cells and before the right one's stands a border.
    fn column(&self, cell: u8) -> usize {
        let halves = self.wide * usize::from(cell - self.first);
        MARGIN + HALF * halves + usize::from(halves >= 2) + usize::from(halves >= 18)
    }

    /// The last column of a cell.
    fn end(&self, cell: u8) -> usize {
        self.column(cell) + HALF * self.wide - 1
    }

    fn numbers(&self) -> String {
        let mut line = Line(Vec::new());
        for cell in self.first..self.first + self.count {
            // two digits, in the middle of the cell
            line.put(self.column(cell) + HALF * (self.wide - 1) / 2 + self.wide - 1, &format!("{cell:2}"));
        }
        line.text()
    }

    /// A shuttle's letter as the drawing has it, and whether a slot of its is set apart.
    fn shuttle(&self, floor: &Floor, side: u8) -> (&'static str, bool) {
        let lowered = SLOTS.start + 3 * side + self.number - 1;
        let letter = match (has(floor.record.0, lowered), has(floor.record.0, lowered + 6)) {
            (true, true) => "B",
            (true, false) => "L",
            (false, true) => "T",
            (false, false) => "-",
        };
        (letter, floor.apart.has(lowered) || floor.apart.has(lowered + 6))
    }

    /// What stands inside a car's marks: its card where it is known and there is room for it.
    fn inside(floor: &Floor, begin: u8, room: usize) -> String {
        let card = floor.cards.iter().find(|card| card.place == Place::Cell(begin)).map(|card| card.card.to_string());
        match card {
            Some(card) if card.len() <= room => format!("{card:^room$}"),
            _ => "#".repeat(room),
        }
    }

    fn cells(&self, floor: &Floor, cars: &[Place]) -> String {
        let mut line = Line(Vec::new());
        let ends = (self.column(self.first), self.end(self.first + self.count - 1));
        line.put(0, &format!("row {}", self.number));
        let (left, right) = (self.shuttle(floor, 0), self.shuttle(floor, 1));
        line.put(ends.0 - 3, &format!("{}{}", left.0, if left.1 { "!" } else { " " }));
        line.put(ends.1 + 2, &format!("{}{}", if right.1 { "!" } else { " " }, right.0));
        for border in [self.column(self.first) + 2 * HALF, self.end(self.first + self.count - 1) - 2 * HALF] {
            line.put(border, "|");
        }
        if self.number == 1 {
            for cell in BORDERS {
                line.put(self.column(cell), "|");
            }
        }
        for cell in self.first..self.first + self.count {
            let mark = if floor.apart.has(cell) { "!" } else { "." };
            line.put(self.column(cell) + HALF * self.wide / 2, mark);
        }
        for &car in cars {
            let Place::Cell(begin) = car else { continue };
            if !(self.first..self.first + self.count).contains(&begin) {
                continue;
            }
            let last = begin + if self.number == 1 { 1 } else { 0 };
            let (from, to) = (self.column(begin), self.end(last));
            let marks = [(begin, "["), (last, "]")].map(|(cell, mark)| if floor.apart.has(cell) { "!" } else { mark });
            line.put(from, &format!("{}{}{}", marks[0], Self::inside(floor, begin, to - from - 1), marks[1]));
        }
        line.text()
    }
}

/// Where a car is.
fn place(place: Place) -> String {
    match place {
        Place::Cell(begin @ 0..=19) => format!("at {}", cells(&[begin, begin + 1])),
        Place::Cell(cell) => format!("at {}", cells(&[cell])),
        Place::Raised => "on the raised lift".to_string(),
    }
}

/// Where a car is going.
fn motion(to: Place) -> String {
    format!(", in motion to {}", place(to).trim_start_matches("at ").trim_start_matches("on "))
}

fn lift(floor: &Floor) -> String {
    let on_it = match floor.cards.iter().find(|card| card.place == Place::Raised) {
        Some(card) => format!(", card {} on it", card.card),
        None if has(floor.record.0, LIFT) => ", a car on it".to_string(),
        None if floor.record.0 >> 53 & 3 == 2 => String::new(),
        None => ", empty".to_string(),
    };
    format!("{}{on_it}{}", of_lift(floor.record.0), if floor.apart.lift() { ", set apart" } else { "" })
}

/// A floor's lines; of a record that is not sound, what is wrong with it.
pub fn lines(floor: &Floor, coming: Option<u32>) -> Vec<String> {
    let (Ok(drawing), Ok(cars)) = (floor.record.drawing(), floor.record.places()) else {
        let hints = hints(floor.record.0).into_iter().map(|hint| format!("  hint: {hint}"));
        return std::iter::once("the record is not sound: there is no such garage".to_string()).chain(hints).collect();
    };
    let mut lines: Vec<String> = drawing.lines().map(str::to_string).collect();
    lines.push(String::new());
    for row in ROWS {
        lines.extend([row.numbers(), row.cells(floor, &cars)]);
    }
    lines.push(String::new());
    lines.push(lift(floor));
    let waits = coming.map_or(String::new(), |card| format!(", card {card}"));
    lines.push(drive(floor.record).map_or("no drive is under way".to_string(), |drive| format!("{drive}{waits}")));
    lines.push(format!("set apart: {}", parts(floor.apart)));
    let known = floor.cards.iter().map(|card| {
        let doubt = if card.last_known { ", its last known place".to_string() } else { card.moving_to.map_or(String::new(), motion) };
        format!("card {} {}{doubt}", card.card, place(card.place))
    });
    lines.push(std::iter::once(format!("cars: {}", cars.len())).chain(known).collect::<Vec<_>>().join("; "));
    lines
}
