//! What the reference desk tells of all its cards, of what is outstanding, and of what an image would change: by the words of the desk's page,
//! its bytes by those of the header, over the cars that stand somewhere.

use crate::desk::{Car, Desk};
use crate::{Answer, NO_PLACE};
use std::collections::BTreeMap;

/// What is told of a card: a place, a flag, and the next place.
#[derive(Clone, Copy, Debug, PartialEq, Eq)]
pub struct Line {
    pub card: u32,
    pub place: u8,
    pub flag: u8,
    pub next: u8,
}

/// The flags: the place is sure; it is the last known one; the car is in motion.
pub const SURE: u8 = 0;
pub const LAST: u8 = 1;
pub const MOVES: u8 = 2;

/// Where the card of a drive-in under way is told.
pub const WAITS: u8 = 55;

/// The bytes of a line, of the most lines that a list and a comparison have, and of what is outstanding.
pub const LINE: usize = 8;
pub const LIST: usize = 31 * LINE;
pub const CHANGES: usize = 62 * LINE;
pub const OPEN: usize = 44;

impl Line {
    fn bytes(&self) -> [u8; LINE] {
        let [a, b, c, d] = self.card.to_le_bytes();
        [a, b, c, d, self.place, self.flag, self.next, 0]
    }
}

/// Lines as they are lent: one behind the other, and zeros behind the last.
pub fn written<const N: usize>(lines: &[Line]) -> [u8; N] {
    let mut room = [0; N];
    for (to, line) in room.chunks_exact_mut(LINE).zip(lines) {
        to.copy_from_slice(&line.bytes());
    }
    room
}

impl Desk {
    fn line(&self, car: &Car) -> Line {
        let last = self.station.is_apart(&car.stand.parts());
        let (flag, next) = match self.moving(car.card) {
            Some(to) => (MOVES, to.told()),
            None => (if last { LAST } else { SURE }, 0),
        };
        Line { card: car.card, place: car.stand.told(), flag, next }
    }

    /// Every card, sorted by its place: the cells, the raised lift, and last the one that waits.
    pub fn list(&self) -> Vec<Line> {
        let mut lines: Vec<Line> = self.cars.iter().map(|car| self.line(car)).collect();
        lines.extend(self.coming.map(|card| Line { card, place: WAITS, flag: SURE, next: 0 }));
        lines.sort_by_key(|line| line.place);
        lines
    }

    /// What is outstanding: the issue of the set taken last, how many instructions there are, which of them are answered, and all of them.
    pub fn outstanding(&self) -> [u8; OPEN] {
        let mut open = [0; OPEN];
        open[..2].copy_from_slice(&self.station.present_issue().to_le_bytes());
        open[2..4].copy_from_slice(&[self.station.count, self.station.answered]);
        open[4..].copy_from_slice(&self.station.set);
        open
    }

    /// What an image would change, told as the image would be; the desk stays. Those that leave or get another place come first, each at
    /// the place that it has; then those that are new.
    pub fn compare(&self, image: u64, apart: u64, count: u8, cards: &[u32]) -> (Answer, Vec<Line>) {
        let mut then = self.clone();
        let told = then.image(image, apart, count, cards);
        if told.number != 0 {
            return (told, Vec::new());
        }
        let places = |desk: &Desk| -> BTreeMap<u32, u8> { desk.list().iter().map(|line| (line.card, line.place)).collect() };
        let (now_at, then_at) = (places(self), places(&then));
        let goes_to = |line: &Line| then_at.get(&line.card).copied().unwrap_or(NO_PLACE);
        let changed = self.list().into_iter().filter(|line| goes_to(line) != line.place);
        let mut lines: Vec<Line> = changed.map(|line| Line { next: goes_to(&line), ..line }).collect();
        let new = then.list().into_iter().filter(|line| !now_at.contains_key(&line.card));
        lines.extend(new.map(|line| Line { place: NO_PLACE, flag: SURE, next: line.place, ..line }));
        (told, lines)
    }
}
