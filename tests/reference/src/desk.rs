//! A reference desk, written from the change request's words alone over the reference station. Its cars are things that stand somewhere
//! and are carried along, each with its card's number; a number has no place of its own but in the bytes that a host lends. Everything is
//! total: no input makes a function panic.

use crate::{
    answer, belt_cells, bit, position, Answer, Instruction, Parts, Station, BASEMENT, BEGIN_IN, BEGIN_OUT, DONE, DRIVE_IN, DRIVE_OUT,
    END_DONE, FULL, HIGHER, LIFT_CAR, LIFT_CELLS, LOWERED, OTHER_ROWS, ROW_1,
};
use std::collections::BTreeSet;
use std::ops::Range;

/// Where a car stands: over some cells, or on the raised lift.
#[derive(Clone, Debug, PartialEq, Eq)]
pub enum Stand {
    Over(Range<u32>),
    Raised,
}
use Stand::{Over, Raised};

#[derive(Clone, Debug, PartialEq, Eq)]
pub struct Car {
    pub card: u32,
    pub stand: Stand,
}

impl Stand {
    /// Where an instruction that is done has taken what stood here.
    fn carried(&self, by: &Instruction) -> Stand {
        match (self, *by) {
            // a belt takes along what stands on the belts that move
            (Over(cells), Instruction::Belts { row, mask, d, size }) if cells.clone().all(|cell| runs(row, mask, cell)) => {
                let step = if row == 1 && size == FULL { 2 } else { 1 };
                Over(if d == HIGHER { cells.start + step..cells.end + step } else { cells.start - step..cells.end - step })
            }
            // a lowered shuttle what stands on it, to the same side of the next row, whose places may be wider
            (Over(cells), Instruction::Shuttles { side, mask, orientation: LOWERED, d }) => {
                let rows = (1..=3u8).filter(|row| mask >> (row - 1) & 1 == 1);
                let row = rows.into_iter().find(|&row| position(side, row) == *cells);
                Over(row.map_or(cells.clone(), |row| position(side, if d == HIGHER { row + 1 } else { row - 1 })))
            }
            // the lift what stands on it: down in the basement over its two cells, else raised
            (Raised, Instruction::Lift { height: BASEMENT }) => Over(LIFT_CELLS),
            (Over(cells), Instruction::Lift { .. }) if *cells == LIFT_CELLS => Raised,
            _ => self.clone(),
        }
    }

    /// What a car that stands here stands on.
    pub fn parts(&self) -> Parts {
        match self {
            Over(cells) => Parts::NONE.and_cells(cells.clone()),
            Raised => Parts::LIFT,
        }
    }

    /// Its place as it is told: of two half cells the lower.
    pub fn told(&self) -> u8 {
        self.place(LIFT_CAR)
    }

    fn place(&self, raised: u32) -> u8 {
        match self {
            Over(cells) => cells.start as u8,
            Raised => raised as u8,
        }
    }
}

/// Whether a cell is one of these belts'.
fn runs(row: u8, mask: u8, cell: u32) -> bool {
    (0..5).any(|belt| mask >> belt & 1 == 1 && belt_cells(row, belt).contains(&cell))
}

/// Where the cars of a sound record stand, row by row; the raised lift last.
pub fn layout(record: u64) -> Vec<Stand> {
    let (mut stands, mut cell) = (Vec::new(), ROW_1.start);
    while cell < ROW_1.end {
        let width = if bit(record, cell) { 2 } else { 0 };
        if width > 0 {
            stands.push(Over(cell..cell + width));
        }
        cell += width.max(1);
    }
    stands.extend(OTHER_ROWS.into_iter().flatten().filter(|&cell| bit(record, cell)).map(|cell| Over(cell..cell + 1)));
    stands.extend(bit(record, LIFT_CAR).then_some(Raised));
    stands
}

/// Whether some numbers have one twice.
fn twice(cards: &[u32]) -> bool {
    cards.iter().collect::<BTreeSet<_>>().len() < cards.len()
}

/// How many numbers an image comes with.
pub fn wanted(image: u64) -> usize {
    layout(image).len() + usize::from(bit(image, DRIVE_IN))
}

/// The station, the cars in its garage, and the number of one whose driver is still coming in.
#[derive(Clone, Debug, PartialEq, Eq)]
pub struct Desk {
    pub station: Station,
    pub cars: Vec<Car>,
    pub coming: Option<u32>,
}

/// Where a lent desk has its numbers: behind the station's bytes, one for each cell, then these two.
pub const PLACES: usize = 42;
const AT_LIFT: usize = 40;
const AT_DRIVE: usize = 41;

impl Desk {
    pub const SIZE: usize = Station::SIZE + 4 * PLACES;

    pub fn start() -> Self {
        Desk { station: Station::start(), cars: Vec::new(), coming: None }
    }

    pub fn request(&mut self, count: u8, bytes: &[u8]) -> Answer {
        self.station.request(count, bytes)
    }

    /// A success carries cars along; nothing else does.
    pub fn result(&mut self, issue: u16, number: u8, outcome: u8) -> Answer {
        let done = self.station.held().nth(number.into()).filter(|_| outcome == DONE);
        let answer = self.station.result(issue, number, outcome);
        if let (Some(done), 0) = (done, answer.number) {
            self.carry(&done);
        }
        answer
    }

    /// An instruction has taken along what it takes along.
    pub fn carry(&mut self, by: &Instruction) {
        self.cars.iter_mut().for_each(|car| car.stand = car.stand.carried(by))
    }

    /// Whether a number is in the garage, or on its way into it.
    pub fn knows(&self, card: u32) -> bool {
        self.coming == Some(card) || self.cars.iter().any(|car| car.card == card)
    }

    /// A drive-in brings its card's number when it begins; after the station's own refusals it must be a number, and not be known. The
    /// number is the car's once the drive has ended with the car there, and is dropped if it hasn't.
    pub fn event(&mut self, event: u8, card: u32) -> Answer {
        let mut station = self.station;
        let told = station.event(event);
        if told.number != 0 {
            return told;
        }
        match event {
            BEGIN_IN if card == 0 => return answer(37),
            BEGIN_IN if self.knows(card) => return answer(38),
            BEGIN_IN => self.coming = Some(card),
            BEGIN_OUT => {}
            END_DONE => match self.coming.take() {
                Some(card) => self.cars.push(Car { card, stand: Raised }),
                None => self.cars.retain(|car| car.stand != Raised),
            },
            _ => self.coming = None,
        }
        self.station = station;
        told
    }

    /// An image comes with the numbers of its cars in the order of the layout, and behind them that of a drive-in under way: `count` of
    /// them, of which these are given, all or none.
    pub fn image(&mut self, image: u64, apart: u64, count: u8, cards: &[u32]) -> Answer {
        let mut station = self.station;
        let told = station.image(image, apart);
        if told.number != 0 {
            return told;
        }
        if usize::from(count) != wanted(image) {
            return answer(39);
        }
        if cards.contains(&0) {
            return answer(37);
        }
        if twice(cards) {
            return answer(38);
        }
        self.cars = layout(image).into_iter().zip(cards).map(|(stand, &card)| Car { card, stand }).collect();
        self.coming = cards.get(self.cars.len()).copied();
        self.station = station;
        told
    }

    /// The car with a number: where it stands, and whether that is only where it stood last, since something under it is set apart.
    pub fn whereabouts(&self, card: u32) -> Option<(&Stand, bool)> {
        let car = self.cars.iter().find(|car| car.card == card)?;
        Some((&car.stand, self.station.is_apart(&car.stand.parts())))
    }

    /// Where a car would be that something under it is to bring there: an instruction that waits for its result has a part under the car in
    /// its area. Of a car that is told at its last known place nothing is.
    pub fn moving(&self, card: u32) -> Option<Stand> {
        let (stand, _) = self.whereabouts(card).filter(|&(_, last)| !last)?;
        let by = self.station.waiting().find(|one| one.area().meet(&stand.parts()))?;
        Some(stand.carried(&by))
    }

    /// The card of the car that is driving out.
    pub fn leaving(&self) -> Option<u32> {
        let raised = self.cars.iter().find(|car| car.stand == Raised)?;
        bit(self.station.record, DRIVE_OUT).then_some(raised.card)
    }

    /// The numbered cars are exactly those of a record, each number once; a number is coming exactly while a drive-in is under way.
    pub fn are_those_of(&self, record: u64) -> bool {
        let mut numbers: Vec<u32> = self.cars.iter().map(|car| car.card).collect();
        numbers.extend(self.coming);
        let stands = layout(record);
        stands.len() == self.cars.len()
            && stands.iter().all(|stand| self.cars.iter().any(|car| car.stand == *stand))
            && self.coming.is_some() == bit(record, DRIVE_IN)
            && !numbers.contains(&0)
            && !twice(&numbers)
    }

    pub fn to_bytes(&self) -> [u8; Self::SIZE] {
        let mut bytes = [0; Self::SIZE];
        bytes[..Station::SIZE].copy_from_slice(&self.station.to_bytes());
        let placed = self.cars.iter().map(|car| (usize::from(car.stand.place(AT_LIFT as u32)), car.card));
        for (place, card) in placed.chain(self.coming.map(|card| (AT_DRIVE, card))) {
            bytes[Station::SIZE + 4 * place..][..4].copy_from_slice(&card.to_le_bytes());
        }
        bytes
    }

    /// The desk that some bytes are; none where they are no station or their numbers are not those of its cars.
    pub fn from_bytes(bytes: &[u8; Self::SIZE]) -> Option<Self> {
        let station = Station::from_bytes(bytes.first_chunk()?);
        if !station.fit() {
            return None;
        }
        let number = |four: &[u8]| four.iter().rev().fold(0, |all, &byte| all << 8 | u32::from(byte));
        let mut numbers: Vec<u32> = bytes[Station::SIZE..].chunks_exact(4).map(number).collect();
        let mut taken = |place: usize| std::mem::take(&mut numbers[place]);
        let cars = layout(station.record).into_iter().map(|stand| Car { card: taken(stand.place(AT_LIFT as u32).into()), stand }).collect();
        let coming = bit(station.record, DRIVE_IN).then(|| taken(AT_DRIVE));
        let desk = Desk { station, cars, coming };
        (numbers.iter().all(|&left| left == 0) && desk.are_those_of(station.record)).then_some(desk)
    }
}
