//! Desks that are handed in, not reached by calls: what their numbers have that decides whether they are fit, so that a run can say that it
//! was called on all there is. Each has one such thing, and all else about it is as it must be.

use crate::traffic::Numbers;
use reference::desk::{layout, Car, Desk, Stand, PLACES};
use reference::{bit, sound, Parts, Station, DRIVE_IN, LIFT_CAR, LIFT_CELLS};

/// A place of a lent desk: a cell of row 1, of row 2 or 3, the raised lift, and where a number waits.
#[derive(Clone, Copy, Debug, PartialEq, Eq, PartialOrd, Ord)]
pub enum Place {
    First,
    Other,
    Lift,
    Drive,
}
use Place::{Drive, First, Lift, Other};

/// What a handed-in desk has.
#[derive(Clone, Copy, Debug, PartialEq, Eq, PartialOrd, Ord)]
pub enum Handed {
    /// Unfit: its station is, but its record is sound.
    Unfit,
    /// Unfit: a car, or a drive-in under way, without its number.
    Without(Place),
    /// Unfit: a number where there is neither.
    Beside(Place),
    /// Unfit: a number at the upper half of a car too, the car's own or another.
    Upper { own: bool },
    /// Unfit: one number for two, by their places in order.
    Twice(Place, Place),
    /// Fit: of a car of row 1 one half is set apart, the lower or the upper.
    Half { lower: bool },
}
use Handed::{Beside, Half, Twice, Unfit, Upper, Without};

/// All of them; the raised lift bears a car or awaits one, not both.
pub const ALL: [Handed; 20] = [
    Unfit,
    Without(First),
    Without(Other),
    Without(Lift),
    Without(Drive),
    Beside(First),
    Beside(Other),
    Beside(Lift),
    Beside(Drive),
    Upper { own: false },
    Upper { own: true },
    Twice(First, First),
    Twice(First, Other),
    Twice(First, Lift),
    Twice(First, Drive),
    Twice(Other, Other),
    Twice(Other, Lift),
    Twice(Other, Drive),
    Half { lower: false },
    Half { lower: true },
];

impl Handed {
    /// Whether a call's answer shows it: an unfit desk's, or one that is given past the test of fitness alone.
    pub fn shown_by(self, number: u8) -> bool {
        match self {
            Half { .. } => !matches!(number, 1..=5 | 7 | 16 | 17),
            _ => number == 16,
        }
    }
}

fn kind(place: usize) -> Place {
    match place {
        0..=19 => First,
        20..=39 => Other,
        40 => Lift,
        _ => Drive,
    }
}

fn number_at(bytes: &[u8; Desk::SIZE], place: usize) -> u32 {
    let at = Station::SIZE + 4 * place;
    u32::from_le_bytes([bytes[at], bytes[at + 1], bytes[at + 2], bytes[at + 3]])
}

fn put_at(bytes: &mut [u8; Desk::SIZE], place: usize, number: u32) {
    bytes[Station::SIZE + 4 * place..][..4].copy_from_slice(&number.to_le_bytes());
}

/// The places of a record's cars in a lent desk, and the one that waits.
fn bearing(record: u64) -> Vec<usize> {
    let stands = layout(record).into_iter().map(|stand| match stand {
        Stand::Over(cells) => cells.start as usize,
        Stand::Raised => 40,
    });
    stands.chain(bit(record, DRIVE_IN).then_some(41)).collect()
}

/// What a desk's bytes have, if it is one of these.
pub fn handed(bytes: &[u8; Desk::SIZE]) -> Option<Handed> {
    let station = Station::from_bytes(bytes.first_chunk()?);
    if !sound(station.record) {
        return None;
    }
    let bearing = bearing(station.record);
    let faults: Vec<Handed> = (0..PLACES)
        .filter_map(|place| match (bearing.contains(&place), number_at(bytes, place)) {
            (true, 0) => Some(Without(kind(place))),
            (true, number) => {
                let mut earlier = (0..place).filter(|earlier| bearing.contains(earlier));
                earlier.find(|&earlier| number_at(bytes, earlier) == number).map(|earlier| Twice(kind(earlier), kind(place)))
            }
            (false, 0) => None,
            (false, number) if place < 20 && bit(station.record, place as u32) => {
                Some(Upper { own: number_at(bytes, place - 1) == number })
            }
            (false, _) => Some(Beside(kind(place))),
        })
        .collect();
    let half = |place: &usize| {
        let is_apart = |cell: usize| station.is_apart(&Parts::NONE.and_cells(cell as u32..cell as u32 + 1));
        let (lower, upper) = (is_apart(*place), is_apart(place + 1));
        (lower != upper).then_some(Half { lower })
    };
    match (&faults[..], station.fit()) {
        ([], false) => Some(Unfit),
        ([], true) => bearing.iter().filter(|&&place| kind(place) == First).find_map(half),
        (&[fault], true) => Some(fault),
        _ => None,
    }
}

/// One of some, if there is any.
fn one_of<T: Copy>(numbers: &mut Numbers, some: &[T]) -> Option<T> {
    some.get(numbers.below(some.len().max(1) as u64) as usize).copied()
}

/// The bytes of a desk that has one of these, which is picked beforehand, so that none is rare; made from another desk in some tries.
pub fn made(numbers: &mut Numbers, desk: &Desk) -> Option<[u8; Desk::SIZE]> {
    let wanted = ALL[numbers.below(ALL.len() as u64) as usize];
    (0..10).find_map(|_| changed(numbers, desk, wanted))
}

/// A desk with the lift at street and nothing outstanding: with a car on it, or with a drive-in under way; what stood on it before is gone.
fn at_street(numbers: &mut Numbers, desk: &Desk, drive: bool) -> Desk {
    let empty = desk.station.record & !(0b11111 << LIFT_CAR) & !(0b11 << LIFT_CELLS.start);
    let station = Station { record: empty | 1 << if drive { DRIVE_IN } else { LIFT_CAR }, ..Station::start() };
    let beside = |car: &&Car| car.stand != Stand::Raised && car.stand != Stand::Over(LIFT_CELLS);
    let mut cars: Vec<Car> = desk.cars.iter().filter(beside).cloned().collect();
    let card = numbers.next() as u32;
    if !drive {
        cars.push(Car { card, stand: Stand::Raised });
    }
    Desk { station, cars, coming: drive.then_some(card) }
}

/// One try.
fn changed(numbers: &mut Numbers, desk: &Desk, wanted: Handed) -> Option<[u8; Desk::SIZE]> {
    let desk = match wanted {
        Without(Drive) | Twice(_, Drive) => at_street(numbers, desk, true),
        Without(Lift) | Twice(_, Lift) => at_street(numbers, desk, false),
        _ => desk.clone(),
    };
    let (mut bytes, record) = (desk.to_bytes(), desk.station.record);
    let bearing = bearing(record);
    let of = |wanted: Place| -> Vec<usize> { bearing.iter().copied().filter(|&place| kind(place) == wanted).collect() };
    let upper = |place: &usize| *place < 20 && bit(record, *place as u32);
    let free = |wanted: Place| -> Vec<usize> {
        (0..PLACES).filter(|place| kind(*place) == wanted && !bearing.contains(place) && !upper(place)).collect()
    };
    let new = (numbers.next() as u32).max(1);
    match wanted {
        Unfit => bytes[numbers.below(2) as usize * 42 + 9] ^= 1 << numbers.below(8),
        Without(place) => put_at(&mut bytes, one_of(numbers, &of(place))?, 0),
        Beside(place) => put_at(&mut bytes, one_of(numbers, &free(place))?, new),
        Upper { own } => {
            let lower = one_of(numbers, &of(First))?;
            let number = if own { number_at(&bytes, lower) } else { new };
            put_at(&mut bytes, lower + 1, number);
        }
        Twice(one, other) => {
            let (from, to) = (one_of(numbers, &of(one))?, one_of(numbers, &of(other))?);
            let number = number_at(&bytes, from);
            put_at(&mut bytes, to, number);
        }
        Half { lower } => {
            let cell = one_of(numbers, &of(First))? + usize::from(!lower);
            bytes[52..Station::SIZE].copy_from_slice(&(1u64 << cell).to_le_bytes());
        }
    }
    (handed(&bytes) == Some(wanted)).then_some(bytes)
}
