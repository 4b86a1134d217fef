//! What calls meet of places that are kept open, so that a run can say that it met all there is: begins of drive-ins with the last number
//! of cars that still lets one begin and with those that don't, by all that they can be told; other events with as many cars or more, which
//! are taken; and images with as many as there can be at each height, which are taken too.

use reference::{bit, cars, drive_under_way, Call, Station, BEGIN_IN, BEGIN_OUT, DRIVE_IN, END_DONE, END_NOT_DONE, LIFT_CAR};
use std::collections::BTreeSet;

/// A call's share of them; the cars are those that it finds, or of an image those that it brings.
#[derive(Clone, Copy, Debug, PartialEq, Eq, PartialOrd, Ord)]
pub enum Met {
    Begin {
        cars: u32,
        number: u8,
    },
    /// Another event that is taken, and whether a car was coming.
    Event {
        cars: u32,
        event: u8,
        coming: bool,
    },
    /// An image that is taken: the lift's height, whether a car is raised on it, whether a drive is under way.
    Image {
        cars: u32,
        height: u64,
        raised: bool,
        drive: bool,
    },
}

/// From so many cars on it is looked at what a call meets.
const MANY: u32 = 26;
/// The most cars where the lift is empty at street; a raised car is one more, and in the basement two fit on its cells.
const EMPTY_MOST: u32 = 28;

/// What a call met on a station that answered it with a number, one of those that a station gives to a call past the test that it is fit.
pub fn met(before: &Station, call: Call, number: u8) -> Option<Met> {
    let found = cars(before.record).filter(|found| *found >= MANY);
    match call {
        Call::Event(BEGIN_IN) => found.filter(|cars| *cars <= EMPTY_MOST).map(|cars| Met::Begin { cars, number }),
        Call::Event(event) if number == 0 => found.map(|cars| Met::Event { cars, event, coming: bit(before.record, DRIVE_IN) }),
        Call::Image { image, .. } if number == 0 => {
            let (height, raised, drive) = (image >> 53 & 3, bit(image, LIFT_CAR), drive_under_way(image));
            cars(image).filter(|cars| *cars >= MANY).map(|cars| Met::Image { cars, height, raised, drive })
        }
        _ => None,
    }
}

/// All that there is to meet, by the rules.
fn all() -> BTreeSet<Met> {
    let mut all = BTreeSet::new();
    for cars in MANY..=EMPTY_MOST {
        // what else can be told comes first; and an end is taken, however many there are
        let last = if cars == MANY { 0 } else { 33 };
        all.extend([6, 31, 32, 10, last].map(|number| Met::Begin { cars, number }));
        all.extend([END_DONE, END_NOT_DONE].map(|event| Met::Event { cars, event, coming: true }));
    }
    for cars in MANY..=EMPTY_MOST + 1 {
        all.extend([BEGIN_OUT, END_DONE, END_NOT_DONE].map(|event| Met::Event { cars, event, coming: false }));
    }
    for (height, raised, most) in
        [(0, false, EMPTY_MOST), (0, true, EMPTY_MOST + 1), (1, false, EMPTY_MOST), (1, true, EMPTY_MOST + 1), (2, false, EMPTY_MOST + 2)]
    {
        let drives: &[bool] = if height == 0 { &[false, true] } else { &[false] };
        all.extend((MANY..=most).flat_map(|cars| drives.iter().map(move |&drive| Met::Image { cars, height, raised, drive })));
    }
    all
}

/// Whether this was met and nothing else; if not, says what is amiss.
fn exactly(who: &str, met: &BTreeSet<Met>, wanted: &BTreeSet<Met>) -> bool {
    let amiss: Vec<_> = met.symmetric_difference(wanted).copied().collect();
    if !amiss.is_empty() {
        eprintln!("{who}: what was never met of places kept open, or can't be: {amiss:?}");
    }
    amiss.is_empty()
}

/// Whether all was met that there is.
pub fn every_filling(who: &str, met: &BTreeSet<Met>) -> bool {
    exactly(who, met, &all())
}

/// Whether all was met that there is of events, for a run whose entries take no images.
pub fn every_event(who: &str, met: &BTreeSet<Met>) -> bool {
    exactly(who, met, &all().into_iter().filter(|one| !matches!(one, Met::Image { .. })).collect())
}
