//! The report's totals as bytes, as its entries for C are lent them (include/report.h): where each stands, and what each entry must return
//! and leave, by the reference's counting.

use crate::week::{full, happened, totals, Total, Week};
use crate::Station;

/// The places of totals, and their bytes.
pub const PLACES: usize = 52;
pub const SIZE: usize = 4 * PLACES;
pub const NO_PLACE: u8 = 255;

/// What the entries return: taken, a field out of range, too short a room, and a total that is full.
pub const TAKEN: u32 = said(0, NO_PLACE);
pub const BAD_FIELD: u32 = said(4, NO_PLACE);
pub const NO_ROOM: u32 = said(17, NO_PLACE);
const fn said(number: u8, place: u8) -> u32 {
    number as u32 + 256 * place as u32
}
pub fn told(total: Total) -> u32 {
    said(40, place(total))
}
/// A text of so many bytes was written.
pub fn written(length: usize) -> u32 {
    TAKEN + 65536 * length as u32
}

/// Where a total stands: in the report's order, with a place for each of the answers 0 to 33.
pub fn place(total: Total) -> u8 {
    match total {
        Total::Kind(kind) => kind - 1,
        Total::Answer(number) => 5 + number,
        Total::Done(op) => 38 + op,
        Total::Failed(op) => 43 + op,
        Total::CarsIn => 49,
        Total::CarsOut => 50,
        Total::MostCars => 51,
    }
}

/// The total at a place, also of an answer that is not in use.
fn total_at(at: u8) -> Option<Total> {
    let by_op = (1..=5).map(Total::Done).chain((1..=5).map(Total::Failed));
    let mut all =
        (1..=5).map(Total::Kind).chain((0..=33).map(Total::Answer)).chain(by_op).chain([Total::CarsIn, Total::CarsOut, Total::MostCars]);
    all.find(|&total| place(total) == at)
}

/// The totals in bytes, over what stands there: places of no total keep theirs.
pub fn put(week: &Week, room: &mut [u8]) {
    for total in totals() {
        let at = 4 * usize::from(place(total));
        room[at..at + 4].copy_from_slice(&week.get(total).to_le_bytes());
    }
}

/// The totals that bytes hold.
pub fn held(room: &[u8]) -> Week {
    let mut week = Week::default();
    for total in totals() {
        let at = 4 * usize::from(place(total));
        week.set(total, u32::from_le_bytes(room[at..at + 4].try_into().expect("four bytes")));
    }
    week
}

// ---- The entries -------------------------------------------------------------------------------

/// report_start.
pub fn start(room: &mut [u8]) -> u32 {
    if room.len() < SIZE {
        return NO_ROOM;
    }
    room[..SIZE].fill(0);
    TAKEN
}

/// report_message: the message is counted on a copy of the station.
pub fn message(room: &mut [u8], station: &[u8], message: &[u8]) -> u32 {
    let Some(station) = station.first_chunk().filter(|_| room.len() >= SIZE) else { return NO_ROOM };
    let mut week = held(room);
    if let Err(full) = week.count(&happened(&mut Station::from_bytes(station), message)) {
        return told(full);
    }
    put(&week, room);
    TAKEN
}

/// report_lines.
pub fn lines(room: &[u8], full_at: u8, out: &mut [u8]) -> u32 {
    let full_one = total_at(full_at);
    if full_one.is_none() && full_at != NO_PLACE {
        return BAD_FIELD;
    }
    if room.len() < SIZE {
        return NO_ROOM;
    }
    let text = full_one.map_or_else(|| held(room).report(), full);
    let Some(to) = out.get_mut(..text.len()) else { return NO_ROOM };
    to.copy_from_slice(text.as_bytes());
    written(text.len())
}
