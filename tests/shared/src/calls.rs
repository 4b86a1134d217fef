//! Calls of the station's entries with all that they are given, for runs that compare them: on lent stations, and questions on records.

use crate::handed;
use crate::traffic::{self, any_bytes, Numbers};
use crate::trials::{room_for, Given};
use reference::Station;

/// A station to lend: mostly the one that there is, else one that is handed in or damaged.
pub fn lent_station(numbers: &mut Numbers, station: &Station) -> Station {
    match numbers.below(6) {
        0 => handed::made(numbers, station).unwrap_or(*station),
        1 | 2 => traffic::damaged_station(numbers, station),
        _ => *station,
    }
}

/// A call on a lent station, of the first six entries.
pub fn station_call(numbers: &mut Numbers, station: &Station) -> Given {
    let room = room_for(numbers, &station.to_bytes());
    match numbers.below(8) {
        0 => Given { entry: 0, room, ..Given::default() },
        1 | 2 => {
            let count = if numbers.one_in(12) { numbers.byte() } else { numbers.below(4) as u8 };
            let mut set: Vec<u8> = (0..count.min(9)).flat_map(|_| traffic::any_five(numbers)).collect();
            if numbers.one_in(10) {
                set.truncate(numbers.below(set.len() as u64 + 1) as usize);
            }
            Given { entry: 1, first: count, room, input: set, ..Given::default() }
        }
        3 => {
            let event = if numbers.one_in(8) { numbers.byte() } else { 1 + numbers.below(4) as u8 };
            Given { entry: 2, first: event, room, ..Given::default() }
        }
        4 | 5 => {
            let number = if numbers.one_in(8) { numbers.byte() } else { numbers.below(4) as u8 };
            let ending = if numbers.one_in(20) { numbers.byte() } else { numbers.below(3) as u8 };
            let issue = traffic::some_issue(numbers, station);
            Given { entry: 3, first: number, second: ending, issue, room, ..Given::default() }
        }
        6 => {
            let (image, apart) = traffic::near_image(numbers, station);
            Given { entry: 4, image, apart, room, ..Given::default() }
        }
        _ => {
            let size = if numbers.one_in(4) { numbers.below(16) } else { 16 + numbers.below(4) } as usize;
            Given { entry: 5, room, output: any_bytes(numbers, size), ..Given::default() }
        }
    }
}

/// A message for a lent station.
pub fn message_call(numbers: &mut Numbers, station: &Station) -> Given {
    let room = room_for(numbers, &station.to_bytes());
    let message = traffic::any_message(numbers, station);
    let size = if numbers.one_in(10) { numbers.below(22) } else { 20 + numbers.below(4) } as usize;
    Given { entry: 6, room, input: message, output: any_bytes(numbers, size), ..Given::default() }
}

/// A question for building sets: an instruction's area, or of two instructions, the second in the room, whether they overlap; now and then
/// the version.
pub fn sets_call(numbers: &mut Numbers) -> Given {
    let cut = |numbers: &mut Numbers| {
        let mut five = traffic::any_five(numbers).to_vec();
        if numbers.one_in(12) {
            five.truncate(numbers.below(5) as usize)
        } else if numbers.one_in(4) {
            five.push(numbers.byte())
        }
        five
    };
    let (one, other) = (cut(numbers), cut(numbers));
    let size = if numbers.one_in(12) { numbers.below(8) } else { 8 + numbers.below(3) } as usize;
    match numbers.below(5) {
        0 | 1 => Given { entry: 11, input: one, output: any_bytes(numbers, size), ..Given::default() },
        2 | 3 => Given { entry: 12, room: other, input: one, ..Given::default() },
        _ => Given { entry: 13, ..Given::default() },
    }
}

/// A question on a record near one.
pub fn record_call(numbers: &mut Numbers, record: u64) -> Given {
    let image = if numbers.one_in(3) { record } else { traffic::near_record(numbers, record) };
    let refused = if numbers.one_in(4) { traffic::refused_five(numbers, image) } else { None };
    let mut five = refused.unwrap_or_else(|| traffic::any_five(numbers)).to_vec();
    if numbers.one_in(20) {
        five.truncate(numbers.below(5) as usize);
    }
    let size = if numbers.one_in(20) { numbers.below(8) } else { 8 + numbers.below(3) } as usize;
    match numbers.below(5) {
        0 => Given { entry: 7, image, ..Given::default() },
        1 => Given { entry: 8, image, ..Given::default() },
        2 => Given { entry: 9, image, input: five, ..Given::default() },
        _ => Given { entry: 10, image, input: five, output: any_bytes(numbers, size), ..Given::default() },
    }
}

/// A call of any entry.
pub fn any_call(numbers: &mut Numbers, station: &Station) -> Given {
    match numbers.below(9) {
        0 | 1 => record_call(numbers, station.record),
        2 | 3 => message_call(numbers, station),
        4 => sets_call(numbers),
        _ => station_call(numbers, station),
    }
}
