//! Calls of the plain station's entries and of the panel's, for runs that compare them, and what an answer tells.
use crate::calls::{lent_station, record_call, station_call};
use crate::traffic::{any_bytes, Numbers};
use crate::trials::Given;
use reference::panel_command::{CARS, CARS_SIZE, CONDITION, CONDITION_SIZE, EVENT, NEXT, RECORD, REQUEST, RESULT, STATIONS};
use reference::{Call, Station, REASON_NUMBERS};

/// A call of the station's that the plain one has too, on some bytes.
#[allow(dead_code)] // commands alone don't come by messages
pub fn given_by(call: Call, room: Vec<u8>) -> Option<Given> {
    Some(match call {
        Call::Request { count, bytes } => Given { entry: REQUEST, first: count, input: bytes.to_vec(), room, ..Given::default() },
        Call::Event(event) => Given { entry: EVENT, first: event, room, ..Given::default() },
        Call::Result { issue, number, outcome } => Given { entry: RESULT, first: number, second: outcome, issue, room, ..Given::default() },
        _ => return None,
    })
}

/// A call or a question near a station: on one that is lent, or on a record that need not be sound.
pub fn any_call(numbers: &mut Numbers, station: &Station) -> Option<Given> {
    let lent = lent_station(numbers, station);
    if numbers.one_in(3) {
        let question = record_call(numbers, lent.record);
        let (entry, size) = match numbers.below(3) {
            0 => (CONDITION, CONDITION_SIZE),
            1 => (NEXT, RECORD),
            _ => (CARS, CARS_SIZE),
        };
        let size = if numbers.one_in(10) { numbers.below(size as u64) as usize } else { size + numbers.below(3) as usize };
        let first = if numbers.one_in(8) { numbers.byte() } else { numbers.below(7) as u8 };
        return Some(Given { entry, first, output: any_bytes(numbers, size), ..question });
    }
    let call = station_call(numbers, &lent);
    let entry = STATIONS.iter().position(|&entry| entry == call.entry)?;
    Some(Given { entry: entry as u8, ..call })
}

/// Where an answer says why an instruction isn't allowed: its opcode and the number.
pub fn reason(entry: u8, input: &[u8], answer: u32) -> Option<(u8, u8)> {
    let [number, place, ..] = answer.to_le_bytes();
    let at = if entry == REQUEST { 5 * usize::from(place) } else { 0 };
    REASON_NUMBERS.contains(&number).then(|| (input[at], number))
}
