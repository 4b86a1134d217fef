//! The two proved engines, called with what a command gives: the plain one's entries, and the packed one's that must say the same.
use reference::panel_command::{CARS, CONDITION, EVENT, NEXT, REQUEST, RESULT};
use shared::trials::{on_copies, Given, Left};
use station::raw::{panel as panel_raw, station as raw};

/// Why a record is not looked at by the panel; the station's question on a record doesn't ask.
const UNSOUND: u8 = 15;

/// By the plain engine.
pub fn plain(given: &Given) -> Left {
    let &Given { entry, first, second, issue, image, ref input, .. } = given;
    let (lent, length) = (input.as_ptr(), input.len());
    // each run is lent with its own length, and none overlaps another
    on_copies(given, |room, output| unsafe {
        match entry {
            REQUEST => panel_raw::plain_request(room.as_mut_ptr(), room.len(), first, lent, length),
            EVENT => panel_raw::plain_event(room.as_mut_ptr(), room.len(), first),
            RESULT => panel_raw::plain_result(room.as_mut_ptr(), room.len(), issue, first, second),
            CONDITION => panel_raw::panel_condition(image, lent, length, first, output.as_mut_ptr(), output.len()),
            NEXT => panel_raw::panel_next(image, lent, length, output.as_mut_ptr(), output.len()),
            _ => panel_raw::panel_cars(image, output.as_mut_ptr(), output.len()),
        }
    })
}

/// By the packed engine, where it has the call: the station's three, the next record, and of the cars how many they are. Of a condition it
/// knows nothing, and of a record that isn't sound it is not asked.
pub fn packed(given: &Given, plain: u32) -> Option<Left> {
    let &Given { entry, first, second, issue, image, ref input, .. } = given;
    let (lent, length) = (input.as_ptr(), input.len());
    if entry == CONDITION || entry >= CONDITION && plain as u8 == UNSOUND {
        return None;
    }
    if entry == CARS {
        // where they stand the packed engine doesn't tell
        if plain as u8 == 0 {
            assert_eq!(unsafe { raw::garage_cars(image) }, plain >> 16, "the cars of {image:#018x}");
        }
        return None;
    }
    Some(on_copies(given, |room, output| unsafe {
        match entry {
            REQUEST => raw::station_request(room.as_mut_ptr(), room.len(), first, lent, length),
            EVENT => raw::station_event(room.as_mut_ptr(), room.len(), first),
            RESULT => raw::station_result(room.as_mut_ptr(), room.len(), issue, first, second),
            _ => raw::garage_next(image, lent, length, output.as_mut_ptr(), output.len()),
        }
    }))
}
