//! The side of harness.c.

use crate::judged::{command, panel_command, places};
use crate::{lent, Command, Side};
use reference::REASONS;
use shared::handed;

/// The station's entries, the report's, and behind them the plain station's and the panel's, as harness.c numbers them.
pub struct Station;

const REPORT_START: u8 = command::ENTRIES.len() as u8;
const REPORT_MESSAGE: u8 = REPORT_START + 1;
const REPORT_LINES: u8 = REPORT_START + 2;
const PLAIN_AT: u8 = REPORT_START + 3;

impl Side for Station {
    #[cfg(feature = "wrong")]
    fn list(&self) -> &'static str {
        "station"
    }

    fn call(&self, lent: &mut command::Command) -> u32 {
        match lent.entry {
            REPORT_START => places::start(lent.output),
            REPORT_MESSAGE => places::message(lent.output, lent.room, lent.input),
            REPORT_LINES => places::lines(lent.input, lent.first, lent.output),
            PLAIN_AT.. => {
                lent.entry -= PLAIN_AT;
                panel_command::call(lent)
            }
            _ => command::call(lent),
        }
    }

    fn handed(&self, given: &command::Command) -> u8 {
        let sort = given.room.first_chunk().and_then(|room| handed::handed(&reference::Station::from_bytes(room)));
        handed::ALL.iter().position(|&one| Some(one) == sort).map_or(self.sorts(), |at| at as u8)
    }

    fn sorts(&self) -> u8 {
        handed::ALL.len() as u8
    }

    fn shows(&self, sort: u8, number: u8) -> bool {
        handed::ALL.get(usize::from(sort)).is_some_and(|sort| sort.shown_by(number))
    }

    fn gives(&self, entry: u8, number: u8) -> bool {
        let report = |numbers: &[u8]| numbers.contains(&number);
        match entry {
            REPORT_START => report(&[0, 17]),
            REPORT_MESSAGE => report(&[0, 17, 40]),
            REPORT_LINES => report(&[0, 4, 17]),
            PLAIN_AT.. => panel_command::ENTRIES.get(usize::from(entry - PLAIN_AT)).is_some_and(|(_, numbers)| numbers.contains(&number)),
            _ => command::ENTRIES.get(usize::from(entry)).is_some_and(|(_, numbers)| numbers.contains(&number)),
        }
    }
}

/// Where a call's answer says why an instruction isn't allowed on a sound record: the opcode in the upper byte, the number; else 0.
///
/// # Safety
/// Each run is valid for its size, and overlaps no other.
#[no_mangle]
pub unsafe extern "C" fn reference_reason(given: &Command, answer: u32) -> u16 {
    command::reason_told(&lent(given), answer).map_or(0, |(opcode, number)| u16::from_be_bytes([opcode, number]))
}

/// Whether an opcode can be refused with a number for what a sound record is.
#[no_mangle]
pub extern "C" fn reference_refuses(opcode: u8, number: u8) -> bool {
    REASONS.contains(&(opcode, number))
}
