//! The reference's side of each call, for the harnesses in C. Each harness is a side of its own: the station with the plain station, the
//! panel and the report, the desk, or drawings.

mod desk;
mod drawing;
mod station;
#[cfg(feature = "wrong")]
mod wrong;

/// The references that calls are held against.
#[cfg(not(feature = "wrong"))]
use ::reference as judged;
#[cfg(feature = "wrong")]
use ::wrong as judged;

use judged::command;
use std::slice::{from_raw_parts, from_raw_parts_mut};

/// What a harness asks of its reference.
trait Side {
    /// The list of its wrong references.
    #[cfg(feature = "wrong")]
    fn list(&self) -> &'static str;

    /// What a call must return; its rooms are left as it must leave them.
    fn call(&self, lent: &mut command::Command) -> u32;

    /// The sort of what is handed in that a call is made on: its place among all, or one past them.
    fn handed(&self, given: &command::Command) -> u8;

    /// How many sorts there are.
    fn sorts(&self) -> u8;

    /// Whether an answer shows that a call was made on something of a sort.
    fn shows(&self, sort: u8, number: u8) -> bool;

    /// Whether an entry can answer with a number.
    fn gives(&self, entry: u8, number: u8) -> bool;
}

/// As `enum side` of compare.h numbers them.
fn side(number: u8) -> &'static dyn Side {
    match number {
        0 => &station::Station,
        1 => &desk::Desk,
        _ => &drawing::Drawing,
    }
}

/// As `struct lent` of command.h.
#[repr(C)]
pub struct Lent {
    bytes: *mut u8,
    size: usize,
}

/// As `struct command` of command.h.
pub type Command = command::Given<Lent, Lent, Lent>;

/// # Safety
/// Each run is valid for its size, and overlaps no other.
unsafe fn lent(given: &Command) -> command::Command<'_> {
    let Command { room, input, output, .. } = given;
    given.on(
        from_raw_parts_mut(room.bytes, room.size),
        from_raw_parts(input.bytes, input.size),
        from_raw_parts_mut(output.bytes, output.size),
    )
}

/// What the call must return; its rooms are left as it must leave them.
///
/// # Safety
/// Each run is valid for its size, and overlaps no other; the same below.
#[no_mangle]
pub unsafe extern "C" fn reference_call(of: u8, given: &Command) -> u32 {
    side(of).call(&mut lent(given))
}

/// The sort of what is handed in that a call is made on.
///
/// # Safety
/// As above.
#[no_mangle]
pub unsafe extern "C" fn reference_handed(of: u8, given: &Command) -> u8 {
    side(of).handed(&lent(given))
}

/// How many sorts there are.
#[no_mangle]
pub extern "C" fn reference_sorts(of: u8) -> u8 {
    side(of).sorts()
}

/// Whether an answer shows that a call was made on something of a sort.
#[no_mangle]
pub extern "C" fn reference_shows(of: u8, sort: u8, number: u8) -> bool {
    side(of).shows(sort, number)
}

/// Whether an entry can answer with a number.
#[no_mangle]
pub extern "C" fn reference_gives(of: u8, entry: u8, number: u8) -> bool {
    side(of).gives(entry, number)
}

/// Told of each call of an entry: what it was given, and what it left and returned.
///
/// # Safety
/// As above.
#[no_mangle]
pub unsafe extern "C" fn reference_told(of: u8, given: &Command, left: &Command, answer: u32) {
    #[cfg(feature = "wrong")]
    wrong::told(side(of), &lent(given), &lent(left), answer);
    #[cfg(not(feature = "wrong"))]
    let _ = (of, given, left, answer);
}
