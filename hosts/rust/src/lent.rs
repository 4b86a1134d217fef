//! The entries on slices: a call for each, safe, on bytes that are lent for it, whatever they are. [`Station`](crate::Station),
//! [`Desk`](crate::Desk), [`Record`](crate::Record), [`Plan`](crate::plan::Plan) and [`Totals`](crate::Totals) stand on these; a host that
//! keeps its bytes elsewhere, or that tries bytes that are none of theirs, calls them itself. The headers in include/ say what each does.
//!
//! A slice crosses as a pointer and a length, so its pointer is valid for that length; `&mut` slices overlap nothing, and keep two threads
//! from one room. These are all the duties that the headers name, so every call here is sound.

use crate::answers::{Answer, Refusal};
use crate::places::{Place, Whereabouts};
use crate::raw::{desk, drawing, panel, plan, report, station};

/// How long a text or a list is that was written, as the upper half of what an entry returned.
fn length(said: u32) -> Result<usize, Refusal> {
    Answer::of(said).issued().map(|issue| issue.0.into())
}

// ---- include/station.h

/// Writes the start station.
pub fn station_start(room: &mut [u8]) -> Answer {
    Answer::of(unsafe { station::station_start(room.as_mut_ptr(), room.len()) })
}

/// Requests a set of `count` instructions, five bytes each.
pub fn station_request(room: &mut [u8], count: u8, set: &[u8]) -> Answer {
    Answer::of(unsafe { station::station_request(room.as_mut_ptr(), room.len(), count, set.as_ptr(), set.len()) })
}

/// A drive: 1 begins in, 2 begins out, 3 has ended and is done, 4 has ended and is not done.
pub fn station_event(room: &mut [u8], way: u8) -> Answer {
    Answer::of(unsafe { station::station_event(room.as_mut_ptr(), room.len(), way) })
}

/// The result of an instruction of the set with this issue: 0 failed, 1 done, 2 stuck.
pub fn station_result(room: &mut [u8], issue: u16, number: u8, ending: u8) -> Answer {
    Answer::of(unsafe { station::station_result(room.as_mut_ptr(), room.len(), issue, number, ending) })
}

/// An image as the record; what it sets apart must be nothing, which is 0.
pub fn station_image(room: &mut [u8], image: u64, apart: u64) -> Answer {
    Answer::of(unsafe { station::station_image(room.as_mut_ptr(), room.len(), image, apart) })
}

/// Writes the record, and what is set apart: sixteen bytes.
pub fn station_ask(room: &[u8], image: &mut [u8]) -> Answer {
    Answer::of(unsafe { station::station_ask(room.as_ptr(), room.len(), image.as_mut_ptr(), image.len()) })
}

/// Answers the first message of `message`, and writes the message that answers.
pub fn station_message(room: &mut [u8], message: &[u8], reply: &mut [u8]) -> Answer {
    Answer::of(unsafe {
        station::station_message(room.as_mut_ptr(), room.len(), message.as_ptr(), message.len(), reply.as_mut_ptr(), reply.len())
    })
}

/// Whether an image is a possible garage.
pub fn garage_sound(image: u64) -> bool {
    unsafe { station::garage_sound(image) }
}

/// The number of cars of a sound record, else 255.
pub fn garage_cars(image: u64) -> u32 {
    unsafe { station::garage_cars(image) }
}

/// What a request of one instruction would be told on a record.
pub fn garage_allowed(image: u64, five: &[u8]) -> Answer {
    Answer::of(unsafe { station::garage_allowed(image, five.as_ptr(), five.len()) })
}

/// Writes the record after an instruction: eight bytes.
pub fn garage_next(image: u64, five: &[u8], next: &mut [u8]) -> Answer {
    Answer::of(unsafe { station::garage_next(image, five.as_ptr(), five.len(), next.as_mut_ptr(), next.len()) })
}

/// Writes an instruction's area: eight bytes.
pub fn garage_area(five: &[u8], area: &mut [u8]) -> Answer {
    Answer::of(unsafe { station::garage_area(five.as_ptr(), five.len(), area.as_mut_ptr(), area.len()) })
}

/// Whether two instructions may not stand in one set.
pub fn garage_overlap(one: &[u8], other: &[u8]) -> Answer {
    Answer::of(unsafe { station::garage_overlap(one.as_ptr(), one.len(), other.as_ptr(), other.len()) })
}

/// The archive's version: 65536 times its first number, 256 times its second, and its third.
pub fn station_version() -> u32 {
    unsafe { station::station_version() }
}

// ---- include/desk.h

/// Writes the start desk.
pub fn desk_start(room: &mut [u8]) -> Answer {
    Answer::of(unsafe { desk::desk_start(room.as_mut_ptr(), room.len()) })
}

/// Requests a set, as [`station_request`].
pub fn desk_request(room: &mut [u8], count: u8, set: &[u8]) -> Answer {
    Answer::of(unsafe { desk::desk_request(room.as_mut_ptr(), room.len(), count, set.as_ptr(), set.len()) })
}

/// A drive, as [`station_event`]; where it begins in, with its card's number.
pub fn desk_event(room: &mut [u8], way: u8, card: u32) -> Answer {
    Answer::of(unsafe { desk::desk_event(room.as_mut_ptr(), room.len(), way, card) })
}

/// The result of an instruction, as [`station_result`].
pub fn desk_result(room: &mut [u8], issue: u16, number: u8, ending: u8) -> Answer {
    Answer::of(unsafe { desk::desk_result(room.as_mut_ptr(), room.len(), issue, number, ending) })
}

/// An image as the record, with `count` numbers of its cars, four bytes each.
pub fn desk_image(room: &mut [u8], image: u64, apart: u64, count: u8, cards: &[u8]) -> Answer {
    Answer::of(unsafe { desk::desk_image(room.as_mut_ptr(), room.len(), image, apart, count, cards.as_ptr(), cards.len()) })
}

/// Writes the record, and what is set apart: sixteen bytes.
pub fn desk_ask(room: &[u8], image: &mut [u8]) -> Answer {
    Answer::of(unsafe { desk::desk_ask(room.as_ptr(), room.len(), image.as_mut_ptr(), image.len()) })
}

/// Where the car with a card's number is.
pub fn desk_where(room: &[u8], card: u32) -> Result<Whereabouts, Refusal> {
    let answer = Answer::of(unsafe { desk::desk_where(room.as_ptr(), room.len(), card) });
    let [flag, to] = answer.issued()?.0.to_le_bytes();
    let Some(place) = answer.place.map(Place::of) else { return Ok(Whereabouts::NotHere) };
    Ok(match flag {
        1 => Whereabouts::LastKnown(place),
        2 => Whereabouts::Moving { from: place, to: Place::of(to) },
        _ => Whereabouts::At(place),
    })
}

/// Writes the number of the card that is leaving, or 0: four bytes.
pub fn desk_leaving(room: &[u8], card: &mut [u8]) -> Answer {
    Answer::of(unsafe { desk::desk_leaving(room.as_ptr(), room.len(), card.as_mut_ptr(), card.len()) })
}

/// Writes a line for every car, eight bytes each: 248 bytes. The place of the answer says how many.
pub fn desk_list(room: &[u8], lines: &mut [u8]) -> Answer {
    Answer::of(unsafe { desk::desk_list(room.as_ptr(), room.len(), lines.as_mut_ptr(), lines.len()) })
}

/// Writes what is outstanding: 44 bytes.
pub fn desk_outstanding(room: &[u8], set: &mut [u8]) -> Answer {
    Answer::of(unsafe { desk::desk_outstanding(room.as_ptr(), room.len(), set.as_mut_ptr(), set.len()) })
}

/// Writes a line for each card that an image would move, take away or bring: 496 bytes. The place of the answer says how many.
pub fn desk_compare(room: &[u8], image: u64, apart: u64, count: u8, cards: &[u8], lines: &mut [u8]) -> Answer {
    let (wide, from, to) = (cards.len(), cards.as_ptr(), lines.as_mut_ptr());
    Answer::of(unsafe { desk::desk_compare(room.as_ptr(), room.len(), image, apart, count, from, wide, to, lines.len()) })
}

// ---- include/plan.h

/// What the plan of these bytes is told; the place is that of the set at fault.
pub fn plan_judge(plan: &[u8]) -> Answer {
    Answer::of(unsafe { plan::plan_judge(plan.as_ptr(), plan.len()) })
}

/// The same, and writes on what grounds: eighteen bytes.
pub fn plan_explain(plan: &[u8], room: &mut [u8]) -> Answer {
    Answer::of(unsafe { plan::plan_explain(plan.as_ptr(), plan.len(), room.as_mut_ptr(), room.len()) })
}

// ---- include/drawing.h

/// Writes the drawing of a record, and tells how long it is.
pub fn drawing_write(image: u64, text: &mut [u8]) -> Result<usize, Refusal> {
    length(unsafe { drawing::drawing_write(image, text.as_mut_ptr(), text.len()) })
}

/// Reads a drawing, and writes its record: eight bytes. The place is that of the first line that isn't of its form.
pub fn drawing_read(text: &[u8], room: &mut [u8]) -> Answer {
    Answer::of(unsafe { drawing::drawing_read(text.as_ptr(), text.len(), room.as_mut_ptr(), room.len()) })
}

/// Writes the drawing of what is set apart, and tells how long it is.
pub fn drawing_write_apart(apart: u64, text: &mut [u8]) -> Result<usize, Refusal> {
    length(unsafe { drawing::drawing_write_apart(apart, text.as_mut_ptr(), text.len()) })
}

/// Reads a drawing of what is set apart, and writes it: eight bytes. The place is that of the first line that isn't of its form.
pub fn drawing_read_apart(text: &[u8], room: &mut [u8]) -> Answer {
    Answer::of(unsafe { drawing::drawing_read_apart(text.as_ptr(), text.len(), room.as_mut_ptr(), room.len()) })
}

// ---- include/report.h

/// Writes zeros as the totals of a new report.
pub fn report_start(totals: &mut [u8]) -> Answer {
    Answer::of(unsafe { report::report_start(totals.as_mut_ptr(), totals.len()) })
}

/// Counts the first message of `message`, by what it does on a station; the place is that of the total that is full.
pub fn report_message(totals: &mut [u8], station: &[u8], message: &[u8]) -> Answer {
    let (room, length) = (totals.as_mut_ptr(), totals.len());
    Answer::of(unsafe { report::report_message(room, length, station.as_ptr(), station.len(), message.as_ptr(), message.len()) })
}

/// Writes the report's text, and tells how long it is; `full` is the place of a total that is full, else 255.
pub fn report_lines(totals: &[u8], full: u8, out: &mut [u8]) -> Result<usize, Refusal> {
    length(unsafe { report::report_lines(totals.as_ptr(), totals.len(), full, out.as_mut_ptr(), out.len()) })
}

// ---- include/panel.h

/// As [`station_request`], by the plain station.
pub fn plain_request(room: &mut [u8], count: u8, set: &[u8]) -> Answer {
    Answer::of(unsafe { panel::plain_request(room.as_mut_ptr(), room.len(), count, set.as_ptr(), set.len()) })
}

/// As [`station_event`], by the plain station.
pub fn plain_event(room: &mut [u8], way: u8) -> Answer {
    Answer::of(unsafe { panel::plain_event(room.as_mut_ptr(), room.len(), way) })
}

/// As [`station_result`], by the plain station.
pub fn plain_result(room: &mut [u8], issue: u16, number: u8, ending: u8) -> Answer {
    Answer::of(unsafe { panel::plain_result(room.as_mut_ptr(), room.len(), issue, number, ending) })
}

/// Writes condition `c` of an instruction on a record: eleven bytes.
pub fn panel_condition(image: u64, five: &[u8], c: u8, room: &mut [u8]) -> Answer {
    Answer::of(unsafe { panel::panel_condition(image, five.as_ptr(), five.len(), c, room.as_mut_ptr(), room.len()) })
}

/// Writes the record after an instruction, by the plain engine: eight bytes.
pub fn panel_next(image: u64, five: &[u8], next: &mut [u8]) -> Answer {
    Answer::of(unsafe { panel::panel_next(image, five.as_ptr(), five.len(), next.as_mut_ptr(), next.len()) })
}

/// Writes where each car of a record begins: 31 bytes; and tells how many there are.
pub fn panel_cars(image: u64, room: &mut [u8]) -> Result<usize, Refusal> {
    length(unsafe { panel::panel_cars(image, room.as_mut_ptr(), room.len()) })
}
