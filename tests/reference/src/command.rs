//! What each entry for C must return and leave, by the reference. command.h makes the same calls on the entries.

use crate::{
    answer, answer_message, cars, lent, read_call, set_told, shown_message, sound, Answer, Call, Instruction, Station, REASON_NUMBERS,
};

/// The entries in the order of their numbers, each with the answer numbers that it can give: no others, and a long run gives them
/// all. (What garage_cars and station_version return is not of the table.)
pub const ENTRIES: [(&str, &[u8]); 14] = [
    ("station_start", &[0, 17]),
    ("station_request", &[0, 1, 4, 5, 6, 7, 8, 16, 17, 20, 21, 22, 23, 24, 25, 26, 27, 28, 31, 32]),
    ("station_event", &[0, 4, 6, 10, 16, 17, 31, 32, 33]),
    ("station_result", &[0, 4, 11, 12, 13, 16, 17, 29, 30]),
    ("station_image", &[0, 6, 15, 16, 17]),
    ("station_ask", &[0, 16, 17]),
    ("station_message", &[0, 1, 2, 3, 4, 5, 6, 7, 8, 10, 11, 12, 13, 15, 16, 17, 20, 21, 22, 23, 24, 25, 26, 27, 28, 29, 30, 31, 32, 33]),
    ("garage_sound", &[0, 1]),
    ("garage_cars", &[]),
    ("garage_allowed", &[0, 1, 4, 20, 21, 22, 23, 24, 25, 26, 27, 28, 31]),
    ("garage_next", &[0, 1, 4, 17, 20, 21, 22, 23, 24, 25, 26, 27, 28, 31]),
    ("garage_area", &[0, 1, 4, 17]),
    ("garage_overlap", &[0, 1, 4, 8]),
    ("station_version", &[]),
];

/// The version, its three numbers from the lowest byte up.
const VERSION: [u8; 4] = [0, 0, 1, 0];

/// One call with all that it is given, on lent runs or on runs of its own; what an entry doesn't take is not looked at. Its fields are in the
/// order of `struct command` of command.h.
#[derive(Clone, Default)]
#[repr(C)]
pub struct Given<Room, Input, Output> {
    pub entry: u8,
    /// Its byte arguments: a count, an event, or a number and an outcome.
    pub first: u8,
    pub second: u8,
    /// The set that a result is of.
    pub issue: u16,
    pub image: u64,
    /// What an image sets apart.
    pub apart: u64,
    /// A card's number.
    pub card: u32,
    pub room: Room,
    pub input: Input,
    pub output: Output,
}

/// On lent runs.
pub type Command<'a> = Given<&'a mut [u8], &'a [u8], &'a mut [u8]>;

/// A command in bytes, what it must return and leave, and what a run wants to know of it.
pub struct Trial<T> {
    pub entry: u8,
    pub sent: Vec<u8>,
    pub answer: u32,
    pub left: Vec<u8>,
    pub of_it: T,
}

impl<Own, Its, Made> Given<Own, Its, Made> {
    /// The same call on other runs.
    pub fn on<Room, Input, Output>(&self, room: Room, input: Input, output: Output) -> Given<Room, Input, Output> {
        let &Given { entry, first, second, issue, image, apart, card, .. } = self;
        Given { entry, first, second, issue, image, apart, card, room, input, output }
    }
}

impl Given<Vec<u8>, Vec<u8>, Vec<u8>> {
    /// The trial of it: `call` is the reference's, on a command that is left as the call must leave it; the program has the entry by the
    /// number `first_entry` more.
    pub fn trial<T>(self, first_entry: u8, call: impl FnOnce(&mut Command) -> (u32, T)) -> Trial<T> {
        let mut sent = vec![first_entry + self.entry, self.first, self.second];
        sent.extend(self.issue.to_le_bytes());
        sent.extend(self.image.to_le_bytes());
        sent.extend(self.apart.to_le_bytes());
        sent.extend(self.card.to_le_bytes());
        for run in [&self.room, &self.input, &self.output] {
            let length = u16::try_from(run.len()).expect("a length of two bytes");
            // a byte for the length, and 255 where two more have it
            match u8::try_from(length) {
                Ok(short) if short < u8::MAX => sent.push(short),
                _ => sent.extend([&[u8::MAX][..], &length.to_le_bytes()].concat()),
            }
            sent.extend(run);
        }
        let (mut room, mut output) = (self.room.clone(), self.output.clone());
        let (answer, of_it) = call(&mut self.on(&mut room, &self.input, &mut output));
        Trial { entry: self.entry, sent, answer, left: [room, output].concat(), of_it }
    }
}

/// The bytes of a record, of a record with what is set apart, and of an instruction.
const RECORD: usize = 8;
pub const SHOWN: usize = 16;
pub const CODE: usize = 5;

/// An answer as a number: from the lowest, a byte for its number, one for its place, and two for its issue.
pub fn said(Answer { number, place, issue }: Answer) -> u32 {
    let [low, high] = issue.to_le_bytes();
    u32::from_le_bytes([number, place, low, high])
}

pub fn put(room: &mut [u8], bytes: &[u8]) {
    room[..bytes.len()].copy_from_slice(bytes)
}

/// The station that the first bytes of a room are; of a room that is too short any, since its call is refused.
fn station_in(room: &[u8]) -> Station {
    room.first_chunk().map_or(Station::start(), Station::from_bytes)
}

/// A call on the lent station, which is written back if the call is taken.
fn on_station(room: &mut [u8], bytes_for_all: bool, call: impl FnOnce(&mut Station) -> Answer) -> Answer {
    lent(room.len() >= Station::SIZE, bytes_for_all, || {
        let mut station = station_in(room);
        let answer = call(&mut station);
        if answer.number == 0 {
            put(room, &station.to_bytes());
        }
        answer
    })
}

/// A request, its set lent as a run of bytes; of more than eight instructions no bytes are asked for.
fn request(room: &mut [u8], count: u8, set: &[u8]) -> Answer {
    on_station(room, count > 8 || set.len() >= CODE * usize::from(count), |station| station.request(count, set))
}

/// The record of the lent station and what is set apart, put to a room for both.
fn ask(room: &[u8], shown: &mut [u8]) -> Answer {
    lent(room.len() >= Station::SIZE && shown.len() >= SHOWN, true, || {
        let mut station = station_in(room);
        let answer = station.ask();
        if answer.number == 0 {
            put(shown, &station.shown());
        }
        answer
    })
}

/// The reply to a message, as an answer and as bytes.
fn reply(station: &mut Station, message: &[u8]) -> (Answer, Vec<u8>) {
    let (answer, asked) = match read_call(message) {
        Err(refused) => (refused.answer, false),
        Ok((call, _)) => (station.take(call), call == Call::Ask),
    };
    let bytes = if asked && answer.number == 0 { shown_message(station).to_vec() } else { answer_message(answer).to_vec() };
    (answer, bytes)
}

/// A message answered on the lent station, which is written back if the message is taken; where its reply doesn't fit nothing is written.
fn message(room: &mut [u8], message: &[u8], output: &mut [u8]) -> Answer {
    let mut station = station_in(room);
    let (answer, bytes) = reply(&mut station, message);
    lent(room.len() >= Station::SIZE && output.len() >= bytes.len(), true, || {
        if answer.number == 0 {
            put(room, &station.to_bytes());
        }
        put(output, &bytes);
        answer
    })
}

/// What a request of the one instruction of these bytes would be told on an image, and the record after it if that is taken.
fn verdict(image: u64, five: &[u8]) -> (Answer, Option<u64>) {
    let Some(instruction) = five.first_chunk().and_then(|&five| Instruction::read(five)) else { return (answer(4), None) };
    match instruction.asked(image) {
        Ok(()) => (answer(0), Some(instruction.next(image))),
        Err(number) => (answer(number), None),
    }
}

fn allowed(image: u64, five: &[u8]) -> Answer {
    lent(true, five.len() >= CODE, || verdict(image, five).0)
}

fn next(image: u64, five: &[u8], output: &mut [u8]) -> Answer {
    lent(output.len() >= RECORD, five.len() >= CODE, || {
        let (answer, after) = verdict(image, five);
        if let Some(after) = after {
            put(output, &after.to_le_bytes());
        }
        answer
    })
}

/// The area of the instruction of these bytes, put to a room for it.
fn area(five: &[u8], output: &mut [u8]) -> Answer {
    lent(output.len() >= RECORD, five.len() >= CODE, || {
        let Some(instruction) = five.first_chunk().and_then(|&five| Instruction::read(five)) else { return answer(4) };
        put(output, &instruction.area().record_bits().to_le_bytes());
        answer(0)
    })
}

/// What a request of these two is told for overlapping, or for bytes that say no instruction.
fn overlap(one: &[u8], other: &[u8]) -> Answer {
    lent(true, one.len() >= CODE && other.len() >= CODE, || set_told(&[&one[..CODE], &other[..CODE]].concat()))
}

/// Where a call's answer says why an instruction isn't allowed on a sound record: its opcode and the number. A station that answers so
/// is fit; of the questions on any image, those on a sound one count.
pub fn reason_told(command: &Command, answer: u32) -> Option<(u8, u8)> {
    let [number, place, ..] = answer.to_le_bytes();
    if !REASON_NUMBERS.contains(&number) {
        return None;
    }
    let at = match command.entry {
        1 => CODE * usize::from(place),
        6 => 5 + CODE * usize::from(place),
        9 | 10 if sound(command.image) => 0,
        _ => return None,
    };
    Some((command.input[at], number))
}

/// What the call returns; its rooms are left as it must leave them.
pub fn call(command: &mut Command) -> u32 {
    let &mut Command { entry, first, second, issue, image, apart, ref mut room, input, ref mut output, .. } = command;
    said(match entry {
        0 => on_station(room, true, |station| {
            *station = Station::start();
            answer(0)
        }),
        1 => request(room, first, input),
        2 => on_station(room, true, |station| station.event(first)),
        3 => on_station(room, true, |station| station.result(issue, first, second)),
        4 => on_station(room, true, |station| station.image(image, apart)),
        5 => ask(room, output),
        6 => message(room, input, output),
        7 => return sound(image).into(),
        8 => return cars(image).unwrap_or(255),
        9 => allowed(image, input),
        10 => next(image, input, output),
        11 => area(input, output),
        12 => overlap(input, room),
        _ => return u32::from_le_bytes(VERSION),
    })
}
