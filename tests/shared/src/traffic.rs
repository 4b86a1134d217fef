//! Seeded traffic: messages as a planner, its motors and its drivers would send them, and damaged ones.
//! What is plausible next is judged by the reference station, which takes each message as it is made.

use reference::{
    cars, drive_under_way, Instruction, Parts, Station, BEGIN_IN, BEGIN_OUT, DONE, END_DONE, END_NOT_DONE, FAILED, REASONS, START, STUCK,
};
use std::collections::BTreeSet;

// Cells of a record: those of row 1, and those of rows 2 and 3.
const ROW_1: u64 = 0xF_FFFF;
const OTHER_ROWS: u64 = ROW_1 << 20;

/// A seeded generator of numbers (splitmix64).
pub struct Numbers(pub u64);

impl Numbers {
    #[allow(clippy::should_implement_trait)] // there is always a next one
    pub fn next(&mut self) -> u64 {
        self.0 = self.0.wrapping_add(0x9E37_79B9_7F4A_7C15);
        let mut z = self.0;
        z = (z ^ (z >> 30)).wrapping_mul(0xBF58_476D_1CE4_E5B9);
        z = (z ^ (z >> 27)).wrapping_mul(0x94D0_49BB_1331_11EB);
        z ^ (z >> 31)
    }

    pub fn below(&mut self, n: u64) -> u64 {
        self.next() % n
    }

    pub fn one_in(&mut self, n: u64) -> bool {
        self.below(n) == 0
    }

    pub fn byte(&mut self) -> u8 {
        self.next() as u8
    }
}

/// Bytes that stand for room: any at all.
pub fn any_bytes(numbers: &mut Numbers, size: usize) -> Vec<u8> {
    (0..size).map(|_| numbers.byte()).collect()
}

/// Five bytes of a well-formed instruction: of eight, three move belts, two shuttles, and one each tilts, moves the lift or turns it;
/// of those that move belts, half are in row 1.
pub fn good_five(numbers: &mut Numbers) -> [u8; 5] {
    let mut pick = |n| numbers.below(n) as u8;
    match pick(8) {
        0..=2 => match pick(2) {
            0 => [1, 1, pick(32), pick(2), pick(2)],
            _ => [1, 2 + pick(2), pick(8), pick(2), pick(2)],
        },
        3 | 4 => [2, pick(2), pick(8), pick(2), pick(2)],
        5 => [3, pick(2), 1 + pick(3), pick(2), 0],
        6 => [4, pick(3), 0, 0, 0],
        _ => [5, 0, 0, 0, 0],
    }
}

/// Five bytes, well formed more often than not.
pub fn any_five(numbers: &mut Numbers) -> [u8; 5] {
    let mut five = good_five(numbers);
    if numbers.one_in(6) {
        five[numbers.below(5) as usize] = if numbers.one_in(2) { numbers.byte() } else { numbers.below(6) as u8 };
    }
    five
}

/// Whether each opcode was refused for all of its reasons, and no other; if not, says what is amiss.
pub fn every_reason(who: &str, came: &BTreeSet<(u8, u8)>) -> bool {
    let amiss: Vec<_> = came.symmetric_difference(&REASONS.into()).copied().collect();
    if !amiss.is_empty() {
        eprintln!("{who}: pairs of opcode and number that never came, or can't come: {amiss:?}");
    }
    amiss.is_empty()
}

/// An instruction that the record refuses, found in some tries; which reason is picked beforehand, so that none is rare.
pub fn refused_five(numbers: &mut Numbers, record: u64) -> Option<[u8; 5]> {
    let (op, reason) = REASONS[numbers.below(REASONS.len() as u64) as usize];
    let refused = |five: &[u8; 5]| five[0] == op && Instruction::read(*five).is_some_and(|one| one.judge(record) == Err(reason));
    (0..100).map(|_| good_five(numbers)).find(refused)
}

/// Instructions that the record allows and that overlap neither each other nor what is taken, as many as are found in some tries. While a
/// drive is under way they mostly leave the lift alone.
pub fn allowed_set(numbers: &mut Numbers, record: u64, mut taken: Parts, wanted: usize) -> Vec<u8> {
    let mut bytes = Vec::new();
    let lift_too = !drive_under_way(record) || numbers.one_in(4);
    for _ in 0..40 * wanted {
        if bytes.len() == 5 * wanted {
            break;
        }
        let five = good_five(numbers);
        let instruction = Instruction::read(five).expect("good_five is well formed");
        let area = instruction.area();
        if !taken.meet(&area) && instruction.allowed(record) && (lift_too || !instruction.takes_lift()) {
            taken = taken.and(area);
            bytes.extend_from_slice(&five);
        }
    }
    bytes
}

pub fn message(kind: u8, body: &[u8]) -> Vec<u8> {
    let mut bytes = vec![2 + body.len() as u8, 0, kind, 0];
    bytes.extend_from_slice(body);
    bytes
}

pub fn request(bytes: &[u8]) -> Vec<u8> {
    let mut body = vec![(bytes.len() / 5) as u8];
    body.extend_from_slice(bytes);
    message(1, &body)
}

pub fn image(record: u64, apart: u64) -> Vec<u8> {
    message(4, &[record.to_le_bytes(), apart.to_le_bytes()].concat())
}

pub fn result(issue: u16, number: u8, outcome: u8) -> Vec<u8> {
    let [low, high] = issue.to_le_bytes();
    message(3, &[low, high, number, outcome])
}

/// A request with some instructions at any places among others that are allowed and overlap neither these nor what is taken.
fn request_among(numbers: &mut Numbers, record: u64, fives: &[[u8; 5]], taken: Parts, wanted: usize) -> Vec<u8> {
    let areas = fives.iter().filter_map(|&five| Instruction::read(five)).fold(taken, |areas, one| areas.and(one.area()));
    let mut bytes = allowed_set(numbers, record, areas, wanted - fives.len());
    for &five in fives {
        let at = 5 * numbers.below(bytes.len() as u64 / 5 + 1) as usize;
        bytes.splice(at..at, five);
    }
    request(&bytes)
}

/// A shuttle move that carries a car to row 1 or from it, or a tilt there, that is allowed and doesn't touch what is taken; found in some tries.
fn beside_the_lift(numbers: &mut Numbers, record: u64, taken: Parts) -> Option<[u8; 5]> {
    let found = |five: &[u8; 5]| {
        Instruction::read(*five).is_some_and(|one| {
            let there = match five[0] {
                2 => one.next(record) ^ record,
                3 => one.area().number(),
                _ => 0,
            } & ROW_1
                != 0;
            there && one.allowed(record) && !taken.meet(&one.area())
        })
    };
    (0..100).map(|_| good_five(numbers)).find(found)
}

/// A request that is refused for one of its instructions.
pub fn refused_request(numbers: &mut Numbers, record: u64, wanted: usize) -> Option<Vec<u8>> {
    let five = refused_five(numbers, record)?;
    Some(request_among(numbers, record, &[five], Parts::NONE, wanted))
}

/// Whether a car stands on the lift in the basement, whole or half.
fn on_the_lift(record: u64) -> bool {
    record >> 53 & 3 == 2 && record >> 11 & 3 != 0
}

/// A request: mostly one that is allowed, of one to three instructions, now and then of up to eight. Of what is set apart it mostly touches
/// nothing. Where a car stands on the lift in the basement, whole or half, the lift is often to go up, beside others.
fn some_request(numbers: &mut Numbers, station: &Station) -> Vec<u8> {
    let (record, apart) = (station.record, if numbers.one_in(8) { Parts::NONE } else { station.apart.unwrap_or(Parts::NONE) });
    let wanted = if numbers.one_in(12) { 8 } else { 1 + numbers.below(3) as usize };
    let refused = if numbers.one_in(24) { refused_request(numbers, record, wanted) } else { None };
    if let Some(request) = refused {
        return request;
    }
    if on_the_lift(record) && numbers.one_in(2) {
        let mut fives = vec![[4, numbers.below(2) as u8, 0, 0, 0]];
        fives.extend(beside_the_lift(numbers, record, apart));
        return request_among(numbers, record, &fives, apart, (wanted + 2).min(8));
    }
    let mut bytes = allowed_set(numbers, record, apart, wanted);
    if numbers.one_in(8) {
        for _ in 0..=numbers.below(2) {
            if bytes.len() < 40 {
                bytes.extend_from_slice(&any_five(numbers));
            }
        }
    }
    request(&bytes)
}

/// How far behind the present set's the issue of a result is: the least and the greatest that is late, the ends of those not issued.
pub const BEHIND: [u16; 4] = [1, 32767, 32768, 65535];

/// The issue of a result: mostly the present set's, else one of those or any.
pub fn some_issue(numbers: &mut Numbers, station: &Station) -> u16 {
    let behind = match numbers.below(24) {
        0 => numbers.next() as u16,
        pick => BEHIND.get(pick as usize - 1).copied().unwrap_or(0),
    };
    station.present_issue().wrapping_sub(behind)
}

/// Whether the motors are in a bad time: so many sets with jams follow so many without.
fn jams(station: &Station) -> bool {
    station.next_issue >> 6 & 1 == 1
}

/// How an instruction ended: mostly it is done; in a bad time one of five is stuck.
fn some_ending(numbers: &mut Numbers, station: &Station) -> u8 {
    match numbers.below(60) {
        0 => numbers.byte(),
        1..=12 if jams(station) => STUCK,
        13..=22 => FAILED,
        _ => DONE,
    }
}

/// A result: mostly of an instruction that waits.
fn some_result(numbers: &mut Numbers, station: &Station) -> Vec<u8> {
    let waiting: Vec<u8> = (0..station.count).filter(|at| station.answered >> at & 1 == 0).collect();
    let number = match waiting.len() {
        0 => numbers.below(9) as u8,
        n if !numbers.one_in(16) => waiting[numbers.below(n as u64) as usize],
        _ => numbers.below(10) as u8,
    };
    let ending = some_ending(numbers, station);
    result(some_issue(numbers, station), number, ending)
}

/// An event: mostly one whose turn it is, else any of the four, or a byte that is none.
fn some_event(numbers: &mut Numbers, record: u64) -> Vec<u8> {
    let begin = if record >> 52 & 1 == 0 { BEGIN_IN } else { BEGIN_OUT };
    let event = match numbers.below(8) {
        0 => numbers.below(6) as u8,
        1 if drive_under_way(record) && numbers.one_in(2) => BEGIN_IN,
        1 | 2 if drive_under_way(record) => END_NOT_DONE,
        _ if drive_under_way(record) => END_DONE,
        1..=3 => BEGIN_IN + numbers.below(2) as u8,
        _ => begin,
    };
    message(2, &[event])
}

/// A sound record with nearly as many cars as there can be: at any height, with a drive under way or not, one shuttle tilted or none on
/// either side, and a few places free.
pub fn crowded_record(numbers: &mut Numbers) -> u64 {
    const AWAY_FROM_THE_LIFT: u64 = 0xF_C3FF;
    let lift = match numbers.below(8) {
        0 => 0,
        1 | 2 => 1 << 55,
        3 | 4 => 1 << 52 | numbers.below(2) << 56,
        5 | 6 => 1 << 53 | numbers.below(2) << 52,
        _ => 2 << 53,
    };
    let row_1 = if lift == 2 << 53 && numbers.one_in(2) { ROW_1 } else { AWAY_FROM_THE_LIFT };
    // both sides with three lowered shuttles, or as at the start, where those of row 3 are tilted and their cells free
    let others = if numbers.one_in(3) { START | OTHER_ROWS & !(1 << 30 | 1 << 39) } else { 0x3F << 40 | OTHER_ROWS };
    let free = (0..numbers.below(3)).fold(0, |free, _| free | 1 << (20 + numbers.below(20)));
    (lift | row_1 | others) & !free
}

/// Some record near the present one: itself, with bits flipped, with other drives under way and another height; one with many cars, itself
/// with few; or any number.
pub fn near_record(numbers: &mut Numbers, record: u64) -> u64 {
    match numbers.below(8) {
        0 => match numbers.below(5) {
            0 | 1 => crowded_record(numbers),
            2 | 3 => record & !OTHER_ROWS,
            _ => numbers.next(),
        },
        1 => record,
        2 => record ^ 3 << numbers.below(19),
        3 => record ^ 1 << (20 + numbers.below(20)),
        4..=6 => record ^ numbers.below(2) << 52 ^ numbers.below(3) << 53 ^ numbers.below(4) << 55,
        _ => record ^ 1 << numbers.below(64),
    }
}

/// An image near the present record, and what it sets apart: mostly nothing, else what is set apart now, one bit, or any.
pub fn near_image(numbers: &mut Numbers, station: &Station) -> (u64, u64) {
    let apart = match numbers.below(16) {
        0 => station.apart_number(),
        1 => 1 << numbers.below(64),
        2 => numbers.next(),
        _ => 0,
    };
    (near_record(numbers, station.record), apart)
}

/// One message whose length is in its range, made for the station as it is.
pub fn framed_message(numbers: &mut Numbers, station: &Station) -> Vec<u8> {
    let idle = station.count == 0;
    let mut bytes = match numbers.below(32) {
        // drivers press where there are nearly too many cars
        2..=7 if cars(station.record) >= Some(26) => some_event(numbers, station.record),
        // somebody has looked
        0 | 1 if idle && station.apart_number() != 0 => image(near_record(numbers, station.record), 0),
        0..=17 if idle => some_request(numbers, station),
        0..=22 if !idle => some_result(numbers, station),
        18 => some_request(numbers, station),
        19 => some_result(numbers, station),
        20..=26 => some_event(numbers, station.record),
        27 => {
            let (record, apart) = near_image(numbers, station);
            image(record, apart)
        }
        28 => {
            let bytes: Vec<u8> = (0..numbers.below(9)).flat_map(|_| any_five(numbers)).collect();
            request(&bytes)
        }
        29 => {
            let size = numbers.below(42) as usize;
            let body: Vec<u8> = (0..size).map(|_| numbers.byte()).collect();
            message(numbers.below(7) as u8, &body)
        }
        _ => message(5, &[]),
    };
    // damage inside the frame: a byte of the kind or the body
    if numbers.one_in(40) {
        let at = 2 + numbers.below(bytes.len() as u64 - 2) as usize;
        bytes[at] = if numbers.one_in(2) { numbers.byte() } else { bytes[at] ^ 1 << numbers.below(8) };
    }
    bytes
}

/// One message, also one that the record refuses, that is cut short or whose length is another; any bytes may follow it.
pub fn any_message(numbers: &mut Numbers, station: &Station) -> Vec<u8> {
    let refused = if numbers.one_in(6) { refused_request(numbers, station.record, 2) } else { None };
    let mut message = refused.unwrap_or_else(|| framed_message(numbers, station));
    if numbers.one_in(10) {
        message[0] = numbers.byte();
    }
    if numbers.one_in(10) {
        message.truncate(numbers.below(message.len() as u64 + 1) as usize);
    }
    let more = numbers.below(3) as usize;
    message.extend(any_bytes(numbers, more));
    message
}

/// A station that is not always one reached by calls.
pub fn damaged_station(numbers: &mut Numbers, station: &Station) -> Station {
    let mut other = *station;
    match numbers.below(8) {
        0 => other.record = near_record(numbers, station.record),
        1 => {
            // instructions that need not be allowed, some of them answered; a drive beside them makes it unfit, or is left out
            other.count = 1 + numbers.below(8) as u8;
            let waits = numbers.below(other.count.into());
            other.answered = if numbers.one_in(2) { 0 } else { numbers.byte() & 0xFF >> (8 - other.count) & !(1 << waits) };
            if numbers.one_in(2) {
                other.record &= !(3 << 55);
            }
            other.set = [0; 40];
            for at in 0..usize::from(other.count) {
                other.set[5 * at..5 * at + 5].copy_from_slice(&good_five(numbers));
            }
        }
        2 => other.count = numbers.below(12) as u8,
        3 => other.answered = numbers.byte(),
        4 => other.set[numbers.below(40) as usize] = numbers.byte(),
        // any parts are fit, and no bit above them is
        6 => {
            other.apart = Parts::shown_by(match numbers.below(4) {
                0 => 1 << 52,
                1 => 1 << numbers.below(64),
                _ => numbers.next() >> (11 + numbers.below(50)),
            })
        }
        // any next issue is fit; every other time one round the end
        5 => other.next_issue = (if numbers.one_in(2) { numbers.next() } else { 65535 + numbers.below(3) }) as u16,
        _ => other = Station { record: crowded_record(numbers), next_issue: station.next_issue, ..Station::start() },
    }
    other
}

/// The station after a message, by the reference.
pub fn after(station: &mut Station, bytes: &[u8]) {
    if let Ok((call, _)) = reference::read_call(bytes) {
        station.take(call);
    }
}

/// A whole input of so many messages, each whole: the program answers all of them.
pub fn input(seed: u64, messages: usize) -> Vec<u8> {
    let mut numbers = Numbers(seed);
    let mut station = Station::start();
    let mut bytes = Vec::with_capacity(messages * 12);
    for _ in 0..messages {
        let message = framed_message(&mut numbers, &station);
        after(&mut station, &message);
        bytes.extend_from_slice(&message);
    }
    bytes
}

/// A short input that may end in mid-message or have a length out of range somewhere.
pub fn damaged_input(seed: u64, messages: usize) -> Vec<u8> {
    let mut numbers = Numbers(seed);
    let mut bytes = input(numbers.next(), messages);
    match numbers.below(4) {
        0 => bytes.truncate(numbers.below(bytes.len() as u64 + 1) as usize),
        1 if !bytes.is_empty() => {
            let at = numbers.below(bytes.len() as u64) as usize;
            bytes[at] = numbers.byte();
        }
        2 => bytes.extend((0..numbers.below(50)).map(|_| numbers.byte())),
        _ => {}
    }
    bytes
}
