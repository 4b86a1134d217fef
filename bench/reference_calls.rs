//! Times the reference's calls as bench/entries.c times the entries, each on the same station and arguments, lent as bytes. With a
//! name, only those calls are made and nothing is printed.

use reference::{answer, Answer, Call, Instruction, Station, START};
use std::hint::black_box;
use std::time::Instant;

const CALLS: u32 = 200_000;
const LEFT_BELT: [u8; 5] = [1, 1, 2, 0, 1];
const SHUTTLE: [u8; 5] = [2, 0, 2, 0, 1];
const TILT: [u8; 5] = [3, 0, 3, 1, 0];
const LIFT: [u8; 5] = [4, 2, 0, 0, 0];
const EIGHT: [[u8; 5]; 8] = [
    [1, 1, 1, 0, 1],
    [1, 1, 2, 0, 1],
    [1, 1, 8, 0, 1],
    [1, 1, 16, 0, 1],
    [1, 2, 1, 0, 1],
    [1, 2, 2, 0, 1],
    [1, 2, 4, 0, 1],
    [1, 3, 2, 0, 1],
];
const REQUEST: [u8; 10] = [8, 0, 1, 0, 1, 1, 1, 2, 0, 1];

fn time(name: &str, mut call: impl FnMut()) {
    let only = std::env::args().nth(1);
    if only.as_deref().is_some_and(|only| only != name) {
        return;
    }
    let begun = Instant::now();
    for _ in 0..CALLS {
        call();
    }
    if only.is_some() {
        return;
    }
    println!("{name:<18} {:8.1} ns", begun.elapsed().as_secs_f64() * 1e9 / f64::from(CALLS));
}

/// A call on a station that is lent as bytes and written back if it is taken.
fn lent(room: &[u8; Station::SIZE], call: impl FnOnce(&mut Station) -> Answer) {
    let mut room = *black_box(room);
    let mut station = Station::from_bytes(&room);
    if call(&mut station).number == 0 {
        room = station.to_bytes();
    }
    black_box(room);
}

/// The record after an instruction that is allowed.
fn next(name: &str, five: [u8; 5]) {
    assert!(Instruction::read(five).is_some_and(|one| one.allowed(START)), "{name} is allowed");
    time(name, || {
        black_box(
            Instruction::read(black_box(five)).filter(|one| one.asked(black_box(START)).is_ok()).map(|one| one.next(black_box(START))),
        );
    });
}

fn main() {
    assert_eq!(Station::start().request(8, &EIGHT.concat()), answer(0), "the eight are taken");
    let start = Station::start().to_bytes();
    let mut station = Station::start();
    let issue = station.request(1, &LEFT_BELT).issue;
    let outstanding = station.to_bytes();
    let mut station = Station::start();
    assert_eq!(station.request(8, &EIGHT.concat()).issue, issue);
    let with_eight = station.to_bytes();
    time("station_start", || {
        black_box(Station::start().to_bytes());
    });
    time("station_request", || lent(&start, |station| station.request(black_box(1), black_box(&LEFT_BELT))));
    time("station_event", || lent(&start, |station| station.event(black_box(1))));
    time("station_result", || lent(&outstanding, |station| station.result(black_box(issue), black_box(0), black_box(1))));
    time("station_image", || lent(&start, |station| station.image(black_box(START), black_box(0))));
    time("station_ask", || lent(&start, |station| station.ask()));
    time("station_message", || {
        lent(&start, |station| match reference::read_call(black_box(&REQUEST)) {
            Ok((call @ Call::Request { .. }, _)) => station.take(call),
            _ => answer(4),
        })
    });
    time("garage_sound", || {
        black_box(reference::sound(black_box(START)));
    });
    time("garage_cars", || {
        black_box(reference::cars(black_box(START)));
    });
    time("garage_allowed", || {
        black_box(Instruction::read(black_box(LEFT_BELT)).map(|belts| belts.asked(black_box(START))));
    });
    let eight = EIGHT.concat();
    time("request_of_eight", || lent(&start, |station| station.request(black_box(8), black_box(&eight))));
    time("result_of_eight", || lent(&with_eight, |station| station.result(black_box(issue), black_box(0), black_box(1))));
    time("event_beside_eight", || lent(&with_eight, |station| station.event(black_box(1))));
    time("ask_beside_eight", || lent(&with_eight, |station| station.ask()));
    next("next_by_belt", LEFT_BELT);
    next("next_by_shuttle", SHUTTLE);
    next("next_by_tilt", TILT);
    next("next_by_lift", LIFT);
}
