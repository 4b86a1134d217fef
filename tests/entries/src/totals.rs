//! The report's entries for C against the reference's counting: `totals PROGRAM MESSAGES`. A host's long run with its totals beside its
//! station; messages on stations as they come and on damaged ones, with totals handed in at their end and one before it; rooms long and
//! short; the text, which must be what the program prints. Every total that a message can raise must have been full once, and told; been
//! one before its end and reached it; and, where another can be full before it, not told.

use reference::places::{self, held, place, put, told, written, BAD_FIELD, NO_PLACE, NO_ROOM, PLACES, SIZE, TAKEN};
use reference::week::{full, happened, totals, Happened, Total, Week};
use reference::Station;
use shared::pipes;
use shared::traffic::{self, any_bytes, any_message, damaged_station, Numbers};
use station::raw::{report, station as raw};
use std::collections::BTreeSet;
use std::process::exit;

fn report_start(room: &mut [u8]) -> u32 {
    unsafe { report::report_start(room.as_mut_ptr(), room.len()) }
}

fn report_message(room: &mut [u8], station: &[u8], message: &[u8]) -> u32 {
    unsafe { report::report_message(room.as_mut_ptr(), room.len(), station.as_ptr(), station.len(), message.as_ptr(), message.len()) }
}

fn report_lines(room: &[u8], full: u8, out: &mut [u8]) -> u32 {
    unsafe { report::report_lines(room.as_ptr(), room.len(), full, out.as_mut_ptr(), out.len()) }
}

fn station_start(room: &mut [u8]) -> u32 {
    unsafe { raw::station_start(room.as_mut_ptr(), room.len()) }
}

fn station_message(room: &mut [u8], message: &[u8], reply: &mut [u8]) -> u32 {
    unsafe { raw::station_message(room.as_mut_ptr(), room.len(), message.as_ptr(), message.len(), reply.as_mut_ptr(), reply.len()) }
}

/// The longest message that a station answers with.
const REPLY: usize = 20;
/// What is always room enough for a report, by the header.
const TEXT: usize = 1092;

/// Totals that start: all 0 in a room that is long enough, whatever stood there, and the rest of it is kept.
fn starts(numbers: &mut Numbers) {
    for length in 0..SIZE + 8 {
        let mut room = any_bytes(numbers, length);
        let mut expected = room.clone();
        let returned = places::start(&mut expected);
        assert_eq!((report_start(&mut room), room), (returned, expected), "a room of {length}");
    }
}

/// Totals as a host may hand them in: any, and those that a message raises mostly near their end.
fn near_the_end(numbers: &mut Numbers, raised: &[Total]) -> Vec<u8> {
    let mut room = any_bytes(numbers, SIZE);
    let mut week = held(&room);
    for &total in raised {
        match numbers.below(4) {
            0 => week.set(total, u32::MAX),
            1 => week.set(total, u32::MAX - 1),
            _ => {}
        }
    }
    match numbers.below(4) {
        0 => week.set(Total::MostCars, u32::MAX),
        1 => week.set(Total::MostCars, numbers.below(32) as u32),
        _ => {}
    }
    put(&week, &mut room);
    room
}

/// Which totals were told as full, which reached their end, and which were full behind another that was told.
#[derive(Default)]
struct Met {
    told: BTreeSet<Total>,
    reached: BTreeSet<Total>,
    behind: BTreeSet<Total>,
}

/// One message on a lent station, with these totals: what must be returned and left.
fn expected(room: &[u8], happened: &Happened, met: &mut Met) -> (u32, Vec<u8>) {
    let before = held(room);
    let mut week = before.clone();
    let counted = week.count(happened);
    let mut left = room.to_vec();
    put(&week, &mut left);
    if let Err(total) = counted {
        assert_eq!(week, before, "the reference counts nothing of it");
        met.told.insert(total);
        met.behind.extend(happened.raised.iter().filter(|&&other| other != total && before.get(other) == u32::MAX));
    } else {
        met.reached.extend(happened.raised.iter().filter(|&&total| week.get(total) == u32::MAX));
    }
    (counted.err().map_or(TAKEN, told), left)
}

/// Messages on any stations with any totals, in rooms that may be longer than they need.
fn any_totals(numbers: &mut Numbers, messages: usize) -> Met {
    let (mut station, mut met) = (Station::start(), Met::default());
    for at in 0..messages {
        let whole = traffic::framed_message(numbers, &station);
        traffic::after(&mut station, &whole);
        let lent = if numbers.one_in(3) { damaged_station(numbers, &station) } else { station };
        let message = any_message(numbers, &lent);
        let happened = happened(&mut { lent }, &message);
        let mut room = near_the_end(numbers, &happened.raised);
        let mut station_room = lent.to_bytes().to_vec();
        let (more, beside) = (numbers.below(3) as usize, numbers.below(3) as usize);
        room.extend(any_bytes(numbers, more));
        station_room.extend(any_bytes(numbers, beside));
        let (returned, left) = expected(&room, &happened, &mut met);
        let given = room.clone();
        let answer = report_message(&mut room, &station_room, &message);
        if (answer, &room) != (returned, &left) {
            eprintln!("totals: message {at}, {message:02X?}\non {lent:02X?}\nreturned {answer:#x}, expected {returned:#x}");
            eprintln!("given    {given:02X?}\nleft     {room:02X?}\nexpected {left:02X?}");
            exit(1);
        }
    }
    met
}

/// Rooms that are too short: told before all else, also where a total is full, and nothing is written.
fn short_rooms(numbers: &mut Numbers) {
    let station = Station::start().to_bytes();
    let ask = [2, 0, 5, 0];
    for value in [0, 0xFF] {
        let full = [value; SIZE];
        for length in 0..SIZE {
            let mut room = full[..length].to_vec();
            assert_eq!((report_message(&mut room, &station, &ask), &room[..]), (NO_ROOM, &full[..length]));
            assert_eq!(report_message(&mut room, &[], &[]), NO_ROOM);
            let mut out = any_bytes(numbers, TEXT);
            let kept = out.clone();
            assert_eq!((report_lines(&room, NO_PLACE, &mut out), out), (NO_ROOM, kept));
        }
        for length in 0..Station::SIZE {
            let mut room = full;
            assert_eq!((report_message(&mut room, &station[..length], &ask), room), (NO_ROOM, full));
        }
    }
}

/// The text of a report in a room of so many bytes: it is written where it fits, and what stands past it is kept.
fn text_in(numbers: &mut Numbers, room: &[u8], full: u8, text: &str, length: usize) {
    let mut out = any_bytes(numbers, length);
    let mut expected = out.clone();
    let mut returned = NO_ROOM;
    if text.len() <= length {
        expected[..text.len()].copy_from_slice(text.as_bytes());
        returned = written(text.len());
    }
    assert_eq!((report_lines(room, full, &mut out), out), (returned, expected), "{text:?} in {length} bytes");
}

/// What is neither a place nor none is told before a room that is too short.
fn no_places(numbers: &mut Numbers) {
    for no_place in PLACES as u8..NO_PLACE {
        for (totals, length) in [(SIZE, TEXT), (SIZE, 0), (SIZE - 1, TEXT)] {
            let mut out = any_bytes(numbers, length);
            let kept = out.clone();
            assert_eq!((report_lines(&vec![0; totals], no_place, &mut out), out), (BAD_FIELD, kept), "{no_place} for a place");
        }
    }
}

/// Texts of totals of many sizes, in rooms of every length round the text's own; and of each total that is full.
fn texts(numbers: &mut Numbers) {
    for round in 0..300 {
        let mut room = any_bytes(numbers, SIZE + 2);
        let mut week = Week::default();
        for total in totals() {
            let bits = numbers.below(33);
            week.set(
                total,
                match round {
                    0 => 0,
                    1 => u32::MAX,
                    _ => ((numbers.next() & 0xFFFF_FFFF) >> (32 - bits)) as u32,
                },
            );
        }
        put(&week, &mut room);
        let text = week.report();
        assert!(text.len() <= TEXT, "a report of {} bytes", text.len());
        let lengths = if round < 2 { 0..text.len() + 3 } else { text.len() - 2..text.len() + 3 };
        for length in lengths {
            text_in(numbers, &room, NO_PLACE, &text, length);
        }
        for total in totals() {
            let text = full(total);
            for length in text.len() - 1..text.len() + 2 {
                text_in(numbers, &room, place(total), &text, length);
            }
        }
    }
}

/// What report_lines writes for totals.
fn text_of(room: &[u8], full: u8) -> Vec<u8> {
    let mut out = vec![0; TEXT];
    let returned = report_lines(room, full, &mut out);
    assert_eq!(returned % 65536, TAKEN, "there is room for the text");
    out.truncate((returned / 65536) as usize);
    out
}

/// A host: it counts each message before its station answers it, and goes on whatever comes.
fn long_run(seed: u64, messages: usize) {
    let mut numbers = Numbers(seed);
    let (mut room, mut station_room, mut reply) = ([0xFF; SIZE], [0xFF; Station::SIZE], [0; REPLY]);
    let (mut week, mut station) = (Week::default(), Station::start());
    assert_eq!((report_start(&mut room), station_start(&mut station_room)), (TAKEN, TAKEN));
    for at in 0..messages {
        let message = if numbers.one_in(4) { any_message(&mut numbers, &station) } else { traffic::framed_message(&mut numbers, &station) };
        week.count(&happened(&mut station, &message)).expect("no run is that long");
        assert_eq!(report_message(&mut room, &station_room, &message), TAKEN, "message {at}");
        station_message(&mut station_room, &message, &mut reply);
        if at % 1024 == 0 || at + 1 == messages {
            let mut expected = [0; SIZE];
            put(&week, &mut expected);
            assert_eq!((room, station_room), (expected, station.to_bytes()), "after message {at}");
            assert_eq!(text_of(&room, NO_PLACE), week.report().as_bytes(), "after message {at}");
        }
    }
}

/// The program and the entries on one input: the same text.
fn as_the_program(program: &str) {
    let input = traffic::input(21, 20_000);
    let (mut room, mut station_room, mut reply, mut rest) = ([0; SIZE], [0; Station::SIZE], [0; REPLY], &input[..]);
    station_start(&mut station_room);
    while !rest.is_empty() {
        assert_eq!(report_message(&mut room, &station_room, rest), TAKEN);
        station_message(&mut station_room, rest, &mut reply);
        rest = &rest[2 + usize::from(rest[0])..];
    }
    assert_eq!(pipes::answers(program, &input, 21), text_of(&room, NO_PLACE));
}

pub fn main(words: &[String]) {
    let [_, program, messages] = words else { panic!("usage: totals PROGRAM MESSAGES") };
    let messages: usize = messages.parse().expect("a number");
    let mut numbers = Numbers(1905);
    starts(&mut numbers);
    short_rooms(&mut numbers);
    no_places(&mut numbers);
    texts(&mut numbers);
    as_the_program(program);
    long_run(31, messages);
    let met = any_totals(&mut numbers, messages);
    // the largest number of cars is never too large, and no message is told of a room; an unknown kind counts under its answer alone
    let can: BTreeSet<Total> = totals().filter(|total| !matches!(total, Total::MostCars | Total::Answer(17))).collect();
    let after_another: BTreeSet<Total> = can.iter().filter(|total| !matches!(total, Total::Kind(_) | Total::Answer(3))).copied().collect();
    let all = [
        ("told as full", &met.told, &can),
        ("raised to its end", &met.reached, &can),
        ("full behind another", &met.behind, &after_another),
    ];
    for (what, met, can) in all {
        let amiss: Vec<String> = met.symmetric_difference(can).map(Total::to_string).collect();
        if !amiss.is_empty() {
            eprintln!("totals: {what} never, or it can't be: {amiss:?}");
            exit(1);
        }
    }
    println!("totals: {messages} messages beside a station, and as many with totals near their end, all as the reference's");
    println!("totals: {} totals told as full, all that can be, {} of them behind another too", met.told.len(), met.behind.len());
}
