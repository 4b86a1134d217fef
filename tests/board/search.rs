//! Looks for the calls that take the most instructions: `search ROUNDS SEED KNOWN FOUND COUNTS PROGRAM..`, where the program makes calls as it is
//! told to and the emulator writes how many each took to the file COUNTS. It begins with the calls of the file KNOWN. Each round changes the worst calls of each entry so far a little, in ways that
//! matter (a bit of the record, an instruction of the set, one more), and makes new ones: full sets, stations that are refused late.
//! Writes the worst calls to the file FOUND, as tests/board/worst has them; it is run by hand.

mod commands;

use reference::command::ENTRIES;
use reference::{Parts, Station};
use shared::calls::{any_call, lent_station};
use shared::traffic::{self, any_five, good_five, Numbers};
use shared::trials::Given;

const KEPT: usize = 12;
const CHANGED: usize = 48;
/// Where a station's bytes have its count, its answered instructions and their codes.
const COUNT_AT: usize = 8;
const CODES_AT: usize = 10;

/// A station with a full set outstanding on a record with many cars, or with few.
fn full_station(numbers: &mut Numbers, station: &Station) -> Station {
    let mut other = *station;
    if numbers.one_in(2) {
        other.record = traffic::crowded_record(numbers);
    }
    let set = traffic::allowed_set(numbers, other.record, Parts::NONE, 8);
    other.count = (set.len() / 5) as u8;
    other.answered = 0;
    other.set = [0; 40];
    other.set[..set.len()].copy_from_slice(&set);
    other
}

/// A call with a full set: requested, sent as a message, or outstanding.
fn full_call(numbers: &mut Numbers, station: &Station) -> Given {
    let full = full_station(numbers, station);
    if numbers.one_in(2) {
        return any_call(numbers, &full);
    }
    let set = full.set[..5 * usize::from(full.count)].to_vec();
    let room = Station { count: 0, set: [0; 40], ..full }.to_bytes().to_vec();
    if numbers.one_in(2) {
        return Given { entry: 1, first: full.count, room, input: set, ..Given::default() };
    }
    Given { entry: 6, room, input: traffic::request(&set), output: vec![0; 20], ..Given::default() }
}

fn change_five(numbers: &mut Numbers, codes: &mut [u8]) {
    if codes.len() < 5 {
        return;
    }
    let at = 5 * numbers.below(codes.len() as u64 / 5) as usize;
    codes[at..at + 5].copy_from_slice(&if numbers.one_in(8) { any_five(numbers) } else { good_five(numbers) });
}

fn change_bit(numbers: &mut Numbers, bytes: &mut [u8]) {
    if bytes.is_empty() {
        return;
    }
    bytes[numbers.below(bytes.len() as u64) as usize] ^= 1 << numbers.below(8);
}

/// A call a little different from another.
fn changed(numbers: &mut Numbers, given: &Given) -> Given {
    let mut other = given.clone();
    for _ in 0..=numbers.below(3) {
        match numbers.below(8) {
            0 | 1 if other.room.len() >= 60 => change_bit(numbers, &mut other.room[..8]),
            2 if other.room.len() >= 60 => {
                let codes = &mut other.room[CODES_AT..50];
                change_five(numbers, codes)
            }
            3 if other.room.len() >= 60 => other.room[COUNT_AT + numbers.below(2) as usize] = numbers.below(9) as u8,
            4 if other.entry == 1 || other.entry >= 9 => change_five(numbers, &mut other.input),
            4 | 5 if other.entry == 6 && other.input.len() > 5 => change_five(numbers, &mut other.input[5..]),
            5 if other.entry == 1 && other.first < 8 => {
                other.first += 1;
                other.input.extend(good_five(numbers));
            }
            5 if other.entry == 12 => change_five(numbers, &mut other.room),
            6 => other.image ^= 1 << numbers.below(57),
            7 if numbers.one_in(3) => {
                other.first = numbers.below(9) as u8;
                other.second = numbers.below(3) as u8;
            }
            7 => other.image = traffic::near_record(numbers, other.image),
            _ => change_bit(numbers, &mut other.input),
        }
    }
    other
}

fn main() {
    let words: Vec<String> = std::env::args().collect();
    let [_, rounds, seed, known, found, counts, program @ ..] = &words[..] else {
        panic!("usage: search ROUNDS SEED KNOWN FOUND COUNTS PROGRAM..")
    };
    let (rounds, mut numbers): (usize, Numbers) = (rounds.parse().expect("a number"), Numbers(seed.parse().expect("a number")));
    let mut worst: Vec<Vec<(u32, Given)>> = vec![Vec::new(); ENTRIES.len()];
    let mut station = Station::start();
    for round in 0..rounds {
        let mut tried = if round == 0 { commands::of_file(known) } else { Vec::new() };
        for _ in 0..400 {
            let message = traffic::framed_message(&mut numbers, &station);
            traffic::after(&mut station, &message);
            let lent = lent_station(&mut numbers, &station);
            tried.push(any_call(&mut numbers, &lent));
            tried.push(full_call(&mut numbers, &station));
        }
        for kept in worst.iter().filter(|kept| !kept.is_empty()) {
            for _ in 0..CHANGED {
                let of = numbers.below(kept.len() as u64) as usize;
                tried.push(changed(&mut numbers, &kept[of].1));
            }
        }
        let trials: Vec<_> = tried.iter().map(|given| commands::trial(given.clone(), ())).collect();
        for (took, given) in commands::counted(&trials, u32::MAX, counts, program).into_iter().zip(tried) {
            let kept = &mut worst[usize::from(given.entry)];
            if kept.len() < KEPT || kept.last().is_some_and(|last| last.0 < took) {
                kept.push((took, given));
                kept.sort_by_key(|one| std::cmp::Reverse(one.0));
                kept.truncate(KEPT);
            }
        }
        let most: Vec<u32> = worst.iter().map(|kept| kept.first().map_or(0, |one| one.0)).collect();
        eprintln!("round {round}: {most:?}");
    }
    let line =
        |(_, given): (u32, Given)| commands::trial(given, ()).sent.iter().map(|byte| format!("{byte:02x}")).collect::<String>() + "\n";
    let lines: String = worst.into_iter().flat_map(|kept| kept.into_iter().take(2)).map(line).collect();
    std::fs::write(found, lines).expect("the file is written");
}
