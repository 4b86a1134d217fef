//! Every entry for C against the reference: `entries COMMANDS STACK PROGRAM..`, where the program is entries.c. Seeded commands on
//! stations as they come by calls and on damaged ones, in rooms long and short: what an entry returns and what it leaves in every room
//! must be what the reference says, and no call may take more than so many bytes of stack. Each entry must have given every number that
//! it can give, and no other; those that say why an instruction isn't allowed, every reason of each opcode on sound records. Each call
//! must have been made on handed-in stations of every sort that handed.rs tells apart, and calls must have met all that filling.rs lists.

use reference::command::{self, ENTRIES};
use reference::{read_call, Call, Station, REASONS};
use shared::calls::{any_call, lent_station};
use shared::filling;
use shared::handed::{self, handed, Handed};
use shared::traffic::{self, Numbers};
use shared::trials::{self, Given, Limits, Trial};
use std::collections::{BTreeMap, BTreeSet};
use std::process::exit;

/// Bytes that are no station.
const UNFIT: u8 = 16;

/// What a run wants to know of a command: the reason that its answer gives for an opcode, what its station has, and what it met of places
/// kept open.
struct Told {
    reason: Option<(u8, u8)>,
    handed: Option<Handed>,
    filled: Option<filling::Met>,
}

/// What a command met of places that are kept open, where its station is fit.
fn filled(given: &Given) -> Option<filling::Met> {
    let call = match given.entry {
        2 => Call::Event(given.first),
        4 => Call::Image { image: given.image, apart: given.apart },
        6 => read_call(&given.input).ok()?.0,
        _ => return None,
    };
    let before = Station::from_bytes(given.room.first_chunk()?);
    let number = { before }.take(call).number;
    if number == UNFIT {
        None
    } else {
        filling::met(&before, call, number)
    }
}

/// The trial of a command, by the reference.
fn trial(given: Given) -> Trial<Told> {
    let handed = given.room.first_chunk().and_then(|room| handed(&Station::from_bytes(room)));
    let filled = filled(&given);
    given.trial(0, |command| {
        let answer = command::call(command);
        (answer, Told { reason: command::reason_told(command, answer), handed, filled })
    })
}

fn trials(count: usize) -> Vec<Trial<Told>> {
    let mut numbers = Numbers(20_26);
    let mut station = Station::start();
    (0..count)
        .map(|_| {
            let message = traffic::framed_message(&mut numbers, &station);
            traffic::after(&mut station, &message);
            let lent = lent_station(&mut numbers, &station);
            trial(any_call(&mut numbers, &lent))
        })
        .collect()
}

pub fn main(words: &[String]) {
    let [_, count, limit, program @ ..] = words else { panic!("usage: entries COMMANDS STACK PROGRAM..") };
    let (trials, limit) = (trials(count.parse().expect("a number")), Limits::read(limit));
    let mut seen = vec![BTreeSet::new(); ENTRIES.len()];
    let mut reasons = vec![BTreeSet::new(); ENTRIES.len()];
    let mut met = vec![BTreeMap::new(); ENTRIES.len()];
    let mut filled = BTreeSet::new();
    trials::run(&ENTRIES, &trials, &limit, program, |trial, number| {
        let entry = usize::from(trial.entry);
        seen[entry].insert(number);
        reasons[entry].extend(trial.of_it.reason);
        filled.extend(trial.of_it.filled);
        if let Some(handed) = trial.of_it.handed.filter(|handed| handed.shown_by(number)) {
            *met[entry].entry(handed).or_insert(0) += 1;
        }
    });
    for ((entry, numbers), seen) in ENTRIES.iter().zip(&seen) {
        if !numbers.is_empty() && !seen.iter().eq(*numbers) {
            eprintln!("{entry} gave {seen:?}, expected {numbers:?}");
            exit(1);
        }
    }
    let telling = ENTRIES.iter().zip(&reasons).filter(|((_, numbers), _)| REASONS.iter().any(|(_, reason)| numbers.contains(reason)));
    for ((entry, _), reasons) in telling {
        if !traffic::every_reason(entry, reasons) {
            exit(1);
        }
        println!("entries: {entry} gave {} pairs of opcode and reason on sound records, all that can come", reasons.len());
    }
    for ((entry, _), met) in ENTRIES.iter().zip(&met).filter(|((_, numbers), _)| numbers.contains(&UNFIT)) {
        if !met.keys().eq(&handed::ALL) {
            eprintln!("{entry} was not called on every sort of handed-in station, but on {met:?}");
            exit(1);
        }
        println!(
            "entries: {entry} was called on handed-in stations of {} sorts, on each {} times or more",
            met.len(),
            met.values().min().unwrap_or(&0)
        );
    }
    if !filling::every_filling("entries", &filled) {
        exit(1);
    }
    println!("entries: {} ways to meet places that are kept open, or more cars than leave them so, all that there are", filled.len());
    println!("entries: {} commands, each answer and room as the reference's; every number that each entry can give came", trials.len());
}
