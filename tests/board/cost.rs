//! What calls cost on a processor: `cost PROCESSOR CALLS CORPUS WORST LIMITS COUNTS PROGRAM..`. Makes the calls of the mixed traffic (as many
//! messages, and as many calls of any entry), those of the two files, each answer as the reference's, under an emulator that writes the
//! instructions of each to the file COUNTS. Writes a table: of each entry the mean and the most in the traffic, the most of the corpus and
//! of those searched for; and fails where one is above the limit that the file LIMITS has for the entry on this processor.

mod commands;

use reference::command::ENTRIES;
use reference::Station;
use shared::calls::{any_call, lent_station};
use shared::traffic::{self, Numbers};
use shared::trials::{Given, Trial};
use std::process::exit;

const SEED: u64 = 43;
/// Where calls come from.
const SOURCES: usize = 3;
const TRAFFIC: usize = 0;
/// The columns of the file of limits, behind the entry's name.
const PROCESSORS: [&str; 3] = ["cortex-m4", "rv32", "x86-64"];
const MESSAGE: u8 = 6;

/// Messages as a station in use gets them, each on the station that those before have left, and calls of any entry.
fn traffic(calls: usize) -> Vec<Given> {
    let (mut numbers, mut station, mut all) = (Numbers(SEED), Station::start(), Vec::new());
    for _ in 0..calls {
        let message = traffic::framed_message(&mut numbers, &station);
        let room = station.to_bytes().to_vec();
        traffic::after(&mut station, &message);
        all.push(Given { entry: MESSAGE, room, input: message, output: vec![0; 20], ..Given::default() });
        let lent = lent_station(&mut numbers, &station);
        let call = any_call(&mut numbers, &lent);
        if call.entry != MESSAGE {
            all.push(call);
        }
    }
    all
}

/// The limit of each entry, from lines of its name and a number for each processor.
fn limits(file: &str, processor: &str) -> Vec<u32> {
    let column = 1 + PROCESSORS.iter().position(|&name| name == processor).expect("a processor of the table");
    let text = std::fs::read_to_string(file).expect("the limits");
    let of = |entry: &str| {
        let line = text.lines().map(|line| line.split_whitespace().collect::<Vec<_>>()).find(|words| words.first() == Some(&entry));
        line.unwrap_or_else(|| panic!("{file} has no limit for {entry}"))[column].parse().expect("a number")
    };
    ENTRIES.iter().map(|(entry, _)| of(entry)).collect()
}

fn main() {
    let words: Vec<String> = std::env::args().collect();
    let [_, processor, calls, corpus, worst, of, counts, program @ ..] = &words[..] else {
        panic!("usage: cost PROCESSOR CALLS CORPUS WORST LIMITS COUNTS PROGRAM..")
    };
    let limits = limits(of, processor);
    let sources = [traffic(calls.parse().expect("a number")), commands::of_file(corpus), commands::of_file(worst)];
    let trials: Vec<Trial<usize>> = sources
        .into_iter()
        .enumerate()
        .flat_map(|(source, all)| all.into_iter().map(move |given| commands::trial(given, source)))
        .collect();
    let took = commands::counted(&trials, u32::MAX, counts, program);
    let mut failed = false;
    println!("{processor:<16} calls    mean    most  corpus searched   limit");
    for (at, (entry, _)) in ENTRIES.iter().enumerate() {
        let own = |source: usize| {
            trials
                .iter()
                .zip(&took)
                .filter(move |(trial, _)| usize::from(trial.entry) == at && trial.of_it == source)
                .map(|(_, &took)| took)
        };
        let most: Vec<u32> = (0..SOURCES).map(|source| own(source).max().unwrap_or(0)).collect();
        let (count, sum) = own(TRAFFIC).fold((0_u64, 0), |(count, sum), took| (count + 1, sum + u64::from(took)));
        println!("{entry:<16} {count:>5} {:>7} {:>7} {:>7} {:>8} {:>7}", sum / count.max(1), most[0], most[1], most[2], limits[at]);
        if most.iter().any(|&most| most > limits[at]) {
            eprintln!("cost: {processor}: {entry} took {most:?} instructions, which is above {}", limits[at]);
            failed = true;
        }
    }
    if failed {
        exit(1);
    }
}
