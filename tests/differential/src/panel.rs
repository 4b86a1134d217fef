//! The entries of panel.h through a program in C, against the reference: `panel COMMANDS STACK PROGRAM..`, where the program is entries.c. So
//! many commands on stations as they come, on handed-in and on damaged ones, in rooms long and short, none with more stack than STACK. Every
//! number that each entry can give must come, and every reason of each opcode that the next record is refused for.

use reference::command;
use reference::desk_command;
use reference::panel_command::{self, ENTRIES, NEXT};
use reference::Station;
use shared::panel_calls::{any_call, reason};
use shared::traffic::{self, every_reason, framed_message, Numbers};
use shared::trials::{self, Limits, Trial};
use std::collections::BTreeSet;
use std::process::exit;

/// The commands; the reference says what each must return and leave. Of each the reason is kept that it tells for an opcode.
fn trials(count: usize) -> Vec<Trial<Option<(u8, u8)>>> {
    let (mut numbers, mut station) = (Numbers(2_400), Station::start());
    let mut trials = Vec::with_capacity(count);
    while trials.len() < count {
        let message = framed_message(&mut numbers, &station);
        traffic::after(&mut station, &message);
        let Some(given) = any_call(&mut numbers, &station) else { continue };
        let (entry, input) = (given.entry, given.input.clone());
        trials.push(given.trial((command::ENTRIES.len() + desk_command::ENTRIES.len()) as u8, |command| {
            let answer = panel_command::call(command);
            (answer, reason(entry, &input, answer))
        }));
    }
    trials
}

pub fn main(words: &[String]) {
    let [_, count, limit, program @ ..] = words else { panic!("usage: panel COMMANDS STACK PROGRAM..") };
    let (trials, limit) = (trials(count.parse().expect("a number")), Limits::read(limit));
    let (mut seen, mut reasons) = (vec![BTreeSet::new(); ENTRIES.len()], BTreeSet::new());
    trials::run(&ENTRIES, &trials, &limit, program, |trial, number| {
        seen[usize::from(trial.entry)].insert(number);
        if trial.entry == NEXT {
            reasons.extend(trial.of_it);
        }
    });
    for ((entry, numbers), seen) in ENTRIES.iter().zip(&seen) {
        if !seen.iter().eq(*numbers) {
            eprintln!("panel: {entry} gave {seen:?}, expected {numbers:?}");
            exit(1);
        }
    }
    if !every_reason("panel", &reasons) {
        exit(1);
    }
    println!(
        "panel: {} commands, each answer and room as the reference's; every number of each entry, {} pairs of opcode and reason",
        trials.len(),
        reasons.len()
    );
}
