//! Why a plan on standard input is judged as it is (docs/PLANS.md), in lines below the one that the program `plan` writes: the instruction at
//! fault in the first set that is refused, what stands against it, what to do, and the record before that set; or the last record. The proved
//! entry tells the set, the instruction and the record.

use station::plan::Grounds;
use station::words::Wrong;
use station::{Answer, Issue, Parts, Record};
use std::io::{self, Read, Write};
use std::process::ExitCode;
use terminal::facts::Facts;
use terminal::message::{hexadecimal, instruction, two_numbers, Message};
use terminal::told::{failed, told_version};
use terminal::why::{against, to_do};

/// Where a plan's bytes have its sets.
const SETS: usize = 18;

/// The instructions of a set, by its number.
fn set_in(plan: &[u8], set: u8) -> Vec<[u8; 5]> {
    let size = |at: usize| 5 * usize::from(plan[at]);
    let at = (0..set).fold(SETS, |at, _| at + 1 + size(at));
    plan[at + 1..][..size(at)].chunks_exact(5).map(|five| *five.first_chunk().expect("five")).collect()
}

/// A record drawn, and its bytes.
fn floor(of: &str, record: Record) -> String {
    format!("{of}: image {}\n{record}", hexadecimal(&record.bytes()))
}

/// What stands against a message on a record, and what to do.
fn reasons(record: Record, message: &Message, answer: Answer) -> String {
    let facts = Facts { record, apart: Parts::NONE, issue: 0, set: Vec::new(), stuck: None };
    let lines = against(&facts, message, answer).into_iter().chain([format!("to do: {}", to_do(message, answer))]);
    lines.map(|line| format!("  {line}\n")).collect()
}

/// The lines of a plan.
fn why(plan: &[u8]) -> String {
    let grounds = Grounds::of(plan);
    let answer = |place| grounds.refusal.map(|refusal| Answer { number: refusal.number, place, issue: Issue(0) });
    match (grounds.set, grounds.record, answer(grounds.refusal.and_then(|refusal| refusal.place))) {
        (Some(set), Some(record), Some(answer)) => {
            let fives = set_in(plan, set);
            let at = answer.place.map_or(String::new(), |at| format!("instruction {at}: {}\n", instruction(fives[usize::from(at)])));
            at + &reasons(record, &Message::Request(fives), answer) + &floor(&format!("before set {set}"), record)
        }
        (_, Some(record), _) => floor("at the end", record),
        (_, _, Some(answer)) if answer.number as u8 == 15 => {
            let (record, apart) = two_numbers(plan);
            reasons(record, &Message::Image { record, apart }, answer)
        }
        _ => "no set was tried\n".to_string(),
    }
}

fn session() -> Result<(), Wrong> {
    let mut plan = Vec::new();
    io::stdin().read_to_end(&mut plan).map_err(|why| failed("input", why))?;
    io::stdout().write_all(why(&plan).as_bytes()).map_err(|why| failed("output", why))
}

fn main() -> ExitCode {
    let words: Vec<_> = std::env::args_os().skip(1).collect();
    if words.len() == 1 && words[0] == "--version" {
        return told_version("plan");
    }
    match session() {
        Ok(()) => ExitCode::SUCCESS,
        Err(why) => {
            eprintln!("plan: {why}");
            ExitCode::FAILURE
        }
    }
}
