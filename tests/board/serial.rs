//! The station's firmware against the program: `serial PROCESSOR FIRMWARE STATION MESSAGES DAMAGED`. A long run of mixed traffic over the
//! emulated serial line must be answered byte for byte as the program answers it, and so must short runs with a length out of range, after
//! which the board is silent. Then says how much of its stack was ever used, interrupts included.

mod emulator;

use emulator::Board;
use shared::pipes;
use shared::traffic::{self, Numbers};
use std::process::exit;
use std::time::Duration;

const SEED: u64 = 43;

/// The messages that the bytes are, by their lengths.
fn count(bytes: &[u8]) -> usize {
    pipes::messages_in(bytes).count()
}

/// Sends an input and holds what comes back against what must.
fn compare(board: &mut Board, input: Vec<u8>, expected: &[u8]) -> Result<(), String> {
    board.send(input);
    let mut at = 0;
    while at < expected.len() {
        let size = (expected.len() - at).min(1 << 12);
        let Some(got) = board.take(size) else {
            return Err(format!("silent after answer {} or some more; {}", count(&expected[..at]), board.told()));
        };
        if let Some(wrong) = (0..size).find(|&byte| got[byte] != expected[at + byte]) {
            return Err(format!("answer {} is not the program's; {}", count(&expected[..at + wrong]), board.told()));
        }
        at += size;
    }
    Ok(())
}

/// Some messages, a length out of range and more messages: after the refusal nothing comes.
fn damaged(processor: &str, firmware: &str, station: &str, seed: u64) -> Result<(), String> {
    let mut numbers = Numbers(seed);
    let mut input = traffic::input(numbers.next(), 20);
    let length = match numbers.below(3) {
        0 => numbers.below(2),
        1 => 44 + numbers.below(200),
        _ => 256 + numbers.below(60000),
    };
    input.extend((length as u16).to_le_bytes());
    let expected = pipes::answers(station, &input, numbers.next());
    input.extend(traffic::input(numbers.next(), 20));
    let mut board = Board::start(processor, firmware);
    compare(&mut board, input, &expected)?;
    match board.take_piece(Duration::from_millis(300)) {
        Some(_) => Err("it answers after a length out of range".to_string()),
        None => Ok(()),
    }
}

/// All of it, and what it says at the end; the boards are gone then.
fn run(words: &[String]) -> Result<String, String> {
    let [_, processor, firmware, station, messages, runs] = words else {
        panic!("usage: serial PROCESSOR FIRMWARE STATION MESSAGES DAMAGED")
    };
    let (messages, runs): (usize, u64) = (messages.parse().expect("a number"), runs.parse().expect("a number"));
    for run in 0..runs {
        damaged(processor, firmware, station, SEED + run)?;
    }
    let input = traffic::input(SEED, messages);
    let expected = pipes::answers(station, &input, SEED);
    let mut board = Board::start(processor, firmware);
    compare(&mut board, input, &expected)?;
    let (used, whole) = board.stack();
    Ok(format!("{processor}: {messages} messages, each answer as the program's; {used} bytes of stack used, of {whole}"))
}

fn main() {
    match run(&std::env::args().collect::<Vec<_>>()) {
        Ok(told) => println!("board: {told}"),
        Err(why) => {
            eprintln!("board: {why}");
            exit(1);
        }
    }
}
