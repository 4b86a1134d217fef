//! Commands for the program that makes calls as it is told to (tests/entries/entries.c), kept as bytes, and a run of them under an emulator
//! that counts each call's instructions.

use reference::command::{self, ENTRIES};
use shared::trials::{self, Given, Limits, Trial};

/// The command that these bytes are.
fn read(bytes: &[u8]) -> Given {
    let number = |from: usize, size: usize| bytes[from..from + size].iter().rev().fold(0, |number, &byte| number << 8 | u64::from(byte));
    let mut rest = &bytes[25..];
    let mut run = || {
        let (run, behind) = rest[1..].split_at(usize::from(rest[0]));
        rest = behind;
        run.to_vec()
    };
    let (room, input, output) = (run(), run(), run());
    let (issue, image, apart, card) = (number(3, 2) as u16, number(5, 8), number(13, 8), number(21, 4) as u32);
    Given { entry: bytes[0], first: bytes[1], second: bytes[2], issue, image, apart, card, room, input, output }
}

/// The commands of a file, a line for each, in hexadecimal; a line that begins with # is a comment.
pub fn of_file(name: &str) -> Vec<Given> {
    let text = std::fs::read_to_string(name).unwrap_or_else(|why| panic!("{name}: {why}"));
    let bytes = |line: &str| -> Vec<u8> {
        (0..line.len() / 2).map(|at| u8::from_str_radix(&line[2 * at..2 * at + 2], 16).expect("hexadecimal")).collect()
    };
    text.lines().filter(|line| !line.starts_with('#')).map(|line| read(&bytes(line))).collect()
}

pub fn trial<T>(given: Given, of_it: T) -> Trial<T> {
    given.trial(0, |command| (command::call(command), of_it))
}

/// Runs all of them, each answer as the reference's, and gives the instructions that each took; `counts` is the file that the emulator's
/// plugin writes.
pub fn counted<T>(trials: &[Trial<T>], stack: u32, counts: &str, program: &[String]) -> Vec<u32> {
    trials::run(&ENTRIES, trials, &Limits::read(&stack.to_string()), program, |_, _| {});
    let bytes = std::fs::read(counts).expect("the counts");
    assert_eq!(bytes.len(), 4 * trials.len(), "a count for each call");
    bytes.chunks_exact(4).map(|four| u32::from_le_bytes(four.try_into().expect("four"))).collect()
}
