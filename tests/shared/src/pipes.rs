//! A program run over its pipes, and the messages that went through them.

use crate::child;
use crate::traffic::Numbers;
use reference::{read_message, Answer, Message};

/// An input in pieces of many sizes.
fn pieces(input: &[u8], seed: u64) -> impl Iterator<Item = &[u8]> {
    let (mut numbers, mut rest) = (Numbers(seed), input);
    std::iter::from_fn(move || {
        if rest.is_empty() {
            return None;
        }
        let most = if numbers.one_in(4) { 7 } else { 200_000 };
        let (piece, behind) = rest.split_at(rest.len().min(1 + numbers.below(most) as usize));
        rest = behind;
        Some(piece)
    })
}

/// What the program writes for an input that comes in pieces, what it tells on standard error, and whether its status is 0.
pub fn run(program: &str, input: &[u8], seed: u64) -> (Vec<u8>, String, bool) {
    child::run(program, pieces(input, seed))
}

/// What a program writes whose status must be 0.
pub fn answers(program: &str, input: &[u8], seed: u64) -> Vec<u8> {
    let (written, told, well) = run(program, input, seed);
    assert!(well, "the program's exit status is not 0: {told}");
    written
}

/// The messages that some bytes begin with, as far as they are whole.
pub fn messages_in(mut bytes: &[u8]) -> impl Iterator<Item = &[u8]> {
    std::iter::from_fn(move || {
        let (message, rest) = bytes.split_at_checked(2 + usize::from(*bytes.first()?))?;
        bytes = rest;
        Some(message)
    })
}

/// What a message says that is an answer.
pub fn answer_in(message: &[u8]) -> Option<Answer> {
    match read_message(message) {
        Ok((Message::Answer(answer), _)) => Some(answer),
        _ => None,
    }
}
