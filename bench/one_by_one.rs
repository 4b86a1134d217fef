//! Messages one by one over a station's pipes.

use std::io::{Read, Write};
use std::process::Child;

pub const ASK: [u8; 4] = [2, 0, 5, 0];

/// The message that some bytes begin with, and the rest.
fn split(bytes: &[u8]) -> Option<(&[u8], &[u8])> {
    bytes.split_at_checked(2 + usize::from(*bytes.first()?))
}

pub fn messages(mut bytes: &[u8]) -> impl Iterator<Item = &[u8]> {
    std::iter::from_fn(move || {
        let (message, rest) = split(bytes)?;
        bytes = rest;
        Some(message)
    })
}

/// Sends a message and reads its answer.
pub fn answered(station: &mut Child, message: &[u8]) {
    let mut room = [0; 20];
    station.stdin.as_mut().expect("a pipe").write_all(message).expect("it reads");
    let from = station.stdout.as_mut().expect("a pipe");
    from.read_exact(&mut room[..2]).expect("it answers");
    let end = 2 + usize::from(room[0]);
    from.read_exact(&mut room[2..end]).expect("it answers");
}
