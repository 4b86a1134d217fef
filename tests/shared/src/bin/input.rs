//! Writes seeded traffic to standard output: `input SEED MESSAGES`.

use shared::traffic;
use std::io::Write;

fn main() {
    let words: Vec<u64> = std::env::args().skip(1).map(|word| word.parse().expect("a number")).collect();
    let [seed, messages] = words[..] else { panic!("usage: input SEED MESSAGES") };
    std::io::stdout().write_all(&traffic::input(seed, messages as usize)).expect("it is written");
}
