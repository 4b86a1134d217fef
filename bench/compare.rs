//! Times programs on one input, in turns: `compare INPUT MESSAGES NAME COMMAND.. [-- NAME COMMAND..]..`. The first is the measure of
//! the others. Prints for each the least time of five runs, time for a message, throughput, the ratio to the first, and the most memory
//! used, which is never less than this program's own.

use std::fs::File;
use std::process::{Command, Stdio};
use std::time::Instant;

extern "C" {
    // the C library's: waits for a process and tells what it used; the fifth number is the most memory, in KB
    fn wait4(pid: i32, status: *mut i32, options: i32, usage: *mut [i64; 18]) -> i32;
}

/// One run: seconds and KB.
#[allow(clippy::zombie_processes)] // wait4 waits for it
fn run(input: &str, command: &[String]) -> (f64, i64) {
    let stdin = File::open(input).expect("the input is there");
    let begun = Instant::now();
    let child = Command::new(&command[0]).args(&command[1..]).stdin(stdin).stdout(Stdio::null()).spawn().expect("it starts");
    let (mut status, mut usage) = (0, [0; 18]);
    // the child is a process of ours that nothing else waits for, and both places are ours
    let waited = unsafe { wait4(child.id() as i32, &mut status, 0, &mut usage) };
    assert!(waited == child.id() as i32 && status == 0, "it ended badly");
    (begun.elapsed().as_secs_f64(), usage[4])
}

fn main() {
    let words: Vec<String> = std::env::args().skip(1).collect();
    let [input, messages, programs @ ..] = &words[..] else { panic!("usage: compare INPUT MESSAGES NAME COMMAND.. [-- ..]") };
    let messages: f64 = messages.parse().expect("a number");
    let programs: Vec<&[String]> = programs.split(|word| word == "--").collect();
    let length = std::fs::metadata(input).expect("the input is there").len() as f64;
    let mut best = vec![(f64::INFINITY, 0); programs.len()];
    for _ in 0..5 {
        for (best, program) in best.iter_mut().zip(&programs) {
            let (seconds, memory) = run(input, &program[1..]);
            *best = (best.0.min(seconds), best.1.max(memory));
        }
    }
    for ((seconds, memory), program) in best.iter().zip(&programs) {
        let (each, speed, ratio) = (seconds * 1e9 / messages, length / seconds / 1e6, seconds / best[0].0);
        println!("{:<12} {seconds:8.3} s {each:8.1} ns/message {speed:8.0} MB/s {ratio:6.2} times {memory:8} KB", program[0]);
    }
}
