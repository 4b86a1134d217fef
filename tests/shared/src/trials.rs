//! Commands for the program that makes calls as it is told to (entries.c): each in bytes, with what the call must return and leave; and
//! the run of them, in which each answer is held against that.

use crate::traffic::{any_bytes, Numbers};
pub use reference::command::Trial;
use std::io::{BufReader, Read, Write};
use std::process::{exit, Stdio};

/// A command on runs of its own.
pub type Given = reference::command::Given<Vec<u8>, Vec<u8>, Vec<u8>>;

/// What a call returned, and what it left of the room and of the room to write.
pub type Left = (u32, Vec<u8>, Vec<u8>);

/// A call on copies of the rooms.
pub fn on_copies(given: &Given, call: impl FnOnce(&mut [u8], &mut [u8]) -> u32) -> Left {
    let (mut room, mut output) = (given.room.clone(), given.output.clone());
    let answer = call(&mut room, &mut output);
    (answer, room, output)
}

/// A room with these bytes in it: mostly longer than they are, now and then too short.
pub fn room_for(numbers: &mut Numbers, bytes: &[u8]) -> Vec<u8> {
    let mut room = bytes.to_vec();
    if numbers.one_in(25) {
        room.truncate(numbers.below(bytes.len() as u64) as usize);
    } else {
        let more = numbers.below(4) as usize;
        room.extend(any_bytes(numbers, more));
    }
    room
}

/// The most stack that calls may take, as `BYTES[,ENTRY=BYTES..]`: those of every entry but the ones that are named.
pub struct Limits {
    pub most: u32,
    others: Vec<(String, u32)>,
}

impl Limits {
    pub fn read(text: &str) -> Limits {
        let number = |word: &str| word.parse().expect("a number of bytes");
        let mut words = text.split(',');
        let most = number(words.next().unwrap_or_default());
        let other = |word: &str| word.split_once('=').map(|(entry, bytes)| (entry.to_string(), number(bytes))).expect("ENTRY=BYTES");
        Limits { most, others: words.map(other).collect() }
    }

    /// That of an entry.
    pub fn of(&self, entry: &str) -> u32 {
        self.others.iter().find(|(name, _)| name == entry).map_or(self.most, |(_, bytes)| *bytes)
    }
}

impl std::fmt::Display for Limits {
    fn fmt(&self, f: &mut std::fmt::Formatter) -> std::fmt::Result {
        write!(f, "{} bytes of stack", self.most)?;
        self.others.iter().try_for_each(|(entry, bytes)| write!(f, ", {entry} {bytes}"))
    }
}

/// Sends all commands to the program and compares each answer and what is left; tells of each its answer's number and how much stack the
/// call took, which may not be more than the entry's limit.
pub fn run<T>(names: &[(&str, &[u8])], trials: &[Trial<T>], limits: &Limits, program: &[String], mut tell: impl FnMut(&Trial<T>, u8)) {
    let sent: Vec<u8> = trials.iter().flat_map(|trial| trial.sent.iter().copied()).collect();
    // the C library's calls are looked up before the first command: the stack which that takes is not the entries'
    let mut command = std::process::Command::new(&program[0]);
    command.args(&program[1..]).env("LD_BIND_NOW", "1").stdin(Stdio::piped()).stdout(Stdio::piped());
    let mut child = command.spawn().expect("the program starts");
    let mut pipe = child.stdin.take().expect("a pipe");
    let sender = std::thread::spawn(move || pipe.write_all(&sent).expect("the program reads"));
    let mut answers = BufReader::new(child.stdout.take().expect("a pipe"));
    let mut stacks = vec![0; names.len()];
    for (at, trial) in trials.iter().enumerate() {
        let (mut answer, mut stack, mut left) = ([0; 4], [0; 4], vec![0; trial.left.len()]);
        answers.read_exact(&mut answer).expect("an answer");
        answers.read_exact(&mut stack).expect("its stack");
        answers.read_exact(&mut left).expect("the rooms");
        let (answer, stack) = (u32::from_le_bytes(answer), u32::from_le_bytes(stack));
        let entry = usize::from(trial.entry);
        if answer != trial.answer || left != trial.left {
            eprintln!("command {at}, {}: {:02X?}\nreturned {answer:#x}, expected {:#x}", names[entry].0, trial.sent, trial.answer);
            eprintln!("left     {left:02X?}\nexpected {:02X?}", trial.left);
            exit(1);
        }
        stacks[entry] = stack.max(stacks[entry]);
        tell(trial, answer as u8);
    }
    sender.join().expect("the sender ends");
    assert!(child.wait().expect("the program ends").success());
    let stacks: Vec<(&str, u32)> = names.iter().map(|entry| entry.0).zip(stacks).collect();
    for (entry, stack) in &stacks {
        if *stack > limits.of(entry) {
            eprintln!("{entry} took {stack} bytes of stack, which is above {}", limits.of(entry));
            exit(1);
        }
    }
    println!("entries: at most {limits}, of {stacks:?}");
}
