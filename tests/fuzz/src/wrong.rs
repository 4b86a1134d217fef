//! The wrong references of a harness, in a program whose references have faults to choose from (tests/faults). Each makes every call too,
//! until one finds it out: until it says that something else is returned or left than the entry did. The run ends when all are found out,
//! and tells those that are not. The environment's WRONG names one to take the right reference's place instead.

use crate::judged::command::Command;
use crate::judged::fault::{all_of, Fault};
use crate::Side;
use std::sync::{Mutex, OnceLock};

extern "C" {
    fn atexit(told: extern "C" fn()) -> i32;
    fn _exit(status: i32) -> !;
}

/// The faults of a side that are to be found out; no entry reads hex.
fn faults(side: &dyn Side) -> impl Iterator<Item = &'static Fault> {
    all_of(side.list()).filter(|fault| !fault.name.starts_with("hex_"))
}

/// Those that are not found out yet; none where one takes the right reference's place.
static UNFOUND: OnceLock<Mutex<Vec<&Fault>>> = OnceLock::new();

fn begun(side: &dyn Side) -> Mutex<Vec<&'static Fault>> {
    let Ok(name) = std::env::var("WRONG") else {
        unsafe { atexit(tell_unfound) };
        return Mutex::new(faults(side).collect());
    };
    faults(side).find(|fault| fault.name == name).expect("a fault of the list").choose();
    Mutex::default()
}

extern "C" fn tell_unfound() {
    let Some(unfound) = UNFOUND.get() else { return };
    for fault in unfound.lock().expect("no other thread").iter() {
        eprintln!("not found out: {}", fault.name);
    }
}

/// Told of each call of an entry: what it was given, and what it left and returned.
pub fn told(side: &dyn Side, given: &Command, left: &Command, answer: u32) {
    let mut unfound = UNFOUND.get_or_init(|| begun(side)).lock().expect("no other thread");
    if unfound.is_empty() {
        return;
    }
    unfound.retain(|fault| {
        let (mut room, mut output) = (given.room.to_vec(), given.output.to_vec());
        let said = fault.with(|| side.call(&mut given.on(&mut room, given.input, &mut output)));
        said == answer && room == left.room && output == left.output
    });
    if unfound.is_empty() {
        eprintln!("wrong references found out: {}", faults(side).count());
        unsafe { _exit(0) }
    }
}
