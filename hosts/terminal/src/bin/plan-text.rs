//! A plan as people write it, on standard input, as the bytes that bin/plan judges, on standard output (docs/PLANS.md). Lines that say
//! nothing are told on standard error, each with its number, and then nothing is written and the status is 1. Whether the plan is a good
//! one is not looked at: what can be said in bytes can be written, and the judge tells the rest.

use station::words::{instruction, record_in, Words, Wrong};
use std::io::{self, Read, Write};
use std::process::ExitCode;

/// The record with no cars, rows 1 and 2 lowered and row 3 tilted on both sides, the lift at street.
const START: [u8; 8] = [0, 0, 0, 0, 0, 0x1B, 0x09, 0];

/// The starting record: `start`, or its eight bytes, the lowest first.
fn image(words: &mut Words) -> Result<[u8; 8], Wrong> {
    if words.among(&["start"]).is_some() {
        return Ok(START);
    }
    let digits = words.rest();
    record_in(&digits).ok_or_else(|| format!("expected `start` or 16 digits in hexadecimal, found `{digits}`"))
}

/// `with a car` or `without a car`, as the wish's byte.
fn wish(words: &mut Words) -> Result<u8, Wrong> {
    let with = words.one_of(&["without", "with"])?;
    words.one_of(&["a"])?;
    words.one_of(&["car"])?;
    Ok(with)
}

/// What the lines have said so far.
#[derive(Default)]
struct Plan {
    image: Option<[u8; 8]>,
    wish: Option<u8>,
    sets: Vec<Vec<[u8; 5]>>,
    /// Whether the next instruction goes with the one before it.
    open: bool,
}

impl Plan {
    /// A line that says something: the image, then the wish, then instructions.
    fn line(&mut self, words: &mut Words) -> Result<(), Wrong> {
        if self.image.is_none() {
            self.image = Some([0; 8]); // said, if not rightly
            words.one_of(&["image"])?;
            self.image = Some(image(words)?);
        } else if self.wish.is_none() {
            self.wish = Some(0);
            words.one_of(&["wish"])?;
            self.wish = Some(wish(words)?);
        } else {
            let five = instruction(words)?;
            if !self.open {
                self.sets.push(Vec::new());
            }
            self.open = true;
            let sets = self.sets.len();
            let set = self.sets.last_mut().expect("it was put there");
            set.push(five);
            // the bytes that count them go no further; of the two the judge tells what is too many
            if sets == 256 && set.len() == 1 {
                return Err("a plan's bytes can count 255 sets".to_string());
            }
            if set.len() == 256 {
                return Err("a set's bytes can count 255 instructions".to_string());
            }
        }
        words.end()
    }

    fn bytes(&self) -> Vec<u8> {
        let mut bytes = [self.image.unwrap_or(START), [0; 8]].concat();
        bytes.extend([self.wish.unwrap_or(0), self.sets.len() as u8]);
        for set in &self.sets {
            bytes.push(set.len() as u8);
            bytes.extend(set.concat());
        }
        bytes
    }
}

/// The bytes of a plan's text, or all that is wrong with it, by line.
fn bytes_of(text: &str) -> Result<Vec<u8>, Vec<(usize, Wrong)>> {
    let (mut plan, mut wrong) = (Plan::default(), Vec::new());
    for (line, at) in text.lines().zip(1..) {
        let said = line.split('#').next().unwrap_or_default();
        if line.trim().is_empty() {
            plan.open = false;
        } else if !said.trim().is_empty() {
            plan.line(&mut Words::of(said)).unwrap_or_else(|why| wrong.push((at, why)));
        }
    }
    for (name, missing) in [("image", plan.image.is_none()), ("wish", plan.wish.is_none())] {
        if missing {
            wrong.push((text.lines().count() + 1, format!("the text ends before its `{name}`")));
        }
    }
    if wrong.is_empty() {
        Ok(plan.bytes())
    } else {
        Err(wrong)
    }
}

fn main() -> ExitCode {
    let mut text = Vec::new();
    let done = io::stdin().read_to_end(&mut text).and_then(|_| match bytes_of(&String::from_utf8_lossy(&text)) {
        Ok(bytes) => io::stdout().write_all(&bytes).map(|()| true),
        Err(wrong) => {
            for (line, why) in wrong {
                eprintln!("plan-text: line {line}: {why}");
            }
            Ok(false)
        }
    });
    match done {
        Ok(true) => ExitCode::SUCCESS,
        Ok(false) => ExitCode::FAILURE,
        Err(why) => {
            eprintln!("plan-text: {why}");
            ExitCode::FAILURE
        }
    }
}
