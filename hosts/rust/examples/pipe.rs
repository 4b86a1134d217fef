//! Talks to the program over a pipe: `cargo run --example pipe -- ../../bin/station`. A driver comes in, and the record is asked for; what
//! is sent and what is answered is printed.

use station::message::{Message, Reply};
use station::{Event, Instruction};
use std::error::Error;
use std::io::Write;
use std::process::{Command, Stdio};

fn main() -> Result<(), Box<dyn Error>> {
    let program: Vec<String> = std::env::args().skip(1).collect();
    let [name, words @ ..] = &program[..] else { return Err("usage: pipe PROGRAM [WORD..]".into()) };
    let mut child = Command::new(name).args(words).stdin(Stdio::piped()).stdout(Stdio::piped()).spawn()?;
    let (mut to, mut from) = (child.stdin.take().ok_or("a pipe")?, child.stdout.take().ok_or("a pipe")?);
    let sent =
        [Message::Event(Event::BeginIn), Message::Request(vec![Instruction::Rotate]), Message::Event(Event::EndedDone), Message::Ask];
    for message in sent {
        to.write_all(&message.bytes()?)?;
        match Reply::read_from(&mut from)?.ok_or("the program ended")? {
            Reply::Answer(answer) => println!("{message:?}: {answer}"),
            Reply::Held { record, apart } => print!("{message:?}: {} parts are set apart\n{record}", apart.bits().count()),
        }
    }
    drop(to);
    child.wait()?;
    Ok(())
}
