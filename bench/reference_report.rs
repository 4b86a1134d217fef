//! The reference's report of the messages on standard input.
use reference::week;
use std::io::{self, Read};

fn main() -> io::Result<()> {
    let mut input = Vec::new();
    io::stdin().read_to_end(&mut input)?;
    print!("{}", week::Week::of(&input).report());
    Ok(())
}
