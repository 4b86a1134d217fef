//! The service panel for the terminal (docs/PANEL.md): a floor on standard input, drawn, as an image or as a station in hexadecimal, then
//! calls in words, one a line: instructions alone or in sets, events, results and images. Out come the floor drawn, each condition of each
//! instruction with yes or no and where, the verdict with its reason, and the floor after it, on which the next line is tried. A line that
//! says nothing is told on standard error with its number, and the status is then 1.

mod given;
mod tried;

use given::{floor, Lines};
use station::words::Wrong;
use std::io::{self, BufRead, Write};
use std::process::ExitCode;
use terminal::facts::Facts;
use terminal::told::{failed, told_version};
use tried::{call_in, show_floor, tried};

/// The whole session; gives whether every line said something, or why a stream failed.
fn session(input: impl BufRead, out: &mut impl Write) -> Result<bool, Wrong> {
    let mut lines = Lines { input, number: 0 };
    let told = |line: usize, why: Wrong| eprintln!("panel: line {line}: {why}");
    let unwritten = |why| failed("output", why);
    let mut room = match floor(&mut lines)? {
        Ok(room) => room,
        Err((line, why)) => {
            told(line, why);
            return Ok(false);
        }
    };
    show_floor(out, &Facts::of_station(&room)).and_then(|()| out.flush()).map_err(unwritten)?;
    let mut right = true;
    while let Some(line) = lines.next()? {
        match call_in(&line) {
            Ok(None) => {}
            Ok(Some(message)) => tried(out, &mut room, &message).map_err(unwritten)?,
            Err(why) => {
                told(lines.number, why);
                right = false;
            }
        }
        out.flush().map_err(unwritten)?;
    }
    Ok(right)
}

fn main() -> ExitCode {
    let words: Vec<_> = std::env::args_os().skip(1).collect();
    if words.len() == 1 && words[0] == "--version" {
        return told_version("panel");
    }
    if !words.is_empty() {
        eprintln!("panel: usage: panel < FLOOR-AND-CALLS");
        return ExitCode::from(2);
    }
    match session(io::stdin().lock(), &mut io::BufWriter::new(io::stdout().lock())) {
        Ok(true) => ExitCode::SUCCESS,
        Ok(false) => ExitCode::FAILURE,
        Err(why) => {
            eprintln!("panel: {why}");
            ExitCode::FAILURE
        }
    }
}
