//! What the hosts of the terminal tell: their version, why a stream failed, and what a number says.

use station::words::Wrong;
use station::{version, Number};
use std::io::{self, Write};
use std::process::ExitCode;

/// What a number says, whether the table has it or not.
pub fn number_in_words(number: u8) -> &'static str {
    Number::try_from(number).map_or("not a number of the table", Number::words)
}

/// Why a stream failed, in words.
pub fn failed(stream: &str, why: io::Error) -> Wrong {
    let words = why.to_string();
    format!("standard {stream}: {}", words.split(" (os error").next().unwrap_or(&words))
}

/// Tells the program's name and the version of the entries on standard output.
pub fn told_version(name: &str) -> ExitCode {
    let (first, second, third) = version();
    match writeln!(io::stdout(), "{name} {first}.{second}.{third}") {
        Ok(()) => ExitCode::SUCCESS,
        Err(why) => {
            eprintln!("{name}: {}", failed("output", why));
            ExitCode::FAILURE
        }
    }
}
