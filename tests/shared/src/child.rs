//! A program that is started, given its input in pieces, and heard to its end.

use std::io::Write;
use std::process::{Command, Stdio};

/// What the program writes, what it tells on standard error, and whether its status is 0. The program may have words, after spaces.
pub fn run<'a>(program: &str, pieces: impl Iterator<Item = &'a [u8]> + Send) -> (Vec<u8>, String, bool) {
    let mut words = program.split(' ');
    let mut command = Command::new(words.next().expect("a program"));
    command.args(words).stdin(Stdio::piped()).stdout(Stdio::piped()).stderr(Stdio::piped());
    let mut child = command.spawn().expect("the program starts");
    let mut pipe = child.stdin.take().expect("a pipe");
    let output = std::thread::scope(|all| {
        all.spawn(move || {
            // the program may stop before the input ends: then the pipe is closed
            for piece in pieces {
                if pipe.write_all(piece).is_err() {
                    break;
                }
            }
        });
        child.wait_with_output().expect("the program ends")
    });
    (output.stdout, String::from_utf8_lossy(&output.stderr).into_owned(), output.status.success())
}

/// The same for an input that is given at once.
pub fn run_on(program: &str, input: &[u8]) -> (Vec<u8>, String, bool) {
    run(program, std::iter::once(input))
}
