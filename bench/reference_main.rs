//! The reference station as a program: standard input to standard output, unbuffered by std since
//! `stream` reads and writes in large pieces itself.
use std::fs::File;
use std::io;
use std::os::fd::AsFd;

fn main() -> io::Result<()> {
    let input = File::from(io::stdin().as_fd().try_clone_to_owned()?);
    let output = File::from(io::stdout().as_fd().try_clone_to_owned()?);
    reference::stream(input, output)
}
