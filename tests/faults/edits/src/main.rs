//! `edits LIST FROM OUT`: for each wrong version of a list a copy of the folder FROM, as OUT/NAME, with that one fault. Prints a line for
//! each: its name, the test that must find it out or `-`, and what is wrong with it.

use std::path::Path;
use std::process::ExitCode;

fn written(list: &str, from: &str, out: &str) -> Result<(), String> {
    for edit in edits::read(Path::new(list))? {
        edit.written_to(Path::new(from), &Path::new(out).join(&edit.name))?;
        println!("{} {} {}", edit.name, if edit.by.is_empty() { "-" } else { &edit.by }, edit.what);
    }
    Ok(())
}

fn main() -> ExitCode {
    let words: Vec<String> = std::env::args().skip(1).collect();
    let [list, from, out] = &words[..] else { panic!("usage: edits LIST FROM OUT") };
    match written(list, from, out) {
        Ok(()) => ExitCode::SUCCESS,
        Err(why) => {
            eprintln!("edits: {why}");
            ExitCode::FAILURE
        }
    }
}
