//! Runs the worked examples of a page: `sessions PROGRAM PAGE`. In each block marked `session`, the bytes of the `>` lines are given
//! to the program and its output must be the bytes of the `<` lines; in each one marked `report`, it must be all the other lines. A block
//! marked `session on` goes on with the session before it. At a line `!` the program is ended and started again: a session with one is held
//! on a journal.

use shared::hex;
use shared::page::blocks;
use std::io::Write;
use std::process::{exit, Command, Stdio};

/// What the program writes for an input, started with these words.
fn answers(program: &str, words: &[&str], input: &[u8]) -> Vec<u8> {
    let mut child = Command::new(program).args(words).stdin(Stdio::piped()).stdout(Stdio::piped()).spawn().expect("the program starts");
    child.stdin.take().expect("a pipe").write_all(input).expect("the program reads");
    child.wait_with_output().expect("the program ends").stdout
}

/// What it writes for the inputs between restarts.
fn all_answers(program: &str, inputs: &[Vec<u8>]) -> Vec<u8> {
    let [first, others @ ..] = inputs else { return Vec::new() };
    if others.is_empty() {
        return answers(program, &[], first);
    }
    let path = std::env::temp_dir().join(format!("sessions.{}", std::process::id()));
    let journal = path.to_str().expect("a name");
    let mut all = answers(program, &["--new", journal, "--garage", "any"], first);
    for input in others {
        all.extend(answers(program, &[journal], input));
    }
    std::fs::remove_file(journal).expect("the journal goes");
    all
}

pub fn main(words: &[String]) {
    let [_, program, page] = words else { panic!("usage: sessions PROGRAM PAGE") };
    let text = std::fs::read_to_string(page).expect("the page is there");
    let mut all: Vec<(usize, Vec<Vec<u8>>, Vec<u8>)> = Vec::new();
    for (at, mark, block) in blocks(&text, &["session", "session on", "report"]) {
        if mark != "session on" {
            all.push((at, vec![Vec::new()], Vec::new()));
        }
        let (end, inputs, expected) = all.last_mut().expect("a session to go on with");
        *end = at;
        for line in block.lines() {
            match (mark, line.as_bytes().first()) {
                (_, Some(b'>')) => inputs.last_mut().expect("an input").extend(hex::read(&line[1..])),
                ("report", _) => expected.extend([line.as_bytes(), b"\n"].concat()),
                (_, Some(b'<')) => expected.extend(hex::read(&line[1..])),
                (_, Some(b'!')) => inputs.push(Vec::new()),
                _ => panic!("{page}:{at}: {line:?} is no line of a session"),
            }
        }
    }
    let mut failed = 0;
    for (at, inputs, expected) in &all {
        let got = all_answers(program, inputs);
        if got != *expected {
            failed += 1;
            eprintln!("{page}:{at}: expected {expected:02X?}, got {got:02X?}");
        }
    }
    println!("sessions: {} of {page}, {failed} wrong", all.len());
    if all.is_empty() || failed > 0 {
        exit(1);
    }
}
