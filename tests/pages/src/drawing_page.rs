//! Runs the examples of pages on drawings: `drawing_page PROGRAM PAGE..`. Their blocks come in pairs. One marked `drawing` and one marked
//! `image` are each what the program writes for the other, and so are `drawings` and `asked`, with what is set apart. One marked `refused` is what it tells of the block before it, with nothing
//! written and another status than 0; that may also be marked `text`: in one line and as printf takes it, with `\n`, `\r` and `\t`.

use shared::child;
use shared::page::blocks;
use std::process::exit;

/// A page's examples: how many were run both ways, how many were refused, how many are wrong.
fn examples(program: &str, page: &str) -> [usize; 3] {
    let content = std::fs::read_to_string(page).expect("the page is there");
    let (mut both_ways, mut refused, mut wrong) = (0, 0, 0);
    let mut held = |line: usize, input: &str, expected: (&str, &str, bool)| {
        let (written, told, well) = child::run(program, std::iter::once(input.as_bytes()));
        let got = (&*String::from_utf8_lossy(&written), &*told, well);
        if got != expected {
            wrong += 1;
            eprintln!("{page}:{line}: expected {expected:?}, got {got:?}");
        }
    };
    for pair in blocks(&content, &["drawing", "image", "drawings", "asked", "text", "refused"]).chunks(2) {
        let [(_, first, input), (line, second, outcome)] = pair else { panic!("{page}: a block without its outcome") };
        match (*first, *second) {
            ("drawing", "image") | ("image", "drawing") | ("drawings", "asked") | ("asked", "drawings") => {
                both_ways += 1;
                held(*line, input, (outcome, "", true));
                held(*line, outcome, (input, "", true));
            }
            ("drawing" | "image" | "drawings" | "asked" | "text", "refused") => {
                refused += 1;
                let escaped = input.trim_end().replace("\\n", "\n").replace("\\r", "\r").replace("\\t", "\t");
                held(*line, if *first == "text" { &escaped } else { input }, ("", outcome, false));
            }
            _ => panic!("{page}:{line}: {second} is no outcome of {first}"),
        }
    }
    [both_ways, refused, wrong]
}

pub fn main(given: &[String]) {
    let [_, program, pages @ ..] = given else { panic!("usage: drawing_page PROGRAM PAGE..") };
    let all: Vec<_> = pages.iter().map(|page| examples(program, page)).collect();
    let [both_ways, refused, wrong] = [0, 1, 2].map(|which| all.iter().map(|counts| counts[which]).sum::<usize>());
    println!("drawing_page: {both_ways} drawings of {pages:?} both ways, {refused} refusals, {wrong} wrong");
    if all.iter().any(|counts| counts[0] == 0) || refused == 0 || wrong > 0 {
        exit(1);
    }
}
