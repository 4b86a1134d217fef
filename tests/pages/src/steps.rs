//! Holds a page that walks through a plan against the plan: `steps DRAW PLAN_TEXT PLAN PAGE`. The page's drawings are what the program DRAW
//! writes of the last image before each. The requests of its sessions are the plan's sets, the image before the first of them is the
//! plan's, and each instruction of the plan's text stands on the page as its words, in order.

use shared::child;
use shared::hex;
use shared::page::blocks;
use shared::planned::{self, SETS};
use std::fs::read_to_string;

/// The instructions of a plan's text: its lines without comments and without the two that say the record and the wish.
fn instructions(plan: &str) -> impl Iterator<Item = &str> {
    let said = plan.lines().map(|line| line.split('#').next().unwrap_or_default().trim()).filter(|line| !line.is_empty());
    said.skip(2)
}

pub fn main(given: &[String]) {
    let [_, draw, plan_text, plan, page] = given else { panic!("usage: steps DRAW PLAN_TEXT PLAN PAGE") };
    let (plan, text) = (read_to_string(plan).expect("the plan"), read_to_string(page).expect("the page"));
    let planned = planned::planned(plan_text, &plan);
    let (mut image, mut first, mut sets, mut drawings) = (Vec::new(), None, Vec::<u8>::new(), 0);
    for (at, mark, block) in blocks(&text, &["session", "session on", "drawing"]) {
        if mark == "drawing" {
            let drawn = child::run_on(draw, (hex::written(&image) + "\n").as_bytes()).0;
            assert_eq!(String::from_utf8_lossy(&drawn), block, "{page}:{at}: the image before it is drawn otherwise");
            drawings += 1;
            continue;
        }
        for line in block.lines() {
            match &hex::read(&line[1..])[..] {
                [_, 0, 129, 0, shown @ ..] if line.starts_with('<') => image = shown[..8].to_vec(),
                [_, 0, 1, 0, set @ ..] if line.starts_with('>') => {
                    first.get_or_insert_with(|| image.clone());
                    sets.extend(set);
                }
                _ => {}
            }
        }
    }
    assert_eq!(first.as_deref(), Some(&planned[..8]), "{page}: the plan begins with another image");
    assert_eq!(sets, planned[SETS..], "{page}: the plan has other sets");
    let (mut rest, mut steps) = (&text[..], 0);
    for words in instructions(&plan) {
        let named = format!("`{words}`");
        let at = rest.find(&named).unwrap_or_else(|| panic!("{page}: {named} is not there, or not in its order"));
        rest = &rest[at + named.len()..];
        steps += 1;
    }
    assert!(drawings > planned[SETS - 1].into(), "{page}: a drawing is missing");
    println!("steps: {} sets of {page} with {steps} instructions as in the plan, {drawings} drawings", planned[SETS - 1]);
}
