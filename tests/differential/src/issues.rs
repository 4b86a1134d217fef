//! The count of sets, round its end: `issues PROGRAM SETS`. So many sets are issued on one station, 70,000 or more, and beside each
//! set's own results come those of other sets: the late ones that lie nearest and farthest behind it, the nearest and farthest that
//! were not issued, and any. What the program writes must be what the reference answers, and each set's issue the next one. Each of
//! these distances must have come, before the count starts over and after.

use reference::{read_call, Call, START};
use shared::pipes::{answer_in, answers, messages_in};
use shared::traffic::{image, message, request, result, Numbers, BEHIND};
use std::collections::BTreeSet;
use std::process::exit;

const FEWEST: usize = 70_000;
/// There are so many issues.
const ROUND: usize = 65_536;
/// Two belts that nothing stands on: they may always move, whatever came of the set before.
const SET: [[u8; 5]; 2] = [[1, 1, 2, 0, 1], [1, 1, 8, 0, 1]];

/// A result of another set: mostly one of the distances that count, of an instruction that the set may not have.
fn astray(numbers: &mut Numbers, present: u16) -> Vec<u8> {
    let behind = BEHIND.get(numbers.below(5) as usize).copied().unwrap_or(numbers.next() as u16);
    result(present.wrapping_sub(behind), numbers.below(3) as u8, numbers.below(2) as u8)
}

/// What changes no count: a request that is refused, an event, an image.
fn between(numbers: &mut Numbers) -> Vec<u8> {
    match numbers.below(4) {
        0 => request(&[]),
        1 => request(&[SET[0], SET[0]].concat()),
        2 => message(2, &[1 + numbers.below(4) as u8]),
        _ => image(START, 0),
    }
}

fn input(sets: usize) -> Vec<u8> {
    let mut numbers = Numbers(65_537);
    let mut bytes = Vec::new();
    for set in 0..sets {
        let (present, first) = (set as u16, numbers.below(2) as u8);
        bytes.extend(request(&SET.concat()));
        bytes.extend(astray(&mut numbers, present));
        bytes.extend(result(present, first, numbers.below(2) as u8));
        if numbers.one_in(4) {
            bytes.extend(between(&mut numbers));
        }
        bytes.extend(astray(&mut numbers, present));
        bytes.extend(result(present, 1 - first, numbers.below(2) as u8));
        if numbers.one_in(4) {
            bytes.extend(astray(&mut numbers, present));
        }
        if numbers.one_in(4) {
            bytes.extend(between(&mut numbers));
        }
    }
    bytes
}

/// How many sets were issued by the answers, each with the next issue; and the distances of results that were of another set, each with
/// the number that it was answered with and whether the count had started over.
fn issued(input: &[u8], output: &[u8]) -> (usize, BTreeSet<(bool, u16, u8)>) {
    let (mut sets, mut present, mut came) = (0, 0, BTreeSet::new());
    for (message, answer) in messages_in(input).zip(messages_in(output).map(answer_in)) {
        let answer = answer.expect("an answer");
        match read_call(message).expect("a call").0 {
            Call::Request { .. } if answer.number == 0 => {
                present = answer.issue;
                assert_eq!(usize::from(present), sets % ROUND, "the issue of set {sets}");
                sets += 1;
            }
            Call::Result { issue, .. } if matches!(answer.number, 29 | 30) => {
                let behind = present.wrapping_sub(issue);
                if BEHIND.contains(&behind) {
                    came.insert((sets > ROUND, behind, answer.number));
                }
            }
            _ => {}
        }
    }
    (sets, came)
}

pub fn main(words: &[String]) {
    let [_, program, sets] = words else { panic!("usage: issues PROGRAM SETS") };
    let input = input(sets.parse().expect("a number"));
    let (expected, got) = (reference::serve(&input), answers(program, &input, 1));
    if got != expected {
        let at = got.iter().zip(&expected).take_while(|(a, b)| a == b).count();
        eprintln!("issues: {} bytes, expected {}; they differ first at {at}", got.len(), expected.len());
        exit(1);
    }
    let (sets, came) = issued(&input, &got);
    let told = [29, 29, 30, 30];
    let wanted = [false, true].into_iter().flat_map(|again| BEHIND.into_iter().zip(told).map(move |(behind, told)| (again, behind, told)));
    if sets < FEWEST || !came.iter().copied().eq(wanted) {
        eprintln!("issues: {sets} sets were issued, of {FEWEST} or more; results from afar that came: {came:?}");
        exit(1);
    }
    println!(
        "issues: {sets} sets on one station, each answer as the reference's; before the count starts over and after, {BEHIND:?} behind"
    );
}
