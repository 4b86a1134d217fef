//! No plan parks the car in fewer sets: `shortest PLAN_TEXT PLAN`. By the reference every record is found that sets can come to from the
//! plan's image, all of them succeeding, one set after the other, with whatever can go beside what. The plan must have as many sets as it
//! takes to bring a car onto the belt of row 3, and its last record must have one there.

use reference::{belt_cells, bit, Instruction, Parts, LARGEST_SET};
use shared::planned::{planned, SETS};
use shared::sound_records::every_five;
use std::collections::HashSet;

fn parked(image: u64) -> bool {
    belt_cells(3, 1).any(|cell| bit(image, cell))
}

/// The instructions that a record allows and that change it, each with its area.
fn moves(all: &[(Instruction, Parts)], image: u64) -> Vec<(Instruction, Parts)> {
    all.iter().filter(|(one, _)| one.allowed(image) && one.next(image) != image).copied().collect()
}

/// Every record that is left by a set of these moves, of which some are made and `taken` is what they touch.
fn sets(moves: &[(Instruction, Parts)], made: usize, taken: Parts, image: u64, found: &mut HashSet<u64>) {
    found.insert(image);
    if made == LARGEST_SET {
        return;
    }
    for (at, (one, area)) in moves.iter().enumerate() {
        if !area.meet(&taken) {
            sets(&moves[at + 1..], made + 1, taken.and(*area), one.next(image), found);
        }
    }
}

pub fn main(given: &[String]) {
    let [_, plan_text, plan] = given else { panic!("usage: shortest PLAN_TEXT PLAN") };
    let bytes = planned(plan_text, &std::fs::read_to_string(plan).expect("the plan"));
    let start = u64::from_le_bytes(bytes[..8].try_into().expect("a record"));

    let (mut image, mut rest) = (start, &bytes[SETS..]);
    while let [count, behind @ ..] = rest {
        let (set, others) = behind.split_at(usize::from(*count) * 5);
        for five in set.chunks(5) {
            image = Instruction::read(five.try_into().expect("five bytes")).expect("an instruction").next(image);
        }
        rest = others;
    }
    assert!(parked(image) && !parked(start), "{plan}: no car comes to row 3");

    let all: Vec<_> = every_five().into_iter().filter_map(Instruction::read).map(|one| (one, one.area())).collect();
    let (mut known, mut last, mut count) = (HashSet::from([start]), vec![start], 0);
    while !last.iter().any(|&image| parked(image)) {
        let mut found = HashSet::new();
        for &image in &last {
            sets(&moves(&all, image), 0, Parts::NONE, image, &mut found);
        }
        last = found.into_iter().filter(|image| known.insert(*image)).collect();
        assert!(!last.is_empty(), "{plan}: no sets park the car");
        count += 1;
    }
    assert_eq!(usize::from(bytes[SETS - 1]), count, "{plan}: there is a plan with another number of sets");
    println!("shortest: {count} sets, as {plan} has, are the least, of {} records", known.len());
}
