//! Seeded plans: good ones, and ones with a fault. What is plausible next is judged by the reference.
#![allow(dead_code)] // each driver uses its own part of this module

use crate::traffic::{allowed_set, any_bytes, any_five, near_record, refused_five, Numbers};
use reference::{Instruction, Parts, LARGEST_SET, START};

/// A plan in parts, of which any may be wrong.
#[derive(Clone)]
pub struct Draft {
    pub image: u64,
    pub apart: u64,
    pub wish: u8,
    /// The bytes of each set's instructions.
    pub sets: Vec<Vec<u8>>,
}

impl Draft {
    /// The plan's bytes.
    pub fn bytes(&self) -> Vec<u8> {
        let mut bytes = [self.image.to_le_bytes(), self.apart.to_le_bytes()].concat();
        bytes.extend([self.wish, self.sets.len() as u8]);
        for set in &self.sets {
            bytes.push((set.len() / 5) as u8);
            bytes.extend(set);
        }
        bytes
    }

    /// The record after all its sets.
    pub fn last(&self) -> u64 {
        after_all(self.image, self.sets.iter().map(|set| &set[..]))
    }
}

/// The record after some sets, each instruction that is one succeeding.
pub fn after_all<'a>(image: u64, sets: impl Iterator<Item = &'a [u8]>) -> u64 {
    let instructions = sets.flat_map(|set| set.chunks_exact(5)).filter_map(|five| Instruction::read(*five.first_chunk()?));
    instructions.fold(image, |record, one| one.next(record))
}

fn at_street(record: u64) -> bool {
    record >> 53 & 3 == 0
}
fn car_on_lift(record: u64) -> u8 {
    (record >> 52 & 1) as u8
}

/// How many sets: mostly few, now and then as many as there may be.
fn some_sets(numbers: &mut Numbers) -> usize {
    match numbers.below(40) {
        0 => 64,
        1 => 56 + numbers.below(8) as usize,
        2..=6 => numbers.below(20) as usize,
        _ => numbers.below(5) as usize,
    }
}

/// The lift to street.
const UP: [u8; 5] = [4, 0, 0, 0, 0];

/// A good plan from a record: each set is allowed where it stands, and the wish is what the last record has. Where that can be had, the
/// lift is at street there.
pub fn good_plan(numbers: &mut Numbers, image: u64, sets: usize, wanted: Option<usize>) -> Draft {
    let mut draft = Draft { image, apart: 0, wish: 0, sets: Vec::new() };
    let mut record = image;
    for at in 0..sets {
        let wanted = wanted.unwrap_or(1 + numbers.below(3) as usize);
        let (up, last) = (Instruction::read(UP).expect("a lift run"), at + 3 > sets && !at_street(record));
        let mut set = if last && up.asked(record).is_ok() { UP.to_vec() } else { Vec::new() };
        let taken = if set.is_empty() { Parts::NONE } else { up.area() };
        set.extend(allowed_set(numbers, record, taken, wanted - set.len() / 5));
        if set.is_empty() {
            break;
        }
        record = after_all(record, [&set[..]].into_iter());
        draft.sets.push(set);
    }
    draft.wish = car_on_lift(record);
    draft
}

/// A record that plans may begin with, made of the last one of a plan before: cars come and go at street, drives begin, and now and then
/// all begins anew.
pub fn next_image(numbers: &mut Numbers, record: u64) -> u64 {
    let still = record & !(3 << 55);
    match numbers.below(12) {
        0 => START | numbers.below(2) << 52,
        1 if at_street(still) => still | 1 << (55 + car_on_lift(still)),
        2..=6 if at_street(still) => still ^ 1 << 52,
        _ => still,
    }
}

/// A place among so many.
fn any_of(numbers: &mut Numbers, size: usize) -> usize {
    numbers.below(size.max(1) as u64) as usize
}

/// One of its sets, put to what is changed there; a plan without sets gets one.
fn in_a_set(numbers: &mut Numbers, draft: &mut Draft, change: impl FnOnce(&mut Numbers, u64, &mut Vec<u8>)) {
    if draft.sets.is_empty() {
        draft.sets.push(Vec::new());
    }
    let at = any_of(numbers, draft.sets.len());
    let record = after_all(draft.image, draft.sets[..at].iter().map(|set| &set[..]));
    change(numbers, record, &mut draft.sets[at]);
}

/// A fault in a good plan: a set, the wish, the image, or how many sets there are.
pub fn spoil(numbers: &mut Numbers, draft: &mut Draft) {
    match numbers.below(24) {
        // one instruction that the record there doesn't allow, alone or among others
        0..=5 => in_a_set(numbers, draft, |numbers, record, set| {
            let Some(five) = refused_five(numbers, record) else { return };
            let at = 5 * any_of(numbers, set.len() / 5 + 1);
            if set.len() == 5 * LARGEST_SET || numbers.one_in(2) {
                set.clear();
            }
            let at = at.min(set.len());
            set.splice(at..at, five);
        }),
        // a byte of one, or one put in the place of another
        6 | 7 => in_a_set(numbers, draft, |numbers, _, set| {
            if !set.is_empty() {
                let at = any_of(numbers, set.len());
                set[at] = numbers.byte();
            }
        }),
        8 => in_a_set(numbers, draft, |numbers, _, set| {
            let (five, at) = (any_five(numbers), 5 * any_of(numbers, set.len() / 5));
            set.splice(at..(at + 5).min(set.len()), five);
        }),
        // one twice
        9 | 10 => in_a_set(numbers, draft, |_, _, set| {
            if let Some(&five) = set.first_chunk::<5>() {
                set.extend(five);
            }
        }),
        // the lift, which a driver may be in
        11 => in_a_set(numbers, draft, |numbers, _, set| set.extend([4, numbers.below(3) as u8, 0, 0, 0])),
        // one that is left out, so that what follows may not be allowed
        12 => in_a_set(numbers, draft, |_, _, set| {
            set.truncate(set.len().saturating_sub(5));
        }),
        // none, or more than eight
        13 => in_a_set(numbers, draft, |_, _, set| set.clear()),
        14 => in_a_set(numbers, draft, |numbers, _, set| {
            let most = if numbers.one_in(4) { 247 } else { 4 };
            set.extend((0..9 + numbers.below(most)).flat_map(|_| [1, 2, 2, 1, 1]));
            set.truncate(5 * 255);
        }),
        // more sets than there may be
        15 => {
            let wanted = if numbers.one_in(2) { 65 } else { 65 + numbers.below(191) as usize };
            draft.sets.resize(wanted, vec![5, 0, 0, 0, 0]);
        }
        16..=18 => draft.wish ^= 1,
        19 => draft.wish = numbers.byte(),
        20 | 21 => draft.image = near_record(numbers, draft.image),
        22 => draft.apart = if numbers.one_in(2) { 1 << numbers.below(64) } else { numbers.next() },
        _ => draft.sets.truncate(any_of(numbers, draft.sets.len())),
    }
}

/// Damage to a plan's bytes: cut anywhere, more at the end, another byte, or another number of sets.
pub fn damage(numbers: &mut Numbers, bytes: &mut Vec<u8>) {
    match numbers.below(6) {
        0 => bytes.truncate(any_of(numbers, bytes.len())),
        1 => {
            let cut = any_of(numbers, 7);
            bytes.truncate(bytes.len().saturating_sub(cut));
        }
        2 => {
            let more = 1 + any_of(numbers, 6);
            bytes.extend(any_bytes(numbers, more));
        }
        3 => {
            let at = any_of(numbers, bytes.len());
            bytes[at] = numbers.byte();
        }
        4 => bytes[17] = bytes[17].wrapping_add(1 + 254 * numbers.below(2) as u8),
        _ => bytes[16] = numbers.byte(),
    }
}

/// A plan, and the record that the next may begin with: one of four good, of the others one or two faults, or damaged bytes.
pub fn any_plan(numbers: &mut Numbers, record: u64) -> (Vec<u8>, u64) {
    let image = next_image(numbers, record);
    let sets = some_sets(numbers);
    let eight = if numbers.one_in(10) { Some(LARGEST_SET) } else { None };
    let mut draft = good_plan(numbers, image, sets, eight);
    let last = draft.last();
    if !numbers.one_in(4) {
        for _ in 0..1 + numbers.below(2) {
            spoil(numbers, &mut draft);
        }
    }
    let mut bytes = draft.bytes();
    if numbers.one_in(6) {
        damage(numbers, &mut bytes);
    }
    (bytes, last)
}
