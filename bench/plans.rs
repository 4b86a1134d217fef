//! How many plans of 64 sets of eight instructions are judged in a second, by the station's entry and by the reference, in turns: `plans`.
//! All of them are accepted, so that every set is looked at. Prints the best of seven rounds of each.

use reference::plan::{self, MOST_SETS};
use reference::{Parts, START};
use shared::plan_traffic::{after_all, Draft};
use shared::traffic::{allowed_set, Numbers};
use station::raw::plan as raw;
use std::hint::black_box;
use std::time::Instant;

const PLANS: usize = 16;
const AGAIN: usize = 40;

fn by_station(plan: &[u8]) -> u32 {
    unsafe { raw::plan_judge(plan.as_ptr(), plan.len()) }
}

fn by_reference(plan: &[u8]) -> u32 {
    let told = plan::judge(plan);
    u32::from(told.number) + 256 * u32::from(told.set)
}

/// A plan of 64 sets of eight, if chance finds one: with a few cars in the garage, each set of instructions that are allowed there.
fn long_plan(numbers: &mut Numbers) -> Option<Vec<u8>> {
    let cars = numbers.below(1 << 8) << 21 & numbers.next() | numbers.below(1 << 8) << 31 & numbers.next();
    let image = START | cars | 3 << (2 + numbers.below(8));
    let mut draft = Draft { image, apart: 0, wish: 0, sets: Vec::new() };
    let mut record = image;
    for _ in 0..MOST_SETS {
        let set = (0..200).map(|_| allowed_set(numbers, record, Parts::NONE, 8)).find(|set| set.len() == 40)?;
        record = after_all(record, [&set[..]].into_iter());
        draft.sets.push(set);
    }
    let plan = draft.bytes();
    (by_reference(&plan) == 255 << 8).then_some(plan)
}

/// Seconds for so many plans.
fn timed(plans: &[Vec<u8>], judge: fn(&[u8]) -> u32) -> f64 {
    let begun = Instant::now();
    for _ in 0..AGAIN {
        for plan in plans {
            black_box(judge(black_box(plan)));
        }
    }
    begun.elapsed().as_secs_f64()
}

fn main() {
    let mut numbers = Numbers(3);
    let plans: Vec<Vec<u8>> = std::iter::repeat_with(|| long_plan(&mut numbers)).flatten().take(PLANS).collect();
    assert!(plans.iter().all(|plan| plan.len() == 2642 && by_station(plan) == by_reference(plan)), "the verdicts are the same");
    let [mut ours, mut theirs] = [f64::INFINITY; 2];
    for _ in 0..7 {
        theirs = theirs.min(timed(&plans, by_reference));
        ours = ours.min(timed(&plans, by_station));
    }
    let each = (PLANS * AGAIN) as f64;
    println!(
        "plans of 64 sets of eight: reference {:.0} a second, station {:.0}, {:.2} times its time",
        each / theirs,
        each / ours,
        ours / theirs
    );
}
