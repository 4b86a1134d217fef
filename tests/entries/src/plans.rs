//! Plans tried before the day, against the reference: `plans PROGRAM PLANS SHARE STACK HOST..`. Examples and so many plans, good ones and
//! ones with faults, are judged and explained by the entries, and one in SHARE of them by the host in C, whose calls must take no more stack
//! than STACK; of each number some by the program, and most examples, in pieces of many sizes, and some of these with `--why`. Every number
//! that can come must have come by the entries and by the program, no other may, and every way to come by one. Each wrong reference must be
//! found out by a plan of the run.

mod examples;

use examples::{examples, ways, WAYS};
use reference::plan::{explain, judge, Grounds, Plan, Verdict, NO_SET, UNSOUND, WISH_NOT_MET};
use reference::{NO_PLACE, START};
use shared::pipes;
use shared::plan_traffic::any_plan;
use shared::texts::words;
use shared::traffic::Numbers;
use station::raw::plan as raw;
use std::collections::{BTreeMap, BTreeSet};
use std::process::exit;
use wrong::fault::{all_of, Fault};

fn plan_judge(plan: &[u8]) -> u32 {
    unsafe { raw::plan_judge(plan.as_ptr(), plan.len()) }
}

/// The bytes of the grounds, of a room with some more, and what stands in it before.
const GROUNDS: usize = 18;
const ROOM: usize = GROUNDS + 3;
const STOOD: u8 = 0xA5;
/// What a room that is too short is told.
const NO_ROOM: u32 = 17 + 256 * 255;

/// What the entry returns, and the room that it leaves, of which so many bytes are lent.
fn plan_explain(plan: &[u8], lent: usize) -> (u32, [u8; ROOM]) {
    let mut room = [STOOD; ROOM];
    (unsafe { raw::plan_explain(plan.as_ptr(), plan.len(), room.as_mut_ptr(), lent) }, room)
}

/// The bytes that the entry writes.
fn written(grounds: &Grounds) -> [u8; GROUNDS] {
    let numbers = [grounds.record.to_le_bytes(), grounds.parts.to_le_bytes()].concat();
    let all = [&numbers[..], &[grounds.place, grounds.earlier]].concat();
    *all.first_chunk().expect("eighteen")
}

/// What the entry returns: the number, and 256 times the set.
fn returned(Verdict { number, set }: Verdict) -> u32 {
    u32::from(number) + 256 * u32::from(set)
}

/// What a plan can be told as a whole, and of a set of it, with the words of the program's line.
const OF_THE_PLAN: [(u8, &str); 6] = [
    (0, "accepted"),
    (1, "fewer bytes than it says"),
    (4, "a field out of range: a wish that is neither 0 nor 1, or bytes left over"),
    (15, "image not sound"),
    (35, "more than 64 sets"),
    (36, "wish not met"),
];
const OF_A_SET: [(u8, &str); 14] = [
    (4, "a field out of range"),
    (5, "more than eight instructions"),
    (7, "empty set"),
    (8, "overlap"),
    (20, "nothing named"),
    (21, "a gap between those named"),
    (22, "not available"),
    (23, "no free place to move to"),
    (24, "odd count: a car would be torn"),
    (25, "half move in row 2 or 3"),
    (26, "already at that height"),
    (27, "not at rotation height"),
    (28, "cells not free for the tilt or the rotation"),
    (31, "out of turn: the lift in an area while a drive is under way"),
];

/// The program's line.
fn line(Verdict { number, set }: Verdict) -> String {
    let rows = if set == NO_SET { &OF_THE_PLAN[..] } else { &OF_A_SET };
    let words = rows.iter().find(|row| row.0 == number).expect("a number of the table").1;
    match (number, set) {
        (0, _) => format!("{words}\n"),
        (_, NO_SET) => format!("{number} {words}\n"),
        _ => format!("{number} {words}, set {set}\n"),
    }
}

/// Whether the lines below the program's are those of the grounds: where no set is at fault, the last record or none; else the instruction, the
/// first earlier one that it overlaps, and the record before that set.
fn told_why(grounds: &Grounds, plan: &[u8], below: &str) -> bool {
    let Grounds { verdict: Verdict { number, set }, place, earlier, record, .. } = *grounds;
    let image = record.to_le_bytes().map(|byte| format!("{byte:02X}")).join(" ");
    match number {
        0 | WISH_NOT_MET => return below.starts_with(&format!("at the end: image {image}\n")),
        UNSOUND => return below.contains("  to do: mend the image"),
        _ if set == NO_SET => return below == "no set was tried\n",
        _ => {}
    }
    let bare = |words: &str| words.replace(',', "").split_whitespace().map(str::to_string).collect::<Vec<_>>();
    let fives = Plan::read(plan).expect("a plan").sets[usize::from(set)].1;
    let instruction = match fives.chunks_exact(5).nth(usize::from(place)).filter(|_| place != NO_PLACE) {
        Some(five) => words(*five.first_chunk().expect("five")).map(|words| bare(&format!("instruction {place}: {words}"))),
        None => None,
    };
    let first = below.lines().next().unwrap_or_default();
    let overlapped = below.lines().find_map(|line| line.strip_prefix("  it overlaps ")?.split(':').next());
    first.starts_with("instruction ") == (place != NO_PLACE)
        && instruction.is_none_or(|words| words == bare(first))
        && overlapped == (earlier != NO_PLACE).then_some(&*earlier.to_string())
        && below.contains(&format!("\nbefore set {set}: image {image}\n"))
}

/// What came so far, and where something was wrong.
#[derive(Default)]
struct Run {
    /// By the entry and by the program: how often each number came, 4 apart by whether a set is at fault.
    came: [BTreeMap<(u8, bool), usize>; 2],
    ways: BTreeSet<&'static str>,
    unfound: Vec<&'static Fault>,
    wrong: usize,
}

impl Run {
    fn fault(&mut self, name: &str, plan: &[u8], got: &str, expected: Verdict) {
        self.wrong += 1;
        if self.wrong > 5 {
            return;
        }
        eprintln!("plans: {name}, {} bytes: {got}, expected {expected:?}", plan.len());
        eprintln!("  {:02X?}", &plan[..plan.len().min(400)]);
    }

    fn count(&mut self, by: usize, verdict: Verdict) {
        *self.came[by].entry((verdict.number, verdict.set != NO_SET)).or_default() += 1;
    }

    /// Judged and explained by the entries, and by each wrong reference.
    fn by_entry(&mut self, name: &str, plan: &[u8]) -> Verdict {
        let grounds = explain(plan);
        let expected = grounds.verdict;
        let got = plan_judge(plan);
        if got != returned(expected) {
            self.fault(name, plan, &format!("the entry returned {got}"), expected);
        }
        let (said, room) = plan_explain(plan, ROOM);
        if said != got || room[..GROUNDS] != written(&grounds) || room[GROUNDS..] != [STOOD; ROOM - GROUNDS] {
            self.fault(name, plan, &format!("it was explained by {said} and {room:02X?}, and not by {grounds:?}"), expected);
        }
        let short = plan.len() % GROUNDS;
        if plan_explain(plan, short) != (NO_ROOM, [STOOD; ROOM]) {
            self.fault(name, plan, &format!("a room of {short} bytes was not too short"), expected);
        }
        self.count(0, expected);
        self.ways.extend(ways(plan, expected));
        self.unfound.retain(|fault| {
            fault.with(|| {
                let wrong = wrong::plan::explain(plan);
                let grounds = Grounds {
                    verdict: Verdict { number: wrong.verdict.number, set: wrong.verdict.set },
                    place: wrong.place,
                    earlier: wrong.earlier,
                    parts: wrong.parts,
                    record: wrong.record,
                };
                (returned(grounds.verdict), &written(&grounds)[..]) == (said, &room[..GROUNDS])
            })
        });
        expected
    }

    fn by_program(&mut self, program: &str, name: &str, plan: &[u8], seed: u64) {
        let expected = judge(plan);
        let got = pipes::answers(program, plan, seed);
        let wrote = String::from_utf8_lossy(&got);
        if wrote != line(expected) {
            self.fault(name, plan, &format!("the program wrote {wrote:?}"), expected);
        }
        self.count(1, expected);
    }

    /// The program with `--why`: its line, then of a refused set the instruction and the first earlier one that it overlaps; then the record.
    fn by_why(&mut self, program: &str, name: &str, plan: &[u8], seed: u64) {
        let grounds = explain(plan);
        let got = pipes::answers(&format!("{program} --why"), plan, seed);
        let wrote = String::from_utf8_lossy(&got);
        let right = wrote.strip_prefix(&line(grounds.verdict)).is_some_and(|below| told_why(&grounds, plan, below));
        if !right {
            self.fault(name, plan, &format!("with --why it wrote {wrote:?}"), grounds.verdict);
        }
    }

    /// Judged by the host in C, all in one run; gives the most stack that a call took.
    fn by_host(&mut self, host: &str, plans: &[Vec<u8>]) -> u32 {
        let input: Vec<u8> = plans.iter().flat_map(|plan| [&(plan.len() as u32).to_le_bytes(), &plan[..]].concat()).collect();
        let output = pipes::answers(host, &input, 1);
        const TOLD: usize = 12 + GROUNDS;
        if output.len() != TOLD * plans.len() {
            self.fault("the host in C", &[], "another number of answers", judge(&[]));
        }
        let mut most = 0;
        for (plan, told) in plans.iter().zip(output.chunks_exact(TOLD)) {
            let number = |at: usize| u32::from_le_bytes(*told[at..].first_chunk().expect("four"));
            let grounds = explain(plan);
            let expected = returned(grounds.verdict);
            if (number(0), number(4), &told[12..]) != (expected, expected, &written(&grounds)[..]) {
                self.fault("the host in C", plan, &format!("it was told {told:02X?}, and not {grounds:?}"), grounds.verdict);
            }
            most = most.max(number(8));
        }
        most
    }

    /// Whether all came that can, and nothing else; if not, says what is amiss.
    fn complete(&self) -> bool {
        let mut right = self.wrong == 0;
        let mut same = |what: &str, amiss: Vec<String>| {
            if !amiss.is_empty() {
                right = false;
                eprintln!("plans: {what}: {amiss:?}");
            }
        };
        let wanted: BTreeSet<_> = OF_THE_PLAN.map(|row| (row.0, false)).into_iter().chain(OF_A_SET.map(|row| (row.0, true))).collect();
        for (came, by) in self.came.iter().zip(["the entries", "the program"]) {
            let came: BTreeSet<_> = came.keys().copied().collect();
            let told = |(number, set): &(u8, bool)| format!("{number}{}", if *set { " of a set" } else { "" });
            let amiss = came.symmetric_difference(&wanted).map(told);
            same(&format!("numbers that {by} never told, or can't"), amiss.collect());
        }
        let missing =
            |all: Vec<&str>, came: &BTreeSet<&str>| all.into_iter().filter(|one| !came.contains(one)).map(str::to_string).collect();
        same("ways that never came", missing(WAYS.to_vec(), &self.ways));
        same("wrong references that were not found out", self.unfound.iter().map(|fault| fault.name.to_string()).collect());
        right
    }
}

pub fn main(words: &[String]) {
    let [_, program, plans, share, stack, host @ ..] = words else { panic!("usage: plans PROGRAM PLANS SHARE STACK HOST..") };
    let number = |word: &str| word.parse::<u32>().expect("a number");
    let mut run = Run { unfound: all_of("plan").collect(), ..Run::default() };
    let (mut kept, mut to_program) = (Vec::new(), Vec::new());
    for (name, plan, verdict) in examples() {
        assert_eq!(judge(&plan), verdict, "{name}");
        run.by_entry(name, &plan);
        if !name.starts_with("cut") || plan.len() % 7 == 3 {
            to_program.push((name, plan.clone()));
        }
        kept.push(plan);
    }
    let (mut numbers, mut record, mut told) = (Numbers(9), START, BTreeMap::new());
    for at in 0..number(plans) {
        let (plan, last) = any_plan(&mut numbers, record);
        record = last;
        let verdict = run.by_entry("made", &plan);
        let often = told.entry((verdict.number, verdict.set != NO_SET)).or_insert(0);
        *often += 1;
        if *often <= 3 {
            to_program.push(("made", plan.clone()));
        }
        if at % number(share) == 0 {
            kept.push(plan);
        }
    }
    let most = run.by_host(&host.join(" "), &kept);
    if most > number(stack) {
        eprintln!("plans: a call took {most} bytes of stack, which is above {stack}");
        exit(1);
    }
    for ((name, plan), seed) in to_program.iter().zip(1..) {
        run.by_program(program, name, plan, seed);
        // the examples, and of each number one that was made
        if *name != "made" || seed % 3 == 0 {
            run.by_why(program, name, plan, seed);
        }
    }
    if !run.complete() {
        exit(1);
    }
    let accepted = run.came[0][&(0, false)];
    println!(
        "plans: {} judged and explained by the entries ({accepted} accepted), {} by the host in C, {} by the program, each as the reference says",
        run.came[0].values().sum::<usize>(),
        kept.len(),
        to_program.len()
    );
    println!(
        "plans: {} numbers, {} ways to come by them, all that there are; {} wrong references found out; at most {most} bytes of stack",
        OF_THE_PLAN.len() + OF_A_SET.len() - 1,
        WAYS.len(),
        all_of("plan").count()
    );
}
