//! A small planner: a car comes, parks in row 2 and is fetched again. The whole way is tried as a plan first; then each set is requested, a
//! belt jams on the way, and somebody has to look. `cargo run --example planner`

use station::plan::{judge, Plan, Wish};
use station::{Card, Desk, Event, Instruction, Outcome, Record, Refusal};
use std::error::Error;

const CARD: Card = Card(7001);

/// The way to row 2, and back to the lift at street: sets of instructions that run at the same time.
const PARK: &[&[&str]] = &[
    &["lift basement"],
    &["belts row 1 lift right right-shuttle, higher, full"],
    &["belts row 1 right right-shuttle, higher, full", "lift street"],
    &["belts row 1 right right-shuttle, higher, full"],
    &["belts row 1 right right-shuttle, higher, half"],
    &["shuttles right rows 1 2 lowered higher"],
    &["belts row 2 middle right-shuttle, lower, full"],
];
const FETCH: &[&[&str]] = &[
    &["belts row 2 middle right-shuttle, higher, full"],
    &["shuttles right rows 2 3 lowered lower", "lift basement"],
    &["belts row 1 right right-shuttle, lower, half"],
    &["belts row 1 right right-shuttle, lower, full"],
    &["belts row 1 right right-shuttle, lower, full"],
    &["belts row 1 lift right, lower, full"],
    &["lift street"],
];

type Set = Vec<Instruction>;

fn sets(lines: &[&[&str]]) -> Result<Vec<Set>, Box<dyn Error>> {
    lines.iter().map(|set| set.iter().map(|line| Ok(line.parse()?)).collect()).collect()
}

/// A set, requested, and the outcome of each of its instructions reported.
fn run(desk: &mut Desk, set: &[Instruction], outcome: Outcome) -> Result<(), Refusal> {
    let issue = desk.request(set)?;
    for (number, instruction) in (0..).zip(set) {
        desk.result(issue, number, outcome)?;
        println!("  {instruction}: {outcome}");
    }
    println!("set {issue}: card {CARD} is {}", desk.whereabouts(CARD));
    Ok(())
}

/// Where every instruction of a set has brought the garage.
fn after(record: Record, set: &[Instruction]) -> Result<Record, Refusal> {
    set.iter().try_fold(record, |record, &one| record.next(one))
}

fn main() -> Result<(), Box<dyn Error>> {
    let (park, fetch) = (sets(PARK)?, sets(FETCH)?);
    let mut desk = Desk::new();
    desk.event(Event::BeginIn, Some(CARD))?;
    println!("a driver is in the lift; {}: {}", park[0][0], desk.request(&park[0]).expect_err("the lift must wait"));
    desk.event(Event::EndedDone, None)?;

    let plan = Plan { start: desk.record(), wish: Wish::WithACar, sets: [park.clone(), fetch.clone()].concat() };
    judge(&plan)?;
    println!("a plan of {} sets is accepted", plan.sets.len());

    let (last, before) = park.split_last().expect("there are sets");
    for set in before {
        run(&mut desk, set, Outcome::Done)?;
    }
    let finished = after(desk.record(), last)?;
    run(&mut desk, last, Outcome::Stuck)?;
    println!("the same again: {}", desk.request(last).expect_err("nothing is run into it"));
    desk.image(finished, &[CARD])?; // somebody has looked: the belts had finished
    print!("somebody looked: card {CARD} is {}\n{}", desk.whereabouts(CARD), desk.record());

    for set in &fetch {
        run(&mut desk, set, Outcome::Done)?;
    }
    desk.event(Event::BeginOut, None)?;
    println!("card {} is leaving", desk.leaving().expect("a drive-out is under way"));
    desk.event(Event::EndedDone, None)?;
    println!("the garage is {}", if desk.record() == Record::START { "as it was at the start" } else { "another" });
    Ok(())
}
