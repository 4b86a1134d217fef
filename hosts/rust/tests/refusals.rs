//! A refusal says which parts of the garage are at fault, and with which earlier instruction one overlaps.

use station::{Card, Desk, Event, Instruction, Number, Outcome, Parts, Record, Refusal, Station};

/// A car on cells 10 and 11, half on the lift in the basement.
const HALF_OFF: Record = Record(0x0049_1B00_0000_0C00);

fn set(lines: &[&str]) -> Vec<Instruction> {
    lines.iter().map(|line| line.parse().expect("an instruction")).collect()
}

fn refused(station: &mut Station, lines: &[&str]) -> Refusal {
    station.request(&set(lines)).expect_err("a refusal")
}

/// All instructions.
fn every() -> Vec<Instruction> {
    let mut all = Vec::new();
    for five in 0..5u8 {
        for fields in 0..4u32 * 32 * 2 * 2 {
            let [a, b, c, d] = [fields % 4, fields / 4 % 32, fields / 128 % 2, fields / 256].map(|field| field as u8);
            all.extend(Instruction::try_from([five + 1, a, b, c, d]));
        }
    }
    all
}

#[test]
fn the_parts_of_the_first_condition_that_fails() {
    let mut station = Station::new();
    station.image(HALF_OFF).expect("a garage");
    let refusal = refused(&mut station, &["tilt left row 3 tilted", "lift street"]);
    assert_eq!(refusal.to_string(), "24 (odd count: a car would be torn) at 1: cells 0 to 19, the lift");
    let mut count = 0;
    for record in [Record::START, HALF_OFF, Record(0x3F00_0000_0000)] {
        let mut station = Station::new();
        station.image(record).expect("a garage");
        for instruction in every() {
            let Err(refusal) = record.allowed(instruction) else { continue };
            let conditions = record.conditions(instruction).expect("a sound record");
            let failed = conditions.iter().find(|condition| !condition.holds).expect("one that fails");
            assert_eq!((refusal.number, refusal.parts, refusal.earlier), (failed.number, failed.parts, None), "{instruction}");
            assert_eq!(record.next(instruction), Err(refusal));
            assert_eq!(station.request(&[instruction]), Err(Refusal { place: Some(0), ..refusal }));
            count += 1;
        }
    }
    assert!(count > 300, "{count}");
}

#[test]
fn an_overlap_names_the_earlier_one_and_what_both_have() {
    let refusal = refused(&mut Station::new(), &["lift basement", "tilt left row 3 tilted", "tilt left row 3 tilted"]);
    assert_eq!((refusal.earlier, refusal.parts), (Some(1), Parts(1 << 30 | 1 << 42 | 1 << 48)));
    assert_eq!(refusal.to_string(), "8 (overlap) at 2, with 1: cell 30, left row 3 lowered, left row 3 tilted");
    // the first of two
    let lines = ["belts row 1 left, higher, full", "belts row 1 right, higher, full", "belts row 1 left lift right, higher, full"];
    let refusal = refused(&mut Station::new(), &lines);
    assert_eq!(refusal.to_string(), "8 (overlap) at 2, with 0: cells 2 to 10");
}

#[test]
fn what_is_set_apart_and_touched() {
    let mut station = Station::new();
    let issue = station.request(&set(&["lift basement"])).expect("allowed");
    station.result(issue, 0, Outcome::Stuck).expect("outstanding");
    let refusal = refused(&mut station, &["tilt left row 3 tilted", "belts row 1 left lift, lower, full"]);
    assert_eq!(refusal.parts.bits().collect::<Vec<_>>(), [11, 12, 52]);
    assert_eq!(refusal.to_string(), "32 (a part is set apart) at 1: cells 11 to 12, the lift");
    // of what is set apart only what is touched
    station.image(Record(Record::START.0 | 2 << 53)).expect("a garage");
    let issue = station.request(&set(&["belts row 1 left lift, lower, full"])).expect("allowed");
    station.result(issue, 0, Outcome::Stuck).expect("outstanding");
    assert_eq!(refused(&mut station, &["belts row 1 left, higher, full"]).to_string(), "32 (a part is set apart) at 0: cells 2 to 10");
}

#[test]
fn where_no_part_is_at_fault() {
    let mut desk = Desk::new();
    desk.event(Event::BeginIn, Some(Card(7))).expect("the start");
    let refusal = desk.request(&set(&["lift basement"])).expect_err("a drive is under way");
    assert_eq!((refusal.number, refusal.parts, refusal.to_string().as_str()), (Number::OutOfTurn, Parts::NONE, "31 (out of turn)"));
    let refusal = refused(&mut Station::new(), &["shuttles left rows lowered higher"]);
    assert_eq!(refusal.to_string(), "20 (nothing named) at 0");
}
