//! Plans tried before the day.

use station::plan::{explain, judge, Grounds, Plan, Wish};
use station::{Event, Instruction, Number, Outcome, Parts, Record, Refusal, Station};

fn said(line: &str) -> Instruction {
    line.parse().expect(line)
}

fn told(number: Number, place: u8) -> Result<(), Refusal> {
    Err(Refusal::at(number, place))
}

#[test]
fn a_plan_is_judged_by_its_sets() {
    let (down, up) = ([said("lift basement")], [said("lift street")]);
    let plan = Plan::new(Record::START, Wish::WithoutACar);
    assert_eq!(plan.bytes(), [&Record::START.bytes()[..], &[0; 8], &[0, 0]].concat());
    assert_eq!(judge(&plan), Ok(()));
    let plan = plan.then(&down);
    assert_eq!(plan.bytes()[16..], [0, 1, 1, 4, 2, 0, 0, 0]);
    assert_eq!(judge(&plan), Err(Number::WishNotMet.into()));
    assert_eq!(judge(&plan.clone().then(&up)), Ok(()));
    assert_eq!(judge(&Plan { wish: Wish::WithACar, ..plan.clone().then(&up) }), Err(Number::WishNotMet.into()));
    assert_eq!(judge(&plan.clone().then(&[])), told(Number::EmptySet, 1));
    assert_eq!(judge(&plan.clone().then(&up).then(&[up[0], up[0]])), told(Number::Overlap, 2));
    assert_eq!(judge(&Plan { start: Record(1), ..plan.clone() }), Err(Number::Unsound.into()));
    let loaded = Plan::new(Record(Record::START.0 | 1 << 52), Wish::WithACar);
    assert_eq!(judge(&loaded.then(&down).then(&up)), Ok(()));
}

/// 64 sets are accepted; more are refused, also more than the bytes can count, and so are instructions.
#[test]
fn as_many_as_there_may_be() {
    let turns = |sets: usize| {
        let plan = Plan::new(Record::START, Wish::WithoutACar);
        (0..sets).fold(plan, |plan, at| plan.then(&[said(if at % 2 == 0 { "lift basement" } else { "lift street" })]))
    };
    assert_eq!(judge(&turns(Plan::MOST)), Ok(()));
    for sets in [Plan::MOST + 1, 255, 256, 300] {
        assert_eq!(judge(&turns(sets)), Err(Number::TooManySets.into()), "{sets} sets");
    }
    for instructions in [9, 255, 256, 300] {
        let plan = Plan::new(Record::START, Wish::WithoutACar).then(&vec![Instruction::Rotate; instructions]);
        assert_eq!(judge(&plan), told(Number::TooMany, 0), "{instructions} instructions");
        assert_eq!(Station::new().request(&plan.sets[0]), Err(Number::TooMany.into()));
    }
}

/// A station that took the sets before one, and finished them.
fn finished(plan: &Plan, sets: usize) -> Station {
    let mut station = Station::new();
    station.image(plan.start).unwrap();
    for set in &plan.sets[..sets] {
        let issue = station.request(set).unwrap();
        (0..).zip(set).for_each(|(number, _)| station.result(issue, number, Outcome::Done).unwrap());
    }
    station
}

fn set(words: &[&str]) -> Vec<Instruction> {
    words.iter().map(|line| said(line)).collect()
}

#[test]
fn a_refusal_is_what_the_station_says_there() {
    let down = Plan::new(Record::START, Wish::WithoutACar).then(&set(&["lift basement", "belts row 3 middle higher full"]));
    let mut told = Vec::new();
    for last in [
        &["belts row 2 middle lower full", "belts row 1 left lift lower full", "lift street"][..],
        &[
            "belts row 2 middle lower full",
            "belts row 1 left lower full",
            "belts row 1 left lift lower full",
            "belts row 1 lift higher full",
        ],
        &["rotate"],
        &["belts row 2 middle lower full", "lift basement"],
        &["belts row 1 left right lower full"],
        &[],
        &["rotate"; 9],
    ] {
        let plan = down.clone().then(&set(last)).then(&set(&["lift street"]));
        let mut station = finished(&plan, 1);
        let grounds = explain(&plan);
        assert_eq!((grounds.set, grounds.record), (Some(1), Some(station.record())), "{last:?}");
        assert_eq!(grounds.refusal, station.request(&plan.sets[1]).err(), "{last:?}");
        assert_eq!(judge(&plan).unwrap_err(), Refusal::at(grounds.refusal.unwrap().number, 1));
        told.push(grounds.refusal.unwrap().to_string());
    }
    assert_eq!(told[0], "8 (overlap) at 2, with 1: cells 11 to 12, the lift");
    // it overlaps two, and the first is told
    assert!(told[1].starts_with("8 (overlap) at 2, with 1: cells 2 to 10"), "{}", told[1]);
    assert_eq!(told[3], "26 (already at that height) at 1: the lift");
}

#[test]
fn the_lift_is_named_where_a_drive_is_under_way() {
    let mut station = Station::new();
    station.event(Event::BeginIn).unwrap();
    let plan = Plan::new(station.record(), Wish::WithACar).then(&set(&["tilt left row 3 tilted"])).then(&set(&["lift basement"]));
    let grounds = explain(&plan);
    let refusal = Refusal { parts: Parts(1 << 52), ..Number::OutOfTurn.into() };
    assert_eq!(grounds, Grounds { refusal: Some(refusal), set: Some(1), record: Some(finished(&plan, 1).record()) });
}

#[test]
fn a_whole_plan_has_its_last_record_or_none() {
    let plan = Plan::new(Record::START, Wish::WithoutACar).then(&set(&["lift rotation"])).then(&set(&["rotate"]));
    let last = Some(finished(&plan, 2).record());
    assert_eq!(explain(&plan), Grounds { refusal: Some(Number::WishNotMet.into()), set: None, record: last });
    let plan = plan.then(&set(&["lift street"]));
    assert_eq!(explain(&plan), Grounds { refusal: None, set: None, record: Some(Record::START) });
    let none = |number: Number| Grounds { refusal: Some(number.into()), set: None, record: None };
    assert_eq!(explain(&Plan { start: Record(1), ..plan.clone() }), none(Number::Unsound));
    assert_eq!(explain(&Plan { sets: vec![plan.sets[0].clone(); 65], ..plan.clone() }), none(Number::TooManySets));
    assert_eq!(Grounds::of(&plan.bytes()[..20]), none(Number::TooFewBytes));
}
