//! The reference on examples worked by hand from docs/RULES.md, rule by rule.

use reference::{cars, sound, Instruction, Station, BEGIN_IN, BEGIN_OUT, DONE, END_DONE, FAILED, START, STUCK};

const BASEMENT: u64 = 2 << 53;
const ROTATION: u64 = 1 << 53;
const ON_LIFT: u64 = 1 << 52;
const LIFT_CELLS: u64 = 3 << 11;
const ALL_LOWERED: u64 = 0b111_111 << 40;

/// What an instruction is told on a record: 0 where it is allowed.
fn told(five: [u8; 5], record: u64) -> u8 {
    let instruction = Instruction::read(five).expect("it is well formed");
    instruction.judge(record).err().unwrap_or(0)
}

fn after(five: [u8; 5], record: u64) -> u64 {
    Instruction::read(five).expect("it is well formed").next(record)
}

#[test]
fn the_start_is_sound_and_empty() {
    assert_eq!(START.to_le_bytes(), [0, 0, 0, 0, 0, 0x1B, 0x09, 0]);
    assert_eq!((sound(START), cars(START)), (true, Some(0)));
}

#[test]
fn cars_are_two_half_cells_one_cell_or_on_the_lift() {
    assert_eq!(cars(START | 3 << 2), Some(1));
    assert_eq!(cars(START | 0b1111 << 2 | 1 << 25 | ON_LIFT), Some(4));
    assert_eq!(cars(START | 0b111 << 2), None, "three half cells");
}

#[test]
fn each_clause_of_soundness_is_asked() {
    for (record, why) in [
        (START | 1 << 2, "half a car"),
        (START | 1 << 30, "a car on a shuttle's cell with no lowered shuttle there"),
        (START | LIFT_CELLS, "a car over the lift's cells with the lift at street"),
        (START | BASEMENT | ON_LIFT, "a car on the raised lift with the lift in the basement"),
        (START | 1 << 42, "four shuttles on a side"),
        ((START & !(0b110 << 40)) | 0b110 << 46, "two tilted shuttles"),
        (START | 3 << 53, "height 3"),
        (START | 1 << 57, "a bit that is nothing"),
        (START | 3 << 55 | ON_LIFT, "both drives"),
        (START | 1 << 55 | ROTATION, "a drive above the street"),
        (START | 1 << 55 | ON_LIFT, "a drive-in onto a car"),
        (START | 1 << 56, "a drive-out without a car"),
    ] {
        assert!(!sound(record), "{why}");
    }
    assert!(sound(ALL_LOWERED | BASEMENT | 0xFF_FFFF_FFFF), "every place taken");
    assert_eq!(cars(ALL_LOWERED | BASEMENT | 0xFF_FFFF_FFFF), Some(30), "no record has more");
}

#[test]
fn there_are_272_well_formed_instructions() {
    let bytes = (0..=6u8).flat_map(|op| (0..5u8).flat_map(move |a| (0..34u8).map(move |b| [op, a, b])));
    let fives = bytes.flat_map(|[op, a, b]| (0..9u8).map(move |cd| [op, a, b, cd / 3, cd % 3]));
    assert_eq!(fives.filter(|&five| Instruction::read(five).is_some()).count(), 272);
}

#[test]
fn belts_are_refused_in_the_rules_order() {
    assert_eq!(told([1, 2, 0, 0, 0], START), 25, "a half move in row 2, which names nothing either");
    assert_eq!(told([1, 1, 0, 0, 1], START), 20);
    assert_eq!(told([1, 1, 0b1010, 0, 1], START), 21);
    assert_eq!(told([1, 1, 0b100, 0, 1], START), 22, "the lift is at street");
    assert_eq!(told([1, 3, 1, 0, 1], START), 22, "row 3 has no lowered shuttle");
    assert_eq!(told([1, 1, 0b10, 0, 1], START | 3 << 2), 23, "the end toward which it goes is taken");
    assert_eq!(told([1, 1, 0b10, 0, 1], START | 3 << 10 | BASEMENT), 24, "a car half in the span");
    let moved = after([1, 1, 0b10, 0, 1], START | 3 << 5);
    assert_eq!((told([1, 1, 0b10, 0, 1], START | 3 << 5), moved), (0, START | 3 << 3), "a full move of row 1 is two half cells");
    assert_eq!(after([1, 1, 0b10, 0, 0], START | 3 << 5), START | 3 << 4);
    assert_eq!(after([1, 2, 0b10, 1, 1], START | 1 << 25), START | 1 << 26);
}

#[test]
fn shuttles_take_their_cars_along() {
    assert_eq!(told([2, 0, 0, 0, 1], START), 20);
    assert_eq!(told([2, 0, 0b101, 0, 1], START), 21);
    assert_eq!(told([2, 0, 0b100, 0, 0], START), 22);
    assert_eq!(told([2, 0, 0b001, 0, 1], START), 23, "row 2 has a lowered one");
    assert_eq!(told([2, 0, 0b011, 0, 1], START | 3 << 1), 24, "half a car on the shuttle of row 1");
    let moved = after([2, 0, 0b011, 0, 1], START | 3);
    assert_eq!(moved, START & !(0b111 << 40) | 0b110 << 40 | 1 << 20, "two half cells are one cell in row 2");
    assert_eq!(after([2, 0, 0b110, 0, 0], moved), START | 3, "and the reverse");
}

#[test]
fn tilts_lifts_and_rotations() {
    assert_eq!(told([3, 0, 1, 0, 0], START), 22, "one of the side is tilted already");
    assert_eq!(told([3, 0, 1, 0, 0], ALL_LOWERED | 3), 28, "a car on it");
    assert_eq!(told([3, 0, 3, 1, 0], START), 0);
    assert_eq!(after([3, 0, 3, 1, 0], START), START & !(1 << 48) | 1 << 42);
    assert_eq!(told([4, 0, 0, 0, 0], START), 26);
    assert_eq!(after([4, 2, 0, 0, 0], START | ON_LIFT), START | BASEMENT | LIFT_CELLS);
    assert_eq!(after([4, 0, 0, 0, 0], START | BASEMENT | LIFT_CELLS), START | ON_LIFT);
    assert_eq!(told([4, 0, 0, 0, 0], START | BASEMENT | 3 << 10), 24, "a car half on the lift");
    assert_eq!(told([5, 0, 0, 0, 0], START), 27);
    assert_eq!(told([5, 0, 0, 0, 0], START | ROTATION | 3 << 8), 28);
    assert_eq!((told([5, 0, 0, 0, 0], START | ROTATION), after([5, 0, 0, 0, 0], START | ROTATION)), (0, START | ROTATION));
}

#[test]
fn a_set_is_applied_result_by_result() {
    let mut station = Station::start();
    let set = [[4, 2, 0, 0, 0], [3, 0, 3, 1, 0]].concat();
    assert_eq!((station.request(2, &set).number, station.record), (0, START), "acceptance changes nothing");
    assert_eq!(station.request(1, &set).number, 6);
    assert_eq!(station.result(0, 2, DONE).number, 12);
    assert_eq!((station.result(0, 1, FAILED).number, station.record), (0, START), "what failed changes nothing");
    assert_eq!(station.result(0, 1, DONE).number, 13);
    assert_eq!(station.result(1, 0, DONE).number, 30, "of a set that was not issued");
    assert_eq!((station.result(0, 0, DONE).number, station.record), (0, START | BASEMENT));
    assert_eq!(station.result(0, 0, DONE).number, 11, "the set is closed");
    assert_eq!((station.request(1, &[4, 0, 0, 0, 0]).issue, station.result(0, 0, DONE).number), (1, 29), "late");
}

#[test]
fn a_jam_sets_the_area_apart_until_an_image_comes() {
    let mut station = Station::start();
    station.request(1, &[4, 2, 0, 0, 0]);
    assert_eq!((station.result(0, 0, STUCK).number, station.record), (0, START));
    assert_eq!(station.apart_number(), 1 << 52 | LIFT_CELLS);
    assert_eq!((station.request(1, &[5, 0, 0, 0, 0]).number, station.event(BEGIN_IN).number), (32, 32));
    assert_eq!(station.request(1, &[1, 2, 2, 0, 1]).number, 0, "what is elsewhere goes on");
    assert_eq!(station.image(START, 0).number, 6);
    station.result(1, 0, DONE);
    assert_eq!(station.image(START, 1).number, 15, "an image sets nothing apart");
    assert_eq!((station.image(START, 0).number, station.apart_number()), (0, 0));
}

#[test]
fn drivers_come_and_go_at_street() {
    let mut station = Station::start();
    assert_eq!((station.event(END_DONE).number, station.event(BEGIN_OUT).number), (31, 10));
    assert_eq!(station.event(BEGIN_IN).number, 0);
    assert_eq!((station.event(BEGIN_IN).number, station.request(1, &[4, 2, 0, 0, 0]).number), (31, 31));
    assert_eq!((station.event(END_DONE).number, station.record), (0, START | ON_LIFT));
    assert_eq!((station.event(BEGIN_IN).number, station.event(BEGIN_OUT).number), (10, 0));
    // with 27 cars no drive-in begins: 18 half cells of row 1, its middle left out, and 18 cells of rows 2 and 3
    let full = ALL_LOWERED | 0x000F_FFFF & !LIFT_CELLS & !(1 << 10) & !(1 << 13) | 0xF_FFFF << 20;
    let mut station = Station { record: full & !(1 << 20), ..Station::start() };
    let inside = cars(station.record).expect("it is sound");
    assert_eq!((inside, station.event(BEGIN_IN).number), (27, 33));
    let mut station = Station { record: station.record & !(1 << 21), ..Station::start() };
    assert_eq!((cars(station.record), station.event(BEGIN_IN).number), (Some(26), 0));
}
