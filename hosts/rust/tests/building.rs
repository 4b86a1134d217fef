//! Questions for building sets, held against what requests are told; and the version.

mod handed;

use handed::{refusal, refusal_at};
use station::raw::station as raw;
use station::{lent, Answer, Belt, Instruction, Number, Outcome, Record, Row, Size, Station, Toward};
use std::ptr::{null, null_mut};

/// All 272 instructions.
fn all() -> Vec<Instruction> {
    let fields = (1..=5).flat_map(|op| (0..=3).flat_map(move |a| (0..=31).map(move |b| (op, a, b))));
    let fives = fields.flat_map(|(op, a, b)| [(0, 0), (0, 1), (1, 0), (1, 1)].map(|(c, d)| [op, a, b, c, d]));
    fives.filter_map(|five| Instruction::try_from(five).ok()).collect()
}

/// Two overlap exactly if their areas share a bit, in either order; and then a request of both is told so, if nothing comes before it.
#[test]
fn two_in_one_set() {
    let all = all();
    assert_eq!(all.len(), 272);
    let areas: Vec<u64> = all.iter().map(|one| one.area().expect("an instruction")).collect();
    let mut overlaps = 0;
    for (one, area) in all.iter().zip(&areas) {
        for (other, second) in all.iter().zip(&areas) {
            let shared = area & second != 0;
            assert_eq!(one.overlaps(other), Ok(shared), "{one}; {other}");
            let told = Station::new().request(&[*one, *other]).map_err(|refusal| refusal.number);
            assert_eq!(told == Err(Number::Overlap), shared, "{one}; {other}: {told:?}");
            overlaps += u32::from(shared);
        }
    }
    assert!(overlaps > 272 && overlaps < 272 * 272, "{overlaps}");
}

/// Areas are in the record's own bits, the lift is 52 to 54.
#[test]
fn areas_by_their_bits() {
    let area = |five: [u8; 5]| Instruction::try_from(five).expect("an instruction").area();
    assert_eq!(area([4, 2, 0, 0, 0]), Ok(7 << 52 | 3 << 11));
    assert_eq!(area([2, 1, 1, 1, 1]), Ok(3 << 49), "the tilted slots of rows 1 and 2, on the right");
    assert_eq!(area([1, 2, 0, 0, 1]), Ok(0), "no belt is named");
}

/// An instruction changes nothing outside its area, and what is set apart when it is stuck is its area, with one bit for the lift.
#[test]
fn areas_are_what_is_changed_and_set_apart() {
    let lift = 0b111 << 52;
    for instruction in all() {
        let area = instruction.area().expect("an instruction");
        if let Ok(next) = Record::START.next(instruction) {
            assert_eq!((next.0 ^ Record::START.0) & !area, 0, "{instruction}");
        }
        let mut station = Station::new();
        if let Ok(issue) = station.request(&[instruction]) {
            station.result(issue, 0, Outcome::Stuck).expect("a result");
            let one_bit = if area & lift == 0 { 0 } else { 1 << 52 };
            assert_eq!(station.apart().0, area & !lift | one_bit, "{instruction}");
        }
    }
}

#[test]
fn what_is_refused() {
    let none = Instruction::Belts { row: Row::Two, belts: Belt::Lift.into(), toward: Toward::Lower, size: Size::Full };
    let bad = |place| refusal_at(Number::BadField, place).into_result().map(|()| false);
    assert_eq!((none.overlaps(&Instruction::Rotate), Instruction::Rotate.overlaps(&none), none.overlaps(&none)), (bad(0), bad(1), bad(0)));
    assert_eq!(none.area(), Err(Number::BadField.into()));
    let (five, mut area) = (Instruction::Rotate.five(), [0xEE; 9]);
    assert_eq!((lent::garage_area(&five, &mut area[..7]), area), (refusal(Number::NoRoom), [0xEE; 9]));
    assert_eq!((lent::garage_area(&five[..4], &mut area), area), (refusal(Number::TooFewBytes), [0xEE; 9]));
    assert_eq!((lent::garage_area(&five, &mut area), area[8]), (Answer::TAKEN, 0xEE), "what stands past it is kept");
    assert_eq!(lent::garage_overlap(&five, &five[..4]), refusal(Number::TooFewBytes));
}

#[test]
fn no_bytes_may_be_at_null() {
    let (five, mut area) = (Instruction::Rotate.five(), [0xEE; 8]);
    let (lent, length, to) = (five.as_ptr(), five.len(), area.as_mut_ptr());
    let told = unsafe {
        [
            raw::garage_area(null(), 0, null_mut(), 0),
            raw::garage_area(lent, length, null_mut(), 0),
            raw::garage_area(null(), 0, to, 8),
            raw::garage_overlap(null(), 0, lent, length),
            raw::garage_overlap(lent, length, null(), 0),
        ]
    };
    let [short, none, few @ ..] = told.map(Answer::of);
    assert_eq!(([short, none], few, area), ([refusal(Number::NoRoom); 2], [refusal(Number::TooFewBytes); 3], [0xEE; 8]));
}

/// The version is the header's, and that of the crate's own file.
#[test]
fn the_version() {
    let header = include_str!("../../../include/station.h");
    let number = |name: &str| {
        let (_, rest) =
            header.split_once(&format!("#define STATION_VERSION_{name} ")).unwrap_or_else(|| panic!("{name} is not in the header"));
        rest.split_whitespace().next().and_then(|digits| digits.parse::<u32>().ok()).expect("a number")
    };
    assert_eq!(lent::station_version(), 65536 * number("FIRST") + 256 * number("SECOND") + number("THIRD"));
    let (first, second, third) = station::version();
    assert_eq!(format!("{first}.{second}.{third}"), env!("CARGO_PKG_VERSION"));
    assert_eq!(lent::station_version(), 65536 * u32::from(first) + 256 * u32::from(second) + u32::from(third));
}
