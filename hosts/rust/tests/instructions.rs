//! Instructions as cases, as bytes and in words.

use station::{lent, Belt, Belts, Instruction, Number, Orientation, Record, Refusal, Row, Rows, Side, Size, Toward};
use std::collections::HashSet;

/// More than every five bytes that can say an instruction, with each field out of range too.
fn fives() -> impl Iterator<Item = [u8; 5]> {
    let few = [0, 1, 2, 3, 255];
    let all = (0..=6).flat_map(|op| (0..=4).flat_map(move |a| (0..=64).map(move |b| (op, a, b))));
    all.flat_map(move |(op, a, b)| few.into_iter().flat_map(move |c| few.map(|d| [op, a, b, c, d])))
}

/// Bytes are an instruction exactly if the station reads one there; then they are its own bytes, and its words are read as it.
#[test]
fn what_is_an_instruction() {
    let mut lines = HashSet::new();
    for five in fives() {
        let read = Instruction::try_from(five);
        let answer = lent::garage_allowed(Record::START.0, &five);
        assert_eq!(read.is_err(), answer.number == Number::BadField, "{five:?}");
        match read {
            Err(refusal) => assert_eq!(refusal, Refusal::from(Number::BadField)),
            Ok(instruction) => {
                assert_eq!((instruction.five(), instruction.op().byte()), (five, five[0]));
                let line = instruction.to_string();
                assert_eq!(line.parse(), Ok(instruction), "{line}");
                assert!(lines.insert(line), "two have the words of {instruction}");
            }
        }
    }
    assert_eq!(lines.len(), 272);
}

#[test]
fn instructions_in_words() {
    let lines = [
        ([1, 1, 31, 0, 0], "belts row 1 left-shuttle left lift right right-shuttle, lower, half"),
        ([1, 3, 7, 1, 1], "belts row 3 left-shuttle middle right-shuttle, higher, full"),
        ([1, 2, 0, 0, 1], "belts row 2, lower, full"),
        ([2, 1, 3, 0, 1], "shuttles right rows 1 2 lowered higher"),
        ([2, 0, 4, 1, 0], "shuttles left row 3 tilted lower"),
        ([3, 0, 3, 1, 0], "tilt left row 3 tilted"),
        ([4, 1, 0, 0, 0], "lift rotation"),
        ([5, 0, 0, 0, 0], "rotate"),
    ];
    for (five, line) in lines {
        let instruction = Instruction::try_from(five).expect(line);
        assert_eq!((instruction.to_string().as_str(), line.parse()), (line, Ok(instruction)));
    }
    let wrong = [
        ("", "expected `belts`, `shuttles`, `tilt`, `lift` or `rotate`, and the line ends"),
        ("belts row 2 lift, lower, full", "expected `left-shuttle`, `middle`, `right-shuttle`, `lower` or `higher`, found `lift`"),
        ("belts row 1 left left, lower, full", "`left` stands twice"),
        ("rotate twice", "`twice` and what follows it is more than the line can say"),
    ];
    for (line, why) in wrong {
        assert_eq!(line.parse::<Instruction>().expect_err(line).to_string(), why);
    }
}

/// Each belt by its own word, in the rows that have it.
#[test]
fn belts_by_their_words() {
    let row_1 = [
        ("left-shuttle", Belt::LeftShuttle),
        ("left", Belt::Left),
        ("lift", Belt::Lift),
        ("right", Belt::Right),
        ("right-shuttle", Belt::RightShuttle),
    ];
    let others = [("left-shuttle", Belt::LeftShuttle), ("middle", Belt::Middle), ("right-shuttle", Belt::RightShuttle)];
    for (row, belts) in [(Row::One, &row_1[..]), (Row::Two, &others), (Row::Three, &others)] {
        for &(word, belt) in belts {
            let line = format!("belts row {} {word}, higher, half", row.byte());
            let instruction = Instruction::Belts { row, belts: belt.into(), toward: Toward::Higher, size: Size::Half };
            assert_eq!(line.parse(), Ok(instruction), "{line}");
        }
    }
}

/// A belt that the row doesn't have: the station says so, and there are no words for it.
#[test]
fn a_belt_of_another_row() {
    for &row in Row::ALL {
        for &belt in Belt::ALL {
            let instruction = Instruction::Belts { row, belts: belt.into(), toward: Toward::Lower, size: Size::Full };
            let there = match belt {
                Belt::LeftShuttle | Belt::RightShuttle => true,
                Belt::Middle => row != Row::One,
                Belt::Left | Belt::Lift | Belt::Right => row == Row::One,
            };
            let told = Record::START.allowed(instruction).err();
            assert_eq!(told.is_some_and(|refusal| refusal.number == Number::BadField), !there, "{instruction:?}");
            assert_eq!(Instruction::try_from(instruction.five()).is_ok(), there);
            assert_eq!(instruction.to_string().starts_with("no instruction"), !there);
        }
    }
    let mut station = station::Station::new();
    let belts = Instruction::Belts { row: Row::Two, belts: Belt::Lift.into(), toward: Toward::Lower, size: Size::Full };
    assert_eq!(station.request(&[Instruction::Rotate, belts]), Err(Refusal::at(Number::BadField, 1)));
}

#[test]
fn small_sets() {
    let belts = Belts::from([Belt::Lift, Belt::Left, Belt::Lift]);
    assert_eq!(belts.iter().collect::<Vec<_>>(), [Belt::Left, Belt::Lift]);
    assert_eq!((belts.has(Belt::Left), belts.has(Belt::Right), Belts::NONE.iter().count()), (true, false, 0));
    let rows: Rows = Row::ALL.iter().copied().collect();
    assert!(Row::ALL.iter().all(|&row| rows.has(row)) && rows == [Row::Three, Row::Two, Row::One].into());
    let shuttles = Instruction::Shuttles { side: Side::Left, rows, orientation: Orientation::Lowered, toward: Toward::Higher };
    assert_eq!(shuttles.five(), [2, 0, 7, 0, 1]);
}

/// The conditions say what the station does: all hold exactly if an instruction is allowed, else the first that fails is its reason.
#[test]
fn conditions_are_the_reasons() {
    let rotation = 1 << 53;
    let records = [0, 1 << 21, 2 << 53 | 0b11 << 10, rotation, rotation | 0b11 << 7, 0b11 << 1 | 1 << 28];
    let mut reasons = HashSet::new();
    for record in records.map(|bits| Record(Record::START.0 | bits)) {
        for instruction in fives().filter_map(|five| Instruction::try_from(five).ok()) {
            let conditions = record.conditions(instruction).expect("a sound record");
            assert!((2..=6).contains(&conditions.len()));
            let failed = conditions.iter().find(|condition| !condition.holds);
            let first = failed.map(|condition| Refusal { parts: condition.parts, ..condition.number.into() });
            assert_eq!(record.allowed(instruction).err(), first, "{instruction} on {record}");
            reasons.extend(first.map(|refusal| refusal.number));
            assert!(conditions.iter().all(|condition| condition.parts.0 < 1 << 53));
        }
    }
    assert_eq!(reasons.len(), 9, "every reason came");
    assert_eq!(Record(1).conditions(Instruction::Rotate), Err(Number::Unsound.into()));
}

#[test]
fn records_by_their_cars() {
    use station::Place::{Cell, Raised};
    let record = Record(Record::START.0 | 0b1111 << 6 | 1 << 21 | 1 << 52);
    assert_eq!((record.places(), record.cars()), (Ok(vec![Cell(6), Cell(8), Cell(21), Raised]), Some(4)));
    assert_eq!((Record(1).places(), Record(1).cars()), (Err(Number::Unsound.into()), None));
    assert_eq!(Record::from_bytes(record.bytes()), record);
    let parts = station::Parts(1 << 52 | 0b101);
    assert_eq!((parts.bits().collect::<Vec<_>>(), parts.lift(), parts.has(1), parts.has(200)), (vec![0, 2, 52], true, false, false));
    assert_eq!([Cell(7).to_string(), Raised.to_string()], ["cell 7", "the raised lift"]);
}
