//! Drawings: a record as text, and text as a record.

use station::{lent, Number, Parts, Record, Refusal};

const START: u64 = Record::START.0;
const DRAWN: &str = "....................\n..........\n..........\nLLT\nLLT\nstreet\n";
/// The longest drawing.
const MOST: usize = 66;

fn bad_line(line: u8) -> Result<Record, Refusal> {
    Err(Refusal::at(Number::BadLine, line))
}

#[test]
fn a_record_is_drawn_and_read_back() {
    assert_eq!(Record::START.drawing().as_deref(), Ok(DRAWN));
    assert_eq!(DRAWN.parse(), Ok(Record::START));
    let longest = Record(START | 1 << 52 | 1 << 56);
    let drawn = longest.drawing().expect("a sound record");
    assert_eq!((drawn.len(), drawn.parse()), (MOST, Ok(longest)));
}

#[test]
fn what_is_not_sound_has_no_drawing_and_is_not_read() {
    for image in [0, START | 1, START | 1 << 63, u64::MAX] {
        assert_eq!(Record(image).drawing(), Err(Number::Unsound.into()));
    }
    assert_eq!(Record(START | 1).to_string(), "01 00 00 00 00 1B 09 00");
    assert_eq!(DRAWN.replace("street", "basement car").parse::<Record>(), Err(Number::Unsound.into()));
}

#[test]
fn the_first_bad_line_is_told() {
    assert_eq!("".parse(), bad_line(0));
    for (line, at) in DRAWN.split_inclusive('\n').zip(0..) {
        let before = line.as_ptr() as usize - DRAWN.as_ptr() as usize;
        assert_eq!(DRAWN[..before].parse(), bad_line(at), "the text ends before it");
        assert_eq!(DRAWN[..before + line.len() - 1].parse(), bad_line(at), "no line feed");
    }
    assert_eq!(format!("{DRAWN}\n").parse(), bad_line(6));
    assert_eq!(bad_line(3).unwrap_err().to_string(), "41 (not a drawing) at 3");
}

/// Rooms that are too short are told 17, of a drawing after 15 and of a record before all else, and nothing is written.
#[test]
fn short_rooms() {
    let mut text = [0xEE; MOST];
    assert_eq!((lent::drawing_write(START, &mut text[..DRAWN.len() - 1]), text), (Err(Number::NoRoom.into()), [0xEE; MOST]));
    assert_eq!(lent::drawing_write(START | 1, &mut []), Err(Number::Unsound.into()));
    assert_eq!((lent::drawing_write(START, &mut text[..DRAWN.len()]), &text[..DRAWN.len()]), (Ok(DRAWN.len()), DRAWN.as_bytes()));
    let mut image = [0xEE; 8];
    assert_eq!((lent::drawing_read(b"", &mut image[..7]).number, image), (Number::NoRoom, [0xEE; 8]));
}

#[test]
fn what_is_set_apart_is_drawn_and_read_back() {
    let drawn = "..xxxxxxxxxxx.......\n..........\nx.........\n--L\nT-B\nlift\n";
    let apart = Parts(0x1FFC | 1 << 30 | 1 << 42 | 1 << 49 | 1 << 45 | 1 << 51 | 1 << 52);
    assert_eq!(apart.drawing().as_deref(), Ok(drawn));
    assert_eq!(Parts::from_drawing(drawn), Ok(apart));
    assert_eq!(Parts::NONE.drawing().map(|text| text.len()), Ok(53));
    assert_eq!(Parts::ALL.drawing().map(|text| Parts::from_drawing(&text)), Ok(Ok(Parts::ALL)));
    assert_eq!(Parts(1 << 53).drawing(), Err(Number::Unsound.into()));
}

#[test]
fn neither_drawing_is_read_as_the_other() {
    assert_eq!(Parts::NONE.drawing().map(|text| text.parse()), Ok(bad_line(5)));
    assert_eq!(Parts::ALL.drawing().map(|text| text.parse()), Ok(bad_line(0)));
    assert_eq!(Parts::from_drawing(DRAWN), Err(Refusal::at(Number::BadLine, 5)));
    assert_eq!(Parts::from_drawing(&DRAWN.replacen("..", "##", 1)), Err(Refusal::at(Number::BadLine, 0)));
}
