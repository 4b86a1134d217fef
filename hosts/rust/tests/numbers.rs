//! The table of numbers, and the bytes of fields, held against the headers.

use station::{Event, Height, Kind, Number, Op, Orientation, Outcome, Record, Side, Size, Toward};
use std::collections::HashSet;

const HEADERS: [(&str, &str); 4] = [
    ("STATION_", include_str!("../../../include/station.h")),
    ("PLAN_", include_str!("../../../include/plan.h")),
    ("DESK_", include_str!("../../../include/desk.h")),
    ("REPORT_", include_str!("../../../include/report.h")),
];

/// The enumerators of the first enum of a text, without what each begins with, as a case of ours is named.
fn listed(prefix: &str, text: &str) -> Vec<(u8, String)> {
    let (_, table) = text.split_once("enum {").expect("an enum");
    let (table, _) = table.split_once("};").expect("its end");
    let one = |line: &str| {
        let (name, rest) = line.trim().strip_prefix(prefix)?.split_once(" = ")?;
        let case = |word: &str| word[..1].to_string() + &word[1..].to_lowercase();
        let number = rest.split(|c: char| !c.is_ascii_digit()).next()?.parse().expect("a number");
        Some((number, name.split('_').map(case).collect()))
    };
    table.lines().filter_map(one).collect()
}

/// What is ours of some cases.
fn ours(numbers: std::ops::RangeInclusive<u8>) -> Vec<(u8, String)> {
    numbers.filter_map(|number| Some((number, format!("{:?}", Number::try_from(number).ok()?)))).collect()
}

/// The table is the headers': each enumerator of the station's is a case of ours, and so are the others' own.
#[test]
fn the_numbers_are_those_of_the_headers() {
    let after = |mark: &str, (prefix, header): (&str, &str)| listed(prefix, header.split_once(mark).expect(mark).1);
    let drawing = ("DRAWING_", include_str!("../../../include/drawing.h"));
    let own = |all: Vec<(u8, String)>| all.into_iter().filter(|&(number, _)| number > 33).collect::<Vec<_>>();
    let [station, plan, desk, report] = HEADERS;
    assert_eq!(after("/* What the numbers mean", station), ours(0..=34));
    let others = [
        own(after("/* The numbers that a plan is told", plan)),
        own(after("/* The desk's own numbers", desk)),
        own(after("/* The numbers that are answered", report)),
        own(after("/* The numbers that are answered", drawing)),
    ];
    assert_eq!(others.concat(), ours(35..=255));
}

#[test]
fn a_number_has_a_case_exactly_if_the_table_has_it() {
    for number in 0..=255 {
        let case = Number::try_from(number);
        assert_eq!(case.map(|case| case as u8), if matches!(number, 9 | 14 | 18 | 19 | 34 | 42..) { Err(number) } else { Ok(number) });
    }
    let words: HashSet<&str> = (0..=255).filter_map(|number| Some(Number::try_from(number).ok()?.words())).collect();
    assert_eq!(words.len(), 37, "no two have the same words");
}

/// Every field's bytes are those that the header gives their names, and no other byte is a case.
#[test]
fn the_bytes_of_fields_are_those_of_the_header() {
    let header = HEADERS[0].1;
    let said = |name: &str| {
        let (_, rest) = header.split_once(&format!("{name} = ")).unwrap_or_else(|| panic!("{name} is not in the header"));
        rest.split(|c: char| !c.is_ascii_digit()).next().and_then(|digits| digits.parse::<u8>().ok()).expect("a number")
    };
    macro_rules! held {
        ($field:ident: $($case:ident $name:literal),*) => {
            $(assert_eq!($field::$case.byte(), said($name));)*
            assert_eq!($field::ALL, [$($field::$case),*]);
            for byte in 0..=255 { assert_eq!($field::try_from(byte).ok(), $field::ALL.iter().copied().find(|case| case.byte() == byte)); }
        };
    }
    held!(Side: Left "GARAGE_LEFT", Right "GARAGE_RIGHT");
    held!(Toward: Lower "GARAGE_LOWER", Higher "GARAGE_HIGHER");
    held!(Size: Half "GARAGE_HALF", Full "GARAGE_FULL");
    held!(Orientation: Lowered "GARAGE_LOWERED", Tilted "GARAGE_TILTED");
    held!(Height: Street "GARAGE_STREET", Rotation "GARAGE_ROTATION", Basement "GARAGE_BASEMENT");
    held!(Op: Belts "GARAGE_BELTS", Shuttles "GARAGE_SHUTTLES", Tilt "GARAGE_TILT", Lift "GARAGE_LIFT", Rotate "GARAGE_ROTATE");
    held!(Event: BeginIn "STATION_BEGIN_IN", BeginOut "STATION_BEGIN_OUT", EndedDone "STATION_END_DONE",
        EndedNotDone "STATION_END_NOT_DONE");
    held!(Outcome: Failed "STATION_FAILED", Done "STATION_DONE", Stuck "STATION_STUCK");
    held!(Kind: Request "STATION_KIND_REQUEST", Event "STATION_KIND_EVENT", Result "STATION_KIND_RESULT", Image "STATION_KIND_IMAGE",
        Ask "STATION_KIND_ASK");
    assert!(header.contains(&format!("STATION_START_IMAGE UINT64_C(0x{:016X})", Record::START.0)));
}
