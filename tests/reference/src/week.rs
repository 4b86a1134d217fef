//! The week in numbers, counted by the reference: which totals a message raises on a station, and the text of a report. The order of the
//! totals is that of the cases below, which is the report's; those that are 0 are not kept.

use crate::{cars, read_call, Call, Station, END_DONE};
use std::collections::BTreeMap;
use std::fmt::{self, Display, Formatter};

/// A total: messages of a kind, answers with a number, results taken by the instruction's op, drives done, the most cars.
#[derive(Clone, Copy, Debug, PartialEq, Eq, PartialOrd, Ord)]
pub enum Total {
    Kind(u8),
    Answer(u8),
    Done(u8),
    Failed(u8),
    CarsIn,
    CarsOut,
    MostCars,
}
use Total::{Answer, CarsIn, CarsOut, Done, Failed, Kind, MostCars};

impl Display for Total {
    fn fmt(&self, f: &mut Formatter) -> fmt::Result {
        match self {
            Kind(kind) => write!(f, "kind-{kind}"),
            Answer(number) => write!(f, "answer-{number}"),
            Done(op) => write!(f, "done-{op}"),
            Failed(op) => write!(f, "failed-{op}"),
            CarsIn => write!(f, "cars-in"),
            CarsOut => write!(f, "cars-out"),
            MostCars => write!(f, "most-cars"),
        }
    }
}

/// The numbers that an answer can have.
fn in_force() -> impl Iterator<Item = u8> {
    (0..=8).chain(10..=13).chain(15..=17).chain(20..=33)
}

/// The totals that a report has a line for, in its order.
pub fn totals() -> impl Iterator<Item = Total> {
    let by_op = (1..=5).map(Done).chain((1..=5).map(Failed));
    (1..=5).map(Kind).chain(in_force().map(Answer)).chain(by_op).chain([CarsIn, CarsOut, MostCars])
}

/// The kind of the first message, once its length is one that a message can have and both bytes of a known kind have come.
fn kind_read(input: &[u8]) -> Option<u8> {
    let &[a, b, c, d, ..] = input else { return None };
    let (length, kind) = (u16::from_le_bytes([a, b]), u16::from_le_bytes([c, d]));
    ((2..=43).contains(&length) && (1..=5).contains(&kind)).then_some(c)
}

/// What the first message of some bytes did on a station.
pub struct Happened {
    /// The totals that are one more, in the report's order.
    pub raised: Vec<Total>,
    /// The cars of the record afterwards; 0 of one that isn't sound.
    pub cars: u32,
    /// The bytes that the message took; nothing where the station stops.
    pub took: Option<usize>,
}

/// The station takes the first message of some bytes.
pub fn happened(station: &mut Station, input: &[u8]) -> Happened {
    let before = *station;
    let (call, number, took) = match read_call(input) {
        Ok((call, took)) => (Some(call), station.take(call).number, Some(took)),
        Err(refused) => (None, refused.answer.number, refused.took),
    };
    let taken = call.filter(|_| number == 0);
    let mut raised: Vec<Total> = kind_read(input).map(Kind).into_iter().collect();
    // an ask that is taken is answered with the image, which has no number
    if taken != Some(Call::Ask) {
        raised.push(Answer(number));
    }
    match taken {
        Some(Call::Result { number, outcome, .. }) => {
            let op = before.set[5 * usize::from(number)];
            raised.push(if outcome == crate::DONE { Done(op) } else { Failed(op) });
            // what is stuck has failed
        }
        // a drive that is done has brought a car or taken one away
        Some(Call::Event(END_DONE)) => raised.push(if cars(station.record) > cars(before.record) { CarsIn } else { CarsOut }),
        _ => {}
    }
    Happened { raised, cars: cars(station.record).unwrap_or(0), took }
}

/// Totals, each up to the largest number of 32 bits.
#[derive(Clone, Debug, Default, PartialEq, Eq)]
pub struct Week(BTreeMap<Total, u32>);

impl Week {
    pub fn get(&self, total: Total) -> u32 {
        self.0.get(&total).copied().unwrap_or(0)
    }

    pub fn set(&mut self, total: Total, value: u32) {
        if value == 0 {
            self.0.remove(&total);
        } else {
            self.0.insert(total, value);
        }
    }

    /// Counts what happened; or nothing of it, where a total can't be raised: then it is told, the first of them.
    pub fn count(&mut self, happened: &Happened) -> Result<(), Total> {
        if let Some(&full) = happened.raised.iter().filter(|&&total| self.get(total) == u32::MAX).min() {
            return Err(full);
        }
        for &total in &happened.raised {
            *self.0.entry(total).or_default() += 1;
        }
        self.set(MostCars, self.get(MostCars).max(happened.cars));
        Ok(())
    }

    /// Of a whole input, on a started station: message after message, until the input ends or the station stops.
    pub fn of(input: &[u8]) -> Week {
        let (mut station, mut week, mut rest) = (Station::start(), Week::default(), input);
        while !rest.is_empty() {
            let happened = happened(&mut station, rest);
            week.count(&happened).expect("no input is that long");
            rest = happened.took.map_or(&[], |took| &rest[took..]);
        }
        week
    }

    /// The totals that are not 0.
    pub fn nonzero(&self) -> impl Iterator<Item = Total> + '_ {
        self.0.keys().copied()
    }

    /// The report: a line for each total.
    pub fn report(&self) -> String {
        totals().map(|total| format!("{total} {}\n", self.get(total))).collect()
    }
}

/// What is printed where a total is full.
pub fn full(total: Total) -> String {
    format!("full {total}\n")
}

// ---- Examples --------------------------------------------------------------------------------------

const ASK: [u8; 4] = [2, 0, 5, 0];
const BEGIN_IN: [u8; 5] = [3, 0, 2, 0, 1];
const BEGIN_OUT: [u8; 5] = [3, 0, 2, 0, 2];
const DONE: [u8; 5] = [3, 0, 2, 0, 3];
const NOT_DONE: [u8; 5] = [3, 0, 2, 0, 4];
const BELT: [u8; 10] = [8, 0, 1, 0, 1, 1, 1, 2, 0, 1];
const BELT_AND_TILT: [u8; 15] = [13, 0, 1, 0, 2, 1, 1, 2, 0, 1, 3, 0, 3, 1, 0];
const SHUTTLE: [u8; 10] = [8, 0, 1, 0, 1, 2, 0, 2, 0, 1];
const ROTATE: [u8; 10] = [8, 0, 1, 0, 1, 5, 0, 0, 0, 0];
const TWO_CARS: [u8; 20] = image([0, 0x3C, 0, 0, 0, 0x1B, 0x49, 0], 0);
const MANY_CARS: [u8; 20] = image([0xFF, 0xC3, 0xFF, 0xBF, 0xFF, 0x3F, 0, 0], 0); // 27
const MOST_CARS_COMING: [u8; 20] = image([0xFF, 0xC3, 0xFF, 0xFF, 0xFF, 0x3F, 0x80, 0], 0); // 28, and one on its way in
const HALF_A_CAR: [u8; 20] = image([1, 0, 0, 0, 0, 0x1B, 0x09, 0], 0);
const NO_CARS: [u8; 20] = image([0, 0, 0, 0, 0, 0x1B, 0x09, 0], 0);
const A_CELL_APART: [u8; 20] = image([0, 0, 0, 0, 0, 0x1B, 0x09, 0], 1);
const WITHOUT_WHAT_IS_APART: [u8; 12] = [10, 0, 4, 0, 0, 0, 0, 0, 0, 0x1B, 0x09, 0];

const fn lift(height: u8) -> [u8; 10] {
    [8, 0, 1, 0, 1, 4, height, 0, 0, 0]
}

/// An image, and the lowest byte of what it sets apart.
const fn image([a, b, c, d, e, f, g, h]: [u8; 8], apart: u8) -> [u8; 20] {
    [18, 0, 4, 0, a, b, c, d, e, f, g, h, apart, 0, 0, 0, 0, 0, 0, 0]
}

/// The result of a set's instruction.
const fn result(issue: u8, number: u8, outcome: u8) -> [u8; 8] {
    [6, 0, 3, 0, issue, 0, number, outcome]
}

/// Inputs, each with the totals that it has by the papers' words, but for those that are 0.
pub const EXAMPLES: &[(&str, &[&[u8]], &str)] = &[
    ("no input", &[], ""),
    // a kind counts with its second byte, in a message that is cut short too
    ("half a length", &[&[3]], "answer-1 1"),
    ("a length", &[&[3, 0]], "answer-1 1"),
    ("half a kind", &[&[3, 0, 2]], "answer-1 1"),
    ("a kind", &[&[3, 0, 2, 0]], "kind-2 1 answer-1 1"),
    ("half a request", &[&BEGIN_IN, BELT.split_at(7).0], "kind-1 1 kind-2 1 answer-0 1 answer-1 1"),
    ("a kind that isn't known, cut short", &[&[3, 0, 6, 0]], "answer-1 1"),
    ("kinds that aren't known", &[&[2, 0, 0, 0], &[2, 0, 6, 0], &[2, 0, 5, 1], &[6, 0, 128, 0, 0, 255, 0, 0], &ASK], "kind-5 1 answer-3 4"),
    // a wrong length ends it, and such a message has no kind; a length that isn't the kind's does not
    ("length 0", &[&ASK, &[0, 0, 5, 0], &ASK], "kind-5 1 answer-2 1"),
    ("length 1", &[&[1, 0, 5, 0], &ASK], "answer-2 1"),
    ("length 44", &[&ASK, &[44, 0, 1, 0], &[0; 42], &ASK], "kind-5 1 answer-2 1"),
    ("length 258", &[&[2, 1, 5, 0], &ASK], "answer-2 1"),
    ("not the kind's length", &[&[3, 0, 5, 0, 0], &[4, 0, 3, 0, 0, 1], &ASK], "kind-3 1 kind-5 2 answer-2 2"),
    (
        "a count above eight, a bad field, an empty set",
        &[&[3, 0, 1, 0, 9], &[3, 0, 2, 0, 5], &[3, 0, 1, 0, 0]],
        "kind-1 2 kind-2 1 answer-4 1 answer-5 1 answer-7 1",
    ),
    // an image that is told has no number
    ("asks", &[&ASK, &ASK], "kind-5 2"),
    // a car counts with a done end; a drive that ends without it, or that is refused, counts nothing
    ("in and out", &[&BEGIN_IN, &DONE, &BEGIN_OUT, &DONE], "kind-2 4 answer-0 4 cars-in 1 cars-out 1 most-cars 1"),
    ("begun", &[&BEGIN_IN], "kind-2 1 answer-0 1"),
    ("given up", &[&BEGIN_IN, &NOT_DONE, &BEGIN_IN, &DONE, &BEGIN_OUT, &NOT_DONE], "kind-2 6 answer-0 6 cars-in 1 most-cars 1"),
    ("an end with no begin", &[&DONE], "kind-2 1 answer-31 1"),
    ("no car to drive out", &[&BEGIN_OUT, &DONE], "kind-2 2 answer-10 1 answer-31 1"),
    // a result counts by the op of its own instruction, which the last result of a set takes away
    ("done and failed", &[&BELT, &result(0, 0, 1), &BELT, &result(1, 0, 0)], "kind-1 2 kind-3 2 answer-0 4 done-1 1 failed-1 1"),
    ("another order", &[&BELT_AND_TILT, &result(0, 1, 1), &result(0, 0, 0)], "kind-1 1 kind-3 2 answer-0 3 done-3 1 failed-1 1"),
    (
        "shuttles, lift and rotation",
        &[&SHUTTLE, &result(0, 0, 0), &lift(1), &result(1, 0, 1), &ROTATE, &result(2, 0, 1), &ROTATE, &result(3, 0, 0)],
        "kind-1 4 kind-3 4 answer-0 8 done-4 1 done-5 1 failed-2 1 failed-5 1",
    ),
    // one that is refused counts as a message and as an answer alone
    ("late", &[&BELT, &result(0, 0, 1), &BELT, &result(0, 0, 1)], "kind-1 2 kind-3 2 answer-0 3 answer-29 1 done-1 1"),
    ("not issued", &[&BELT, &result(1, 0, 1)], "kind-1 1 kind-3 1 answer-0 1 answer-30 1"),
    (
        "refused results",
        &[&result(0, 0, 1), &BELT_AND_TILT, &result(0, 2, 1), &result(0, 1, 0), &result(0, 1, 1), &result(0, 0, 3)],
        "kind-1 1 kind-3 5 answer-0 2 answer-4 1 answer-11 1 answer-12 1 answer-13 1 failed-3 1",
    ),
    // what is stuck has failed, and its second result is none; what touches it is refused until an image clears it
    (
        "stuck",
        &[
            &BELT_AND_TILT,
            &result(0, 0, 2),
            &result(0, 0, 1),
            &result(0, 1, 0),
            &BELT,
            &SHUTTLE,
            &result(1, 0, 1),
            &A_CELL_APART,
            &NO_CARS,
            &BELT,
        ],
        "kind-1 4 kind-3 4 kind-4 2 answer-0 7 answer-13 1 answer-15 1 answer-32 1 done-2 1 failed-1 1 failed-3 1",
    ),
    (
        "a lift that is stuck",
        &[&lift(1), &result(0, 0, 2), &BEGIN_IN, &DONE, &ROTATE],
        "kind-1 2 kind-2 2 kind-3 1 answer-0 2 answer-31 1 answer-32 2 failed-4 1",
    ),
    // with 27 cars no more come in; one that was under way does, and counts
    (
        "places kept open",
        &[&MANY_CARS, &BEGIN_IN, &MOST_CARS_COMING, &DONE, &BEGIN_IN, &BEGIN_OUT, &DONE, &BEGIN_IN],
        "kind-2 6 kind-4 2 answer-0 5 answer-10 1 answer-33 2 cars-in 1 cars-out 1 most-cars 29",
    ),
    ("an image of another length", &[&WITHOUT_WHAT_IS_APART], "kind-4 1 answer-2 1"),
    // the most cars are the largest number after any message, also of an image, and stay so when cars go
    ("images", &[&TWO_CARS, &HALF_A_CAR, &NO_CARS], "kind-4 3 answer-0 2 answer-15 1 most-cars 2"),
    ("an image that is refused", &[&BELT, &TWO_CARS], "kind-1 1 kind-4 1 answer-0 1 answer-6 1"),
    (
        "a car moves and is one",
        &[&BEGIN_IN, &DONE, &lift(2), &result(0, 0, 1), &ASK],
        "kind-1 1 kind-2 2 kind-3 1 kind-5 1 answer-0 4 done-4 1 cars-in 1 most-cars 1",
    ),
];

/// The whole report with these totals.
pub fn report_with(nonzero: &str) -> String {
    let words: Vec<&str> = nonzero.split_whitespace().collect();
    let value = |name: &str| words.chunks(2).find(|pair| pair[0] == name).map_or("0", |pair| pair[1]);
    totals().map(|total| format!("{total} {}\n", value(&total.to_string()))).collect()
}
