//! The report's totals, kept beside a station.

use station::message::Message;
use station::{lent, Event, Instruction, Issue, Kind, Number, Op, Outcome, Parts, Record, Refusal, Station, Totals};

fn said(line: &str) -> Instruction {
    line.parse().expect(line)
}

/// A session counted: every total that it raises, by its name and in the text.
#[test]
fn totals_beside_a_station() {
    let (mut station, mut totals) = (Station::new(), Totals::new());
    let result = |issue, outcome| Message::Result { issue: Issue(issue), number: 0, outcome };
    let sent = [
        Message::Event(Event::BeginIn),
        Message::Event(Event::EndedDone),
        Message::Request(vec![said("lift basement")]),
        result(0, Outcome::Done),
        Message::Request(vec![said("belts row 2 middle, lower, full")]),
        result(1, Outcome::Stuck),
        Message::Request(vec![said("belts row 2 middle, lower, full")]),
        Message::Image { record: Record(Record::START.0 | 1 << 52), apart: Parts::NONE },
        Message::Event(Event::BeginOut),
        Message::Event(Event::EndedDone),
        Message::Event(Event::BeginIn),
        Message::Event(Event::EndedDone),
        Message::Ask,
    ];
    for message in &sent {
        let bytes = message.bytes().expect("at most eight");
        totals.count(&station, &bytes).expect("nothing is full");
        station.message(&bytes);
    }
    let kinds = Kind::ALL.iter().map(|&kind| totals.messages(kind)).collect::<Vec<_>>();
    assert_eq!(kinds, [3, 6, 2, 1, 1]);
    let answers = [Number::Taken, Number::SetApart, Number::Unfit].map(|number| totals.answers(number));
    assert_eq!(answers, [11, 1, 0], "the ask was answered with the image");
    assert_eq!((totals.done(Op::Lift), totals.done(Op::Belts), totals.failed(Op::Belts), totals.failed(Op::Lift)), (1, 0, 1, 0));
    assert_eq!((totals.cars_in(), totals.cars_out(), totals.most_cars()), (2, 1, 1));
    assert_eq!(totals.answers(Number::BadLine), 0, "no message is answered with it");
    let text = totals.to_string();
    let lines = ["kind-1 3", "kind-5 1", "answer-0 11", "answer-32 1", "done-4 1", "failed-1 1", "cars-in 2", "cars-out 1", "most-cars 1"];
    for line in lines {
        assert!(text.lines().any(|one| one == line), "{line} in {text}");
    }
    assert_eq!(Totals::from_bytes(totals.bytes()), totals);
}

/// A total that is full is told by its place, and nothing is counted then.
#[test]
fn a_total_that_is_full() {
    let mut bytes = *Totals::new().bytes();
    bytes[4..8].fill(0xFF);
    let mut totals = Totals::from_bytes(&bytes);
    let begin = Message::Event(Event::BeginIn).bytes().expect("a message");
    assert_eq!(totals.messages(Kind::Event), u32::MAX);
    assert_eq!((totals.count(&Station::new(), &begin), totals.bytes()), (Err(Refusal::at(Number::Full, 1)), &bytes));
    assert_eq!(totals.count(&Station::new(), &Message::Ask.bytes().expect("a message")), Ok(()));
    let mut text = [0; 20];
    let length = lent::report_lines(totals.bytes(), 1, &mut text).expect("room enough");
    assert_eq!(&text[..length], b"full kind-2\n");
}
