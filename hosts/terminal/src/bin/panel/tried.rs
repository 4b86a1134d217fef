//! A call tried on the panel's station, by the plain engine: the conditions of its instructions, the verdict with its reason, and the floor
//! after it.

use crate::given::Room;
use station::words::{self, Words, Wrong};
use station::{lent, Answer, Instruction, Number, Parts, Place, Record};
use std::io::{self, Write};
use terminal::conditions::{explained, told as verdict};
use terminal::facts::{parts, Facts};
use terminal::message::{hexadecimal, Message, ENDINGS, EVENTS};
use terminal::why::{against, to_do};

const FIRST: [&str; 9] = ["belts", "shuttles", "tilt", "lift", "rotate", "begin", "ended", "result", "image"];
const DONE: u8 = 1;

fn number_in<N: std::str::FromStr>(word: Option<&str>, what: &str) -> Result<N, Wrong> {
    let found = word.map_or("and the line ends".to_string(), |word| format!("found `{word}`"));
    word.and_then(|word| word.parse().ok()).ok_or_else(|| format!("expected {what}, {found}"))
}

/// `result 3 0 stuck`: the set's issue, the instruction's number in it, and how it ended.
fn result_in(said: &str) -> Result<Message, Wrong> {
    let mut rest = said.split(|letter: char| letter.is_whitespace() || letter == ',').filter(|word| !word.is_empty()).skip(1);
    let issue = number_in(rest.next(), "the issue of a set, 0 to 65535")?;
    let number = number_in(rest.next(), "the number of an instruction, 0 to 255")?;
    let ending = rest.collect::<Vec<_>>().join(" ");
    let mut words = Words::of(&ending);
    let ending = words.one_of(&ENDINGS)?;
    words.end()?;
    Ok(Message::Result { issue, number, ending })
}

/// An event, as the explainer tells it.
fn event_in(said: &str, begins: bool) -> Result<Message, Wrong> {
    let mut words = Words::of(said);
    words.one_of(&FIRST)?;
    let way = if begins {
        1 + words.one_of(&["in", "out"])?
    } else {
        words.one_of(&["and"])?;
        let not = words.one_of(&["done", "not"])?;
        if not == 1 {
            words.one_of(&["done"])?;
        }
        3 + not
    };
    words.end()?;
    Ok(Message::Event(way))
}

fn image_in(said: &str) -> Result<Message, Wrong> {
    let digits: String = said.split_whitespace().skip(1).collect();
    let record = words::record_in(&digits).ok_or_else(|| format!("expected 16 digits in hexadecimal, found `{digits}`"))?;
    Ok(Message::Image { record: Record::from_bytes(record), apart: Parts::NONE })
}

/// What a line says: a set, its instructions with `;` between them, or another call; nothing where it is empty, or has a comment alone.
pub fn call_in(line: &[u8]) -> Result<Option<Message>, Wrong> {
    let line = String::from_utf8_lossy(line);
    let said = line.split('#').next().unwrap_or_default().trim();
    if said.is_empty() {
        return Ok(None);
    }
    let first = Words::of(said.split(';').next().unwrap_or_default()).one_of(&FIRST)?;
    let message = match FIRST[usize::from(first)] {
        "begin" => event_in(said, true)?,
        "ended" => event_in(said, false)?,
        "result" => result_in(said)?,
        "image" => image_in(said)?,
        _ => {
            let five = |one: &str| one.parse::<Instruction>().map(|one| one.five()).map_err(|why| why.to_string());
            Message::Request(said.split(';').map(five).collect::<Result<_, Wrong>>()?)
        }
    };
    Ok(Some(message))
}

/// A floor drawn, its image, its cars in the order of a walk, and what else the station has: what is set apart, and the outstanding set.
pub fn show_floor(out: &mut impl Write, facts: &Facts) -> io::Result<()> {
    let place = |place: Place| match place {
        Place::Cell(begin @ 0..=19) => format!("{begin}+{}", begin + 1),
        Place::Cell(cell) => cell.to_string(),
        Place::Raised => "raised lift".to_string(),
    };
    let record = facts.record;
    let cars: Vec<String> = record.places().expect("a sound record").into_iter().map(place).collect();
    write!(out, "{record}image {}\ncars {}", hexadecimal(&record.bytes()), cars.len())?;
    if !cars.is_empty() {
        write!(out, ": {}", cars.join(", "))?;
    }
    writeln!(out)?;
    if !facts.apart.is_empty() {
        writeln!(out, "set apart {}: {}", hexadecimal(&facts.apart.0.to_le_bytes()), parts(facts.apart))?;
    }
    if facts.set.is_empty() {
        return Ok(());
    }
    facts.outstanding().iter().try_for_each(|line| writeln!(out, "{line}"))
}

/// The call in words, and of each instruction its conditions.
fn show_call(out: &mut impl Write, facts: &Facts, message: &Message) -> io::Result<()> {
    match message {
        Message::Request(fives) => {
            for (five, at) in fives.iter().zip(0..) {
                let instruction = Instruction::try_from(*five).expect("words say instructions only");
                let number = if fives.len() > 1 { format!("{at}: ") } else { String::new() };
                writeln!(out, "{number}{instruction}")?;
                for line in explained(facts.record, instruction).iter().flat_map(|condition| &condition.lines) {
                    writeln!(out, "  {line}")?;
                }
            }
            Ok(())
        }
        Message::Event(way) => writeln!(out, "{}", EVENTS[usize::from(*way)]),
        Message::Result { issue, number, ending } => writeln!(out, "result {issue} {number} {}", ENDINGS[usize::from(*ending)]),
        Message::Image { record, .. } => writeln!(out, "image {}", hexadecimal(&record.bytes())),
        _ => Ok(()),
    }
}

/// Gives the call to the station, by the plain engine; a set that is accepted is taken to succeed.
fn call(room: &mut Room, message: &Message) -> Answer {
    match message {
        Message::Request(fives) => {
            let count = u8::try_from(fives.len()).unwrap_or(u8::MAX);
            let answer = lent::plain_request(room, count, &fives.concat());
            if answer.taken() {
                for number in 0..count {
                    assert!(lent::plain_result(room, answer.issue.0, number, DONE).taken(), "what is accepted can succeed");
                }
            }
            answer
        }
        Message::Event(way) => lent::plain_event(room, *way),
        Message::Result { issue, number, ending } => lent::plain_result(room, *issue, *number, *ending),
        Message::Image { record, .. } => lent::station_image(room, record.0, 0),
        _ => Answer::TAKEN,
    }
}

/// A call on the station: its conditions, the verdict, and the floor after it, or why the floor stays.
pub fn tried(out: &mut impl Write, room: &mut Room, message: &Message) -> io::Result<()> {
    let facts = Facts::of_station(room);
    writeln!(out)?;
    show_call(out, &facts, message)?;
    let answer = call(room, message);
    let (number, request) = (answer.number, if let Message::Request(fives) = message { fives.len() } else { 0 });
    let words = match (request, number) {
        (0, Number::Taken) => "accepted",
        (0, _) => number.words(),
        _ => verdict(number),
    };
    if answer.taken() {
        writeln!(out, "verdict 0: {words}\n")?;
        return show_floor(out, &Facts::of_station(room));
    }
    let at = answer.place.filter(|_| request > 1).map_or(String::new(), |place| format!(" at {place}"));
    writeln!(out, "verdict {}{at}: {words}; the floor stays", number as u8)?;
    // what stands against an instruction by itself is shown with its conditions
    let reasons = if (20..=28).contains(&(number as u8)) { Vec::new() } else { against(&facts, message, answer) };
    for line in reasons {
        writeln!(out, "  {line}")?;
    }
    writeln!(out, "  to do: {}", to_do(message, answer))
}
