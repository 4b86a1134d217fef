//! Why a message is refused, in lines: what stands against it on the station as it is, and what to do, as PROTOCOL.md has it in short.

use crate::conditions::{explained, has, of_lift, LIFT};
use crate::facts::{area, drive, parts, Facts, Stuck};
use crate::message::{bad_fields, both, both_wide, instruction, Message, BEGIN_IN, BEGIN_OUT};
use crate::sound::hints;
use station::{Answer, Instruction, Parts, Record};

/// The instruction of five bytes that the station has read.
fn read(five: [u8; 5]) -> Instruction {
    Instruction::try_from(five).expect("an instruction")
}

/// The parts that both have.
fn in_both(one: Parts, other: Parts) -> Parts {
    Parts(one.0 & other.0)
}

/// The instructions that have the lift in their areas, in words.
fn with_lift(fives: &[[u8; 5]]) -> Vec<String> {
    let has_lift = |(five, _): &(&[u8; 5], usize)| area(**five).lift();
    fives.iter().zip(0..).filter(has_lift).map(|(five, at)| format!("with the lift in its area: {at}: {}", instruction(*five))).collect()
}

fn held(station: &Facts) -> Vec<[u8; 5]> {
    station.set.iter().map(|held| held.five).collect()
}

/// The drive under way, or that there is none.
fn drive_line(station: &Facts) -> String {
    drive(station.record).unwrap_or("no drive is under way").to_string()
}

/// What has set some parts apart: each stuck result whose area has one of them, and the parts that were set apart before the log begins.
fn causes(station: &Facts, some: Parts) -> Vec<String> {
    let of = |stuck: &&Stuck| !in_both(area(stuck.five), some).is_empty();
    let one = |stuck: &Stuck| {
        let (set, number) = (both_wide(stuck.issue), both(stuck.number));
        format!("set apart by {}: instruction {number} of set {set}, {}, was stuck", stuck.at, instruction(stuck.five))
    };
    let Some(all) = &station.stuck else { return Vec::new() };
    let known = all.iter().fold(0, |known, stuck| known | area(stuck.five).0);
    let before = Parts(some.0 & !known);
    let older = (!before.is_empty()).then(|| format!("set apart before the log begins: {}", parts(before)));
    older.into_iter().chain(all.iter().filter(of).map(one)).collect()
}

/// Of an instruction that overlaps earlier ones: each of these, and the parts that both have.
fn overlaps(fives: &[[u8; 5]], place: usize) -> Vec<String> {
    let own = area(fives[place]);
    let both = |(five, at): (&[u8; 5], usize)| (in_both(area(*five), own), at, *five);
    let shared = fives[..place].iter().zip(0..).map(both).filter(|(shared, ..)| !shared.is_empty());
    shared.map(|(shared, at, five)| format!("it overlaps {at}: {}: both have {}", instruction(five), parts(shared))).collect()
}

fn request(station: &Facts, fives: &[[u8; 5]], answer: Answer) -> Vec<String> {
    let at = answer.place.map_or(fives.len(), usize::from);
    match answer.number as u8 {
        4 => bad_fields(fives[at]),
        6 => station.outstanding(),
        8 => overlaps(fives, at),
        31 => [vec![drive_line(station)], with_lift(fives)].concat(),
        32 => {
            let touched = in_both(area(fives[at]), station.apart);
            let told = [format!("set apart: {}", parts(station.apart)), format!("of that it touches: {}", parts(touched))];
            [told.into(), causes(station, touched)].concat()
        }
        20..=28 => explained(station.record, read(fives[at])).into_iter().filter(|one| !one.holds).flat_map(|one| one.lines).collect(),
        _ => Vec::new(),
    }
}

fn lift_line(station: &Facts) -> String {
    let on_it = if has(station.record.0, LIFT) { "a car on it" } else { "no car on it" };
    format!("{}, {on_it}", of_lift(station.record.0))
}

fn event(station: &Facts, way: u8, number: u8) -> Vec<String> {
    match number {
        4 => vec!["an event is 1 to 4".to_string()],
        6 => [station.outstanding(), with_lift(&held(station))].concat(),
        10 if way == BEGIN_IN => vec![lift_line(station), "a drive-in begins at street, with the lift empty".to_string()],
        10 => vec![lift_line(station), "a drive-out begins at street, with a car on the lift".to_string()],
        31 => vec![drive_line(station)],
        32 => [vec![format!("set apart: {}", parts(station.apart))], causes(station, Parts(1 << LIFT))].concat(),
        33 => vec![
            lift_line(station),
            format!("the record has {} cars, and a drive-in begins with fewer than 27", station.record.cars().unwrap_or(0)),
        ],
        _ => Vec::new(),
    }
}

fn result(station: &Facts, issue: u16, number: u8) -> Vec<String> {
    let behind = station.issue.wrapping_sub(issue);
    let mut lines = match number {
        4 => return vec!["a result ends with 0 failed, 1 done or 2 stuck".to_string()],
        29 => vec![format!("it is of set {}, {behind} before the outstanding one", both_wide(issue))],
        30 => vec![format!("it is of set {}, neither the outstanding one nor one of the 32767 before it", both_wide(issue))],
        _ => Vec::new(),
    };
    lines.extend(station.outstanding());
    lines
}

fn image(station: &Facts, record: Record, apart: Parts, number: u8) -> Vec<String> {
    if number == 6 {
        return station.outstanding();
    }
    let second = (!apart.is_empty()).then(|| "its second number is not 0: an image sets nothing apart".to_string());
    second.into_iter().chain(hints(record.0).into_iter().map(|hint| format!("hint: {hint}"))).collect()
}

/// What stands against a message that was refused.
pub fn against(station: &Facts, message: &Message, answer: Answer) -> Vec<String> {
    let number = answer.number as u8;
    match *message {
        Message::Request(ref fives) => request(station, fives, answer),
        Message::Event(way) => event(station, way, number),
        Message::Result { issue, .. } => result(station, issue, number),
        Message::Image { record, apart } => image(station, record, apart, number),
        Message::Answer { .. } | Message::Held { .. } => vec!["a station answers with it, and doesn't read it".to_string()],
        Message::Ask | Message::Unread(_) => Vec::new(),
    }
}

/// What to do about a reason, by the instruction's opcode and, of a tilt, how the shuttle stands now.
fn mend([op, _, _, orientation, _]: [u8; 5], number: u8) -> &'static str {
    match (number, op) {
        (20, _) => "name a belt or a row, or leave the instruction out",
        (21, _) => "name the one between too, or make two instructions of it",
        (22, 1) => "bring the shuttle or the lift there in an earlier set, or leave that belt out",
        (22, 2) => "name only rows that have one",
        (22, _) if orientation == 0 => "lower the side's tilted shuttle in an earlier set",
        (22, _) => "mend the row or the orientation",
        (23, 1) => "name the next belt too, or clear that end in an earlier set; in row 1 a half move needs only one free cell",
        (23, 2) => "mend the rows or the direction; name the shuttle in the way too, or move it in an earlier set",
        (23, _) => "move one of the two to another row in an earlier set",
        (24, 1) => "a car stands half in the span: name the belt with its other half too",
        (24, 2) => "a car stands half on the shuttle: run it on or off by belts of row 1 in an earlier set",
        (24, _) => "a car stands half on the lift: run it on or off by belts of row 1 in an earlier set",
        (25, _) => "send size 1",
        (26, _) => "leave the instruction out",
        (27, _) => "send the lift to height 1 in an earlier set",
        (_, 3) => "run the car off the shuttle in an earlier set",
        _ => "run the cars beside the lift away from it in an earlier set",
    }
}

/// What to do about an answer, in one line.
pub fn to_do(message: &Message, answer: Answer) -> &'static str {
    let event = match *message {
        Message::Event(way) => Some(matches!(way, BEGIN_IN | BEGIN_OUT)),
        _ => None,
    };
    match (answer.number as u8, message) {
        (0, _) => "go on",
        (1, _) => "send the whole message",
        (2, _) => "mend the length",
        (3, _) => "mend the kind",
        (4, _) => "mend the field",
        (5, _) => "split the set",
        (6, _) if event.is_some() => "report its results first; until a begin is taken, let no driver in",
        (6, _) => "report its results first",
        (7, _) => "leave it out",
        (8, _) => "put it into a later set",
        (10, _) => "let no driver in; bring the lift to street by sets, empty or with the car; if it is so already, look at the sensors",
        (11, _) => "the set is closed already: drop it",
        (12, _) => "mend the number",
        (13, _) => "it is taken already: drop it",
        (15, _) => "mend the image; where something is stuck, have somebody look, and send what is there with 0 as the second number",
        (29, _) => "drop it; if it says otherwise than what was taken, look at the sensors and send the image once no set is outstanding",
        (30, _) => "mend the issue: it is the one in the answer to the set's request",
        (31, _) if event == Some(true) => "report how the drive that was begun ended (3 or 4), then begin again",
        (31, _) if event == Some(false) => {
            "drop it; if a car did come or go, look at the sensors and send the image once no set is outstanding"
        }
        (31, _) => "hand nothing to the motors; send it again when the drive has ended, or now without what has the lift",
        (32, _) if event.is_some() => "let no driver in; have the place looked at and send an image: JAM.md has the commands",
        (32, _) => {
            "hand nothing to the motors; leave out what touches it, or have the place looked at and send an image: JAM.md has the commands"
        }
        (33, _) => "let no driver in; fetch a car and let it drive out, then send the begin again",
        (number, Message::Request(fives)) => match answer.place {
            Some(place) => mend(fives[usize::from(place)], number),
            None => "the program never answers so",
        },
        _ => "the program never answers so",
    }
}
