//! What the panel is given: lines, and the floor that they begin with, from which it makes a station.

use station::words::Wrong;
use station::{lent, Number, Parts, Record, Refusal, Station};
use std::io::BufRead;
use terminal::conditions::LIFT;
use terminal::facts::APART;
use terminal::message::{bytes_in, two_numbers};
use terminal::told::failed;

/// A station's bytes.
pub type Room = [u8; Station::SIZE];

/// Reads the input line by line, with each line's end, and counts them.
pub struct Lines<R> {
    pub input: R,
    pub number: usize,
}

impl<R: BufRead> Lines<R> {
    pub fn next(&mut self) -> Result<Option<Vec<u8>>, Wrong> {
        let mut line = Vec::new();
        if self.input.read_until(b'\n', &mut line).map_err(|why| failed("input", why))? == 0 {
            return Ok(None);
        }
        self.number += 1;
        Ok(Some(line))
    }
}

/// A line as it is told.
fn shown(line: &[u8]) -> String {
    let text = String::from_utf8_lossy(line.strip_suffix(b"\n").unwrap_or(line)).into_owned();
    let letters = text.chars().map(|letter| if letter.is_control() { letter.escape_default().to_string() } else { letter.to_string() });
    format!("`{}`{}", letters.collect::<String>(), if line.ends_with(b"\n") { "" } else { " without a line feed behind it" })
}

/// What a drawing's lines are, from the first on, where an image may stand too.
const DRAWN: [&str; 6] = [
    "a floor: twenty marks, each `#` or `.`, or 16, 32 or 120 digits in hexadecimal",
    "ten marks, each `#` or `.`",
    "ten marks, each `#` or `.`",
    "three letters, each `L`, `T`, `B` or `-`",
    "three letters, each `L`, `T`, `B` or `-`",
    "`street`, `rotation` or `basement`, then ` car` or not, then ` in`, ` out` or not",
];
const UNSOUND: &str = "15, the record is not sound: there is no such garage";
const NO_STATION: &str = "16, these 60 bytes are no station's";
const NO_PART: &str = "what is set apart has a bit above 52";
/// What stands before the sixteen bytes in the message that answers an ask.
const HELD: [u8; 4] = [18, 0, 129, 0];

/// What is expected at a line of the floor, and what is found.
fn bad(line: usize, found: Option<&[u8]>) -> Wrong {
    let found = found.map_or("and the input ends".to_string(), |found| format!("found {}", shown(found)));
    format!("expected {}, {found}", DRAWN[line])
}

/// Whether a line is an image or a station, and no drawing's.
fn begins_image(line: &[u8]) -> bool {
    line.first().is_some_and(|first| first.is_ascii_hexdigit() || first.is_ascii_whitespace() || *first == b'<')
}

/// A station that has this record, with nothing outstanding, and this set apart.
fn station_of(record: Record, apart: Parts) -> Result<Room, Wrong> {
    let mut station = Station::new();
    station.image(record).map_err(|_| UNSOUND.to_string())?;
    if apart.bits().any(|bit| bit > LIFT) {
        return Err(NO_PART.to_string());
    }
    let mut room = *station.bytes();
    room[APART].copy_from_slice(&apart.0.to_le_bytes());
    Ok(room)
}

/// A record; with what is set apart behind it, as an ask is answered, with that message's head or without; or a station's bytes. Of a log's
/// line only what stands behind the `<` counts.
fn image_in(line: &[u8]) -> Result<Room, Wrong> {
    let text = String::from_utf8_lossy(line);
    let digits: String = text.rsplit('<').next().unwrap_or_default().split_whitespace().collect();
    let bytes = bytes_in(&digits).map_err(|_| bad(0, Some(line)))?;
    let held = bytes.strip_prefix(&HELD).filter(|held| held.len() == 16).unwrap_or(&bytes);
    if let Ok(room) = Room::try_from(held) {
        return Station::from_bytes(&room).map(|_| room).map_err(|_| NO_STATION.to_string());
    }
    if !matches!(held.len(), 8 | 16) {
        return Err(bad(0, Some(line)));
    }
    let (record, apart) = two_numbers(held);
    station_of(record, apart)
}

/// The record that a text draws, whatever its bytes are.
fn read(text: &[u8]) -> Result<Record, Refusal> {
    let mut room = [0; 8];
    lent::drawing_read(text, &mut room).into_result()?;
    Ok(Record::from_bytes(room))
}

/// The floor: one line with an image or a station, or the six of a drawing. A bad line is told as soon as it is read, by its number.
pub fn floor<R: BufRead>(lines: &mut Lines<R>) -> Result<Result<Room, (usize, Wrong)>, Wrong> {
    let mut text = Vec::new();
    loop {
        let Some(line) = lines.next()? else { return Ok(Err((lines.number + 1, bad(lines.number, None)))) };
        if text.is_empty() && begins_image(&line) {
            return Ok(image_in(&line).map_err(|why| (1, why)));
        }
        text.extend(&line);
        let why = match read(&text) {
            Ok(record) => return Ok(station_of(record, Parts::NONE).map_err(|why| (lines.number, why))),
            // the line that is missing comes next
            Err(Refusal { number: Number::BadLine, place, .. }) if place.map(usize::from) == Some(lines.number) => continue,
            Err(Refusal { number: Number::BadLine, .. }) => bad(lines.number - 1, Some(&line)),
            Err(_) => UNSOUND.to_string(),
        };
        return Ok(Err((lines.number, why)));
    }
}
