//! A log, item by item: recorded bytes, or hexadecimal text with marks, cards and comments (docs/EXPLAIN.md).

use crate::follow::Cards;
use station::words::Wrong;
use std::collections::VecDeque;
use std::fmt;
use std::io::{BufRead, Read};
use terminal::message::{bytes_in, is_answer, length, LENGTHS};
use terminal::told::failed;

/// What a log says at a place.
pub enum Item {
    /// A whole message, and whether the station answered with it or was sent it.
    Message { bytes: Vec<u8>, answered: bool },
    /// Cards for the next message: of a begin in one, of an image those of its cars in the order of the cells.
    Cards { all: Cards, begin: bool },
    /// The numbers of a desk's cards as a journal has them: in the desk's order, after the messages that stand behind this.
    Numbers { after: Vec<u8>, numbers: Vec<u8> },
    /// The station was started again on its journal.
    Restarted,
    /// A session of a journal has ended with these bytes, which are no message; the next one goes on.
    Stopped { bytes: Vec<u8> },
    /// The journal is closed: another follows it.
    Closed,
    /// Nothing can be read from here on: what was expected and found, and the bytes of the message that isn't whole, if there are any.
    Damaged { bytes: Vec<u8>, answered: bool, why: Wrong },
}

/// Where a log has something: a byte of a recording, or a line of a text, with the time that the line tells.
#[derive(Clone)]
pub struct At {
    pub unit: &'static str,
    pub place: usize,
    pub time: Option<String>,
}

impl At {
    pub fn byte(place: usize) -> Self {
        At { unit: "byte", place, time: None }
    }
}

/// In words: `byte 16`, `line 3`.
impl fmt::Display for At {
    fn fmt(&self, f: &mut fmt::Formatter) -> fmt::Result {
        write!(f, "{} {}", self.unit, self.place)?;
        self.time.as_ref().map_or(Ok(()), |time| write!(f, " ({time})"))
    }
}

/// An item with its place.
pub struct Placed {
    pub at: At,
    pub item: Item,
}

fn bad_length(size: usize) -> Wrong {
    format!("expected a length from 2 to 43 = 0x002B, found {size} = 0x{size:04X}")
}

fn cut(bytes: &[u8]) -> Wrong {
    match bytes.len() {
        1 => "expected the second byte of a length".to_string(),
        there => format!("expected {} bytes of a message, found {there}", 2 + length(bytes)),
    }
}

pub struct Bytes<R> {
    input: R,
    at: usize,
    /// Whether this is a recording of answers, once that is known: its first message is one.
    answers: Option<bool>,
    /// Whether both directions stand there, each message known by its kind.
    mixed: bool,
}

impl<R: Read> Bytes<R> {
    /// A recording of one direction.
    pub fn recorded(input: R) -> Self {
        Bytes { input, at: 0, answers: None, mixed: false }
    }

    /// Messages of either direction.
    pub fn mixed(input: R) -> Self {
        Bytes { input, at: 0, answers: None, mixed: true }
    }

    fn more(&mut self, bytes: &mut Vec<u8>, count: usize) -> Result<bool, Wrong> {
        let read = (&mut self.input).take(count as u64).read_to_end(bytes).map_err(|why| failed("input", why))?;
        Ok(read == count)
    }

    pub fn next(&mut self) -> Result<Option<Placed>, Wrong> {
        let (at, mut bytes) = (At::byte(self.at), Vec::new());
        let answered = self.answers.unwrap_or(false);
        if !self.more(&mut bytes, 2)? {
            if bytes.is_empty() {
                return Ok(None);
            }
            let why = format!("{}, and the input ends", cut(&bytes));
            return Ok(Some(Placed { at, item: Item::Damaged { bytes, answered, why } }));
        }
        let size = length(&bytes);
        if !LENGTHS.contains(&size) {
            return Ok(Some(Placed { at, item: Item::Damaged { bytes, answered, why: bad_length(size) } }));
        }
        if !self.more(&mut bytes, size)? {
            let why = format!("{}, and the input ends", cut(&bytes));
            return Ok(Some(Placed { at, item: Item::Damaged { bytes, answered, why } }));
        }
        self.at += bytes.len();
        let answered = if self.mixed { is_answer(&bytes) } else { *self.answers.get_or_insert(is_answer(&bytes)) };
        Ok(Some(Placed { at, item: Item::Message { bytes, answered } }))
    }
}

/// A message that is not whole yet: its bytes so far, which way it went where a mark says so, and the line where it begins.
struct Open {
    bytes: Vec<u8>,
    mark: Option<bool>,
    line: usize,
}

pub struct Hex<R> {
    input: R,
    line: usize,
    /// The time that this line tells, if it does.
    time: Option<String>,
    open: Open,
    read: VecDeque<Placed>,
    ended: bool,
}

/// A line with what stands before its mark, whose last word is the time, taken off: a log with times has a `:` there, and bytes have none.
fn timed(said: &str) -> (Option<String>, &str) {
    let before = |mark: usize| said[..mark].ends_with(char::is_whitespace) && said[..mark].contains(':');
    match said.find(['>', '<']).filter(|&mark| before(mark)) {
        Some(mark) => (said[..mark].split_whitespace().last().map(str::to_string), &said[mark..]),
        None => (None, said),
    }
}

/// How much of an input is looked at for whether it is text.
const LOOKED_AT: usize = 256;

/// Whether an input begins as hexadecimal text does. Messages never do: the upper byte of a length is 0, which no text has.
pub fn is_text(input: &mut impl BufRead) -> Result<bool, Wrong> {
    let front = input.fill_buf().map_err(|why| failed("input", why))?;
    let front = &front[..front.len().min(LOOKED_AT)];
    let letter = |&byte: &u8| byte >= b' ' || byte.is_ascii_whitespace();
    Ok(front.len() > 1 && front.iter().all(letter) && front.iter().any(u8::is_ascii_hexdigit))
}

impl<R: BufRead> Hex<R> {
    pub fn new(input: R) -> Self {
        let open = Open { bytes: Vec::new(), mark: None, line: 0 };
        Hex { input, line: 0, time: None, open, read: VecDeque::new(), ended: false }
    }

    fn place(&mut self, line: usize, item: Item) {
        let time = self.time.clone().filter(|_| line == self.line);
        self.read.push_back(Placed { at: At { unit: "line", place: line, time }, item });
    }

    fn damaged(&mut self, line: usize, bytes: Vec<u8>, why: Wrong) {
        let answered = self.open.mark.unwrap_or(false);
        self.place(line, Item::Damaged { bytes, answered, why });
    }

    /// What is not whole can't become so any more.
    fn cut_off(&mut self, before: &str) -> bool {
        if self.open.bytes.is_empty() {
            return false;
        }
        let (bytes, line) = (std::mem::take(&mut self.open.bytes), self.open.line);
        let why = format!("{}, and {before}", cut(&bytes));
        self.damaged(line, bytes, why);
        true
    }

    pub fn next(&mut self) -> Result<Option<Placed>, Wrong> {
        loop {
            if let Some(item) = self.read.pop_front() {
                return Ok(Some(item));
            }
            if self.ended {
                return Ok(None);
            }
            let mut line = Vec::new();
            if self.input.read_until(b'\n', &mut line).map_err(|why| failed("input", why))? == 0 {
                self.ended = true;
                self.cut_off("the input ends");
                continue;
            }
            self.line += 1;
            let text = String::from_utf8_lossy(&line).into_owned();
            let (time, said) = timed(text.split('#').next().unwrap_or_default().trim());
            self.time = time;
            self.take(said);
        }
    }

    fn take(&mut self, said: &str) {
        if said.is_empty() {
            return;
        }
        let mark = match said.as_bytes()[0] {
            b'>' => Some(false),
            b'<' => Some(true),
            _ => None,
        };
        let word = said.split_whitespace().next().unwrap_or_default();
        let own_line = mark.is_some() || matches!(word, "!" | "card" | "cards");
        if own_line && self.cut_off(&format!("line {} begins another", self.line)) {
            return;
        }
        match word {
            "!" => match said {
                "!" => self.place(self.line, Item::Restarted),
                _ => self.damaged(self.line, Vec::new(), "expected nothing behind `!`".to_string()),
            },
            "card" | "cards" => match cards(&said[word.len()..], word == "card") {
                Ok(all) => self.place(self.line, Item::Cards { all, begin: word == "card" }),
                Err(why) => self.damaged(self.line, Vec::new(), why),
            },
            _ => self.digits(if mark.is_some() { &said[1..] } else { said }, mark),
        }
    }

    /// A line's digits, and the messages that are whole with them.
    fn digits(&mut self, said: &str, mark: Option<bool>) {
        if self.open.bytes.is_empty() {
            self.open = Open { bytes: Vec::new(), mark, line: self.line };
        }
        match bytes_in(said) {
            Ok(bytes) => self.open.bytes.extend(bytes),
            Err(why) => return self.damaged(self.line, Vec::new(), why),
        }
        while self.open.bytes.len() >= 2 {
            let (size, line) = (length(&self.open.bytes), self.open.line);
            if !LENGTHS.contains(&size) {
                let bytes = self.open.bytes[..2].to_vec();
                return self.damaged(line, bytes, bad_length(size));
            }
            if self.open.bytes.len() < 2 + size {
                break;
            }
            let rest = self.open.bytes.split_off(2 + size);
            let bytes = std::mem::replace(&mut self.open.bytes, rest);
            let answered = self.open.mark.unwrap_or_else(|| is_answer(&bytes));
            self.place(line, Item::Message { bytes, answered });
            self.open.line = self.line;
        }
    }
}

/// The card numbers of a list, with `-` for a car whose card is not known; with `card` one number.
pub fn cards(said: &str, one: bool) -> Result<Cards, Wrong> {
    let card = |word: &str| match (word, word.parse::<u32>()) {
        ("-", _) if !one => Ok(None),
        (_, Ok(card)) if card > 0 => Ok(Some(card)),
        _ => Err(format!("expected a card's number from 1 to 4294967295{}, found `{word}`", if one { "" } else { ", or `-`" })),
    };
    let words = said.split(|letter: char| letter.is_whitespace() || letter == ',').filter(|word| !word.is_empty());
    let all = words.map(card).collect::<Result<Cards, Wrong>>()?;
    if one && all.len() != 1 {
        return Err(format!("expected one card's number, found {}", all.len()));
    }
    let twice = all.iter().enumerate().find(|(at, card)| card.is_some() && all[..*at].contains(card));
    twice.map_or(Ok(()), |(_, card)| Err(format!("card {} stands twice", card.unwrap_or(0))))?;
    Ok(all)
}
