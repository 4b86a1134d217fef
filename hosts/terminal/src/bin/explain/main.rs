//! Recorded messages of either direction in words (docs/EXPLAIN.md): what each says, what the station answers to it and why, and the floor
//! after it. The answers are the station's own: the messages are given to it, one after the other, and the floors are its record's.

mod floor;
mod follow;
mod input;
mod journal;
mod lines;
mod step;
mod text;

use follow::{named_cars, Cards, Follower};
use input::{cards, is_text, Bytes, Hex, Item, Placed};
use journal::Journal;
use station::words::Wrong;
use station::{Parts, Record};
use std::io::{self, Write};
use std::process::ExitCode;
use step::{Log, Told};
use terminal::conditions::LIFT;
use terminal::journal::is_journal;
use terminal::message::{bytes_in, two_numbers};
use terminal::sound::hints;
use terminal::told::{failed, told_version};
use text::{Shows, Text};

const USAGE: &str = "usage: explain [--json] [--quiet] [--floor] [--from IMAGE] [--issue N] [--cards LIST] [--hex < LOG | HEX.. | < LOG]";

/// The words of the command.
#[derive(Default)]
struct Given {
    shows: Shows,
    json: bool,
    hex: bool,
    from: Option<(Record, Parts)>,
    issue: u16,
    cards: Option<Cards>,
    /// The bytes of a log that is given in words.
    digits: Vec<u8>,
}

/// A record, and what is set apart there if it stands behind it: 16 or 32 digits.
fn image_in(word: &str) -> Option<(Record, Parts)> {
    bytes_in(word).ok().filter(|bytes| matches!(bytes.len(), 8 | 16)).map(|bytes| two_numbers(&bytes))
}

fn given(mut words: impl Iterator<Item = String>) -> Option<Given> {
    let mut given = Given::default();
    while let Some(word) = words.next() {
        match word.as_str() {
            "--json" => given.json = true,
            "--quiet" => given.shows.quiet = true,
            "--floor" => given.shows.floors = true,
            "--hex" => given.hex = true,
            "--from" => given.from = Some(image_in(&words.next()?)?),
            "--issue" => given.issue = words.next()?.parse().ok()?,
            "--cards" => given.cards = Some(cards(&words.next()?, false).ok()?),
            digits => given.digits.extend(bytes_in(digits).ok().filter(|bytes| !bytes.is_empty())?),
        }
    }
    // a list of cards is that of a record's cars, digits are all of the input, and objects have no floors to be shown
    let fits =
        !(given.json && given.shows.floors) && (given.cards.is_none() || given.from.is_some()) && (!given.hex || given.digits.is_empty());
    fits.then_some(given)
}

/// Where the log begins: the start, or the record that is given.
fn begin(given: &Given) -> Result<Follower, Wrong> {
    let (record, apart) = given.from.unwrap_or((Record::START, Parts::NONE));
    if !record.is_sound() {
        return Err(format!("--from: not sound: {}", hints(record.0).join("; ")));
    }
    if apart.bits().any(|bit| bit > LIFT) {
        return Err("--from: what is set apart has a bit above 52".to_string());
    }
    let (cars, listed) = (named_cars(record), given.cards.as_ref().map(Vec::len));
    if listed.is_some_and(|listed| listed != cars) {
        return Err(format!("--cards: expected {cars}, as many as the record has cars, found {}", listed.unwrap_or(0)));
    }
    Ok(Follower::from(record, apart, given.issue, given.cards.as_ref()))
}

/// The next item of a log, nothing at its end, or why the input failed.
type Read = Result<Option<Placed>, Wrong>;

/// How steps are written: in words, or as objects.
enum Writer {
    Words(Text),
    Lines { quiet: bool },
}

impl Writer {
    fn new(given: &Given) -> Self {
        if given.json {
            Writer::Lines { quiet: given.shows.quiet }
        } else {
            Writer::Words(Text::new(given.shows))
        }
    }
}

/// The whole log, or what comes before the first that can't be read; gives whether all of it was read and agrees, or why a stream failed.
fn explained(mut next: impl FnMut() -> Read, mut log: Log, mut writer: Writer, out: &mut impl Write) -> Result<bool, Wrong> {
    let mut right = true;
    let mut tell = |text: String, wrong: Option<Wrong>| -> Result<(), Wrong> {
        out.write_all(text.as_bytes()).and_then(|()| out.flush()).map_err(|why| failed("output", why))?;
        if let Some(why) = wrong {
            eprintln!("explain: {why}");
            right = false;
        }
        Ok(())
    };
    while let Some(placed) = next()? {
        let last = matches!(placed.item, Item::Damaged { .. });
        let Told { step, wrong } = log.step(placed);
        let text = match &mut writer {
            Writer::Words(text) => text.step(&step),
            Writer::Lines { quiet } => lines::line(&step, *quiet),
        };
        tell(text, wrong)?;
        if last {
            break;
        }
    }
    let wrong = log.unused_cards();
    let text = match writer {
        Writer::Words(text) => text.end(&log.moment(), log.counts()),
        Writer::Lines { .. } => String::new(),
    };
    tell(text, wrong)?;
    Ok(right)
}

/// A journal, which begins with its own station, or other recorded bytes; or text, which is told.
fn recorded(given: &Given, follower: Follower, out: &mut impl Write) -> Result<bool, Wrong> {
    let (mut input, writer) = (io::BufReader::new(io::stdin().lock()), Writer::new(given));
    if !is_journal(&mut input)? {
        if is_text(&mut input)? {
            eprintln!("explain: note: this is hexadecimal text, and is read as with --hex");
            let mut input = Hex::new(input);
            return explained(|| input.next(), Log::new(follower, true), writer, out);
        }
        let mut input = Bytes::recorded(input);
        return explained(|| input.next(), Log::new(follower, false), writer, out);
    }
    if given.from.is_some() {
        return Err("--from: a journal has its own beginning".to_string());
    }
    let (appends, station) = terminal::journal::Journal::opened(input)?;
    let mut journal = Journal::new(appends);
    explained(|| journal.next(), Log::new(Follower::from_station(&station), false), writer, out)
}

fn main() -> ExitCode {
    let told = |why: &str, status: u8| {
        eprintln!("explain: {why}");
        ExitCode::from(status)
    };
    let words: Vec<String> = std::env::args().skip(1).collect();
    if words == ["--version"] {
        return told_version("explain");
    }
    let Some(given) = given(words.into_iter()) else { return told(USAGE, 2) };
    let follower = match begin(&given) {
        Ok(follower) => follower,
        Err(why) => return told(&why, 2),
    };
    let out = &mut io::BufWriter::new(io::stdout().lock());
    let done = if !given.digits.is_empty() {
        let mut input = Bytes::mixed(io::Cursor::new(&given.digits));
        explained(|| input.next(), Log::new(follower, true), Writer::new(&given), out)
    } else if given.hex {
        let mut input = Hex::new(io::stdin().lock());
        explained(|| input.next(), Log::new(follower, true), Writer::new(&given), out)
    } else {
        recorded(&given, follower, out)
    };
    match done {
        Ok(true) => ExitCode::SUCCESS,
        Ok(false) => ExitCode::from(1),
        Err(why) => told(&why, 1),
    }
}
