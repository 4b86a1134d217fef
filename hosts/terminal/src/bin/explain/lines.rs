//! A log as JSON Lines: an object for each message, in one line (docs/FORMATS.md has the fields, docs/formats the schema).

use crate::follow::Known;
use crate::input::At;
use crate::step::{is_refusal, named, reply_line, Answered, Moment, Sent, Step, NOWHERE};
use station::words::{belts_of, named as names, word, HEIGHTS, ROWS, SIDES};
use station::{Parts, Place, Record};
use terminal::facts::{DRIVE_IN, DRIVE_OUT};
use terminal::json::Json;
use terminal::message::{bad_fields, hexadecimal, instruction, kind, length, read, Message, ENDINGS, EVENTS, LENGTHS};
use terminal::told::number_in_words;

/// The form of an object of this version; a field that goes, or means something else, makes another.
const FORMAT: &str = "vargsnida-message-1";
const OPS: [&str; 6] = ["none", "belts", "shuttles", "tilt", "lift", "rotate"];

type Fields = Vec<(&'static str, Json)>;

/// The bytes of a record or of parts as digits without blanks, as `--from` takes them.
fn digits(number: u64) -> Json {
    hexadecimal(&number.to_le_bytes()).replace(' ', "").into()
}

fn image(record: Record, apart: Parts) -> Fields {
    vec![("record", digits(record.0)), ("apart", digits(apart.0))]
}

/// The motors that an instruction runs: each belt, each shuttle of its side, a shuttle's tilt, the lift, its rotation.
fn motors([op, a, b, ..]: [u8; 5]) -> Vec<String> {
    match op {
        1 => names(belts_of(a), b).iter().map(|belt| format!("belt row {a} {belt}")).collect(),
        2 => names(&ROWS, b).iter().map(|row| format!("shuttle {} row {row}", word(&SIDES, a))).collect(),
        3 => vec![format!("tilt {} row {b}", word(&SIDES, a))],
        4 => vec!["lift".to_string()],
        _ => vec!["rotation".to_string()],
    }
}

fn one(five: [u8; 5]) -> Json {
    let mut fields = vec![("bytes", hexadecimal(&five).into()), ("words", instruction(five).into())];
    if bad_fields(five).is_empty() {
        fields.extend([("op", OPS[usize::from(five[0])].into()), ("motors", Json::list(motors(five)))]);
    }
    Json::object(fields)
}

/// The word of a number, where it has one.
fn in_words(all: &[&'static str], at: u8, first: u8) -> Json {
    all.get(usize::from(at)).copied().filter(|_| at >= first).into()
}

fn answer(number: u8, place: u8, issue: u16) -> Fields {
    let place = Some(place).filter(|&place| place != NOWHERE);
    vec![("number", number.into()), ("says", number_in_words(number).into()), ("place", place.into()), ("issue", issue.into())]
}

/// The name of a message's kind, and its fields; of a result the instruction too, where the outstanding set has it.
fn fields(message: &Message, station: Option<&Moment>) -> (Option<&'static str>, Fields) {
    match *message {
        Message::Request(ref fives) => (Some("request"), vec![("instructions", Json::List(fives.iter().copied().map(one).collect()))]),
        Message::Event(event) => (Some("event"), vec![("event", event.into()), ("says", in_words(&EVENTS, event, 1))]),
        Message::Result { issue, number, ending } => {
            let of = station.and_then(|station| named(&station.facts, issue, number)).map(one);
            let outcome = in_words(&ENDINGS, ending, 0);
            let all = [
                ("issue", issue.into()),
                ("instruction", number.into()),
                ("ending", ending.into()),
                ("outcome", outcome),
                ("of", of.into()),
            ];
            (Some("result"), all.into())
        }
        Message::Image { record, apart } => (Some("image"), image(record, apart)),
        Message::Ask => (Some("ask"), Vec::new()),
        Message::Answer { number, place, issue } => (Some("answer"), answer(number, place, issue)),
        Message::Held { record, apart } => (Some("held"), image(record, apart)),
        Message::Unread(ref what) => (None, vec![("wrong", what.as_str().into())]),
    }
}

/// The kind of bytes that have one.
fn kind_of(bytes: &[u8]) -> Json {
    let whole = bytes.len() >= 4 && LENGTHS.contains(&length(bytes)) && bytes.len() >= 2 + length(bytes);
    whole.then(|| kind(bytes)).into()
}

fn floor(moment: &Moment) -> Json {
    let (record, facts) = (moment.floor.record, &moment.facts);
    let drive = [(DRIVE_IN, "in"), (DRIVE_OUT, "out")].into_iter().find(|(bit, _)| record.0 & bit != 0).map(|(_, way)| way);
    let outstanding = (!facts.set.is_empty()).then_some(facts.issue);
    let mut all = image(record, moment.floor.apart);
    all.extend([
        ("cars", record.cars().into()),
        ("height", word(&HEIGHTS, (record.0 >> 53 & 3) as u8).into()),
        ("drive", drive.into()),
        ("outstanding", outstanding.into()),
    ]);
    Json::object(all)
}

fn card(known: &Known) -> Json {
    let cell = |place| match place {
        Place::Cell(cell) => Some(cell),
        Place::Raised => None,
    };
    let mut all = vec![("card", known.card.into()), ("cell", cell(known.place).into()), ("last_known", known.last_known.into())];
    all.extend(known.moving_to.map(|to| ("moving_to", cell(to).into())));
    Json::object(all)
}

/// What each object begins with.
fn head(number: usize, at: &At, way: &str, bytes: &[u8]) -> Fields {
    let mut all = vec![("format", FORMAT.into()), ("message", number.into()), (at.unit, at.place.into())];
    all.extend(at.time.as_deref().map(|time| ("time", time.into())));
    all.extend([("way", way.into()), ("bytes", hexadecimal(bytes).into()), ("kind", kind_of(bytes))]);
    all
}

fn sent(sent: &Sent) -> Json {
    let (name, said) = fields(&sent.message, Some(&sent.before));
    let (_, mut answered) = fields(&read(&sent.reply), None);
    answered.insert(0, ("bytes", hexadecimal(&sent.reply).into()));
    let words = sent.says.iter().cloned().chain([reply_line(&sent.reply, sent.fives())]).chain(sent.why.iter().cloned());
    let words = words.chain(sent.to_do.iter().map(|to_do| format!("to do: {to_do}"))).chain(sent.ends.map(str::to_string));
    let mut all = head(sent.number, &sent.at, "sent", &sent.bytes);
    all.extend([
        ("name", name.into()),
        ("fields", Json::object(said)),
        ("accepted", sent.answer.taken().into()),
        ("answer", Json::object(answered)),
        ("words", Json::list(words.map(|line| line.trim_start().to_string()))),
        ("before", floor(&sent.before)),
        ("after", floor(&sent.after)),
        ("cards", Json::List(sent.after.floor.cards.iter().map(card).collect())),
        ("stops", sent.ends.is_some().into()),
    ]);
    Json::object(all)
}

fn answered(answered: &Answered) -> Json {
    let (name, said) = fields(&read(&answered.bytes), None);
    let words = std::iter::once(reply_line(&answered.bytes, &[])).chain(answered.lines.iter().cloned());
    let mut all = head(answered.number, &answered.at, "answered", &answered.bytes);
    all.extend([
        ("name", name.into()),
        ("fields", Json::object(said)),
        ("words", Json::list(words.map(|line| line.trim_start().to_string()))),
        ("to", answered.to.into()),
        ("agrees", answered.agrees.into()),
    ]);
    Json::object(all)
}

/// The line of a step, where it has one; with `quiet`, of refusals and of answers that differ alone.
pub fn line(step: &Step, quiet: bool) -> String {
    let object = match step {
        Step::Sent(one) if !quiet || !one.answer.taken() => sent(one),
        Step::Answered(one) if !quiet || one.agrees == Some(false) || one.agrees.is_none() && is_refusal(&one.bytes) => answered(one),
        _ => return String::new(),
    };
    format!("{object}\n")
}
