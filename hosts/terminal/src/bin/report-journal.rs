//! The week on standard input (docs/REPORT.md): `report-journal [--json | --prometheus] [N]`, without a journal's first N appends. As lines it
//! is that of a journal; as JSON or as metrics (docs/FORMATS.md) that of a journal or of a recording. All is counted by the proved entries.

use station::words::Wrong;
use station::{Kind, Number, Op, Totals};
use std::io::{self, Write};
use std::process::ExitCode;
use terminal::counted::{of_journal, of_recording, Counted};
use terminal::journal::is_journal;
use terminal::json::Json;
use terminal::told::{failed, told_version};

/// The form of an object of this version; a field that goes, or means something else, makes another.
const FORMAT: &str = "vargsnida-report-1";
const KINDS: [(Kind, &str); 5] =
    [(Kind::Request, "request"), (Kind::Event, "event"), (Kind::Result, "result"), (Kind::Image, "image"), (Kind::Ask, "ask")];
const OPS: [(Op, &str); 5] =
    [(Op::Belts, "belts"), (Op::Shuttles, "shuttles"), (Op::Tilt, "tilt"), (Op::Lift, "lift"), (Op::Rotate, "rotate")];

/// The numbers that have a line in a report, in its order.
fn numbers() -> impl Iterator<Item = Number> {
    (0..=Number::KeptOpen as u8).filter_map(|number| Number::try_from(number).ok())
}

fn cars_now(counted: &Counted) -> u32 {
    counted.station.record().cars().unwrap_or(0)
}

fn parts_apart(counted: &Counted) -> usize {
    counted.station.apart().bits().count()
}

fn by_op(total: impl Fn(Op) -> u32) -> Json {
    Json::object(OPS.map(|(op, name)| (name, total(op).into())))
}

fn json(counted: &Counted) -> String {
    let totals = &counted.totals;
    let object = Json::object([
        ("format", FORMAT.into()),
        ("garage", counted.garage.clone().into()),
        ("kinds", Json::object(KINDS.map(|(kind, name)| (name, totals.messages(kind).into())))),
        ("answers", Json::object(numbers().map(|number| ((number as u8).to_string(), totals.answers(number).into())))),
        ("done", by_op(|op| totals.done(op))),
        ("failed", by_op(|op| totals.failed(op))),
        ("cars_in", totals.cars_in().into()),
        ("cars_out", totals.cars_out().into()),
        ("most_cars", totals.most_cars().into()),
        ("cars", cars_now(counted).into()),
        ("parts_set_apart", parts_apart(counted).into()),
    ]);
    format!("{object}\n")
}

/// A value of a label, escaped as the text format asks.
fn label(value: &str) -> String {
    value.replace('\\', "\\\\").replace('"', "\\\"").replace('\n', "\\n")
}

/// A metric: its help, its type, and a sample for each set of labels. The garage is a label of each where its name is known.
fn metric(counted: &Counted, name: &str, help: &str, sort: &str, samples: &[(Vec<(&str, String)>, u64)]) -> String {
    let mut text = format!("# HELP {name} {help}\n# TYPE {name} {sort}\n");
    for (labels, value) in samples {
        let garage = counted.garage.iter().map(|garage| ("garage", garage.clone()));
        let all: Vec<String> = garage.chain(labels.iter().cloned()).map(|(name, value)| format!("{name}=\"{}\"", label(&value))).collect();
        let all = if all.is_empty() { String::new() } else { format!("{{{}}}", all.join(",")) };
        text += &format!("{name}{all} {value}\n");
    }
    text
}

fn metrics(counted: &Counted) -> String {
    let totals: &Totals = &counted.totals;
    let plain = |value: u64| vec![(Vec::new(), value)];
    let kinds = KINDS.map(|(kind, name)| (vec![("kind", name.to_string())], totals.messages(kind).into()));
    let answers: Vec<_> = numbers()
        .map(|number| {
            (vec![("answer", (number as u8).to_string()), ("words", number.words().to_string())], u64::from(totals.answers(number)))
        })
        .collect();
    let results: Vec<_> = OPS
        .iter()
        .flat_map(|&(op, name)| {
            let one = |outcome: &str, value: u32| (vec![("instruction", name.to_string()), ("outcome", outcome.to_string())], value.into());
            [one("done", totals.done(op)), one("failed", totals.failed(op))]
        })
        .collect();
    [
        metric(counted, "garage_messages_total", "Messages that the station was sent, by kind.", "counter", &kinds),
        metric(counted, "garage_answers_total", "Answers that the station gave, by number.", "counter", &answers),
        metric(counted, "garage_results_total", "Results of motors that were accepted; failed are those stuck too.", "counter", &results),
        metric(counted, "garage_cars_in_total", "Cars driven in.", "counter", &plain(totals.cars_in().into())),
        metric(counted, "garage_cars_out_total", "Cars driven out.", "counter", &plain(totals.cars_out().into())),
        metric(counted, "garage_cars", "Cars in the garage now.", "gauge", &plain(cars_now(counted).into())),
        metric(counted, "garage_cars_most", "The most cars after any message.", "gauge", &plain(totals.most_cars().into())),
        metric(counted, "garage_parts_set_apart", "Parts that are set apart now.", "gauge", &plain(parts_apart(counted) as u64)),
    ]
    .concat()
}

fn lines(counted: &Counted) -> String {
    counted.totals.to_string()
}

/// The week behind a journal's first appends, or of a recording, which has none to leave out.
fn counted(from: Option<usize>, recordings: bool) -> Result<Counted, Wrong> {
    let mut input = io::BufReader::new(io::stdin().lock());
    if !recordings || is_journal(&mut input)? {
        return of_journal(input, from.unwrap_or(0));
    }
    match from {
        None => of_recording(input),
        Some(_) => Err("what is not in a journal has no appends to leave out".to_string()),
    }
}

fn main() -> ExitCode {
    let words: Vec<String> = std::env::args().skip(1).collect();
    if words == ["--version"] {
        return told_version("report");
    }
    let (form, rest): (fn(&Counted) -> String, &[String]) = match &words[..] {
        [form, rest @ ..] if form == "--json" => (json, rest),
        [form, rest @ ..] if form == "--prometheus" => (metrics, rest),
        rest => (lines, rest),
    };
    let from = match rest {
        [] => Some(None),
        [from] if from.bytes().all(|byte| byte.is_ascii_digit()) => from.parse().ok().map(Some),
        _ => None,
    };
    let Some(from) = from else {
        eprintln!("report: usage: report [--json | --prometheus] [--from N] [FILE]");
        return ExitCode::from(2);
    };
    let counted = counted(from, words.len() > rest.len());
    let written = counted.and_then(|counted| io::stdout().write_all(form(&counted).as_bytes()).map_err(|why| failed("output", why)));
    match written {
        Ok(()) => ExitCode::SUCCESS,
        Err(why) => {
            eprintln!("report: {why}");
            ExitCode::FAILURE
        }
    }
}
