//! Calls on stations that traffic makes, with sets outstanding, drives under way and parts set apart, given to the panel as 60 bytes or as an
//! ask is answered: each verdict with its place, what is told of a rejection, and the floor after what is accepted, beside the reference.

use crate::explain::held::Beside;
use crate::explain::shown::parts_in;
use reference::{read_call, Call, Instruction, Station, DONE, STUCK};
use shared::hex;
use shared::sound_records::every_five;
use shared::texts::words;
use shared::traffic::{framed_message, input, Numbers};
use std::collections::BTreeMap;

const EVENTS: [&str; 4] = ["begin in", "begin out", "ended and done", "ended and not done"];

fn hexadecimal(bytes: &[u8]) -> String {
    hex::written(bytes).replace(' ', "")
}

/// A call in the panel's words, if it has some.
fn line(call: &Call) -> Option<String> {
    Some(match *call {
        Call::Request { bytes, .. } if !bytes.is_empty() => {
            let one =
                |five: &[u8]| words(*five.first_chunk()?).filter(|_| Instruction::read(*five.first_chunk().unwrap_or(&[0; 5])).is_some());
            bytes.chunks(5).map(one).collect::<Option<Vec<_>>>()?.join("; ")
        }
        Call::Event(way @ 1..=4) => EVENTS[usize::from(way) - 1].to_string(),
        Call::Result { issue, number, outcome: outcome @ 0..=2 } => {
            format!("result {issue} {number} {}", ["failed", "done", "stuck"][usize::from(outcome)])
        }
        Call::Image { image, apart: 0 } => format!("image {}", hexadecimal(&image.to_le_bytes())),
        _ => return None,
    })
}

/// The reference takes a call as the panel does: a set that is accepted succeeds. Gives the number and the place.
fn taken(station: &mut Station, call: Call) -> (u8, u8) {
    let answer = station.take(call);
    if let (Call::Request { count, .. }, 0) = (call, answer.number) {
        for number in 0..count {
            assert_eq!(station.result(answer.issue, number, DONE).number, 0);
        }
    }
    (answer.number, answer.place)
}

/// What is shown of a call: the lines below each of its instructions, the verdict, and what stands behind that.
struct Shown<'a> {
    blocks: Vec<Vec<String>>,
    verdict: (u8, Option<u8>),
    behind: Vec<&'a str>,
}

fn shown<'a>(lines: &mut std::iter::Peekable<impl Iterator<Item = &'a str>>) -> Option<Shown<'a>> {
    let mut blocks: Vec<Vec<String>> = Vec::new();
    let verdict = loop {
        let line = lines.next()?;
        match (line.strip_prefix("verdict "), line.strip_prefix("  ")) {
            (Some(verdict), _) => break verdict.split_once(':')?.0,
            (_, Some(below)) => blocks.last_mut()?.push(below.to_string()),
            _ => blocks.push(Vec::new()),
        }
    };
    let (number, place) = verdict.split_once(" at ").map_or((verdict, None), |(number, place)| (number, place.parse().ok()));
    let verdict = (number.parse().ok()?, place);
    if verdict.0 == 0 {
        lines.next_if_eq(&"")?;
    }
    let mut behind = Vec::new();
    while let Some(line) = lines.next_if(|line| !line.is_empty()) {
        behind.push(line);
    }
    lines.next_if_eq(&"");
    Some(Shown { blocks, verdict, behind })
}

/// The floor's lines below its drawing are those of a station.
fn floor(lines: &[&str], beside: &Beside) {
    let (station, rest) = (&beside.station, &lines[8..]);
    assert_eq!(lines[6].replace(' ', ""), format!("image{}", hexadecimal(&station.record.to_le_bytes())));
    let (apart, set) = match rest {
        [first, set @ ..] if first.starts_with("set apart ") => (first.split_once(": ").map_or(0, |(_, words)| parts_in(words)), set),
        set => (0, set),
    };
    assert_eq!(apart, station.apart_number(), "{lines:?}");
    let expected = if station.count == 0 { Vec::new() } else { beside.set_lines() };
    assert_eq!(set.iter().map(|line| crate::explain::held::plain(line)).collect::<Vec<_>>(), expected);
}

/// Lets an instruction be stuck, where no set is outstanding.
fn jam(numbers: &mut Numbers, station: &mut Station) {
    let fives = every_five();
    for _ in 0..fives.len() {
        let answer = station.request(1, &fives[numbers.below(fives.len() as u64) as usize]);
        if answer.number == 0 {
            station.result(answer.issue, 0, STUCK);
            return;
        }
    }
}

/// So many stations with so many calls on each; gives how often each number came.
pub fn tried(run: impl Fn(&str) -> (String, String, bool), stations: u64, calls: usize) -> BTreeMap<u8, usize> {
    let mut came = BTreeMap::new();
    for seed in 0..stations {
        let (mut numbers, mut first) = (Numbers(seed), Station::start());
        reference::serve_on(&mut first, &input(seed, 40 + seed as usize % 50), true);
        if seed % 3 != 0 {
            jam(&mut numbers, &mut first);
        }
        let mut given = hexadecimal(&first.to_bytes());
        if first.count == 0 && seed % 2 == 0 {
            // as an ask is answered: the count of sets is not known there, and begins anew
            let mut begun = Station::start();
            begun.image(first.record, 0);
            begun.apart = first.apart;
            first = begun;
            given = format!("2026-11-17T02:12:11.507+00:00 < 12008100{}", hexadecimal(&first.shown()));
        }
        let (mut station, mut messages, mut text) = (first, Vec::new(), format!("{given}\n"));
        while messages.len() < calls {
            let message = framed_message(&mut numbers, &station);
            let Ok((call, _)) = read_call(&message) else { continue };
            // an image clears a jam
            if matches!(call, Call::Image { .. }) && !numbers.one_in(8) {
                continue;
            }
            let Some(line) = line(&call) else { continue };
            text += &format!("{line}\n");
            taken(&mut station, call);
            messages.push(message);
        }
        let (output, told, well) = run(&text);
        assert_eq!((told.as_str(), well), ("", true), "seed {seed}");
        let (mut lines, mut beside) = (output.lines().peekable(), Beside::new());
        beside.begin_with(first);
        let mut begun = Vec::new();
        while let Some(line) = lines.next_if(|line| !line.is_empty()) {
            begun.push(line);
        }
        lines.next_if_eq(&"");
        floor(&begun, &beside);
        for message in &messages {
            let (call, _) = read_call(message).expect("a call");
            let (mut after, told) = (beside.station, shown(&mut lines).unwrap_or_else(|| panic!("seed {seed}: {call:?}")));
            let (number, place) = taken(&mut after, call);
            *came.entry(number).or_insert(0) += 1;
            let many = matches!(call, Call::Request { count, .. } if count > 1);
            assert_eq!(told.verdict, (number, Some(place).filter(|&place| many && number != 0 && place != 255)), "seed {seed}: {call:?}");
            if number == 0 {
                beside.begin_with(after);
                floor(&told.behind, &beside);
                continue;
            }
            let [reasons @ .., to_do] = &told.behind[..] else { panic!("seed {seed}: {call:?}: no reason") };
            assert!(to_do.starts_with("  to do: ") && !to_do.contains("never answers so"), "{to_do}");
            let reasons: Vec<String> = match number {
                20..=28 => told.blocks[usize::from(place)].clone(),
                _ => reasons.iter().map(|line| line.to_string()).collect(),
            };
            beside.refused(&call, number, place, &reasons);
        }
        assert_eq!(lines.next(), None, "nothing follows");
    }
    came
}
