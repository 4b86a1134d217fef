//! The report against the reference's own counting: `report PROGRAM MESSAGES SESSIONS`. Two long inputs of so many messages each, given
//! in pieces of many sizes, many short ones, damaged and cut, the papers' examples, one input cut at every byte and the end of a long
//! one: what the program prints must be the reference's report. Every total that can be raised from the start must have been, and no
//! other: answers 16 and 17 can't come.

use reference::week::{happened, report_with, totals, Total, Week, EXAMPLES};
use reference::{serve_on, Station};
use shared::journal_form::{read as form, Written, BAD_LENGTH, CUT_SHORT, MESSAGES};
use shared::pipes::{answers, messages_in};
use shared::traffic;
use std::collections::BTreeSet;
use std::process::{exit, Command};

/// The reference held against what the papers say of their examples.
fn examples() {
    for (name, messages, nonzero) in EXAMPLES {
        let words = nonzero.split_whitespace().step_by(2);
        assert!(words.clone().eq(totals().map(|total| total.to_string()).filter(|name| words.clone().any(|word| word == name))), "{name}");
        assert_eq!(Week::of(&messages.concat()).report(), report_with(nonzero), "{name}");
    }
    let names: Vec<String> = totals().map(|total| total.to_string()).collect();
    assert_eq!((names.len(), names[0].as_str(), names[47].as_str()), (48, "kind-1", "most-cars"));
    assert!(totals().is_sorted());
}

/// Whether the program prints the reference's report of an input that comes in pieces; the totals that are not 0 are kept.
fn same(program: &str, name: &str, input: &[u8], seed: u64, came: &mut BTreeSet<Total>) -> bool {
    let (week, got) = (Week::of(input), answers(program, input, seed));
    came.extend(week.nonzero());
    let right = got == week.report().as_bytes();
    if !right {
        eprintln!("report: {name}, {} bytes with seed {seed}:", input.len());
        let (expected, got) = (week.report(), String::from_utf8_lossy(&got).into_owned());
        expected.lines().zip(got.lines()).filter(|(a, b)| a != b).for_each(|(a, b)| eprintln!("  {b}, expected {a}"));
        if expected.lines().count() != got.lines().count() {
            eprintln!("  the whole is {got:?}");
        }
    }
    right
}

/// Journals from the start and from a later station on, whole, torn and damaged, all of them and behind some of their appends: what is counted
/// is the messages that were answered, and what ended a session. Gives how many reports there were.
fn journals(program: &str) -> usize {
    let path = std::env::temp_dir().join(format!("report.{}", std::process::id()));
    let file = path.to_str().expect("a name");
    let printed = |bytes: &[u8], words: &[&str]| {
        std::fs::write(&path, bytes).expect("a file");
        let output = Command::new(program).args(words).arg(file).output().expect("it runs");
        (String::from_utf8_lossy(&output.stdout).into_owned(), String::from_utf8_lossy(&output.stderr).into_owned(), output.status.code())
    };
    let (mut later, mut count) = (Station::start(), 0);
    serve_on(&mut later, &traffic::input(80, 300), true);
    for (seed, first) in [(81, Station::start()), (82, later)] {
        let mut journal = Written::begun(b"north", &first);
        for (at, piece) in messages_in(&traffic::input(seed, 120)).collect::<Vec<_>>().chunks(9).enumerate() {
            journal.add(MESSAGES, &piece.concat());
            match at % 4 {
                1 => journal.add(CUT_SHORT, &[6, 0, 3, 0, 1]),
                2 => journal.add(BAD_LENGTH, &[44, 0, 1, 0]),
                _ => {}
            }
        }
        let says = form(&journal.bytes).expect("a journal");
        for from in 0..=says.appends.len() {
            let (mut station, mut week) = (first, Week::default());
            for (append, number) in says.appends.iter().zip(1..) {
                let parts: Vec<&[u8]> =
                    if append.kind == MESSAGES { messages_in(&append.carried).collect() } else { vec![&append.carried] };
                for part in parts {
                    let happened = happened(&mut station, part);
                    if number > from {
                        assert!(week.count(&happened).is_ok(), "nothing is full");
                    }
                }
            }
            assert_eq!(
                printed(&journal.bytes, &["--from", &from.to_string()]),
                (week.report(), String::new(), Some(0)),
                "seed {seed}, from {from}"
            );
            if from == 0 {
                let torn = journal.clone().with(MESSAGES, &[2, 0, 5, 0]).bytes;
                let zeros = [&journal.bytes[..], &[0; 30]].concat();
                for bytes in [&journal.bytes[..], &torn[..torn.len() - 1], &zeros] {
                    assert_eq!(printed(bytes, &[]), (week.report(), String::new(), Some(0)), "seed {seed}");
                }
            }
            count += 1;
        }
        let middle = journal.bytes.len() / 2;
        let damaged = [&journal.bytes[..middle], &[journal.bytes[middle] ^ 1], &journal.bytes[middle + 1..]].concat();
        let zeroed = [&journal.bytes[..middle], &[0; 60], &journal.bytes[middle + 60..]].concat();
        for bytes in [&damaged, &zeroed] {
            let (shown, told, status) = printed(bytes, &[]);
            assert!(
                shown.is_empty() && told.starts_with("report: the journal is damaged at byte ") && status == Some(1),
                "seed {seed}: {told}"
            );
        }
        let more = (says.appends.len() + 1).to_string();
        let (shown, told, status) = printed(&journal.bytes, &["--from", &more]);
        assert!(shown.is_empty() && told.lines().count() == 1 && status == Some(1), "seed {seed}: {told}");
    }
    std::fs::remove_file(&path).expect("it goes");
    count
}

pub fn main(words: &[String]) {
    let [_, program, messages, sessions] = words else { panic!("usage: report PROGRAM MESSAGES SESSIONS") };
    let messages: usize = messages.parse().expect("a number");
    let sessions: u64 = sessions.parse().expect("a number");
    examples();
    let mut inputs: Vec<(&str, Vec<u8>)> = EXAMPLES.iter().map(|(name, messages, _)| (*name, messages.concat())).collect();
    inputs.extend((0..sessions).map(|seed| ("damaged", traffic::damaged_input(5000 + seed, (seed % 40) as usize))));
    // cut at every byte; and at every byte of the last messages, behind many that fill more than one read
    let (short, long) = (traffic::input(11, 12), traffic::input(12, 30_000));
    inputs.extend((0..short.len()).map(|end| ("cut", short[..end].to_vec())));
    inputs.extend((long.len() - 50..long.len()).map(|end| ("cut near its end", long[..end].to_vec())));
    inputs.extend((0..2).map(|seed| ("long", traffic::input(seed, messages))));
    // what is started by several words is a host in C, which reads standard input and knows no files
    if !program.contains(' ') {
        println!("report: {} reports of journals, behind each of their appends", journals(program));
    }
    let mut came = BTreeSet::new();
    let wrong = inputs.iter().zip(1..).filter(|((name, input), seed)| !same(program, name, input, *seed, &mut came)).count();
    let wanted: BTreeSet<Total> = totals().filter(|total| !matches!(total, Total::Answer(16 | 17))).collect();
    let amiss: Vec<String> = came.symmetric_difference(&wanted).map(Total::to_string).collect();
    if !amiss.is_empty() {
        eprintln!("report: totals that were never raised, or can't be: {amiss:?}");
    }
    if wrong > 0 || !amiss.is_empty() {
        exit(1);
    }
    println!("report: {} inputs, {} messages in the long ones, each report as the reference's", inputs.len(), 2 * messages);
    println!("report: {} totals raised, all that can be", came.len());
}
