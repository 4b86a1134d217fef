//! The explainer: `explain EXPLAIN PAGE EXAMPLES MESSAGES`. Long traffic as bytes and as hexadecimal text: what is shown is read back and
//! held against the reference, answer by answer with place and issue, each reason, and the floors; each number that a program can give
//! must come. Inputs that are damaged, logs with an answer changed or a message left out, wrong words, cards followed beside a reference
//! desk. And the page's examples: in a block marked `explain` the first line is the command and the others are its input; of the blocks
//! behind it one marked `shown` is all that is written, one marked `told` what is told on standard error.

mod cards;
pub mod held;
mod logs;
pub mod shown;

use held::{held, plain, views, Beside};
use reference::{serve, serve_on, sound, Station};
use shared::child::run_on as run;
use shared::page::blocks;
use shared::sound_records::every_five;
use shared::texts::words;
use shared::traffic::{damaged_input, input, near_record, request, Numbers};
use shown::paragraphs;
use std::process::exit;

/// Messages of one long input.
const LONG: usize = 20_000;

pub fn text(explain: &str, input: &[u8]) -> (String, String, bool) {
    let (output, told, well) = run(explain, input);
    (String::from_utf8_lossy(&output).into_owned(), told, well)
}

/// Long inputs, all of it read back.
fn long(explain: &str, messages: usize, beside: &mut Beside) {
    for seed in 0..messages.div_ceil(LONG) {
        let bytes = input(seed as u64, LONG);
        let (shown, told, well) = text(explain, &bytes);
        assert_eq!((told.as_str(), well), ("", true));
        beside.restart();
        assert!(held(&shown, beside) == serve(&bytes), "seed {seed}");
        // refusals alone have the same reasons, and it ends with the same floor
        if seed == 0 {
            let (quiet, ..) = text(&format!("{explain} --quiet"), &bytes);
            let causes = |text: &str| text.lines().filter(|line| line.contains("set apart by ")).map(str::to_string).collect::<Vec<_>>();
            assert!(causes(&quiet) == causes(&shown) && quiet.contains("\nthe floor at the end:"), "--quiet");
        }
    }
}

/// Short inputs, most of them damaged: what comes before is explained, and the fault is told with its byte. Gives how many were damaged.
fn damaged(explain: &str, inputs: u64, beside: &mut Beside) -> usize {
    let mut found = 0;
    for seed in 0..inputs {
        let bytes = damaged_input(seed, 12);
        if bytes.len() >= 4 && matches!(bytes[2], 128 | 129) && bytes[3] == 0 {
            continue;
        } // a recording of answers
        beside.restart();
        let (answers, used, on) = serve_on(&mut Station::start(), &bytes, true);
        let (shown, told, well) = text(explain, &bytes);
        assert!(held(&shown, beside) == answers, "seed {seed}");
        assert_eq!(well, on, "seed {seed}: {told}");
        let expected = if on { String::new() } else { format!("explain: byte {used}: expected ") };
        assert!(told.starts_with(&expected) && told.lines().count() == usize::from(!on), "seed {seed}: {told}");
        found += usize::from(!on);
    }
    found
}

/// Every instruction in its words, each in a request of its own; gives how many there are.
fn instructions(explain: &str) -> usize {
    let fives = every_five();
    let (shown, _, well) = text(explain, &fives.iter().flat_map(|five| request(five)).collect::<Vec<u8>>());
    let found = paragraphs(&shown);
    assert!(well && found.len() == fives.len());
    for (told, five) in found.iter().zip(&fives) {
        let line = words(*five).map(|words| format!("  0: {}", plain(&words)));
        assert!(told.lines.iter().any(|told| Some(plain(told)) == line), "{five:?}: {:?}", told.lines);
    }
    fives.len()
}

/// The hints of an image that is not sound, on so many records and those next to them.
fn hints(records: usize) -> [usize; 2] {
    let (mut numbers, mut record, mut count) = (Numbers(3), reference::START, [0; 2]);
    for _ in 0..records {
        record = Some(near_record(&mut numbers, record)).filter(|&record| sound(record)).unwrap_or(record);
        // one bit changed; others in the cells, the shuttles' slots, the lift and the drives; any number
        let mut other = |bits: u64| record & !bits | numbers.next() & bits;
        let changed = [0, 0xFF_FFFF_FFFF, 0xFFF << 40, 0x1F << 52, u64::MAX].map(&mut other);
        for image in (0..64).map(|bit| record ^ 1 << bit).chain(changed) {
            let hints = terminal::sound::hints(image);
            assert_eq!(hints.is_empty(), sound(image), "{image:016X}: {hints:?}");
            count[usize::from(hints.is_empty())] += 1;
        }
    }
    count
}

/// The page's examples; gives how many there are.
fn examples(explain: &str, page: &str) -> usize {
    let content = std::fs::read_to_string(page).expect("the page is there");
    let (mut got, mut count, mut failed) = ((String::new(), String::new(), true), [0; 3], 0);
    for (line, mark, block) in blocks(&content, &["explain", "shown", "told"]) {
        let mut same = |got: &str| {
            if got != block {
                failed += 1;
                eprintln!("{page}:{line}: expected\n{block}\ngot\n{got}");
            }
        };
        match mark {
            "explain" => {
                let (command, input) = block.split_once('\n').expect("a command");
                let words = command.strip_prefix("bin/explain").unwrap_or_else(|| panic!("{page}:{line}: `{command}`"));
                got = text(&format!("{explain}{words}"), input.as_bytes());
                count[0] += 1;
            }
            "shown" => {
                same(&got.0);
                count[1] += 1;
            }
            _ => {
                same(&got.1);
                let notes = block.lines().all(|line| line.starts_with("explain: note: "));
                assert_eq!(got.2, notes, "{page}:{line}: the status");
                count[2] += 1;
            }
        }
    }
    if failed > 0 || count[0] == 0 || count[1] != count[0] || count[2] == 0 {
        eprintln!("{page}: {count:?} blocks, {failed} of them wrong");
        exit(1);
    }
    count[0]
}

pub fn main(given: &[String]) {
    let [_, explain, page, sessions, messages] = given else { panic!("usage: explain EXPLAIN PAGE EXAMPLES MESSAGES") };
    let messages: usize = messages.parse().expect("a number of messages");
    let mut beside = Beside::new();
    long(explain, messages, &mut beside);
    let found = damaged(explain, 400, &mut beside);
    let expected: Vec<u8> = (0..=33).filter(|number| !matches!(number, 9 | 14 | 16..=19)).collect();
    assert_eq!(beside.came.iter().copied().collect::<Vec<_>>(), expected, "every number that a program can give comes");
    println!("explain: {messages} messages and {} floors as the reference has them, {found} damaged inputs told", beside.floors);
    assert!(beside.causes > 0, "no stuck result is named under a 32");
    println!("explain: {} stuck results named under a 32", beside.causes);
    let ([unsound, fine], all) = (hints(4000), instructions(explain));
    println!("explain: {all} instructions in words; {unsound} images that are not sound with hints, {fine} sound ones without");
    views(explain, 4000);
    logs::all(explain, sessions);
    cards::followed(explain, 8, 4000);
    println!("explain: {} examples of {page}", examples(explain, page));
}
