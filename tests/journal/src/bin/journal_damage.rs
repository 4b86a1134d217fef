//! Journals that something other than a power cut has changed: `journal_damage PROGRAM DIRECTORY`. Small journals with every byte changed, one
//! at a time and some in pairs; bytes dropped and repeated; appends missing, repeated, out of place or from another journal; a longer one with
//! blocks of a disk zeroed or swapped; and older copies. Of each file the form's own reader says what it is (journal_form.rs): the program must
//! say the same, and answer as the reference does, or nothing. Whatever a change was, a station that starts has read a first part of what was
//! written, and nothing else. How often that was not all of it is counted, and is nothing but what a power cut leaves too.

use shared::journal_form::{over, read, End, Read, Rejected, Written, BAD_LENGTH, CLOSED, CUT_SHORT, HEAD, MESSAGES};
use shared::journals::{started, Trouble, ASK, GARAGE};
use shared::reference::{serve_on, Station};
use shared::traffic::{framed_message, Numbers};
use std::collections::BTreeMap;
use std::fs;
use std::io::Write;
use std::path::Path;

/// What came of the files of one sort: how many there were, were no journal, were damaged, and started with all or with a first part.
#[derive(Default)]
struct Came {
    files: usize,
    rejected: usize,
    damaged: usize,
    all: usize,
    part: usize,
}

struct Tried<'a> {
    program: &'a str,
    path: String,
    came: BTreeMap<&'static str, Came>,
}

/// A journal and what it says.
struct Sound {
    bytes: Vec<u8>,
    says: Read,
}

fn sound(written: Written) -> Sound {
    let says = read(&written.bytes).expect("a journal");
    assert!(says.starts() && says.end == End::Whole, "a journal of the corpus is sound");
    Sound { bytes: written.bytes, says }
}

/// Some messages that go on from what a journal has.
fn more(numbers: &mut Numbers, station: &mut Station, count: usize) -> Vec<u8> {
    (0..count)
        .flat_map(|_| {
            let message = framed_message(numbers, station);
            serve_on(station, &message, true);
            message
        })
        .collect()
}

/// A journal from this station on: messages of several reads, and two sessions that ended in the middle of one.
fn small(seed: u64, station: Station) -> Written {
    let (mut numbers, mut now) = (Numbers(seed), station);
    Written::begun(GARAGE.as_bytes(), &station)
        .with(MESSAGES, &more(&mut numbers, &mut now, 2))
        .with(CUT_SHORT, &[6, 0, 3, 0, 1])
        .with(MESSAGES, &more(&mut numbers, &mut now, 1))
        .with(BAD_LENGTH, &[44, 0, 9])
        .with(MESSAGES, &more(&mut numbers, &mut now, 3))
}

/// A station with as much as can be: a set outstanding, parts set apart, a count of sets.
fn busy() -> Station {
    let (mut numbers, mut station) = (Numbers(5), Station::start());
    for _ in 0..100_000 {
        more(&mut numbers, &mut station, 1);
        if station.count > 1 && station.answered != 0 && station.apart_number() != 0 && station.next_issue > 300 {
            return station;
        }
    }
    panic!("no such station came")
}

/// A journal whose last byte, an append's end mark, is the first of a disk's sector.
fn at_a_sector() -> Written {
    let mut written = small(3, Station::start());
    // an append is of 14 to 45 bytes and may be the last, from where it ends in the next sector
    while written.bytes.len() % 512 < 512 - 2 * 57 + 1 {
        written.add(CUT_SHORT, &[6; 44]);
    }
    let left = 513 - written.bytes.len() % 512;
    written.add(CUT_SHORT, &[6; 44][..left / 2 - 13]);
    written.add(CUT_SHORT, &[6; 44][..left - left / 2 - 13]);
    written
}

impl Tried<'_> {
    /// One changed file of a journal. A start must have read appends of the journal, from the first on.
    fn file(&mut self, sort: &'static str, journal: &Sound, bytes: &[u8]) {
        let torn = format!("{}.torn", self.path);
        drop(fs::remove_file(&torn));
        fs::write(&self.path, bytes).expect("a file");
        let mut child = started(self.program, &[&self.path], Trouble::Nothing);
        // it may have ended before
        drop(child.stdin.take().expect("a pipe").write_all(&ASK));
        let output = child.wait_with_output().expect("it ends");
        let (told, after) = (String::from_utf8_lossy(&output.stderr).into_owned(), fs::read(&self.path).expect("the file"));
        let came = self.came.entry(sort).or_default();
        came.files += 1;
        let one_line = told.starts_with("station: ") && told.ends_with('\n') && told.matches('\n').count() == 1;
        match read(bytes) {
            Ok(says) if says.starts() => {
                let lost = says.end == End::Torn;
                assert!(
                    journal.says.first == says.first && journal.says.appends.starts_with(&says.appends),
                    "{sort}: the form has taken what was not written"
                );
                let (mut station, mut next) = (says.station, Written { bytes: bytes[..says.whole].to_vec(), sum: says.sum });
                assert!(output.stdout == serve_on(&mut station, &ASK, true).0, "{sort}: the garage is another");
                next.add(MESSAGES, &ASK);
                assert!(after == next.bytes, "{sort}: the journal is not what it was and the ask behind it");
                assert!(fs::read(&torn).unwrap_or_default() == bytes[says.whole..], "{sort}: what was cut off is not kept");
                let noted =
                    one_line && told.starts_with("station: note: ") && told.contains(&format!(" {} bytes", bytes.len() - says.whole));
                assert!(if lost { noted } else { told.is_empty() }, "{sort}: it told {told:?}");
                if says.appends.len() < journal.says.appends.len() {
                    came.part += 1
                } else {
                    came.all += 1
                }
            }
            other => {
                assert!(output.stdout.is_empty() && one_line && !told.contains(": note: "), "{sort}: it has started, or told {told:?}");
                assert!(after == bytes && !Path::new(&torn).exists(), "{sort}: a byte of a file that can't be trusted has changed");
                match other {
                    Ok(says) if !says.closed => {
                        let where_it_is = [says.whole, says.messages]
                            .iter()
                            .all(|number| told.contains(&format!(" {number} ")) || told.contains(&format!(" {number},")));
                        assert!(
                            where_it_is,
                            "{sort}: damage at byte {} behind {} messages, and it told {told:?}",
                            says.whole, says.messages
                        );
                        came.damaged += 1;
                    }
                    Err(Rejected::Damaged) => {
                        assert!(told.contains("damaged"), "{sort}: of a damaged head it told {told:?}");
                        came.rejected += 1;
                    }
                    _ => came.rejected += 1,
                }
            }
        }
    }

    /// Every byte from this one on changed, to a neighbour, by its highest bit, to all others and to 0.
    fn bytes(&mut self, journal: &Sound, first: usize) {
        for at in first..journal.bytes.len() {
            let was = journal.bytes[at];
            for now in [was ^ 1, was ^ 128, !was, 0] {
                if now == was {
                    continue;
                }
                let mut bytes = journal.bytes.clone();
                bytes[at] = now;
                self.file("a byte changed", journal, &bytes);
            }
        }
    }

    fn pairs(&mut self, journal: &Sound, times: usize) {
        let (mut numbers, size) = (Numbers(journal.bytes.len() as u64), journal.bytes.len() as u64);
        for time in 0..times {
            let mut bytes = journal.bytes.clone();
            let first = numbers.below(size);
            // half of them near each other
            let second = if time % 2 == 0 { (first + 1 + numbers.below(12)) % size } else { numbers.below(size) };
            for at in [first, second] {
                bytes[at as usize] ^= 1 + numbers.below(255) as u8;
            }
            self.file("two bytes changed", journal, &bytes);
        }
    }

    /// Bytes that are missing or stand twice, one and several.
    fn shifted(&mut self, journal: &Sound) {
        let mut numbers = Numbers(7);
        for at in 0..journal.bytes.len() {
            let (most, several) = (journal.bytes.len() - at, 2 + numbers.below(20) as usize);
            for size in [1, several.min(most)] {
                let (before, behind) = journal.bytes.split_at(at);
                self.file("bytes dropped", journal, &[before, &behind[size..]].concat());
                self.file("bytes repeated", journal, &[before, &behind[..size], behind].concat());
            }
        }
    }

    /// Whole appends that are missing, stand twice, have changed places or come from another journal.
    fn appends(&mut self, journal: &Sound, other: &Sound) {
        let each = |one: &Sound| {
            let ends = one.says.appends.iter().skip(1).map(|append| append.at).chain([one.bytes.len()]);
            one.says.appends.iter().zip(ends).map(|(append, end)| one.bytes[append.at..end].to_vec()).collect::<Vec<_>>()
        };
        let (own, others) = (each(journal), each(other));
        let mut with = |sort: &'static str, all: Vec<Vec<u8>>| self.file(sort, journal, &[&journal.bytes[..HEAD], &all.concat()].concat());
        for at in 0..own.len() {
            let (before, behind) = (own[..at].to_vec(), own[at + 1..].to_vec());
            if at + 1 < own.len() {
                with("an append missing", [before.clone(), behind.clone()].concat());
            }
            with("an append twice", [before.clone(), vec![own[at].clone(); 2], behind.clone()].concat());
            for theirs in &others {
                with("an append of another journal", [before.clone(), vec![theirs.clone()], behind.clone()].concat());
            }
            for to in at + 1..own.len() {
                let mut all = own.clone();
                all.swap(at, to);
                with("two appends swapped", all);
            }
        }
    }

    /// What a checksum alone would let through: another format, a station that is not fit, an unknown kind, and bytes behind the end.
    fn others(&mut self, journal: &Sound) {
        let mut other = journal.bytes[..HEAD - 4].to_vec();
        other[20] = 3;
        other.extend(over(0, &other).to_le_bytes());
        self.file("another format", journal, &other);
        let begun = |station: &Station| Written::begun(GARAGE.as_bytes(), station);
        let (start, unfit) = (Station::start(), Station { record: 1, ..Station::start() });
        self.file("a station that is not fit", journal, &begun(&unfit).bytes);
        let from_first = |kind: u8, carried: &[u8]| begun(&journal.says.first).with(kind, carried).bytes;
        let strange: [(u8, &[u8]); 8] = [
            (0, &[]),
            (5, &[]),
            (9, &ASK),
            (MESSAGES, &[]),
            (MESSAGES, &ASK[..3]),
            (MESSAGES, &[0; 8]),
            (CLOSED, &ASK),
            (BAD_LENGTH, &[7; 45]),
        ];
        for (kind, carried) in strange {
            self.file("an append of no known form", journal, &from_first(kind, carried));
        }
        self.file("behind a closed journal", journal, &begun(&start).with(CLOSED, &[]).with(MESSAGES, &ASK).bytes);
        self.file("zeros behind more than an append", journal, &[&journal.bytes[..], &[0; 65_550]].concat());
    }

    /// Blocks of a disk that are zeros, or have changed places.
    fn blocks(&mut self, journal: &Sound, size: usize) {
        let mut numbers = Numbers(size as u64);
        let starts: Vec<usize> = (0..journal.bytes.len()).step_by(size).collect();
        for &at in &starts {
            let mut bytes = journal.bytes.clone();
            let end = bytes.len().min(at + size);
            bytes[at..end].fill(0);
            self.file("a block of zeros", journal, &bytes);
            let to = starts[numbers.below(starts.len() as u64 - 1) as usize];
            if to == at || end < at + size {
                continue;
            }
            let mut bytes = journal.bytes.clone();
            for byte in 0..size {
                bytes.swap(at + byte, to + byte);
            }
            self.file("two blocks swapped", journal, &bytes);
        }
    }
}

fn main() {
    let words: Vec<String> = std::env::args().collect();
    let [_, program, directory] = &words[..] else { panic!("usage: journal_damage PROGRAM DIRECTORY") };
    assert_eq!(over(0, b"123456789"), 0xE306_9283, "the checksum's own example");
    let mut tried = Tried { program, path: format!("{directory}/damage.journal"), came: BTreeMap::new() };
    let (plain, later) = (sound(small(1, Station::start())), sound(small(2, busy())));
    let edge = sound(at_a_sector());
    assert!(edge.bytes.len() % 512 == 1, "a journal that ends with a sector's first byte, {}", edge.bytes.len());
    let mut long = Written::begun(GARAGE.as_bytes(), &Station::start());
    let long = {
        let (mut numbers, mut now) = (Numbers(4), Station::start());
        for size in 0..90 {
            long.add(MESSAGES, &more(&mut numbers, &mut now, 1 + size % 40));
        }
        sound(long)
    };
    tried.others(&plain);
    tried.appends(&plain, &later);
    for (journal, first) in [(&plain, 0), (&later, 0), (&edge, edge.says.appends.last().map_or(0, |last| last.at))] {
        tried.bytes(journal, first);
    }
    for journal in [&plain, &later] {
        tried.pairs(journal, 800);
    }
    tried.shifted(&plain);
    for size in [512, 4096] {
        tried.blocks(&long, size);
    }
    // what a power cut leaves too, and can't be told from it: zeros from an append on; and an older copy, in which nothing tells that it is old
    for append in &plain.says.appends {
        tried.file("zeros from an append on", &plain, &[&plain.bytes[..append.at], &vec![0; plain.bytes.len() - append.at]].concat());
    }
    for append in &plain.says.appends {
        tried.file("an older copy", &plain, &plain.bytes[..append.at]);
    }
    for (sort, Came { files, rejected, damaged, all, part }) in &tried.came {
        println!("  {sort}: {files} files, {rejected} no journal, {damaged} damaged, {all} started with all, {part} with a first part");
    }
    let changed = &tried.came["a byte changed"];
    // the one: an end mark that is alone in its sector, and is 0 as a cut would leave it
    assert!(changed.part == 1 && changed.all == 0, "a changed byte has let {} journals start", changed.part + changed.all);
    let sorts = [
        "an append missing",
        "an append twice",
        "an append of another journal",
        "two appends swapped",
        "another format",
        "an append of no known form",
    ];
    for sort in sorts {
        assert!(tried.came[sort].part + tried.came[sort].all == 0, "{sort}: it has started");
    }
    println!("journal_damage: {} files, and never a garage that was not there", tried.came.values().map(|came| came.files).sum::<usize>());
}
