//! Three engines on the same bytes: `plain MESSAGES CALLS RECORDS`. The plain station's entries and the panel's are held against the packed
//! station's and against the reference. A station's life by so many messages, the same that the program is sent: each request, event and
//! result is called by all three on the bytes that the station is, and what is returned and left must be the same. So many calls and
//! questions on stations that are handed in or damaged and on records that need not be sound. So many sound records, each as likely as
//! another, with every instruction: each condition, the next record, and the cars by their places. Every number that each entry can give must
//! come, and no other; every reason of each opcode; each condition as one that holds and as one that fails; each sort of handed-in station
//! that handed.rs tells apart; and all that drives.rs, jams.rs, lifts.rs and filling.rs list. Each wrong reference must be found out by a call.

mod engines;

use reference::panel_command::{self, CARS, CARS_SIZE, CONDITION, CONDITION_SIZE, ENTRIES, EVENT, NEXT, RECORD, REQUEST, RESULT};
use reference::{cars, read_call, Call, Instruction, Station};
use shared::handed::{self, handed, Handed};
use shared::panel_calls::{any_call, given_by, reason};
use shared::pipes::messages_in;
use shared::sound_records::{every_five, SoundRecords};
use shared::traffic::{self, every_reason, framed_message, Numbers};
use shared::trials::{on_copies, Given, Left};
use shared::{drives, filling, jams, lifts};
use std::collections::{BTreeMap, BTreeSet};
use std::process::exit;
use wrong::fault::{all_of, Fault};

/// A call by the reference.
fn reference_call(given: &Given) -> Left {
    on_copies(given, |room, output| panel_command::call(&mut given.on(room, &given.input, output)))
}

/// A call by a reference with a fault.
fn wrong_call(fault: &Fault, given: &Given) -> Left {
    let &Given { entry, first, second, issue, image, apart, card, ref input, .. } = given;
    on_copies(given, |room, output| {
        fault.with(|| {
            wrong::panel_command::call(&mut wrong::command::Given { entry, first, second, issue, image, apart, card, room, input, output })
        })
    })
}

/// Bytes that are no station.
const UNFIT: u8 = 16;

/// What came so far.
struct Run {
    calls: [usize; ENTRIES.len()],
    seen: Vec<BTreeSet<u8>>,
    reasons: Vec<BTreeSet<(u8, u8)>>,
    /// A condition by its opcode, the orientation that a tilt begins with, its place, and whether it holds.
    conditions: BTreeSet<(u8, u8, u8, bool)>,
    sorts: Vec<BTreeMap<Handed, usize>>,
    filled: BTreeSet<filling::Met>,
    drives: BTreeSet<drives::Met>,
    /// Those that no call has found out yet.
    unfound: Vec<&'static Fault>,
}

impl Run {
    fn new() -> Self {
        let each = ENTRIES.len();
        Run {
            calls: [0; ENTRIES.len()],
            seen: vec![BTreeSet::new(); each],
            reasons: vec![BTreeSet::new(); each],
            conditions: BTreeSet::new(),
            sorts: vec![BTreeMap::new(); each],
            filled: BTreeSet::new(),
            drives: BTreeSet::new(),
            unfound: all_of("plain").collect(),
        }
    }

    /// One call by all three; gives what it returned and left.
    fn compared(&mut self, given: &Given) -> Left {
        let (plain, theirs) = (engines::plain(given), reference_call(given));
        let packed = engines::packed(given, plain.0);
        if plain != theirs || packed.as_ref().is_some_and(|packed| *packed != plain) {
            let Given { entry, first, second, issue, image, room, input, .. } = given;
            eprintln!("plain: {}: {first} {second} {issue} {image:#x} {input:02X?} on {room:02X?}", ENTRIES[usize::from(*entry)].0);
            eprintln!("plain     {plain:02X?}\npacked    {packed:02X?}\nreference {theirs:02X?}");
            exit(1);
        }
        self.unfound.retain(|fault| wrong_call(fault, given) == plain);
        self.tell(given, plain.0);
        plain
    }

    /// What a call met.
    fn tell(&mut self, given: &Given, answer: u32) {
        let (number, entry) = (answer as u8, usize::from(given.entry));
        self.calls[entry] += 1;
        self.seen[entry].insert(number);
        self.reasons[entry].extend(reason(given.entry, &given.input, answer));
        if given.entry > RESULT {
            return;
        }
        let Some(station) = given.room.first_chunk().map(Station::from_bytes) else { return };
        if let Some(sort) = handed(&station).filter(|sort| sort.shown_by(number)) {
            *self.sorts[entry].entry(sort).or_insert(0) += 1;
        }
        if given.entry == EVENT && number != UNFIT {
            self.filled.extend(filling::met(&station, Call::Event(given.first), number));
        }
    }

    /// One instruction on a sound record: each condition and one past them, of which the first that fails must be what the next record is
    /// refused for; and that record.
    fn instruction(&mut self, image: u64, five: [u8; 5], more: usize) {
        let asked =
            |entry, first, size| Given { entry, first, image, input: five.to_vec(), output: vec![0xA5; size + more], ..Given::default() };
        let mut told = None;
        for at in 0.. {
            let (_, _, bytes) = self.compared(&asked(CONDITION, at, CONDITION_SIZE));
            let [there, holds, why, ..] = bytes[..] else { panic!("{bytes:?} are too few") };
            if there == 0 {
                break;
            }
            if holds == 0 {
                told = told.or(Some(why));
            }
            self.conditions.insert((five[0], if five[0] == 3 { five[3] } else { 0 }, at, holds == 1));
        }
        let (answer, _, _) = self.compared(&asked(NEXT, 0, RECORD));
        let one = Instruction::read(five).expect("an instruction");
        assert_eq!(one.judge(image).err(), told, "{one:?} on {image:#018x}");
        assert!(answer as u8 == told.unwrap_or(0) || answer as u8 == 31 && one.asked(image) == Err(31), "{one:?} on {image:#018x}");
    }

    /// Every instruction on a record, and its cars.
    fn record(&mut self, image: u64, fives: &[[u8; 5]], more: usize) {
        for &five in fives {
            self.instruction(image, five, more);
        }
        let (answer, _, _) = self.compared(&Given { entry: CARS, image, output: vec![0xA5; CARS_SIZE + more], ..Given::default() });
        assert_eq!(Some(answer >> 16), cars(image), "the cars of {image:#018x}");
    }

    /// Whether all came that can, and nothing else; if not, says what is amiss.
    fn complete(&self) -> bool {
        let mut right = true;
        let mut held = |is: bool, what: String| {
            if !is {
                right = false;
                eprintln!("plain: {what}")
            }
        };
        for ((entry, numbers), seen) in ENTRIES.iter().zip(&self.seen) {
            held(seen.iter().eq(*numbers), format!("{entry} gave {seen:?}, expected {numbers:?}"));
        }
        for entry in [REQUEST, NEXT].map(usize::from) {
            held(every_reason(ENTRIES[entry].0, &self.reasons[entry]), "some reasons are amiss".to_string());
        }
        for ((entry, _), sorts) in ENTRIES.iter().zip(&self.sorts).filter(|((_, numbers), _)| numbers.contains(&UNFIT)) {
            held(sorts.keys().eq(&handed::ALL), format!("{entry} was not called on every sort of handed-in station, but on {sorts:?}"));
        }
        held(filling::every_event("plain", &self.filled), "some ways to meet places that are kept open are amiss".to_string());
        let of = |&(op, from, many): &(u8, u8, u8)| (0..many).flat_map(move |at| [false, true].map(|holds| (op, from, at, holds)));
        let wanted: BTreeSet<_> = CONDITIONS.iter().flat_map(of).collect();
        held(self.conditions == wanted, format!("conditions: {:?}", self.conditions.symmetric_difference(&wanted).collect::<Vec<_>>()));
        let unfound: Vec<_> = self.unfound.iter().map(|fault| fault.name).collect();
        held(unfound.is_empty(), format!("wrong references that were not found out: {unfound:?}"));
        right
    }
}

/// How many conditions each opcode has, of a tilt by the orientation that it begins with.
const CONDITIONS: [(u8, u8, u8); 6] = [(1, 0, 6), (2, 0, 5), (3, 0, 2), (3, 1, 2), (4, 0, 2), (5, 0, 2)];

/// A station's life by a whole input: each of its calls that the plain station has too is made on the bytes that the station is.
fn life(run: &mut Run, input: &[u8]) {
    let mut station = Station::start();
    for call in messages_in(input).filter_map(|message| Some(read_call(message).ok()?.0)) {
        let before = station;
        let left = given_by(call, before.to_bytes().to_vec()).map(|given| run.compared(&given).1);
        let number = station.take(call).number;
        assert!(left.is_none_or(|left| left == station.to_bytes()), "the station that the reference keeps is another");
        run.drives.extend(drives::met(&before, call, number));
    }
}

/// Calls and questions beside a station's messages.
fn beside(run: &mut Run, calls: usize) {
    let (mut numbers, mut station) = (Numbers(24), Station::start());
    for _ in 0..calls {
        let message = framed_message(&mut numbers, &station);
        traffic::after(&mut station, &message);
        if let Some(given) = any_call(&mut numbers, &station) {
            run.compared(&given);
        }
    }
}

pub fn main(words: &[String]) {
    let [_, messages, calls, records] = words else { panic!("usage: plain MESSAGES CALLS RECORDS") };
    let number = |word: &String| word.parse::<usize>().expect("a number");
    let (mut run, input) = (Run::new(), traffic::input(0, number(messages)));
    // the wrong references are found out by the first two, and then no longer asked
    let (fives, sound_records, mut numbers) = (every_five(), SoundRecords::new(), Numbers(240));
    for at in 0..number(records) {
        run.record(sound_records.any(&mut numbers), &fives, at % 3);
    }
    beside(&mut run, number(calls));
    life(&mut run, &input);
    let (jams, lifts) = (jams::met_in(&input).0, lifts::met_in(&input).0);
    let met = drives::every_drive("plain", &run.drives) && jams::every_jam("plain", &jams) && lifts::every_lift("plain", &lifts);
    if !run.complete() || !met {
        exit(1);
    }
    let calls: Vec<_> = ENTRIES.iter().map(|entry| entry.0).zip(run.calls).collect();
    println!(
        "plain: {} calls by the plain engine, the packed one and the reference, no difference: {calls:?}",
        run.calls.iter().sum::<usize>()
    );
    println!("plain: every number of each entry, {} pairs of opcode and reason, {} conditions that held and failed, {} sorts of handed-in stations",
        run.reasons[usize::from(NEXT)].len(), run.conditions.len() / 2, handed::ALL.len());
    println!(
        "plain: {} ways to meet a drive, {} a jam, {} a lift run beside others, {} places that are kept open, all that there are",
        run.drives.len(),
        jams.len(),
        lifts.len(),
        run.filled.len()
    );
    println!("plain: {} wrong references found out", all_of("plain").count());
}
