//! What a lift run meets of row 1 beside it, so that a long run can say that it met all there is: belts, shuttles and tilts on either side, in
//! one set with it by both results, or refused with it since a car stands half on the lift; and each of the two while the other is stuck.
//! And the reference's own look at such sets: whichever of their instructions are done, in whatever order, each is allowed at its turn.
use crate::jams::every_choice;
use crate::pipes::messages_in;
use reference::{read_call, Call, Instruction, Station, DONE, FAILED, STUCK};
use std::collections::BTreeSet;

/// What stands in row 1 beside the lift: belts, shuttles or a tilt, and on the right or not.
#[derive(Clone, Copy, Debug, PartialEq, Eq, PartialOrd, Ord)]
pub enum What {
    Belts,
    Shuttles,
    Tilt,
}
use What::{Belts, Shuttles, Tilt};
type Beside = (What, bool);

/// A call's share of lift runs beside others.
#[derive(Clone, Copy, Debug, PartialEq, Eq, PartialOrd, Ord)]
pub enum Met {
    /// Both results in one set, and which came first. The lift run leaves the basement with a car, so that it reads the counts, or doesn't;
    /// belts and shuttles move a car in row 1.
    Together { beside: Beside, counted: bool, lift_first: bool, lift: u8, other: u8 },
    /// A lift run that is refused for an odd count, on the left, on the right or both, in a set with one that is allowed.
    Odd { beside: Beside, left: bool, right: bool, lift_first: bool },
    /// A lift run that is taken while something beside it is stuck.
    PastJam { beside: Beside, counted: bool },
    /// Something that is taken beside a lift run that is stuck.
    PastLift { beside: Beside },
}

// Cells of row 1 in a record: all, the lift's, and those on its sides.
const ROW_1: u64 = 0xF_FFFF;
const LIFT_CELLS: u64 = 0b11 << 11;
const LEFT: u64 = (1 << 11) - 1;
const RIGHT: u64 = ROW_1 & !LEFT & !LIFT_CELLS;
const ODD_COUNT: u8 = 24;

fn odd(record: u64, cells: u64) -> bool {
    (record & cells).count_ones() % 2 == 1
}

fn lift_run(one: &Instruction) -> bool {
    matches!(one, Instruction::Lift { .. })
}

/// Whether a lift run from this record reads the counts: out of the basement with its cells not free.
fn counted(record: u64) -> bool {
    record >> 53 & 3 == 2 && record & LIFT_CELLS != 0
}

/// Where an instruction stands beside a lift run in row 1.
fn beside(one: &Instruction) -> Option<Beside> {
    let cells = one.area().number() & ROW_1;
    let what = match one {
        _ if cells == 0 || one.takes_lift() => return None,
        Instruction::Belts { .. } => Belts,
        Instruction::Shuttles { .. } => Shuttles,
        _ => Tilt,
    };
    Some((what, cells & RIGHT != 0))
}

/// The same of one that moves a car there; a tilt moves none.
fn moving(one: &Instruction, record: u64) -> Option<Beside> {
    beside(one).filter(|(what, _)| *what == Tilt || (one.next(record) ^ record) & ROW_1 != 0)
}

/// A station that is watched: the outstanding set, the record that it was taken on and how its instructions ended; what got stuck since the
/// last image, each with the record that its set was taken on.
struct Watched {
    station: Station,
    set: Vec<Instruction>,
    record: u64,
    endings: Vec<(usize, u8)>,
    stuck: Vec<(Instruction, u64)>,
}

impl Watched {
    /// Takes a call; tells what it met, and how many choices were looked at.
    fn take(&mut self, call: Call) -> (Vec<Met>, usize) {
        let before = self.station;
        let told = self.station.take(call);
        match call {
            Call::Request { .. } if told.number == 0 => {
                (self.set, self.record, self.endings) = (self.station.held().collect(), before.record, Vec::new());
                self.taken()
            }
            Call::Request { bytes, .. } if told.number == ODD_COUNT => (refused(before.record, bytes, told.place.into()), 0),
            Call::Result { number, outcome, .. } if told.number == 0 => (self.ended(number.into(), outcome), 0),
            Call::Image { .. } if told.number == 0 => {
                self.stuck.clear();
                (Vec::new(), 0)
            }
            _ => (Vec::new(), 0),
        }
    }

    fn taken(&self) -> (Vec<Met>, usize) {
        let mut met = Vec::new();
        let moved = || self.set.iter().filter_map(|one| moving(one, self.record));
        let lift = self.set.iter().any(lift_run);
        if lift {
            let stuck = self.stuck.iter().filter_map(|(one, record)| moving(one, *record));
            met.extend(stuck.map(|beside| Met::PastJam { beside, counted: counted(self.record) }));
        }
        if self.stuck.iter().any(|(one, _)| lift_run(one)) {
            met.extend(moved().map(|beside| Met::PastLift { beside }));
        }
        let together = lift && moved().next().is_some();
        (met, if together { every_choice(self.record, &self.set, &[]) } else { 0 })
    }

    fn ended(&mut self, number: usize, ending: u8) -> Vec<Met> {
        let (one, record) = (self.set[number], self.record);
        let earlier = self.endings.iter().map(|&(at, ending)| (self.set[at], ending));
        let met = earlier.filter_map(|(first, first_ended)| {
            let lift_first = lift_run(&first);
            let (lift, other, at_side) = if lift_first { (first_ended, ending, one) } else { (ending, first_ended, first) };
            let beside = moving(&at_side, record).filter(|_| lift_first || lift_run(&one))?;
            Some(Met::Together { beside, counted: counted(record), lift_first, lift, other })
        });
        let met = met.collect();
        self.endings.push((number, ending));
        if ending == STUCK {
            self.stuck.push((one, record));
        }
        met
    }
}

/// What a set met whose instruction at a place was refused for an odd count.
fn refused(record: u64, bytes: &[u8], place: usize) -> Vec<Met> {
    let set: Vec<Instruction> = bytes.chunks_exact(5).filter_map(|five| Instruction::read(*five.first_chunk()?)).collect();
    if !lift_run(&set[place]) {
        return Vec::new();
    }
    let allowed = set.iter().enumerate().filter(|(_, one)| one.allowed(record));
    let (left, right) = (odd(record, LEFT), odd(record, RIGHT));
    allowed.filter_map(|(at, one)| Some(Met::Odd { beside: beside(one)?, left, right, lift_first: place < at })).collect()
}

/// What whole messages meet, from the start on; and how many choices were looked at of which instructions of such a set are done.
pub fn met_in(input: &[u8]) -> (BTreeSet<Met>, usize) {
    let mut watched = Watched { station: Station::start(), set: Vec::new(), record: 0, endings: Vec::new(), stuck: Vec::new() };
    let (mut met, mut choices) = (BTreeSet::new(), 0);
    for call in messages_in(input).filter_map(|message| Some(read_call(message).ok()?.0)) {
        let (more, looked_at) = watched.take(call);
        met.extend(more);
        choices += looked_at;
    }
    (met, choices)
}

/// All that there is to meet, by the rules.
fn all() -> BTreeSet<Met> {
    let mut all = BTreeSet::new();
    let (either, endings) = ([false, true], [FAILED, DONE, STUCK]);
    for beside in [Belts, Shuttles, Tilt].into_iter().flat_map(|what| either.map(|right| (what, right))) {
        for (counted, lift_first) in either.into_iter().flat_map(|counted| either.map(|lift_first| (counted, lift_first))) {
            let results = endings.into_iter().flat_map(|lift| endings.map(|other| (lift, other)));
            all.extend(results.map(|(lift, other)| Met::Together { beside, counted, lift_first, lift, other }));
        }
        for (left, right) in [(false, true), (true, false), (true, true)] {
            all.extend(either.map(|lift_first| Met::Odd { beside, left, right, lift_first }));
        }
        all.extend(either.map(|counted| Met::PastJam { beside, counted }));
        all.insert(Met::PastLift { beside });
    }
    all
}

/// Whether all was met that there is, and nothing else; if not, says what is amiss.
pub fn every_lift(who: &str, met: &BTreeSet<Met>) -> bool {
    let amiss: Vec<_> = met.symmetric_difference(&all()).copied().collect();
    if !amiss.is_empty() {
        eprintln!("{who}: what was never met of lift runs beside others, or can't be: {amiss:?}");
    }
    amiss.is_empty()
}
