//! What calls meet of jams, so that a long run can say that it met all there is; and the reference's own look at what a jam leaves open.
//! Of the instructions that got stuck since the last image any may have finished in fact: for every choice of them, the record on which
//! these are done must have a layout with the same number of cars, whatever order they are done in, each allowed at its turn, and must
//! allow what still waits for its result.
use crate::pipes::messages_in;
use reference::{cars, read_call, sound, Call, Instruction, Parts, Station, BEGIN_IN, BEGIN_OUT, DONE, FAILED, REASON_NUMBERS, STUCK};
use std::collections::BTreeSet;

/// A call's share of jams, and its answer; a reason why an instruction isn't allowed stands as the first of them.
#[derive(Clone, Copy, Debug, PartialEq, Eq, PartialOrd, Ord)]
pub enum Met {
    /// A result that is taken as stuck, by the opcode; whether its set closed with it.
    Stuck { opcode: u8, closes: bool },
    /// Another result of one that is stuck.
    Again { ending: u8, number: u8 },
    /// A request that touches what is set apart: with its first instruction or a later one, and what it would be told otherwise.
    Refused { later: bool, without: u8 },
    /// A set taken while something is set apart, the first since the last jam, the second, or a later one.
    Taken { since: u8 },
    /// How an instruction of such a set ended.
    Ended { ending: u8 },
    /// An event while something is set apart, the lift or not.
    Event { event: u8, lift: bool, number: u8 },
    /// An image, a sound one where it sets something apart, and whether something was set apart before it.
    Image { before: bool, sets: bool, number: u8 },
}

/// A station that is watched: what got stuck since the last image, which of the outstanding set did, how many sets were taken since.
struct Watched {
    station: Station,
    stuck: Vec<Instruction>,
    of_the_set: u8,
    sets: u8,
}

impl Watched {
    /// Takes a call; tells what it met.
    fn take(&mut self, call: Call) -> Option<Met> {
        let before = self.station;
        let number = self.station.take(call).number;
        let jam = !self.stuck.is_empty();
        if number == 0 && before.count == 0 {
            self.of_the_set = 0;
        }
        match call {
            Call::Request { .. } if number == 0 && jam => {
                self.sets = self.sets.saturating_add(1);
                Some(Met::Taken { since: self.sets.min(3) })
            }
            Call::Request { count, bytes } if number == 32 => {
                let told = Station { apart: Ok(Parts::NONE), ..before }.request(count, bytes).number;
                let first = Instruction::read(*bytes.first_chunk()?)?;
                let without = if REASON_NUMBERS.contains(&told) { *REASON_NUMBERS.start() } else { told };
                Some(Met::Refused { later: !before.is_apart(&first.area()), without })
            }
            Call::Result { number: at, outcome: STUCK, .. } if number == 0 => {
                let one = before.held().nth(at.into())?;
                self.stuck.push(one);
                (self.of_the_set, self.sets) = (self.of_the_set | 1 << at, 0);
                Some(Met::Stuck { opcode: before.set[5 * usize::from(at)], closes: self.station.count == 0 })
            }
            Call::Result { number: at, outcome: ending, .. } if number == 13 && self.of_the_set >> at & 1 == 1 => {
                Some(Met::Again { ending, number })
            }
            Call::Result { outcome: ending, .. } if number == 0 && self.sets > 0 => Some(Met::Ended { ending }),
            Call::Event(event) if jam => Some(Met::Event { event, lift: before.is_apart(&Parts::LIFT), number }),
            Call::Image { image, apart } if apart == 0 || sound(image) => {
                if number == 0 {
                    (self.stuck, self.sets) = (Vec::new(), 0);
                }
                Some(Met::Image { before: jam, sets: apart != 0, number })
            }
            _ => None,
        }
    }
}

/// Looks at every choice of which of some instructions finish on a record: one after the other, forward and backward, each must be allowed at
/// its turn, the same cars be there after them, and what waits be allowed. Gives how many choices there are.
pub fn every_choice(record: u64, ones: &[Instruction], waiting: &[Instruction]) -> usize {
    let whole = cars(record);
    let done = |record: u64, one: &Instruction| {
        assert!(one.allowed(record), "{one:?} on {record:#018x} after others of {ones:?}");
        one.next(record)
    };
    for choice in 0..1usize << ones.len() {
        let chosen: Vec<&Instruction> = ones.iter().enumerate().filter(|(at, _)| choice >> at & 1 == 1).map(|(_, one)| one).collect();
        let after = chosen.iter().fold(record, |record, one| done(record, one));
        let backward = chosen.iter().rev().fold(record, |record, one| done(record, one));
        let lost = whole.is_none() || cars(after) != whole || backward != after || !waiting.iter().all(|one| one.allowed(after));
        assert!(!lost, "{chosen:?} finished on {record:#018x}: {after:#018x}, backward {backward:#018x}, beside {waiting:?}");
    }
    1 << ones.len()
}

/// What whole messages meet, from the start on; and how many choices were looked at, of how many at once.
pub fn met_in(input: &[u8]) -> (BTreeSet<Met>, usize, usize) {
    let mut watched = Watched { station: Station::start(), stuck: Vec::new(), of_the_set: 0, sets: 0 };
    let (mut met, mut choices, mut most) = (BTreeSet::new(), 0, 0);
    for call in messages_in(input).filter_map(|message| Some(read_call(message).ok()?.0)) {
        let before = watched.station;
        met.extend(watched.take(call));
        if watched.station != before && !watched.stuck.is_empty() {
            let waiting: Vec<Instruction> = watched.station.waiting().collect();
            choices += every_choice(watched.station.record, &watched.stuck, &waiting);
            most = most.max(watched.stuck.len());
        }
    }
    (met, choices, most)
}

/// All that there is to meet, by the rules.
fn all() -> BTreeSet<Met> {
    let mut all = BTreeSet::new();
    let endings = [FAILED, DONE, STUCK];
    all.extend((1..=5).flat_map(|opcode| [false, true].map(|closes| Met::Stuck { opcode, closes })));
    all.extend(endings.map(|ending| Met::Again { ending, number: 13 }));
    all.extend([false, true].into_iter().flat_map(|later| [0, 8, *REASON_NUMBERS.start()].map(|without| Met::Refused { later, without })));
    all.extend([1, 2, 3].map(|since| Met::Taken { since }));
    all.extend([FAILED, DONE].map(|ending| Met::Ended { ending }));
    for event in 1..=4 {
        let begins = event <= BEGIN_OUT;
        // no drive is under way while the lift is set apart; the set in which it got stuck may still be outstanding
        let stuck: &[u8] = if begins { &[6, 32] } else { &[6, 31] };
        let beside: &[u8] = match event {
            BEGIN_IN => &[0, 6, 10, 31, 33],
            BEGIN_OUT => &[0, 6, 10, 31],
            _ => &[0, 6, 31],
        };
        all.extend(stuck.iter().map(|&number| Met::Event { event, lift: true, number }));
        all.extend(beside.iter().map(|&number| Met::Event { event, lift: false, number }));
    }
    for before in [false, true] {
        all.extend([0, 6, 15].map(|number| Met::Image { before, sets: false, number }));
        all.extend([6, 15].map(|number| Met::Image { before, sets: true, number }));
    }
    all
}

/// Whether all was met that there is, and nothing else; if not, says what is amiss.
pub fn every_jam(who: &str, met: &BTreeSet<Met>) -> bool {
    let amiss: Vec<_> = met.symmetric_difference(&all()).copied().collect();
    if !amiss.is_empty() {
        eprintln!("{who}: what was never met of jams, or can't be: {amiss:?}");
    }
    amiss.is_empty()
}
