//! What calls meet of drives, so that a long run can say that it met all there is: events at every moment, sets of every kind while a
//! drive is under way, images in its middle and with it, results beside it.
use reference::{drive_under_way, sound, Call, Instruction, Station, BEGIN_IN, BEGIN_OUT, DONE, END_DONE, FAILED, REASON_NUMBERS, STUCK};
use std::collections::BTreeSet;

/// Which drive is under way by an image; both is what no sound one says.
#[derive(Clone, Copy, Debug, PartialEq, Eq, PartialOrd, Ord)]
pub enum Drive {
    No,
    In,
    Out,
    Both,
}
use Drive::{Both, In, No, Out};

/// The set that is outstanding: none, one that leaves the lift alone, one with the lift in an area.
#[derive(Clone, Copy, Debug, PartialEq, Eq, PartialOrd, Ord)]
pub enum Outstanding {
    Nothing,
    Others,
    WithLift,
}
use Outstanding::{Nothing, Others, WithLift};

/// Where a requested set first has the lift in an area.
#[derive(Clone, Copy, Debug, PartialEq, Eq, PartialOrd, Ord)]
pub enum Lift {
    Nowhere,
    First,
    Later,
}

/// A call's share of drives, and its answer; a reason why an instruction isn't allowed stands as the first of them.
#[derive(Clone, Copy, Debug, PartialEq, Eq, PartialOrd, Ord)]
pub enum Met {
    Event {
        event: u8,
        drive: Drive,
        outstanding: Outstanding,
        number: u8,
    },
    /// A well-formed request during a drive, and what it would be told without one.
    Request {
        drive: Drive,
        lift: Lift,
        without: u8,
        number: u8,
    },
    /// A result taken during a drive, by the opcode.
    Result {
        drive: Drive,
        opcode: u8,
        outcome: u8,
    },
    /// An image that is taken, or refused for its drive alone: which drive it says, at which height, and with a car on the lift or not.
    Image {
        drive: Drive,
        says: Drive,
        height: u8,
        car: bool,
        number: u8,
    },
}

/// Bits 55 and 56 of an image.
const DRIVES: u64 = 3 << 55;

fn drive_of(image: u64) -> Drive {
    [No, In, Out, Both][(image >> 55 & 3) as usize]
}

fn instructions(bytes: &[u8]) -> impl Iterator<Item = Instruction> + '_ {
    bytes.chunks_exact(5).filter_map(|five| Instruction::read(*five.first_chunk()?))
}

fn outstanding(station: &Station) -> Outstanding {
    match station.count {
        0 => Nothing,
        count if instructions(&station.set).take(count.into()).any(|one| one.takes_lift()) => WithLift,
        _ => Others,
    }
}

/// What a call met on a station that answered it with a number.
pub fn met(station: &Station, call: Call, number: u8) -> Option<Met> {
    let drive = drive_of(station.record);
    match call {
        Call::Event(event) => Some(Met::Event { event, drive, outstanding: outstanding(station), number }),
        Call::Request { count, bytes } if drive != No && matches!(number, 0 | 8 | 20..=28 | 31 | 32) => {
            let reason = |number| if REASON_NUMBERS.contains(&number) { *REASON_NUMBERS.start() } else { number };
            let mut nobody = Station { record: station.record & !DRIVES, ..*station };
            let without = reason(nobody.request(count, bytes).number);
            let lift = match instructions(bytes).position(|one| one.takes_lift()) {
                None => Lift::Nowhere,
                Some(0) => Lift::First,
                Some(_) => Lift::Later,
            };
            Some(Met::Request { drive, lift, without, number: reason(number) })
        }
        Call::Result { number: at, outcome, .. } if drive != No && number == 0 => {
            Some(Met::Result { drive, opcode: station.set[5 * usize::from(at)], outcome })
        }
        Call::Image { image, apart: 0 } if number == 0 || number == 15 && drive_under_way(image) && sound(image & !DRIVES) => {
            let (says, height, car) = (drive_of(image), (image >> 53 & 3) as u8, image >> 52 & 1 == 1);
            Some(Met::Image { drive, says, height, car, number })
        }
        _ => None,
    }
}

/// All that there is to meet, by the rules.
fn all() -> BTreeSet<Met> {
    let mut all = BTreeSet::new();
    for event in 1..=4 {
        let begins = event < END_DONE;
        all.insert(Met::Event { event, drive: No, outstanding: WithLift, number: 6 });
        for outstanding in [Nothing, Others] {
            let idle: &[u8] = match event {
                BEGIN_IN => &[0, 10, 32, 33],
                BEGIN_OUT => &[0, 10, 32],
                _ => &[31],
            };
            all.extend(idle.iter().map(|&number| Met::Event { event, drive: No, outstanding, number }));
            all.extend([In, Out].map(|drive| Met::Event { event, drive, outstanding, number: if begins { 31 } else { 0 } }));
        }
    }
    for drive in [In, Out] {
        for without in [0, 8, 32, *REASON_NUMBERS.start()] {
            all.insert(Met::Request { drive, lift: Lift::Nowhere, without, number: without });
            all.extend([Lift::First, Lift::Later].map(|lift| Met::Request { drive, lift, without, number: 31 }));
        }
        // belts, shuttles and a tilt; the lift and its turning can't be
        for opcode in 1..=3 {
            all.extend([FAILED, DONE, STUCK].map(|outcome| Met::Result { drive, opcode, outcome }));
        }
    }
    for drive in [No, In, Out] {
        for (height, car) in [(0, false), (0, true), (1, false), (1, true), (2, false)] {
            let sound_one = |says| match says {
                No => true,
                In => (height, car) == (0, false),
                Out => (height, car) == (0, true),
                Both => false,
            };
            let number = |says| if sound_one(says) { 0 } else { 15 };
            all.extend([No, In, Out, Both].map(|says| Met::Image { drive, says, height, car, number: number(says) }));
        }
    }
    all
}

/// Whether all was met that there is, and nothing else; if not, says what is amiss.
pub fn every_drive(who: &str, met: &BTreeSet<Met>) -> bool {
    let amiss: Vec<_> = met.symmetric_difference(&all()).copied().collect();
    if !amiss.is_empty() {
        eprintln!("{who}: what was never met of drives, or can't be: {amiss:?}");
    }
    amiss.is_empty()
}
