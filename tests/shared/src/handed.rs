//! Stations that are handed in, not reached by calls: what their sets have that decides whether they are fit, so that a run can say that
//! it was called on all there is. Each has one such thing, and all else about it is as it must be.

use crate::traffic::{allowed_set, good_five, Numbers};
use reference::{drive_under_way, sound, Instruction, Parts, Station};

/// What a handed-in station has.
#[derive(Clone, Copy, Debug, PartialEq, Eq, PartialOrd, Ord)]
pub enum Handed {
    /// Unfit: a drive under way beside a set with the lift in an area; whether that instruction still waits for its result.
    Drive { waits: bool },
    /// Unfit: two instructions overlap; how many of the two still wait, and whether they stand beside each other.
    Overlap { waiting: usize, beside: bool },
    /// Unfit: an instruction that waits is not allowed on the record.
    Barred,
    /// Fit: an instruction that was answered is not allowed any more.
    Past,
    /// Unfit: a bit above the lift's in what is set apart.
    Above,
    /// Fit: a part that is set apart lies in the area of an instruction that waits.
    Jammed,
    /// Fit: the lift is set apart while a drive is under way.
    Driver,
    /// Fit: a lift run waits, and beside it what has cells of row 1 in its area.
    Beside,
}
use Handed::{Above, Barred, Beside, Drive, Driver, Jammed, Overlap, Past};

pub const ALL: [Handed; 14] = [
    Drive { waits: false },
    Drive { waits: true },
    Overlap { waiting: 0, beside: false },
    Overlap { waiting: 0, beside: true },
    Overlap { waiting: 1, beside: false },
    Overlap { waiting: 1, beside: true },
    Overlap { waiting: 2, beside: false },
    Overlap { waiting: 2, beside: true },
    Barred,
    Past,
    Above,
    Jammed,
    Driver,
    Beside,
];

impl Handed {
    /// Whether a call's answer shows it: an unfit station's, or one that is given past the test of fitness alone.
    pub fn shown_by(self, number: u8) -> bool {
        match self {
            Past | Jammed | Driver | Beside => !matches!(number, 1..=5 | 7 | 16 | 17),
            _ => number == 16,
        }
    }
}

/// What a station has, if it is one of these.
pub fn handed(station: &Station) -> Option<Handed> {
    let Ok(apart) = station.apart else { return Station { apart: Ok(Parts::NONE), ..*station }.fit().then_some(Above) };
    if drive_under_way(station.record) && apart.lift {
        return station.fit().then_some(Driver);
    }
    let (held, count): (Vec<Instruction>, usize) = (station.held().collect(), station.count.into());
    let formed = sound(station.record)
        && (1..=8).contains(&count)
        && held.len() == count
        && usize::from(station.answered) + 1 < 1 << count
        && station.set[5 * count..].iter().all(|&byte| byte == 0);
    if !formed {
        return None;
    }
    let waits = |at: usize| station.answered >> at & 1 == 0;
    let barred = |waiting| (0..count).any(|at| waits(at) == waiting && !held[at].allowed(station.record));
    let pairs = (0..count).flat_map(|later| (0..later).map(move |earlier| (earlier, later)));
    let overlaps: Vec<_> = pairs.filter(|&(earlier, later)| held[earlier].area().meet(&held[later].area())).collect();
    let lift = held.iter().position(Instruction::takes_lift).filter(|_| drive_under_way(station.record));
    match (lift, &overlaps[..], barred(true)) {
        (Some(lift), [], false) => Some(Drive { waits: waits(lift) }),
        (None, &[(earlier, later)], false) => {
            let waiting = [earlier, later].into_iter().filter(|&at| waits(at)).count();
            Some(Overlap { waiting, beside: earlier + 1 == later })
        }
        (None, [], true) => Some(Barred),
        (None, [], false) if barred(false) => Some(Past),
        (None, [], false) if (0..count).any(|at| waits(at) && apart.meet(&held[at].area())) => Some(Jammed),
        (None, [], false) => {
            let (row_1, waiting) = (Parts::NONE.and_cells(0..20), held.iter().enumerate().filter(|(at, _)| waits(*at)));
            let (lifts, others): (Vec<&Instruction>, Vec<&Instruction>) =
                waiting.map(|(_, one)| one).partition(|one| matches!(one, Instruction::Lift { .. }));
            (!lifts.is_empty() && others.iter().any(|one| one.area().meet(&row_1))).then_some(Beside)
        }
        _ => None,
    }
}

/// A station that has one of these, which is picked beforehand, so that none is rare; found in some tries, from the record of another.
pub fn made(numbers: &mut Numbers, station: &Station) -> Option<Station> {
    let wanted = ALL[numbers.below(ALL.len() as u64) as usize];
    let mut record = station.record & !(3 << 55);
    if let Drive { .. } | Driver = wanted {
        record |= 1 << (55 + (record >> 52 & 1));
    }
    let alone = match wanted {
        Above => Some(Station { apart: Err(1 << (53 + numbers.below(11)) | numbers.next() >> 12), ..*station }),
        Driver => Some(Station { record, apart: Ok(Parts::LIFT), next_issue: station.next_issue, ..Station::start() }),
        _ => None,
    };
    if alone.is_some() {
        return alone.filter(|alone| handed(alone) == Some(wanted));
    }
    let wanted_others = 1 + numbers.below(4) as usize;
    let others = allowed_set(numbers, record, Parts::NONE, wanted_others);
    (0..100).find_map(|_| {
        let (mut set, at) = (others.clone(), 5 * numbers.below(others.len() as u64 / 5 + 1) as usize);
        set.splice(at..at, good_five(numbers));
        let count = (set.len() / 5) as u8;
        let mut made = Station { record, count, answered: numbers.byte() & 0xFF >> (8 - count), set: [0; 40], ..*station };
        made.set[..set.len()].copy_from_slice(&set);
        made.apart = Ok(if wanted == Jammed { made.held().nth(at / 5).map_or(Parts::NONE, |one| one.area()) } else { Parts::NONE });
        (handed(&made) == Some(wanted)).then_some(made)
    })
}
