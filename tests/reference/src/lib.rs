//! A reference station for one garage, written from the scope paper's words alone, cell by cell.
//! Everything is total: no input makes a function panic. Answer numbers are those of the paper's
//! table (0 taken, all others refused); a refusal changes nothing.
//!
//! Beside the station are the desk, plans, drawings and the report, and for each entry for C what it must return ([`command`]).

use std::ops::Range;

pub mod command;
pub mod desk;
pub mod desk_command;
pub mod desk_lists;
pub mod drawing;
/// The garage's floor.
#[cfg(not(feature = "reduced"))]
mod floor;
mod instructions;
mod messages;
pub mod panel_command;
mod parts;
pub mod places;
pub mod plan;
mod record;
/// The paper's reduced floor, with the same rules.
#[cfg(feature = "reduced")]
mod reduced;
pub mod week;

pub use floor::{LIFT_CELLS, OTHER_ROWS, ROW_1};
use instructions::{areas, named, overlap, read_set};
pub use instructions::{Condition, Instruction, REASONS, REASON_NUMBERS};
pub use messages::{answer_message, read_call, read_message, serve, serve_on, shown_message, stream, write_message, Message, Refused};
pub use parts::Parts;
pub use record::{belt_cells, bit, cars, drive_under_way, position, sound, BASEMENT, DRIVE_IN, DRIVE_OUT, FULL, HIGHER, LIFT_CAR, LOWERED};
use record::{even, free, height, occupied, shuttle_side, slot, with, with_all, FILLED, ROTATION, STREET, TILTED};
#[cfg(feature = "reduced")]
use reduced as floor;

/// What a call answers: a number of the table, the place of the instruction that it names or none, and the issue of a set that was
/// taken; with all that isn't a request taken, 0.
#[derive(Clone, Copy, Debug, PartialEq, Eq)]
pub struct Answer {
    pub number: u8,
    pub place: u8,
    pub issue: u16,
}
pub const NO_PLACE: u8 = 255;
pub const LARGEST_SET: usize = 8;
/// There are so many issues, from 0 on; after the last comes the first again.
const ISSUES: u32 = 65_536;
/// No cars, rows 1 and 2 lowered and row 3 tilted on both sides, lift at street.
pub const START: u64 = 0b100_100_011_011 << 40;

/// A call on the station, its fields as they came.
#[derive(Clone, Copy, Debug, PartialEq, Eq)]
pub enum Call<'a> {
    Request {
        count: u8,
        bytes: &'a [u8],
    },
    Event(u8),
    Result {
        issue: u16,
        number: u8,
        outcome: u8,
    },
    /// A record, and what is set apart by whoever sends it.
    Image {
        image: u64,
        apart: u64,
    },
    Ask,
}

// How an instruction ended.
pub const FAILED: u8 = 0;
pub const DONE: u8 = 1;
pub const STUCK: u8 = 2;

// The events: a drive begins, into the lift or out of it, and ends.
pub const BEGIN_IN: u8 = 1;
pub const BEGIN_OUT: u8 = 2;
pub const END_DONE: u8 = 3;
pub const END_NOT_DONE: u8 = 4;

/// The record; the outstanding set: its size, a bit for each answered one, five bytes for each; the issue of the set that is taken next,
/// any at all; and the parts that are set apart since something got stuck, or a number that was handed in for them and shows none.
#[derive(Clone, Copy, Debug, PartialEq, Eq)]
pub struct Station {
    pub record: u64,
    pub count: u8,
    pub answered: u8,
    pub set: [u8; 40],
    pub next_issue: u16,
    pub apart: Result<Parts, u64>,
}

pub fn answer(number: u8) -> Answer {
    answer_at(number, NO_PLACE)
}
pub fn answer_at(number: u8, place: u8) -> Answer {
    Answer { number, place, issue: 0 }
}

impl Station {
    pub const SIZE: usize = 60;

    pub fn start() -> Self {
        Station { record: START, count: 0, answered: 0, set: [0; 40], next_issue: 0, apart: Ok(Parts::NONE) }
    }

    /// Record sound; up to eight instructions, all well-formed; marks on no others, and not on every
    /// one of a set; unused places zero; not both a drive under way and a set with the lift in an area;
    /// no two that overlap, answered or not; what still waits for its result is allowed on the record; and
    /// what is set apart is any parts that there are.
    pub fn fit(&self) -> bool {
        let Some((held, unused)) = self.set.split_at_checked(5 * usize::from(self.count)) else { return false };
        sound(self.record)
            && read_set(held).is_ok()
            && self.answered & !self.all_marks() == 0
            && unused.iter().all(|&byte| byte == 0)
            && (self.count == 0 || self.answered != self.all_marks())
            && !(drive_under_way(self.record) && self.holds_lift())
            && overlap(&areas(self.held())).is_none()
            && self.waiting().all(|instruction| instruction.allowed(self.record))
            && self.apart.is_ok()
    }

    fn all_marks(&self) -> u8 {
        (0..8).filter(|&at| at < self.count).fold(0, |marks, at| marks | 1 << at)
    }

    pub fn held(&self) -> impl Iterator<Item = Instruction> + '_ {
        self.set.chunks_exact(5).take(self.count.into()).filter_map(|five| Instruction::read(*five.first_chunk()?))
    }

    /// Of those held, the ones that have no result yet.
    pub fn waiting(&self) -> impl Iterator<Item = Instruction> + '_ {
        self.held().zip(0..).filter(|&(_, at)| !named(self.answered, at)).map(|(instruction, _)| instruction)
    }

    /// Whether the outstanding set has the lift in an area, answered or not.
    fn holds_lift(&self) -> bool {
        self.held().any(|instruction| instruction.takes_lift())
    }

    /// Whether the garage is as full as it may get; a car that is still coming is none of it yet.
    fn filled(&self) -> bool {
        cars(self.record).is_some_and(|cars| cars >= FILLED)
    }

    /// Whether some parts share any with what is set apart.
    pub fn is_apart(&self, parts: &Parts) -> bool {
        self.apart.is_ok_and(|apart| apart.meet(parts))
    }

    /// What is set apart, as the number that shows it.
    pub fn apart_number(&self) -> u64 {
        self.apart.map_or_else(|number| number, |apart| apart.number())
    }

    /// The issue of the set taken last, which is the outstanding one's.
    pub fn present_issue(&self) -> u16 {
        self.next_issue.checked_sub(1).unwrap_or(u16::MAX)
    }

    /// By how many sets an issue lies behind the present one, counted backward and round the end.
    fn behind(&self, issue: u16) -> u32 {
        let (present, given) = (u32::from(self.present_issue()), u32::from(issue));
        if given <= present {
            present - given
        } else {
            present + ISSUES - given
        }
    }

    // The calls; where an ask is taken, the image asked for is `record`, and beside it what is set apart.
    pub fn request(&mut self, count: u8, bytes: &[u8]) -> Answer {
        self.take(Call::Request { count, bytes })
    }
    pub fn event(&mut self, event: u8) -> Answer {
        self.take(Call::Event(event))
    }
    pub fn result(&mut self, issue: u16, number: u8, outcome: u8) -> Answer {
        self.take(Call::Result { issue, number, outcome })
    }
    pub fn image(&mut self, image: u64, apart: u64) -> Answer {
        self.take(Call::Image { image, apart })
    }
    pub fn ask(&mut self) -> Answer {
        self.take(Call::Ask)
    }

    /// Any call; a station that isn't fit refuses before all else.
    pub fn take(&mut self, call: Call) -> Answer {
        if self.fit() {
            self.take_fit(call)
        } else {
            answer(16)
        }
    }

    /// A call on a station known to be fit: a started one is, and every call keeps it so.
    fn take_fit(&mut self, call: Call) -> Answer {
        match call {
            Call::Request { count, bytes } => self.take_request(count, bytes),
            Call::Event(event) => self.take_event(event),
            Call::Result { issue, number, outcome } => self.take_result(issue, number, outcome),
            // A sound image that sets nothing apart becomes the record while no set is outstanding; from
            // now on nothing is.
            Call::Image { .. } if self.count != 0 => answer(6),
            Call::Image { image, apart } if !sound(image) || apart != 0 => answer(15),
            Call::Image { image, .. } => {
                self.record = image;
                self.apart = Ok(Parts::NONE);
                answer(0)
            }
            Call::Ask => answer(0),
        }
    }

    /// A set is taken if none is outstanding, it has one to eight well-formed instructions, none has the
    /// lift in its area while a drive is under way, none touches a part that is set apart, no two share a part
    /// of their areas, and each is allowed on the record, which stays as it is; of those that are not, the
    /// least tells why. Taken, it has the issue whose turn it is.
    fn take_request(&mut self, count: u8, bytes: &[u8]) -> Answer {
        if self.count != 0 {
            return answer(6);
        }
        if count > 8 {
            return answer(5);
        }
        if count == 0 {
            return answer(7);
        }
        let Some(bytes) = bytes.get(..5 * usize::from(count)) else { return answer(1) };
        let set = match read_set(bytes) {
            Ok(set) => set,
            Err(place) => return answer_at(4, place),
        };
        let areas = &areas(set.into_iter().take(count.into()))[..count.into()];
        if drive_under_way(self.record) && areas.iter().any(|area| area.lift) {
            return answer(31);
        }
        if let Some(place) = areas.iter().position(|area| self.is_apart(area)) {
            return answer_at(32, place as u8);
        }
        if let Some(place) = overlap(areas) {
            return answer_at(8, place as u8);
        }
        for (place, instruction) in (0..count).zip(&set) {
            if let Err(number) = instruction.judge(self.record) {
                return answer_at(number, place);
            }
        }
        self.count = count;
        self.set[..bytes.len()].copy_from_slice(bytes);
        let issue = self.next_issue;
        self.next_issue = issue.checked_add(1).unwrap_or(0);
        Answer { issue, ..answer(0) }
    }

    /// A drive begins at street, into an empty lift or out of an occupied one, and with its end the car did
    /// come or go, or did not. No event is taken while an outstanding set has the lift in one of its areas,
    /// answered or not; nor a begin while a drive is under way, nor an end while none is; nor any while the
    /// lift is set apart. And of what could begin else, a drive-in does not while there are too many cars already;
    /// its end asks for no number of them.
    fn take_event(&mut self, event: u8) -> Answer {
        if !matches!(event, BEGIN_IN | BEGIN_OUT | END_DONE | END_NOT_DONE) {
            return answer(4);
        }
        if self.holds_lift() {
            return answer(6);
        }
        let begins = matches!(event, BEGIN_IN | BEGIN_OUT);
        if begins == drive_under_way(self.record) {
            return answer(31);
        }
        if self.is_apart(&Parts::LIFT) {
            return answer(32);
        }
        if begins {
            let comes = event == BEGIN_IN;
            if height(self.record) != STREET || bit(self.record, LIFT_CAR) == comes {
                return answer(10);
            }
            if comes && self.filled() {
                return answer(33);
            }
            self.record = with(self.record, if comes { DRIVE_IN } else { DRIVE_OUT }, true);
        } else {
            if event == END_DONE {
                self.record = with(self.record, LIFT_CAR, bit(self.record, DRIVE_IN));
            }
            self.record = with_all(self.record, DRIVE_IN..DRIVE_OUT + 1, false);
        }
        answer(0)
    }

    /// One result for each instruction: success applies its rule to the record as it is now, which allows
    /// it since the station is fit; failure only marks; one that is stuck marks too, and from now on its whole
    /// area is set apart. With the last result nothing is held or marked any more, but what is set apart stays
    /// so. It must be of the outstanding set: one of up to 32767 sets before is late, any other was not issued.
    fn take_result(&mut self, issue: u16, number: u8, outcome: u8) -> Answer {
        if !matches!(outcome, FAILED | DONE | STUCK) {
            return answer(4);
        }
        if self.count == 0 {
            return answer(11);
        }
        match self.behind(issue) {
            0 => {}
            1..=32767 => return answer(29),
            _ => return answer(30),
        }
        let Some(instruction) = self.held().nth(number.into()) else { return answer(12) };
        if named(self.answered, number.into()) {
            return answer(13);
        }
        if outcome == DONE {
            self.record = instruction.next(self.record);
        }
        if outcome == STUCK {
            self.apart = self.apart.map(|apart| apart.and(instruction.area()));
        }
        self.answered |= 1 << number;
        if self.answered == self.all_marks() {
            *self = Station { record: self.record, next_issue: self.next_issue, apart: self.apart, ..Self::start() };
        }
        answer(0)
    }

    /// What an ask shows: the record, then what is set apart.
    pub fn shown(&self) -> [u8; 16] {
        (u128::from(self.apart_number()) << 64 | u128::from(self.record)).to_le_bytes()
    }

    /// Record, count, marks, set, next issue, what is set apart; each number with its lowest byte first.
    pub fn to_bytes(&self) -> [u8; Self::SIZE] {
        let mut bytes = [0; Self::SIZE];
        bytes[..8].copy_from_slice(&self.record.to_le_bytes());
        bytes[8..10].copy_from_slice(&[self.count, self.answered]);
        bytes[10..50].copy_from_slice(&self.set);
        bytes[50..52].copy_from_slice(&self.next_issue.to_le_bytes());
        bytes[52..].copy_from_slice(&self.apart_number().to_le_bytes());
        bytes
    }

    pub fn from_bytes(bytes: &[u8; Self::SIZE]) -> Self {
        let (mut record, mut set, mut apart) = ([0; 8], [0; 40], [0; 8]);
        record.copy_from_slice(&bytes[..8]);
        set.copy_from_slice(&bytes[10..50]);
        apart.copy_from_slice(&bytes[52..]);
        let (record, apart) = (u64::from_le_bytes(record), Parts::shown_by(u64::from_le_bytes(apart)));
        Station { record, count: bytes[8], answered: bytes[9], set, next_issue: u16::from_le_bytes([bytes[50], bytes[51]]), apart }
    }
}

// ---- Calls over lent bytes -----------------------------------------------------------------------

/// What a set is told so far as its instructions alone decide: for one that is bad, or that shares a part with an earlier one.
pub fn set_told(bytes: &[u8]) -> Answer {
    match read_set(bytes) {
        Ok(set) => overlap(&areas(set.into_iter().take(bytes.len() / 5))).map_or(answer(0), |place| answer_at(8, place as u8)),
        Err(place) => answer_at(4, place),
    }
}

/// The order of a call over lent bytes: 17 where a room is shorter than what a taken call writes, then
/// 1 where fewer bytes are lent than the call says, and only then is the call looked at: 16 if it has
/// a station, and the call's own.
pub fn lent(room_for_all: bool, bytes_for_all: bool, call: impl FnOnce() -> Answer) -> Answer {
    if !room_for_all {
        return answer(17);
    }
    if !bytes_for_all {
        return answer(1);
    }
    call()
}
