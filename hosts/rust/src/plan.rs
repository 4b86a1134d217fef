//! Plans tried before the day (docs/PLANS.md).

use crate::answers::place_in;
use crate::faults::of_one;
use crate::instruction::bytes_of;
use crate::lent;
use crate::station::count_of;
use crate::{Instruction, Parts, Record, Refusal};

/// What a plan wishes for at its end: the lift at street, and on it a car or none.
#[derive(Clone, Copy, Debug, PartialEq, Eq, Hash)]
#[repr(u8)]
pub enum Wish {
    /// Without a car.
    WithoutACar = 0,
    /// With a car.
    WithACar = 1,
}

/// A plan: a starting record, up to 64 sets one after the other, and a wish for the end.
///
/// ```
/// use station::plan::{judge, Plan, Wish};
/// use station::{Height, Instruction, Number, Record, Refusal};
/// let to = |height| [Instruction::Lift { height }];
/// let plan = Plan::new(Record::START, Wish::WithoutACar).then(&to(Height::Basement)).then(&to(Height::Street));
/// assert_eq!(judge(&plan), Ok(()));
/// let refusal = judge(&plan.then(&to(Height::Street))).unwrap_err();
/// assert_eq!(refusal, Refusal::at(Number::SameHeight, 2));
/// ```
#[derive(Clone, Debug, PartialEq, Eq, Hash)]
pub struct Plan {
    /// The record at its start.
    pub start: Record,
    /// The wish for its end.
    pub wish: Wish,
    /// Its sets.
    pub sets: Vec<Vec<Instruction>>,
}

impl Plan {
    /// The most sets of a plan that is accepted.
    pub const MOST: usize = 64;

    /// A plan of no sets yet.
    pub fn new(start: Record, wish: Wish) -> Plan {
        Plan { start, wish, sets: Vec::new() }
    }

    /// The plan with one more set at its end.
    pub fn then(mut self, set: &[Instruction]) -> Plan {
        self.sets.push(set.to_vec());
        self
    }

    /// The plan's bytes. They can count 255 sets, and 255 instructions of a set; what is more is left out, and the plan is refused for that
    /// many as for more.
    pub fn bytes(&self) -> Vec<u8> {
        let mut bytes = [self.start.bytes(), [0; 8]].concat();
        bytes.extend([self.wish as u8, count_of(&self.sets)]);
        for set in self.sets.iter().take(u8::MAX.into()) {
            let set = &set[..count_of(set).into()];
            bytes.push(count_of(set));
            bytes.extend(bytes_of(set));
        }
        bytes
    }
}

/// Whether a plan is accepted: 15, 35; of the first set that is refused, which is the place, 5, 7, 4, 31, 8, 20 to 28; at last 36.
pub fn judge(plan: &Plan) -> Result<(), Refusal> {
    lent::plan_judge(&plan.bytes()).into_result()
}

/// On what grounds a plan is accepted or refused.
#[derive(Clone, Copy, Debug, PartialEq, Eq, Hash)]
pub struct Grounds {
    /// Why it is refused: of a set what the station says to it there, and the place is that of the instruction. None where it is accepted.
    pub refusal: Option<Refusal>,
    /// The first set that is refused, from 0; none where it is the plan as a whole, or nothing.
    pub set: Option<u8>,
    /// The record before that set; where no set is refused, the last one; none where no set was tried.
    pub record: Option<Record>,
}

impl Grounds {
    /// How many bytes the entry writes.
    pub const SIZE: usize = 18;

    /// Those of a plan's bytes, as the entry tells them.
    pub fn of(plan: &[u8]) -> Grounds {
        let mut room = [0; Grounds::SIZE];
        let answer = lent::plan_explain(plan, &mut room);
        let number = |at: usize| u64::from_le_bytes(std::array::from_fn(|byte| room[at + byte]));
        let [.., place, earlier] = room.map(place_in);
        let refusal = Refusal { place, earlier, parts: Parts(number(8)), ..answer.number.into() };
        let record = Some(Record(number(0))).filter(|record| record.0 != 0);
        Grounds { refusal: (!answer.taken()).then_some(refusal), set: answer.place, record }
    }
}

/// Why a plan is judged so, and on which record. With 20 to 28 the refusal also has the parts that decide the condition that fails, as
/// [`Station::request`](crate::Station::request) tells them.
///
/// ```
/// use station::plan::{explain, Plan, Wish};
/// use station::Record;
/// let set = |words: [&str; 2]| words.map(|one| one.parse().unwrap());
/// let plan = Plan::new(Record::START, Wish::WithoutACar).then(&set(["lift basement", "belts row 2 middle, lower, full"]));
/// let grounds = explain(&plan.then(&set(["rotate", "lift street"])));
/// assert_eq!((grounds.set, grounds.refusal.unwrap().to_string()), (Some(1), "8 (overlap) at 1, with 0: the lift".to_string()));
/// assert_eq!(grounds.record.unwrap().0, Record::START.0 | 2 << 53);
/// ```
pub fn explain(plan: &Plan) -> Grounds {
    let grounds = Grounds::of(&plan.bytes());
    let one = |refusal: Refusal| Some(*plan.sets.get(usize::from(grounds.set?))?.get(usize::from(refusal.place?))?);
    let with_parts = |refusal: Refusal| match (one(refusal), grounds.record) {
        (Some(instruction), Some(record)) if refusal.earlier.is_none() => of_one(refusal, instruction, record),
        _ => refusal,
    };
    Grounds { refusal: grounds.refusal.map(with_parts), ..grounds }
}
