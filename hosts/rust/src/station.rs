//! The station.

use crate::faults::of_set;
use crate::instruction::bytes_of;
use crate::lent;
use crate::{Answer, Event, Instruction, Issue, Outcome, Parts, Record, Refusal};

/// The longest message that a station answers with.
const REPLY_MOST: usize = 20;

/// How many instructions a set has, as a byte; more than a byte can count are more than a set can have.
pub(crate) fn count_of<T>(all: &[T]) -> u8 {
    u8::try_from(all.len()).unwrap_or(u8::MAX)
}

/// The two numbers of sixteen bytes, the lowest byte of each first.
pub(crate) fn both_of(bytes: [u8; 16]) -> (Record, Parts) {
    let both = u128::from_le_bytes(bytes);
    (Record(both as u64), Parts((both >> 64) as u64))
}

/// A station: it keeps the record of one garage, judges sets of instructions, and takes the motors' results and the drivers' comings and
/// goings. It is held as the bytes that the entries read and write, and these are a station at every moment.
///
/// A car comes, is brought down, and goes again:
///
/// ```
/// use station::{Event, Height, Instruction, Outcome, Record, Station};
///
/// fn run(station: &mut Station, set: &[Instruction]) -> Result<(), station::Refusal> {
///     let issue = station.request(set)?;
///     // here the motors run; each then tells how it went
///     for number in 0..set.len() as u8 {
///         station.result(issue, number, Outcome::Done)?;
///     }
///     Ok(())
/// }
///
/// let mut station = Station::new();
/// station.event(Event::BeginIn)?;
/// station.event(Event::EndedDone)?;
/// run(&mut station, &[Instruction::Lift { height: Height::Basement }])?;
/// run(&mut station, &["belts row 1 left lift, lower, full".parse().unwrap()])?; // parked: off the lift, on the left belt
/// assert_eq!(station.record().to_string().lines().next(), Some(".........##........."));
///
/// run(&mut station, &["belts row 1 left lift, higher, full".parse().unwrap()])?; // fetched
/// run(&mut station, &[Instruction::Lift { height: Height::Street }])?;
/// station.event(Event::BeginOut)?;
/// station.event(Event::EndedDone)?;
/// assert_eq!(station.record(), Record::START);
/// # Ok::<(), station::Refusal>(())
/// ```
#[derive(Clone, Debug, PartialEq, Eq, Hash)]
pub struct Station([u8; Station::SIZE]);

impl Station {
    /// The bytes of a station.
    pub const SIZE: usize = 60;

    /// The most instructions of a set.
    pub const MOST: usize = 8;

    /// The start station: its record is [`Record::START`], and nothing is outstanding or set apart.
    pub fn new() -> Station {
        let mut room = [0; Station::SIZE];
        lent::station_start(&mut room).into_result().expect("the room is long enough");
        Station(room)
    }

    /// A station from bytes that were kept: 16 where they are none.
    pub fn from_bytes(bytes: &[u8; Station::SIZE]) -> Result<Station, Refusal> {
        lent::station_ask(bytes, &mut [0; 16]).into_result()?;
        Ok(Station(*bytes))
    }

    /// Its bytes, to be kept and put back as they are.
    pub fn bytes(&self) -> &[u8; Station::SIZE] {
        &self.0
    }

    /// Requests a set: 6, 5, 7, 4, 31, 32, 8, 20 to 28. Taken, the set is outstanding under its issue, and the record is as it was. A refusal
    /// names the parts at fault; [`Record::conditions`] has all conditions of an instruction.
    pub fn request(&mut self, set: &[Instruction]) -> Result<Issue, Refusal> {
        lent::station_request(&mut self.0, count_of(set), &bytes_of(set)).issued().map_err(|refusal| of_set(refusal, set, self.shown()))
    }

    /// A drive begins or ends: 6, 31, 32, of a begin 10, and of a begin of a drive-in 33.
    pub fn event(&mut self, event: Event) -> Result<(), Refusal> {
        lent::station_event(&mut self.0, event.byte()).into_result()
    }

    /// The result of an instruction of the outstanding set, counted from 0: 11, 29, 30, 12, 13. What is done is applied to the record; what
    /// is stuck sets the instruction's area apart.
    pub fn result(&mut self, issue: Issue, number: u8, outcome: Outcome) -> Result<(), Refusal> {
        lent::station_result(&mut self.0, issue.0, number, outcome.byte()).into_result()
    }

    /// An image as the record, after somebody looked and cleared what was stuck: 6, 15. Nothing is set apart from now on.
    pub fn image(&mut self, image: Record) -> Result<(), Refusal> {
        lent::station_image(&mut self.0, image.0, 0).into_result()
    }

    /// The record.
    pub fn record(&self) -> Record {
        self.shown().0
    }

    /// What is set apart.
    pub fn apart(&self) -> Parts {
        self.shown().1
    }

    fn shown(&self) -> (Record, Parts) {
        let mut both = [0; 16];
        lent::station_ask(&self.0, &mut both).into_result().expect("it is a station");
        both_of(both)
    }

    /// Answers the first message of `message`, as the program does: what is answered, and the message that answers. A message that is
    /// refused is answered too. The [`message`](crate::message) module makes and reads messages.
    pub fn message(&mut self, message: &[u8]) -> (Answer, Vec<u8>) {
        let mut reply = vec![0; REPLY_MOST];
        let answer = lent::station_message(&mut self.0, message, &mut reply);
        reply.truncate(2 + usize::from(reply[0]));
        (answer, reply)
    }
}

impl Default for Station {
    fn default() -> Station {
        Station::new()
    }
}
