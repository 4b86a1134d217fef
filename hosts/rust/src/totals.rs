//! The report's totals (docs/REPORT.md).

use crate::lent;
use crate::{Kind, Number, Op, Refusal, Station};
use std::fmt;

/// What is always room enough for a report's text.
const TEXT_MOST: usize = 1092;
/// Where no total is full.
const NONE: u8 = 255;

/// The totals of a report, kept beside a station: how many messages came and how they were answered. Each message is counted on the station
/// as it is before the message.
///
/// ```
/// use station::message::Message;
/// use station::{Event, Kind, Number, Station, Totals};
/// let (mut station, mut totals) = (Station::new(), Totals::new());
/// for event in [Event::BeginIn, Event::EndedDone, Event::BeginIn] {
///     let message = Message::Event(event).bytes()?;
///     totals.count(&station, &message)?;
///     station.message(&message);
/// }
/// assert_eq!((totals.messages(Kind::Event), totals.cars_in(), totals.most_cars()), (3, 1, 1));
/// assert_eq!((totals.answers(Number::Taken), totals.answers(Number::EventImpossible)), (2, 1));
/// assert!(totals.to_string().contains("cars-in 1\n"));
/// # Ok::<(), station::Refusal>(())
/// ```
#[derive(Clone, Debug, PartialEq, Eq, Hash)]
pub struct Totals([u8; Totals::SIZE]);

impl Totals {
    /// The bytes of totals.
    pub const SIZE: usize = 208;

    /// The totals of a new report: zeros.
    pub fn new() -> Totals {
        let mut room = [0; Totals::SIZE];
        lent::report_start(&mut room).into_result().expect("the room is long enough");
        Totals(room)
    }

    /// Totals from bytes that were kept: all bytes are totals.
    pub fn from_bytes(bytes: &[u8; Totals::SIZE]) -> Totals {
        Totals(*bytes)
    }

    /// Their bytes, to be kept and put back as they are.
    pub fn bytes(&self) -> &[u8; Totals::SIZE] {
        &self.0
    }

    /// Counts the first message of `message`, before the station is sent it: 40 where a total would pass 4,294,967,295, with the place of
    /// the first that would; then all stay as they were.
    pub fn count(&mut self, station: &Station, message: &[u8]) -> Result<(), Refusal> {
        lent::report_message(&mut self.0, station.bytes(), message).into_result()
    }

    /// How many messages of a kind came.
    pub fn messages(&self, kind: Kind) -> u32 {
        self.at(usize::from(kind.byte()) - 1)
    }

    /// How many were answered with a number; none are with those of plans, desks, reports and drawings.
    pub fn answers(&self, number: Number) -> u32 {
        if number <= Number::KeptOpen {
            self.at(5 + number as usize)
        } else {
            0
        }
    }

    /// How many results of such instructions were taken as done.
    pub fn done(&self, op: Op) -> u32 {
        self.at(38 + usize::from(op.byte()))
    }

    /// How many results of such instructions were taken as failed or stuck.
    pub fn failed(&self, op: Op) -> u32 {
        self.at(43 + usize::from(op.byte()))
    }

    /// How many drives in were done.
    pub fn cars_in(&self) -> u32 {
        self.at(49)
    }

    /// How many drives out were done.
    pub fn cars_out(&self) -> u32 {
        self.at(50)
    }

    /// The most cars that there were after any message.
    pub fn most_cars(&self) -> u32 {
        self.at(51)
    }

    /// The total at a place of the report's order.
    fn at(&self, place: usize) -> u32 {
        u32::from_le_bytes(self.0[4 * place..][..4].try_into().expect("four bytes"))
    }
}

impl Default for Totals {
    fn default() -> Totals {
        Totals::new()
    }
}

/// The report's text, a line for each total.
impl fmt::Display for Totals {
    fn fmt(&self, f: &mut fmt::Formatter) -> fmt::Result {
        let mut text = vec![0; TEXT_MOST];
        let length = lent::report_lines(&self.0, NONE, &mut text).expect("the room is long enough");
        write!(f, "{}", String::from_utf8_lossy(&text[..length]))
    }
}
