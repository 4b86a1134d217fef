//! The street desk: a station that knows cars by their cards.

use crate::faults::of_set;
use crate::instruction::bytes_of;
use crate::lent;
use crate::station::{both_of, count_of};
use crate::{Event, Instruction, Issue, Outcome, Parts, Place, Record, Refusal, Station, Whereabouts};
use std::fmt;

/// Where the room has a drive-in's number, behind those of the cells and of the raised lift.
const AT_LIFT: usize = 40;
const AT_DRIVE: usize = 41;

/// A card's number. No car has the number 0.
#[derive(Clone, Copy, Debug, PartialEq, Eq, Hash, PartialOrd, Ord)]
pub struct Card(pub u32);

impl fmt::Display for Card {
    fn fmt(&self, f: &mut fmt::Formatter) -> fmt::Result {
        write!(f, "{}", self.0)
    }
}

/// A desk: a station whose cars have card numbers, which go where the cars go.
///
/// ```
/// use station::{Card, Desk, Event, Height, Instruction, Outcome, Place, Whereabouts};
/// let mut desk = Desk::new();
/// desk.event(Event::BeginIn, Some(Card(7001)))?;
/// desk.event(Event::EndedDone, None)?;
/// assert_eq!(desk.whereabouts(Card(7001)), Whereabouts::At(Place::Raised));
/// let issue = desk.request(&[Instruction::Lift { height: Height::Basement }])?;
/// desk.result(issue, 0, Outcome::Done)?;
/// assert_eq!(desk.whereabouts(Card(7001)), Whereabouts::At(Place::Cell(11)));
/// assert_eq!(desk.whereabouts(Card(7002)), Whereabouts::NotHere);
/// # Ok::<(), station::Refusal>(())
/// ```
#[derive(Clone, Debug, PartialEq, Eq, Hash)]
pub struct Desk([u8; Desk::SIZE]);

impl Desk {
    /// The bytes of a desk.
    pub const SIZE: usize = 228;

    /// The start desk: the start station, and no number.
    pub fn new() -> Desk {
        let mut room = [0; Desk::SIZE];
        lent::desk_start(&mut room).into_result().expect("the room is long enough");
        Desk(room)
    }

    /// A desk from bytes that were kept: 16 where they are none.
    pub fn from_bytes(bytes: &[u8; Desk::SIZE]) -> Result<Desk, Refusal> {
        lent::desk_ask(bytes, &mut [0; 16]).into_result()?;
        Ok(Desk(*bytes))
    }

    /// Its bytes, to be kept and put back as they are.
    pub fn bytes(&self) -> &[u8; Desk::SIZE] {
        &self.0
    }

    /// Requests a set, as [`Station::request`].
    pub fn request(&mut self, set: &[Instruction]) -> Result<Issue, Refusal> {
        lent::desk_request(&mut self.0, count_of(set), &bytes_of(set)).issued().map_err(|refusal| of_set(refusal, set, self.shown()))
    }

    /// A drive begins or ends, as [`Station::event`]; a begin of a drive-in brings its card, and is told 37 where there is none or its
    /// number is 0, 38 where a car in the garage has it. With any other event the card isn't looked at.
    pub fn event(&mut self, event: Event, card: Option<Card>) -> Result<(), Refusal> {
        lent::desk_event(&mut self.0, event.byte(), card.map_or(0, |card| card.0)).into_result()
    }

    /// The result of an instruction, as [`Station::result`]; with what is done each number goes where its car does.
    pub fn result(&mut self, issue: Issue, number: u8, outcome: Outcome) -> Result<(), Refusal> {
        lent::desk_result(&mut self.0, issue.0, number, outcome.byte()).into_result()
    }

    /// An image as the record, as [`Station::image`], with the cards of its cars in the order of [`Record::places`], and after them that of
    /// a drive-in under way: 6, 15, then 39, 37, 38.
    pub fn image(&mut self, image: Record, cards: &[Card]) -> Result<(), Refusal> {
        let bytes: Vec<u8> = cards.iter().flat_map(|card| card.0.to_le_bytes()).collect();
        lent::desk_image(&mut self.0, image.0, 0, count_of(cards), &bytes).into_result()
    }

    /// The record.
    pub fn record(&self) -> Record {
        self.shown().0
    }

    /// What is set apart.
    pub fn apart(&self) -> Parts {
        self.shown().1
    }

    fn shown(&self) -> (Record, Parts) {
        let mut both = [0; 16];
        lent::desk_ask(&self.0, &mut both).into_result().expect("it is a desk");
        both_of(both)
    }

    /// Where a card's car is.
    pub fn whereabouts(&self, card: Card) -> Whereabouts {
        lent::desk_where(&self.0, card.0).expect("it is a desk")
    }

    /// Which card is leaving, while a drive-out is under way.
    pub fn leaving(&self) -> Option<Card> {
        let mut card = [0; 4];
        lent::desk_leaving(&self.0, &mut card).into_result().expect("it is a desk");
        some_card(card)
    }

    /// Which card is coming, while a drive-in is under way.
    pub fn coming(&self) -> Option<Card> {
        self.card_at(AT_DRIVE)
    }

    /// The cards of all cars in the garage, each with the place of its number, in the order of [`Record::places`].
    pub fn cards(&self) -> Vec<(Place, Card)> {
        let place = |at| if at == AT_LIFT { Place::Raised } else { Place::Cell(at as u8) };
        (0..=AT_LIFT).filter_map(|at| Some((place(at), self.card_at(at)?))).collect()
    }

    /// What is told of every car, in the order of [`Record::places`], and then of the card of a drive-in under way, at place 55.
    pub fn list(&self) -> Vec<Line> {
        let mut lines = [0; 248];
        let answer = lent::desk_list(&self.0, &mut lines);
        answer.into_result().expect("it is a desk");
        lines_of(answer, &lines)
    }

    /// What is outstanding: the issue of the last set that was accepted, and of what is outstanding each instruction's bytes, with whether
    /// it is answered.
    pub fn outstanding(&self) -> (Issue, Vec<([u8; 5], bool)>) {
        let mut set = [0; 44];
        lent::desk_outstanding(&self.0, &mut set).into_result().expect("it is a desk");
        let codes = set[4..].chunks_exact(5).take(set[2].into()).enumerate();
        let told = codes.map(|(i, code)| (code.try_into().expect("five bytes"), set[3] >> i & 1 == 1)).collect();
        (Issue(u16::from_le_bytes([set[0], set[1]])), told)
    }

    /// What an image with these cards would change, as [`Desk::image`] would be answered; the desk stays as it is. Each card that would
    /// leave or change places, and then each that would appear, at place 255.
    pub fn compare(&self, image: Record, cards: &[Card]) -> Result<Vec<Line>, Refusal> {
        let bytes: Vec<u8> = cards.iter().flat_map(|card| card.0.to_le_bytes()).collect();
        let mut lines = [0; 496];
        let answer = lent::desk_compare(&self.0, image.0, 0, count_of(cards), &bytes, &mut lines);
        answer.into_result()?;
        Ok(lines_of(answer, &lines))
    }

    fn card_at(&self, at: usize) -> Option<Card> {
        let bytes = &self.0[Station::SIZE + 4 * at..][..4];
        some_card(bytes.try_into().expect("four bytes"))
    }
}

/// What is told of a card: its place, a flag (0 the car is there, 1 that place is the last known, 2 it is in motion), and the place that it
/// would get. Places are the bits of the record; 255 is none, and 55 that of a drive-in under way.
#[derive(Clone, Copy, Debug, PartialEq, Eq, Hash)]
pub struct Line {
    /// The card.
    pub card: Card,
    /// Its place now.
    pub place: u8,
    /// How sure that is.
    pub flag: u8,
    /// The place that it would get.
    pub next: u8,
}

/// As many lines as an answer says.
fn lines_of(answer: crate::Answer, lines: &[u8]) -> Vec<Line> {
    let line = |b: &[u8]| Line { card: Card(u32::from_le_bytes([b[0], b[1], b[2], b[3]])), place: b[4], flag: b[5], next: b[6] };
    lines.chunks_exact(8).take(answer.place.unwrap_or(0).into()).map(line).collect()
}

/// The card of four bytes, the lowest first; none where they are 0.
fn some_card(bytes: [u8; 4]) -> Option<Card> {
    Some(Card(u32::from_le_bytes(bytes))).filter(|card| card.0 != 0)
}

impl Default for Desk {
    fn default() -> Desk {
        Desk::new()
    }
}
