//! The station that the messages of a log make, followed one by one: a desk, which has the station inside. Each car has a number of its own
//! there that is never shown; of some of them the card is known, and only those are told.

use station::{lent, Answer, Desk, Parts, Place, Record, Station, Whereabouts};
use std::collections::BTreeMap;
use terminal::conditions::LIFT;
use terminal::facts::{Facts, Stuck, APART, DRIVE_IN, ISSUE};
use terminal::journal::messages;
use terminal::message::{number_in, read, Message, BEGIN_IN};

/// An ending that sets the instruction's area apart.
const STUCK: u8 = 2;
/// Where a desk has the number of a drive-in under way, of its four-byte places behind the station.
const WAITS: usize = 41;
/// Places of numbers in a desk.
const PLACES: usize = 42;

/// A card's place in the garage, whether that is only its last known one, and of a car in motion the place that it would get.
#[derive(Clone, Copy)]
pub struct Known {
    pub card: u32,
    pub place: Place,
    pub last_known: bool,
    pub moving_to: Option<Place>,
}

/// The floor that is drawn: a record, what is set apart, and the cards that are known.
pub struct Floor {
    pub record: Record,
    pub apart: Parts,
    pub cards: Vec<Known>,
}

/// Cards as somebody gives them for cars in their order: some may not be known.
pub type Cards = Vec<Option<u32>>;

#[derive(Clone)]
pub struct Follower {
    /// A desk's bytes, which can be given what no call gives: the issue and what is set apart of a log's first record.
    desk: [u8; Desk::SIZE],
    /// How the instructions of the outstanding set ended; the station keeps only whether they did.
    endings: [Option<u8>; 8],
    /// What has set apart what is, since the last image; what was set apart before the log has no cause here.
    stuck: Vec<Stuck>,
    /// The cards by the numbers inside, and those of numbers that will be given out.
    cards: BTreeMap<u32, u32>,
    ahead: BTreeMap<u32, u32>,
    last: u32,
}

/// The cars that an image's list of cards has to name: those of the record, and one whose drive-in is under way.
pub fn named_cars(record: Record) -> usize {
    record.cars().unwrap_or(0) as usize + usize::from(record.0 & DRIVE_IN != 0)
}

impl Follower {
    fn start() -> Self {
        Follower {
            desk: *Desk::new().bytes(),
            endings: [None; 8],
            stuck: Vec::new(),
            cards: BTreeMap::new(),
            ahead: BTreeMap::new(),
            last: 0,
        }
    }

    /// From a sound record on, with what is set apart there, the issue that the next set will have, and the cards of its cars.
    pub fn from(record: Record, apart: Parts, issue: u16, cards: Option<&Cards>) -> Self {
        let mut follower = Follower::start();
        follower.take_image(record, cards);
        follower.desk[APART].copy_from_slice(&apart.0.to_le_bytes());
        follower.desk[ISSUE].copy_from_slice(&issue.to_le_bytes());
        follower
    }

    /// From a station on, as a journal's head has it. How instructions of its set have ended is not known there.
    pub fn from_station(station: &[u8; Station::SIZE]) -> Self {
        let mut follower = Follower::start();
        follower.take_image(Record(number_in(&station[..8])), None);
        follower.desk[..Station::SIZE].copy_from_slice(station);
        for (ending, held) in follower.endings.iter_mut().zip(Facts::of_station(station).set) {
            *ending = held.ending;
        }
        follower
    }

    fn station(&self) -> [u8; Station::SIZE] {
        std::array::from_fn(|at| self.desk[at])
    }

    pub fn record(&self) -> Record {
        Record(number_in(&self.desk[..8]))
    }

    pub fn apart(&self) -> Parts {
        Parts(number_in(&self.desk[APART]))
    }

    /// What decides about the next message, with how each instruction of the set has ended, and what has set something apart.
    pub fn facts(&self) -> Facts {
        let mut facts = Facts::of_station(&self.station());
        for (held, ending) in facts.set.iter_mut().zip(self.endings) {
            held.ending = ending;
        }
        facts.stuck = Some(self.stuck.clone());
        facts
    }

    fn number_at(&self, place: usize) -> u32 {
        number_in(&self.desk[Station::SIZE + 4 * place..][..4]) as u32
    }

    /// The cards that are known, in the order of the cells.
    pub fn cards(&self) -> Vec<Known> {
        let one = |(&number, &card): (&u32, &u32)| match lent::desk_where(&self.desk, number).expect("it is a desk") {
            Whereabouts::At(place) => Some(Known { card, place, last_known: false, moving_to: None }),
            Whereabouts::Moving { from, to } => Some(Known { card, place: from, last_known: false, moving_to: Some(to) }),
            Whereabouts::LastKnown(place) => Some(Known { card, place, last_known: true, moving_to: None }),
            Whereabouts::NotHere => None,
        };
        let mut all: Vec<Known> = self.cards.iter().filter_map(one).collect();
        all.sort_by_key(|one| match one.place {
            Place::Cell(cell) => cell,
            Place::Raised => LIFT,
        });
        all
    }

    /// The card of a drive-in under way, where it is known.
    pub fn coming(&self) -> Option<u32> {
        self.cards.get(&self.number_at(WAITS)).copied()
    }

    pub fn floor(&self) -> Floor {
        Floor { record: self.record(), apart: self.apart(), cards: self.cards() }
    }

    /// What a message is answered with, and the message that answers it. Cards go with a begin in or an image, if it is taken; `at` says
    /// where the log has it.
    pub fn take(&mut self, bytes: &[u8], message: &Message, cards: Option<&Cards>, at: &str) -> (Answer, Vec<u8>) {
        let mut station = Station::from_bytes(&self.station()).expect("it is a station");
        let (answer, reply) = station.message(bytes);
        if answer.taken() {
            self.took(message, cards, at);
        }
        assert!(self.station() == *station.bytes(), "the desk's station is the station");
        (answer, reply)
    }

    fn took(&mut self, message: &Message, cards: Option<&Cards>, at: &str) {
        match *message {
            Message::Request(ref fives) => {
                lent::desk_request(&mut self.desk, fives.len() as u8, &fives.concat());
                self.endings = [None; 8];
            }
            Message::Event(way) => {
                let number = self.new_number(cards.and_then(|cards| *cards.first()?).filter(|_| way == BEGIN_IN));
                lent::desk_event(&mut self.desk, way, number);
            }
            Message::Result { issue, number, ending } => {
                if ending == STUCK {
                    let five = self.facts().set[usize::from(number)].five;
                    self.stuck.push(Stuck { at: at.to_string(), issue, number, five });
                }
                lent::desk_result(&mut self.desk, issue, number, ending);
                self.endings[usize::from(number)] = Some(ending);
            }
            Message::Image { record, .. } => self.take_image(record, cards),
            _ => {}
        }
        // who has left takes the card along, and so do all whom an image replaces
        let here: Vec<u32> = (0..PLACES).map(|place| self.number_at(place)).collect();
        self.cards.retain(|number, _| here.contains(number));
    }

    /// Learns the cards that a desk had after some messages, before these are taken: which number here will then be which card's.
    pub fn learn(&mut self, sent: &[u8], numbers: &[u8]) {
        let mut then = self.clone();
        for bytes in messages(sent) {
            then.take(bytes, &read(bytes), None, "");
        }
        for (place, card) in numbers.chunks_exact(4).map(|four| number_in(four) as u32).enumerate().filter(|&(_, card)| card != 0) {
            let number = then.number_at(place);
            if number > self.last {
                self.ahead.insert(number, card);
            } else if number != 0 {
                self.cards.insert(number, card);
            }
        }
    }

    fn take_image(&mut self, record: Record, cards: Option<&Cards>) {
        let known = |at: usize| cards.and_then(|cards| *cards.get(at)?);
        let cars = named_cars(record);
        let numbers: Vec<u8> = (0..cars).flat_map(|at| self.new_number(known(at)).to_le_bytes()).collect();
        lent::desk_image(&mut self.desk, record.0, 0, cars as u8, &numbers);
        self.stuck.clear();
    }

    /// A number that no car has had, for the card if it is known. There are more of them than messages in any log.
    fn new_number(&mut self, card: Option<u32>) -> u32 {
        self.last += 1;
        if let Some(card) = card.or(self.ahead.remove(&self.last)) {
            self.cards.insert(self.last, card);
        }
        self.last
    }
}
