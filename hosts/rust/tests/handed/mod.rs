//! Stations and desks as lent bytes, whatever they are, and calls on them with any numbers. Where the crate's types can say a call, it is
//! made by them too, on a copy: what they tell and leave must be the same.
#![allow(dead_code)] // each test uses its own part of this module

use station::{lent, Answer, Card, Desk, Instruction, Issue, Number, Record, Refusal, Whereabouts};

/// What a call by the types tells, where they can say it.
type Told = Option<Result<Issue, Refusal>>;

pub const START: u64 = Record::START.0;
pub const TAKEN: Answer = Answer::TAKEN;

pub fn refusal(number: Number) -> Answer {
    Answer { number, ..TAKEN }
}

pub fn refusal_at(number: Number, place: u8) -> Answer {
    Answer { place: Some(place), ..refusal(number) }
}

pub fn taken_as(issue: u16) -> Answer {
    Answer { issue: Issue(issue), ..TAKEN }
}

/// The refusal of an answer.
pub fn told(number: Number) -> Refusal {
    refusal(number).into_result().expect_err("a refusal")
}

/// A refusal with its number and place alone, as bytes have it.
pub fn bare(refusal: Refusal) -> Refusal {
    Refusal { place: refusal.place, ..refusal.number.into() }
}

/// A record, and what is set apart.
pub type Shown = Result<(u64, u64), Refusal>;

/// What an ask is told where nothing is set apart.
pub fn shown(record: u64) -> Shown {
    Ok((record, 0))
}

/// The sixteen bytes that an ask writes.
fn both(answer: Answer, image: [u8; 16]) -> Shown {
    let both = u128::from_le_bytes(image);
    answer.into_result().map(|()| (both as u64, (both >> 64) as u64))
}

/// A set of so many, where the bytes are instructions and no more than those.
fn set_of(count: u8, set: &[u8]) -> Option<Vec<Instruction>> {
    if set.len() != 5 * usize::from(count) {
        return None;
    }
    set.chunks(5).map(|five| Instruction::try_from(<[u8; 5]>::try_from(five).ok()?).ok()).collect()
}

/// A call on lent bytes, and by the types on a copy, if the bytes are one and the types can say it: both tell and leave the same.
fn called<T, const N: usize>(
    room: &mut [u8; N],
    lent: impl Fn(&mut [u8]) -> Answer,
    mut copy: Option<T>,
    typed: impl Fn(&mut T) -> Told,
    bytes: impl Fn(&T) -> &[u8; N],
) -> Answer {
    let told = copy.as_mut().and_then(typed);
    let answer = lent(room);
    if let (Some(copy), Some(told)) = (&copy, told) {
        assert_eq!((told.map_err(bare), bytes(copy)), (answer.issued(), &*room));
    }
    answer
}

/// Lent bytes of a station.
#[derive(Clone, Debug, PartialEq, Eq)]
pub struct Station(pub [u8; station::Station::SIZE]);

impl Station {
    pub fn start() -> Station {
        let mut room = [0xEE; station::Station::SIZE];
        assert_eq!(lent::station_start(&mut room), TAKEN);
        assert_eq!(&room, station::Station::new().bytes());
        Station(room)
    }

    /// The same by the types, if it is one.
    fn typed(&self) -> Option<station::Station> {
        let typed = station::Station::from_bytes(&self.0);
        assert_eq!(typed.as_ref().err().copied(), self.ask().err());
        typed.ok()
    }

    fn call(&mut self, lent: impl Fn(&mut [u8]) -> Answer, typed: impl Fn(&mut station::Station) -> Told) -> Answer {
        let copy = self.typed();
        called(&mut self.0, lent, copy, typed, station::Station::bytes)
    }

    pub fn request(&mut self, count: u8, set: &[u8]) -> Answer {
        self.call(|room| lent::station_request(room, count, set), |s| Some(s.request(&set_of(count, set)?)))
    }

    pub fn event(&mut self, way: u8) -> Answer {
        self.call(|room| lent::station_event(room, way), |s| Some(s.event(way.try_into().ok()?).map(|()| Issue(0))))
    }

    pub fn result(&mut self, issue: u16, number: u8, ending: u8) -> Answer {
        let typed = |s: &mut station::Station| Some(s.result(Issue(issue), number, ending.try_into().ok()?).map(|()| Issue(0)));
        self.call(|room| lent::station_result(room, issue, number, ending), typed)
    }

    pub fn image(&mut self, image: u64, apart: u64) -> Answer {
        let typed = |s: &mut station::Station| (apart == 0).then(|| s.image(Record(image)).map(|()| Issue(0)));
        self.call(|room| lent::station_image(room, image, apart), typed)
    }

    pub fn ask(&self) -> Shown {
        let mut image = [0; 16];
        let said = both(lent::station_ask(&self.0, &mut image), image);
        if let Ok(typed) = station::Station::from_bytes(&self.0) {
            assert_eq!(Ok((typed.record().0, typed.apart().0)), said);
        }
        said
    }

    pub fn message(&mut self, message: &[u8]) -> (Answer, Vec<u8>) {
        let mut reply = vec![0; 20];
        let typed = self.typed().map(|mut s| (s.message(message), s));
        let answer = lent::station_message(&mut self.0, message, &mut reply);
        reply.truncate(2 + usize::from(reply[0]));
        if let Some((told, s)) = typed {
            assert_eq!((told, s.bytes()), ((answer, reply.clone()), &self.0));
        }
        (answer, reply)
    }
}

pub fn cars(image: u64) -> Option<u32> {
    Record(image).cars()
}

pub fn sound(image: u64) -> bool {
    Record(image).is_sound()
}

pub fn allowed(image: u64, five: &[u8; 5]) -> Answer {
    let answer = lent::garage_allowed(image, five);
    if let Ok(typed) = Instruction::try_from(*five) {
        assert_eq!(Record(image).allowed(typed).map_err(bare), answer.into_result());
    }
    answer
}

pub fn next(image: u64, five: &[u8; 5]) -> Result<u64, Refusal> {
    let mut after = [0; 8];
    let said = lent::garage_next(image, five, &mut after).into_result().map(|()| u64::from_le_bytes(after));
    if let Ok(typed) = Instruction::try_from(*five) {
        assert_eq!(Record(image).next(typed).map(|record| record.0).map_err(bare), said);
    }
    said
}

/// Lent bytes of a desk.
#[derive(Clone, Debug, PartialEq, Eq)]
pub struct LentDesk(pub [u8; Desk::SIZE]);

impl LentDesk {
    pub fn start() -> LentDesk {
        let mut room = [0xEE; Desk::SIZE];
        assert_eq!(lent::desk_start(&mut room), TAKEN);
        assert_eq!(&room, Desk::new().bytes());
        LentDesk(room)
    }

    fn typed(&self) -> Option<Desk> {
        let typed = Desk::from_bytes(&self.0);
        assert_eq!(typed.as_ref().err().copied(), self.ask().err());
        typed.ok()
    }

    fn call(&mut self, lent: impl Fn(&mut [u8]) -> Answer, typed: impl Fn(&mut Desk) -> Told) -> Answer {
        let copy = self.typed();
        called(&mut self.0, lent, copy, typed, Desk::bytes)
    }

    pub fn request(&mut self, count: u8, set: &[u8]) -> Answer {
        self.call(|room| lent::desk_request(room, count, set), |d| Some(d.request(&set_of(count, set)?)))
    }

    pub fn event(&mut self, way: u8, card: u32) -> Answer {
        let typed = |d: &mut Desk| Some(d.event(way.try_into().ok()?, Some(Card(card))).map(|()| Issue(0)));
        self.call(|room| lent::desk_event(room, way, card), typed)
    }

    pub fn result(&mut self, issue: u16, number: u8, ending: u8) -> Answer {
        let typed = |d: &mut Desk| Some(d.result(Issue(issue), number, ending.try_into().ok()?).map(|()| Issue(0)));
        self.call(|room| lent::desk_result(room, issue, number, ending), typed)
    }

    /// An image with numbers; more than a byte can count are more than there can be.
    pub fn image(&mut self, image: u64, apart: u64, cards: &[u32]) -> Answer {
        let bytes: Vec<u8> = cards.iter().flat_map(|card| card.to_le_bytes()).collect();
        let typed: Vec<Card> = cards.iter().copied().map(Card).collect();
        let typed = |d: &mut Desk| (apart == 0).then(|| d.image(Record(image), &typed).map(|()| Issue(0)));
        self.call(|room| lent::desk_image(room, image, apart, u8::try_from(cards.len()).unwrap_or(u8::MAX), &bytes), typed)
    }

    pub fn ask(&self) -> Shown {
        let mut image = [0; 16];
        let said = both(lent::desk_ask(&self.0, &mut image), image);
        if let Ok(typed) = Desk::from_bytes(&self.0) {
            assert_eq!(Ok((typed.record().0, typed.apart().0)), said);
        }
        said
    }

    pub fn whereabouts(&self, card: u32) -> Result<Whereabouts, Refusal> {
        let said = lent::desk_where(&self.0, card);
        if let Some(typed) = self.typed() {
            assert_eq!(Ok(typed.whereabouts(Card(card))), said);
        }
        said
    }

    pub fn leaving(&self) -> Result<Option<u32>, Refusal> {
        let mut card = [0; 4];
        let said = lent::desk_leaving(&self.0, &mut card).into_result().map(|()| Some(u32::from_le_bytes(card)).filter(|&card| card != 0));
        if let Some(typed) = self.typed() {
            assert_eq!(Ok(typed.leaving().map(|card| card.0)), said);
        }
        said
    }
}
