//! What a desk's calls meet of card numbers, so that a long run can say that it met all there is: begins with every sort of number, ends,
//! images with right and wrong numbers, cars that are carried and cars that are not, places that are told.
use reference::desk::{wanted, Desk, Stand};
use reference::desk_command::{CARDS_MOST, EVENT, IMAGE, RESULT};
use reference::desk_lists::{LAST, MOVES, SURE};
use reference::{bit, BEGIN_IN, BEGIN_OUT, DONE, DRIVE_IN, END_DONE, END_NOT_DONE, FAILED, STUCK};
use shared::trials::Given;
use std::collections::BTreeSet;

/// A number that is handed in: 0, a car's, the one whose drive-in is under way, one that was here and has left, or another.
#[derive(Clone, Copy, Debug, PartialEq, Eq, PartialOrd, Ord)]
pub enum Card {
    Zero,
    Known,
    Coming,
    Gone,
    New,
}
use Card::{Coming, Gone, Known, New, Zero};

/// Where a car stands: in row 1, in row 2 or 3, on the raised lift.
#[derive(Clone, Copy, Debug, PartialEq, Eq, PartialOrd, Ord)]
pub enum Kind {
    Pair,
    Single,
    Raised,
}
use Kind::{Pair, Raised, Single};

/// The numbers of an image; what comes first of them is told.
#[derive(Clone, Copy, Debug, PartialEq, Eq, PartialOrd, Ord)]
pub enum Numbers {
    /// More than can be; that many too many, or too few: with a 0 or one twice among them, or neither.
    Above,
    More {
        bad: bool,
    },
    Fewer {
        bad: bool,
    },
    /// A 0, and also one twice or not.
    Zero {
        twice: bool,
    },
    /// One twice: of two cars, or of a car and the drive-in.
    Twice {
        drive: bool,
    },
    /// Right ones: none, some, and with that of a drive-in.
    Right {
        some: bool,
        drive: bool,
    },
}

#[derive(Clone, Copy, Debug, PartialEq, Eq, PartialOrd, Ord)]
pub enum Met {
    /// A begin of a drive-in, by its number: what the station alone would say, and what the desk says.
    Begin {
        card: Card,
        alone: u8,
        number: u8,
    },
    /// Another event that is taken, by the number that it is handed; whether a car comes.
    Event {
        event: u8,
        comes: bool,
        card: Card,
    },
    /// An image, by its numbers: what the station alone would say, and what the desk says.
    Image {
        numbers: Numbers,
        alone: u8,
        number: u8,
    },
    /// A car that an instruction carries; and one that it would have, had it been done.
    Carried {
        opcode: u8,
        from: Kind,
        to: Kind,
    },
    Kept {
        opcode: u8,
        ending: u8,
        from: Kind,
    },
    /// Where a car is told, and whether that is its last known place; from where to where one is in motion; and of which numbers there is
    /// none.
    At {
        kind: Kind,
        last: bool,
    },
    Moving {
        from: Kind,
        to: Kind,
    },
    NotHere(Card),
    /// Whether a card is leaving.
    Leaving(bool),
    /// A line of the list, by its place and its flag.
    Listed {
        spot: Spot,
        flag: u8,
    },
    /// What is outstanding: whether there is a set, and whether something of it is answered.
    Open {
        set: bool,
        answered: bool,
    },
    /// What an image that is accepted would change: whether anything, from where to where, at which flag, and whether two cards change
    /// places with each other.
    Changes {
        some: bool,
    },
    Changed {
        from: Spot,
        to: Spot,
    },
    ChangedFrom {
        spot: Spot,
        flag: u8,
    },
    Exchanged,
}

/// A place that lines tell: as where a car stands, where a card waits, and none.
#[derive(Clone, Copy, Debug, PartialEq, Eq, PartialOrd, Ord)]
pub enum Spot {
    Of(Kind),
    Waits,
    Nowhere,
}

impl Spot {
    pub fn of(place: u8) -> Spot {
        match place {
            0..=19 => Spot::Of(Pair),
            20..=39 => Spot::Of(Single),
            52 => Spot::Of(Raised),
            55 => Spot::Waits,
            255 => Spot::Nowhere,
            _ => panic!("{place} is no place"),
        }
    }

    /// All of them.
    const ALL: [Spot; 5] = [Spot::Of(Pair), Spot::Of(Single), Spot::Of(Raised), Spot::Waits, Spot::Nowhere];
}

impl Kind {
    pub fn of(stand: &Stand) -> Kind {
        match stand {
            Stand::Over(cells) if cells.len() == 2 => Pair,
            Stand::Over(_) => Single,
            Stand::Raised => Raised,
        }
    }
}

/// What a number is to a desk, where these have been here.
pub fn sort(desk: &Desk, seen: &BTreeSet<u32>, card: u32) -> Card {
    match card {
        0 => Zero,
        _ if desk.coming == Some(card) => Coming,
        _ if desk.knows(card) => Known,
        _ if seen.contains(&card) => Gone,
        _ => New,
    }
}

fn numbers_of(given: &Given) -> Numbers {
    let cards: Vec<&[u8]> = given.input.chunks_exact(4).take(given.first.into()).collect();
    let twice = |cards: &[&[u8]]| cards.iter().collect::<BTreeSet<_>>().len() < cards.len();
    let zero = cards.contains(&&[0; 4][..]);
    let (count, drive) = (usize::from(given.first), bit(given.image, DRIVE_IN));
    match count.cmp(&wanted(given.image)) {
        _ if given.first > CARDS_MOST => Numbers::Above,
        std::cmp::Ordering::Greater => Numbers::More { bad: zero || twice(&cards) },
        std::cmp::Ordering::Less => Numbers::Fewer { bad: zero || twice(&cards) },
        _ if zero => Numbers::Zero { twice: twice(&cards) },
        _ if twice(&cards) => Numbers::Twice { drive: drive && !twice(&cards[..count - 1]) },
        _ => Numbers::Right { some: count > usize::from(drive), drive },
    }
}

impl Met {
    /// A question of where a card's car is.
    pub fn asked(desk: &Desk, seen: &BTreeSet<u32>, card: u32) -> Met {
        match desk.whereabouts(card) {
            Some((stand, last)) => match desk.moving(card) {
                Some(to) => Met::Moving { from: Kind::of(stand), to: Kind::of(&to) },
                None => Met::At { kind: Kind::of(stand), last },
            },
            None => Met::NotHere(sort(desk, seen, card)),
        }
    }
}

/// What a call met on the desk before it, to which the number that it was handed is of this sort; the number is the desk's answer.
pub fn met(before: &Desk, card: Card, given: &Given, number: u8) -> Vec<Met> {
    let mut station = before.station;
    match given.entry {
        EVENT if given.first == BEGIN_IN => vec![Met::Begin { card, alone: station.event(BEGIN_IN).number, number }],
        EVENT if number == 0 => vec![Met::Event { event: given.first, comes: before.coming.is_some(), card }],
        IMAGE if number != 1 => {
            let alone = station.image(given.image, given.apart).number;
            vec![Met::Image { numbers: numbers_of(given), alone, number }]
        }
        RESULT if number == 0 => {
            let Some(one) = before.station.held().nth(given.first.into()) else { return Vec::new() };
            let mut done = before.clone();
            done.carry(&one);
            let opcode = before.station.set[5 * usize::from(given.first)];
            let moves = before.cars.iter().zip(&done.cars).filter(|(from, to)| from.stand != to.stand);
            moves
                .map(|(from, to)| match given.second {
                    DONE => Met::Carried { opcode, from: Kind::of(&from.stand), to: Kind::of(&to.stand) },
                    ending => Met::Kept { opcode, ending, from: Kind::of(&from.stand) },
                })
                .collect()
        }
        _ => Vec::new(),
    }
}

/// All that there is to meet, by the rules.
fn all() -> BTreeSet<Met> {
    let mut all = BTreeSet::new();
    // what the station says comes first; a number whose drive-in is under way meets no other begin but as out of turn
    for (card, told) in [(Zero, 37), (Known, 38), (Gone, 0), (New, 0)] {
        all.insert(Met::Begin { card, alone: 0, number: told });
        all.extend([6, 10, 31, 32, 33].map(|alone| Met::Begin { card, alone, number: alone }));
    }
    all.insert(Met::Begin { card: Coming, alone: 31, number: 31 });
    for card in [Zero, Known, Gone, New] {
        all.insert(Met::Event { event: BEGIN_OUT, comes: false, card });
        all.extend([END_DONE, END_NOT_DONE].into_iter().flat_map(|event| [false, true].map(|comes| Met::Event { event, comes, card })));
    }
    all.extend([END_DONE, END_NOT_DONE].map(|event| Met::Event { event, comes: true, card: Coming }));
    let more = [false, true].into_iter().flat_map(|bad| [Numbers::More { bad }, Numbers::Fewer { bad }]);
    let wrong = more.chain([Numbers::Above]).map(|numbers| (numbers, 39));
    let zero = [false, true].map(|twice| (Numbers::Zero { twice }, 37));
    let twice = [false, true].map(|drive| (Numbers::Twice { drive }, 38));
    let right = [(false, false), (false, true), (true, false), (true, true)].map(|(some, drive)| (Numbers::Right { some, drive }, 0));
    for (numbers, told) in wrong.chain(zero).chain(twice).chain(right) {
        all.insert(Met::Image { numbers, alone: 0, number: told });
        all.extend([6, 15].map(|alone| Met::Image { numbers, alone, number: alone }));
    }
    let by_belts = [(1, Pair, Pair), (1, Single, Single)];
    let by_shuttles = [(2, Pair, Single), (2, Single, Pair), (2, Single, Single)];
    let by_the_lift = [(4, Pair, Raised), (4, Raised, Pair)];
    for (opcode, from, to) in by_belts.into_iter().chain(by_shuttles).chain(by_the_lift) {
        all.insert(Met::Carried { opcode, from, to });
        all.insert(Met::Moving { from, to });
        all.extend([FAILED, STUCK].map(|ending| Met::Kept { opcode, ending, from }));
    }
    all.extend([Pair, Single, Raised].into_iter().flat_map(|kind| [false, true].map(|last| Met::At { kind, last })));
    all.insert(Met::Moving { from: Raised, to: Raised });
    all.extend([Zero, Coming, Gone, New].map(Met::NotHere));
    all.extend([false, true].map(Met::Leaving));
    let cars = [Pair, Single, Raised].map(Spot::Of);
    all.extend(cars.into_iter().flat_map(|spot| [SURE, LAST, MOVES].map(|flag| Met::Listed { spot, flag })));
    all.extend(cars.into_iter().flat_map(|spot| [SURE, LAST].map(|flag| Met::ChangedFrom { spot, flag })));
    all.insert(Met::Listed { spot: Spot::Waits, flag: SURE });
    all.extend([Spot::Waits, Spot::Nowhere].map(|spot| Met::ChangedFrom { spot, flag: SURE }));
    all.extend([(false, false), (true, false), (true, true)].map(|(set, answered)| Met::Open { set, answered }));
    all.extend([false, true].map(|some| Met::Changes { some }));
    // of the raised lift and of what waits there is one
    let one = |spot: Spot| !matches!(spot, Spot::Of(Pair | Single));
    let pairs = Spot::ALL.into_iter().flat_map(|from| Spot::ALL.map(|to| (from, to)));
    all.extend(pairs.filter(|&(from, to)| from != to || !one(from)).map(|(from, to)| Met::Changed { from, to }));
    all.insert(Met::Exchanged);
    all
}

/// Whether all was met that there is, and nothing else; if not, says what is amiss.
pub fn every_one(met: &BTreeSet<Met>) -> bool {
    let amiss: Vec<_> = met.symmetric_difference(&all()).copied().collect();
    if !amiss.is_empty() {
        eprintln!("desk: what was never met of cards, or can't be: {amiss:?}");
    }
    amiss.is_empty()
}
