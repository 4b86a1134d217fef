//! The desk's calls, by the papers' words, on desks as they come and as they are handed in.
mod handed;

use handed::{refusal, refusal_at, taken_as, told, LentDesk as Desk, START, TAKEN};
use station::raw::desk as raw;
use station::Number::*;
use station::Place::*;
use station::Whereabouts::*;
use station::{lent, Answer, Card};

const SIZE: usize = station::Desk::SIZE;
const LIFT_DOWN: [u8; 5] = [4, 2, 0, 0, 0];
const LIFT_UP: [u8; 5] = [4, 0, 0, 0, 0];

/// One instruction, requested as the set with this issue and reported done.
fn done(desk: &mut Desk, issue: u16, five: [u8; 5]) {
    assert_eq!((desk.request(1, &five), desk.result(issue, 0, 1)), (taken_as(issue), TAKEN), "{five:?}");
}

/// A desk with cars by an image.
fn with_cars(image: u64, cards: &[u32]) -> Desk {
    let mut desk = Desk::start();
    assert_eq!(desk.image(image, 0, cards), TAKEN);
    desk
}

/// A car's number goes with it: by the lift, along row 1, by the shuttle to row 2, along it; and up and out.
#[test]
fn a_number_goes_with_its_car() {
    let mut d = Desk::start();
    assert_eq!((d.event(1, 7001), d.whereabouts(7001), d.event(3, 0), d.whereabouts(7001)), (TAKEN, Ok(NotHere), TAKEN, Ok(At(Raised))));
    done(&mut d, 0, LIFT_DOWN);
    assert_eq!(d.whereabouts(7001), Ok(At(Cell(11))), "the lower of its two cells");
    for issue in 1..4 {
        done(&mut d, issue, [1, 1, 28, 1, 1]);
    }
    done(&mut d, 4, [1, 1, 28, 1, 0]);
    assert_eq!(d.whereabouts(7001), Ok(At(Cell(18))));
    done(&mut d, 5, [2, 1, 3, 0, 1]);
    assert_eq!(d.whereabouts(7001), Ok(At(Cell(29))));
    done(&mut d, 6, [1, 2, 6, 0, 1]);
    assert_eq!(d.whereabouts(7001), Ok(At(Cell(28))));
    // and another on the lift, which goes out
    assert_eq!(
        (d.image(0x0019_1B00_1000_0000, 0, &[7001, 7002]), d.leaving(), d.event(2, 0), d.leaving()),
        (TAKEN, Ok(None), TAKEN, Ok(Some(7002)))
    );
    assert_eq!((d.event(4, 0), d.leaving(), d.whereabouts(7002)), (TAKEN, Ok(None), Ok(At(Raised))), "who gives up stays");
    assert_eq!((d.event(2, 0), d.event(3, 0), d.leaving(), d.whereabouts(7002)), (TAKEN, TAKEN, Ok(None), Ok(NotHere)));
    assert_eq!((d.event(1, 7002), d.event(3, 0), d.whereabouts(7002)), (TAKEN, TAKEN, Ok(At(Raised))), "it comes again");
}

/// All instructions of a set are asked for, and each number goes with its own car's result, in whatever order these come.
#[test]
fn a_set_of_several() {
    let (row_2, row_3) = ([1, 2, 2, 1, 1], [1, 3, 2, 1, 1]);
    let mut d = with_cars(START | 1 << 21 | 1 << 31, &[7001, 7002]);
    assert_eq!((d.request(2, &[row_2, row_2].concat()), d.request(9, &row_2.repeat(9))), (refusal_at(Overlap, 1), refusal(TooMany)));
    assert_eq!((d.request(2, &[row_2, row_3].concat()), d.result(0, 1, 1)), (taken_as(0), TAKEN));
    assert_eq!((d.whereabouts(7001), d.whereabouts(7002)), (Ok(Moving { from: Cell(21), to: Cell(22) }), Ok(At(Cell(32)))));
    assert_eq!((d.result(0, 0, 1), d.whereabouts(7001)), (TAKEN, Ok(At(Cell(22)))));
    assert_eq!((d.result(0, 0, 1), d.request(0, &[])), (refusal(NoSet), refusal(EmptySet)));
}

/// Numbers move on success and not otherwise.
#[test]
fn acceptance_failure_and_a_jam_move_no_number() {
    let mut d = with_cars(0x0049_1B00_0000_1800, &[7001]);
    assert_eq!((d.request(1, &LIFT_UP), d.whereabouts(7001)), (taken_as(0), Ok(Moving { from: Cell(11), to: Raised })));
    assert_eq!((d.result(0, 0, 0), d.whereabouts(7001)), (TAKEN, Ok(At(Cell(11)))));
    done(&mut d, 1, LIFT_UP);
    assert_eq!(d.whereabouts(7001), Ok(At(Raised)));
    assert_eq!((d.request(1, &LIFT_DOWN), d.result(2, 0, 2), d.whereabouts(7001)), (taken_as(2), TAKEN, Ok(LastKnown(Raised))));
}

/// Two shuttles that move together take each its own car.
#[test]
fn shuttles_do_not_exchange_numbers() {
    let mut d = with_cars(START | 3 << 18 | 1 << 29, &[7001, 7002]);
    done(&mut d, 0, [2, 1, 3, 0, 1]);
    assert_eq!((d.whereabouts(7001), d.whereabouts(7002)), (Ok(At(Cell(29))), Ok(At(Cell(39)))));
    done(&mut d, 1, [2, 1, 6, 0, 0]);
    assert_eq!((d.whereabouts(7001), d.whereabouts(7002)), (Ok(At(Cell(18))), Ok(At(Cell(29)))));
}

/// 37 before 38, both after what the station says; nothing has begun then.
#[test]
fn numbers_that_cannot_come_in() {
    let mut d = with_cars(START | 1 << 24, &[7001]);
    let before = d.clone();
    assert_eq!((d.event(1, 0), d.event(1, 7001), &d), (refusal(ZeroNumber), refusal(KnownNumber), &before));
    assert_eq!((d.event(1, u32::MAX), d.event(1, 0), d.event(1, 7001)), (TAKEN, refusal(OutOfTurn), refusal(OutOfTurn)));
    assert_eq!((d.event(4, 7001), d.whereabouts(u32::MAX), &d), (TAKEN, Ok(NotHere), &before), "a number that is dropped");
    assert_eq!((d.event(1, u32::MAX), d.event(3, 0), d.event(1, 0)), (TAKEN, TAKEN, refusal(EventImpossible)));
    assert_eq!((d.whereabouts(u32::MAX), d.whereabouts(0)), (Ok(At(Raised)), Ok(NotHere)));
}

/// 33 is the station's, so it comes before 37 and 38; with 26 cars these are told.
#[test]
fn places_are_kept_open_whatever_the_number() {
    let filled = 0x0000_3FFF_FFFF_C3FF;
    let cards: Vec<u32> = (7001..=7028).collect();
    let mut d = with_cars(filled, &cards);
    let before = d.clone();
    assert_eq!([0, 7001, 8000].map(|card| d.event(1, card)), [refusal(KeptOpen); 3]);
    assert_eq!(d, before);
    let open = filled & !(1 << 38 | 1 << 39);
    let mut d = with_cars(open, &cards[..26]);
    assert_eq!([0, 7001, 8000].map(|card| d.event(1, card)), [refusal(ZeroNumber), refusal(KnownNumber), TAKEN]);
    assert_eq!((d.event(3, 0), d.whereabouts(8000)), (TAKEN, Ok(At(Raised))));
    // a number that is on its way in comes with its car, however many there are
    let mut d = Desk::start();
    let coming: Vec<u32> = (7001..=7029).collect();
    assert_eq!((d.image(filled | 1 << 55, 0, &coming), d.event(3, 0), d.whereabouts(7029)), (TAKEN, TAKEN, Ok(At(Raised))));
}

/// An image's numbers: in the order of the cells, the raised lift last, then a drive-in; 39 before 37 before 38, the station's before all.
#[test]
fn numbers_with_an_image() {
    let full = START | 0b1111 << 6 | 1 << 21 | 1 << 35 | 1 << 52;
    let mut d = with_cars(full, &[1, 2, 3, 4, 5]);
    let places = [Cell(6), Cell(8), Cell(21), Cell(35), Raised];
    for (card, place) in (1..).zip(places) {
        assert_eq!(d.whereabouts(card), Ok(At(place)));
    }
    let before = d.clone();
    let wrong_counts = [&[][..], &[1, 2, 3, 4], &[1, 2, 3, 4, 5, 6], &[0, 0, 0, 0], &[0; 31], &[0; 32], &[0; 255], &[0; 300]];
    for cards in wrong_counts {
        assert_eq!(d.image(full, 0, cards), refusal(WrongCount), "{} numbers", cards.len());
    }
    assert_eq!((d.image(full, 0, &[1, 1, 3, 4, 0]), d.image(full, 0, &[1, 2, 3, 4, 1])), (refusal(ZeroNumber), refusal(KnownNumber)));
    assert_eq!((d.image(full, 1, &[]), d.image(1, 0, &[]), &d), (refusal(Unsound), refusal(Unsound), &before));
    assert_eq!((d.request(1, &[1, 3, 2, 0, 1]), d.image(full, 0, &[]), d.result(0, 0, 0)), (taken_as(0), refusal(SetOutstanding), TAKEN));
    // with a drive-in one number more, which counts for 38
    let coming = START | 1 << 24 | 1 << 55;
    assert_eq!(
        (d.image(coming, 0, &[1]), d.image(coming, 0, &[1, 1]), d.image(coming, 0, &[1, 9])),
        (refusal(WrongCount), refusal(KnownNumber), TAKEN)
    );
    assert_eq!((d.whereabouts(9), d.whereabouts(3), d.event(3, 0), d.whereabouts(9)), (Ok(NotHere), Ok(NotHere), TAKEN, Ok(At(Raised))));
    assert_eq!((d.image(START, 0, &[]), d.whereabouts(1), d), (TAKEN, Ok(NotHere), taken_once(with_cars(START, &[]))));
}

/// The same with one set issued, which failed.
fn taken_once(mut desk: Desk) -> Desk {
    assert_eq!((desk.request(1, &LIFT_DOWN), desk.result(0, 0, 0)), (taken_as(0), TAKEN));
    desk
}

/// After a jam a car there is at its last known place, and others are told for sure, until an image clears it.
#[test]
fn last_known_places() {
    let mut d = with_cars(0x0009_1B08_1100_000C, &[7000, 7001, 7002, 7003]);
    assert_eq!((d.request(1, &[1, 2, 2, 1, 1]), d.result(0, 0, 2)), (refusal_at(NotFree, 0), refusal(NoSet)));
    assert_eq!((d.request(1, &[1, 2, 6, 1, 1]), d.result(0, 0, 2)), (taken_as(0), TAKEN));
    assert_eq!((d.whereabouts(7001), d.whereabouts(7002)), (Ok(LastKnown(Cell(24))), Ok(LastKnown(Cell(28)))));
    assert_eq!((d.whereabouts(7000), d.whereabouts(7003), d.event(1, 7001)), (Ok(At(Cell(2))), Ok(At(Cell(35))), refusal(KnownNumber)));
    assert_eq!((d.request(1, &[1, 1, 2, 1, 1]), d.result(1, 0, 2), d.whereabouts(7000)), (taken_as(1), TAKEN, Ok(LastKnown(Cell(2)))));
    assert_eq!((d.image(0x0009_1B08_2200_000C, 0, &[7000, 7001, 7002, 7003]), d.whereabouts(7002)), (TAKEN, Ok(At(Cell(29)))));
    // handed in, either half of a car in row 1
    for cell in [2, 3] {
        let mut room = d.0;
        room[52..60].copy_from_slice(&(1u64 << cell).to_le_bytes());
        assert_eq!(Desk(room).whereabouts(7000), Ok(LastKnown(Cell(2))), "cell {cell}");
    }
}

/// Numbers that are not those of the record's cars make a desk unfit, whatever is asked of it.
#[test]
fn numbers_of_a_handed_in_desk() {
    let fit = with_cars(START | 0b11 << 6 | 1 << 21 | 1 << 52, &[1, 2, 3]);
    let changed = |desk: &Desk, place: usize, card: u32| {
        let mut room = desk.0;
        room[60 + 4 * place..][..4].copy_from_slice(&card.to_le_bytes());
        Desk(room)
    };
    assert_eq!(changed(&fit, 6, 9).whereabouts(9), Ok(At(Cell(6))), "another number is a desk too");
    // missing; where no car is; at an upper half; twice
    for (place, card) in [(6, 0), (21, 0), (40, 0), (5, 9), (22, 9), (41, 9), (7, 9), (7, 1), (21, 1), (40, 2)] {
        let mut d = changed(&fit, place, card);
        let before = d.clone();
        assert_eq!(
            (d.event(2, 0), d.request(1, &LIFT_DOWN), d.result(0, 0, 1)),
            (refusal(Unfit), refusal(Unfit), refusal(Unfit)),
            "{place} {card}"
        );
        assert_eq!(
            (d.image(START, 0, &[]), d.ask(), d.whereabouts(1), d.leaving()),
            (refusal(Unfit), Err(told(Unfit)), Err(told(Unfit)), Err(told(Unfit)))
        );
        assert_eq!((d.request(1, &[]), d), (refusal(TooFewBytes), before), "before 16");
    }
    let mut coming = with_cars(START, &[]);
    assert_eq!(
        (coming.event(1, 5), changed(&coming, 41, 0).ask(), changed(&coming, 40, 6).ask()),
        (TAKEN, Err(told(Unfit)), Err(told(Unfit)))
    );
}

#[test]
fn short_rooms_are_refused_and_long_ones_keep_their_rest() {
    let mut room = [0xEE; SIZE + 2];
    let start = |room: &mut [u8]| lent::desk_start(room);
    assert_eq!((start(&mut room[..SIZE - 1]), room), (refusal(NoRoom), [0xEE; SIZE + 2]));
    assert_eq!((start(&mut room), &room[..SIZE], &room[SIZE..]), (TAKEN, &Desk::start().0[..], &[0xEE; 2][..]));
    let mut card = [0xEE; 5];
    let leaving = |card: &mut [u8]| lent::desk_leaving(&room, card);
    assert_eq!((leaving(&mut card[..3]), card), (refusal(NoRoom), [0xEE; 5]));
    assert_eq!((leaving(&mut card), card), (TAKEN, [0, 0, 0, 0, 0xEE]));
    // of numbers that are lent too short, before what they are; of more than there can be none is looked at
    let image = |room: &mut [u8], count, cards: &[u8]| lent::desk_image(room, 1, 0, count, cards);
    assert_eq!(image(&mut room, 2, &[0; 7]), refusal(TooFewBytes));
    assert_eq!((image(&mut room, 31, &[0; 123]), image(&mut room, 32, &[])), (refusal(TooFewBytes), refusal(Unsound)));
}

#[test]
fn no_bytes_may_be_at_null() {
    use std::ptr::{null, null_mut};
    let no_desk = unsafe {
        [
            raw::desk_start(null_mut(), 0),
            raw::desk_request(null_mut(), 0, 0, null(), 0),
            raw::desk_event(null_mut(), 0, 1, 1),
            raw::desk_result(null_mut(), 0, 0, 0, 1),
            raw::desk_image(null_mut(), 0, START, 0, 0, null(), 0),
            raw::desk_ask(null(), 0, null_mut(), 0),
            raw::desk_where(null(), 0, 1),
            raw::desk_leaving(null(), 0, null_mut(), 0),
        ]
    };
    assert_eq!(no_desk.map(Answer::of), [refusal(NoRoom); 8]);
    let mut room = Desk::start().0;
    let said = unsafe { raw::desk_image(room.as_mut_ptr(), room.len(), START, 0, 0, null(), 0) };
    assert_eq!((Answer::of(said), room), (TAKEN, Desk::start().0));
}

/// Places and sizes are the header's.
#[test]
fn the_header_has_them() {
    let header = include_str!("../../../include/desk.h");
    for line in ["DESK_SIZE = 228", "DESK_AT_LIFT = 40", "DESK_AT_DRIVE = 41", "DESK_RAISED = 52", "DESK_NOT_HERE = 255"] {
        assert!(header.contains(line), "{line}");
    }
}

/// The cards of all cars, and of one that is coming.
#[test]
fn cards_by_their_places() {
    let typed = |desk: &Desk| station::Desk::from_bytes(&desk.0).expect("a desk");
    let d = typed(&with_cars(START | 0b1111 << 6 | 1 << 35 | 1 << 52, &[1, 2, 3, 4]));
    assert_eq!(d.cards(), [(Cell(6), Card(1)), (Cell(8), Card(2)), (Cell(35), Card(3)), (Raised, Card(4))]);
    assert_eq!(d.cards().into_iter().map(|(place, _)| place).collect::<Vec<_>>(), d.record().places().expect("a sound record"));
    let d = typed(&with_cars(START | 1 << 35 | 1 << 55, &[3, 9]));
    assert_eq!((d.cards(), d.coming(), d.leaving()), (vec![(Cell(35), Card(3))], Some(Card(9)), None));
}

#[test]
fn answers_in_words() {
    let places = [At(Cell(11)), LastKnown(Raised), NotHere].map(|place| place.to_string());
    assert_eq!(places, ["at cell 11", "last known at the raised lift", "not here"]);
    assert_eq!(refusal(ZeroNumber).to_string(), "37 (number zero)");
    assert_eq!(refusal(KnownNumber).to_string(), "38 (number already in the garage, or given twice)");
    assert_eq!(refusal(WrongCount).to_string(), "39 (not that many numbers)");
    assert_eq!(refusal_at(OddCount, 2).to_string(), "24 (odd count: a car would be torn) at 2");
}

/// What is told of all cars, of what is outstanding, and of what an image would change, which changes nothing.
#[test]
fn all_cars_and_what_an_image_would_change() {
    use station::{Event, Issue, Line, Outcome};
    let line = |card, place, flag, next| Line { card: Card(card), place, flag, next };
    let mut desk = station::Desk::new();
    desk.event(Event::BeginIn, Some(Card(7001))).unwrap();
    assert_eq!(desk.list(), [line(7001, 55, 0, 0)], "a card that waits");
    desk.event(Event::EndedDone, None).unwrap();
    let issue = desk.request(&[LIFT_DOWN.try_into().unwrap()]).unwrap();
    assert_eq!((desk.list(), desk.outstanding()), (vec![line(7001, 52, 2, 11)], (issue, vec![(LIFT_DOWN, false)])), "in motion");
    assert_eq!(desk.compare(desk.record(), &[Card(7002)]).unwrap_err().number, SetOutstanding);
    desk.result(issue, 0, Outcome::Failed).unwrap();
    let kept = *desk.bytes();
    assert_eq!((desk.outstanding(), desk.compare(desk.record(), &[Card(7001)])), ((Issue(0), vec![]), Ok(vec![])));
    assert_eq!(desk.compare(desk.record(), &[Card(7002)]), Ok(vec![line(7001, 52, 0, 255), line(7002, 255, 0, 52)]));
    assert_eq!(desk.bytes(), &kept, "the desk is as it was");
}
