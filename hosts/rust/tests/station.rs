//! The station's calls, by the papers' words, on stations as they come and as they are handed in.
mod handed;

use handed::{allowed, cars, next, refusal, refusal_at, shown, sound, taken_as, told, Station, START, TAKEN};
use station::raw::station as raw;
use station::Number::*;
use station::{lent, Answer, Event, Outcome};

const SIZE: usize = station::Station::SIZE;
const REPLY_MOST: usize = 20;
const LIFT_DOWN: [u8; 5] = [4, 2, 0, 0, 0];
const TO_THE_LEFT: [u8; 5] = [1, 1, 6, 0, 0];

#[test]
fn a_car_goes_down_and_to_the_left() {
    let mut s = Station::start();
    assert_eq!(s.ask(), shown(START));
    assert_eq!((s.event(1), s.event(3), s.event(1)), (TAKEN, TAKEN, refusal(EventImpossible)));
    assert_eq!(s.request(1, &LIFT_DOWN), taken_as(0));
    assert_eq!(s.ask(), shown(START | 1 << 52), "acceptance leaves the record");
    assert_eq!((s.event(2), s.image(START, 0)), (refusal(SetOutstanding), refusal(SetOutstanding)));
    assert_eq!(s.result(0, 0, 1), TAKEN);
    assert_eq!(s.ask(), shown(0x0049_1B00_0000_1800));
    assert_eq!((s.request(1, &TO_THE_LEFT), s.result(1, 0, 1)), (taken_as(1), TAKEN));
    assert_eq!(s.ask(), shown(0x0049_1B00_0000_0C00));
    assert_eq!(s.request(1, &[4, 0, 0, 0, 0]), refusal_at(OddCount, 0));
}

#[test]
fn refusals_come_in_order_and_change_nothing() {
    let mut s = Station::start();
    assert_eq!(s.request(1, &LIFT_DOWN[..4]), refusal(TooFewBytes));
    assert_eq!(s.request(9, &[]), refusal(TooMany));
    assert_eq!(s.request(0, &[]), refusal(EmptySet));
    assert_eq!(s.request(2, &[LIFT_DOWN, [4, 3, 0, 0, 0]].concat()), refusal_at(BadField, 1));
    assert_eq!(s.request(2, &[LIFT_DOWN, LIFT_DOWN].concat()), refusal_at(Overlap, 1));
    assert_eq!((s.result(0, 0, 1), s.result(0, 0, 3), s.event(5)), (refusal(NoSet), refusal(BadField), refusal(BadField)));
    assert_eq!(s.image(1, 0), refusal(Unsound));
    assert_eq!(s, Station::start());
    let mut damaged = Station([0xEE; SIZE]);
    assert_eq!((damaged.event(1), damaged.ask()), (refusal(Unfit), Err(told(Unfit))));
    assert_eq!(damaged.request(1, &[]), refusal(TooFewBytes), "before 16");
    assert_eq!(damaged.0, [0xEE; SIZE]);
}

/// While a driver is in the lift nothing moves it, and a driver who gives up has changed nothing.
#[test]
fn drivers_take_their_time() {
    let (coming, parked, leaving) = (START | 1 << 55, START | 1 << 52, START | 1 << 52 | 1 << 56);
    let mut s = Station::start();
    assert_eq!((s.event(4), s.event(2), s.event(1), s.ask()), (refusal(OutOfTurn), refusal(EventImpossible), TAKEN, shown(coming)));
    assert_eq!((s.event(1), s.event(2)), (refusal(OutOfTurn), refusal(OutOfTurn)), "before 10");
    // by a request at any place, and by the questions, whose room is left as it was
    let belt = [1, 1, 2, 0, 1];
    assert_eq!((s.request(1, &LIFT_DOWN), s.request(2, &[belt, [5, 0, 0, 0, 0]].concat())), (refusal(OutOfTurn), refusal(OutOfTurn)));
    assert_eq!((allowed(coming, &LIFT_DOWN), next(coming, &LIFT_DOWN)), (refusal(OutOfTurn), Err(told(OutOfTurn))));
    assert_eq!((allowed(coming, &belt), next(coming, &belt)), (TAKEN, Ok(coming)));
    // a belt beside the driver, who gives up before it is done
    assert_eq!((s.request(1, &belt), s.event(4), s.result(0, 0, 1), s.ask()), (taken_as(0), TAKEN, TAKEN, shown(START)));
    assert_eq!((s.event(1), s.event(3), s.event(2), s.ask(), cars(leaving)), (TAKEN, TAKEN, TAKEN, shown(leaving), Some(1)));
    assert_eq!((s.image(parked, 0), s.event(4), s.event(2), s.event(3), s.ask()), (TAKEN, refusal(OutOfTurn), TAKEN, TAKEN, shown(START)));
    // a lift on its way keeps drivers out; a station that has both is none
    assert_eq!((s.request(1, &LIFT_DOWN), s.event(1), s.event(3)), (taken_as(1), refusal(SetOutstanding), refusal(SetOutstanding)));
    let mut room = s.0;
    room[6] |= 0x80;
    let mut both = Station(room);
    assert_eq!((both.result(1, 0, 1), both.event(3), both.ask()), (refusal(Unfit), refusal(Unfit), Err(told(Unfit))));
    assert_eq!([coming, leaving, parked | 1 << 55, START | 3 << 55, coming | 1 << 53].map(sound), [true, true, false, false, false]);
}

/// Every call looks at the set that a handed-in station holds: whether two of it overlap, answered or not, and whether what still
/// waits is allowed on the record.
#[test]
fn the_set_of_a_handed_in_station() {
    let holding = |record: u64, set: &[[u8; 5]], answered| {
        let mut room = Station::start().0;
        room[..8].copy_from_slice(&record.to_le_bytes());
        room[8..10].copy_from_slice(&[set.len() as u8, answered]);
        room[10..10 + 5 * set.len()].copy_from_slice(&set.concat());
        Station(room)
    };
    let (tilt, belt, turn) = ([3, 0, 3, 1, 0], [1, 1, 2, 0, 1], [5, 0, 0, 0, 0]);
    let overlapping = [(vec![tilt, tilt], 0), (vec![tilt, tilt], 1), (vec![tilt, belt, tilt], 4), (vec![tilt, belt, tilt], 5)];
    let barred = [(vec![turn], 0), (vec![tilt, turn], 1)];
    for (set, answered) in overlapping.into_iter().chain(barred) {
        let mut s = holding(START, &set, answered);
        let before = s.clone();
        // a result that failed and one that comes twice, an event that doesn't touch the set, an ask
        assert_eq!((s.result(65535, 1, 0), s.result(65535, 0, 1), s.event(1)), (refusal(Unfit), refusal(Unfit), refusal(Unfit)), "{set:?}");
        assert_eq!((s.ask(), s.image(START, 0), s.request(1, &belt)), (Err(told(Unfit)), refusal(Unfit), refusal(Unfit)));
        assert_eq!((s.message(&[2, 0, 5, 0]).0, s), (refusal(Unfit), before));
    }
    // the lift is down: that it may not go down again counts no more, since it is answered
    let down = START | 2 << 53;
    let mut s = holding(down, &[LIFT_DOWN, [1, 2, 2, 0, 1]], 1);
    assert_eq!(
        (s.ask(), s.result(65535, 0, 1), s.result(65535, 1, 1), s.ask()),
        (shown(down), refusal(AlreadyAnswered), TAKEN, shown(down))
    );
}

/// A result that comes when its set has closed and the next has begun is not taken for the next set's.
#[test]
fn results_of_another_set_are_told() {
    let mut s = Station::start();
    assert_eq!((s.request(1, &LIFT_DOWN), s.result(0, 0, 0), s.result(0, 0, 1)), (taken_as(0), TAKEN, refusal(NoSet)));
    assert_eq!((s.request(1, &LIFT_DOWN), s.request(1, &LIFT_DOWN)), (taken_as(1), refusal(SetOutstanding)));
    let before = s.clone();
    assert_eq!((s.result(0, 0, 1), s.result(0, 8, 1)), (refusal(Late), refusal(Late)), "before 12");
    assert_eq!((s.result(2, 0, 1), s.result(2, 0, 3)), (refusal(NotIssued), refusal(BadField)), "after 4");
    // a matter of distance only, though none of these was issued
    assert_eq!((s.result(32770, 0, 1), s.result(32769, 0, 1)), (refusal(Late), refusal(NotIssued)));
    assert_eq!(s, before);
    assert_eq!((s.result(1, 0, 1), s.ask()), (TAKEN, shown(START | 2 << 53)));
    assert_eq!((s.image(START, 0), s.request(1, &LIFT_DOWN)), (TAKEN, taken_as(2)), "an image keeps the count");
}

#[test]
fn the_count_starts_over() {
    let mut room = Station::start().0;
    room[50..52].copy_from_slice(&[0xFF, 0xFF]);
    let mut s = Station(room);
    assert_eq!((s.request(1, &LIFT_DOWN), s.result(65535, 0, 0)), (taken_as(65535), TAKEN));
    assert_eq!(s, Station::start());
    assert_eq!(s.request(1, &LIFT_DOWN), taken_as(0));
    let said = s.message(&[6, 0, 3, 0, 0xFF, 0xFF, 0, 1]);
    assert_eq!(said, (refusal(Late), vec![6, 0, 128, 0, 29, 255, 0, 0]));
    assert_eq!(s.message(&[6, 0, 3, 0, 0, 0, 0, 1]), (TAKEN, vec![6, 0, 128, 0, 0, 255, 0, 0]));
    let said = s.message(&[8, 0, 1, 0, 1, 4, 0, 0, 0, 0]);
    assert_eq!(said, (taken_as(1), vec![6, 0, 128, 0, 0, 255, 1, 0]));
}

#[test]
fn short_rooms_are_refused_and_long_ones_keep_their_rest() {
    let mut room = [0xEE; SIZE + 2];
    let said = |room: &mut [u8]| lent::station_start(room);
    assert_eq!(said(&mut room[..SIZE - 1]), refusal(NoRoom));
    assert_eq!(room, [0xEE; SIZE + 2]);
    assert_eq!(said(&mut room), TAKEN);
    assert_eq!((&room[..SIZE], &room[SIZE..]), (&Station::start().0[..], &[0xEE; 2][..]));
    let mut image = [0xEE; 17];
    let said = |image: &mut [u8]| lent::station_ask(&room, image);
    assert_eq!((said(&mut image[..15]), image), (refusal(NoRoom), [0xEE; 17]));
    assert_eq!((said(&mut image), image), (TAKEN, [0, 0, 0, 0, 0, 0x1B, 9, 0, 0, 0, 0, 0, 0, 0, 0, 0, 0xEE]));
}

#[test]
fn no_bytes_may_be_at_null() {
    use std::ptr::{null, null_mut};
    let start = Station::start();
    let mut room = start.0;
    let (station, length, mut reply, mut eight) = (room.as_mut_ptr(), room.len(), [0xEE; REPLY_MOST], [0xEE; 8]);
    let five = [4, 2, 0, 0, 0];
    let (to, answer) = (eight.as_mut_ptr(), reply.as_mut_ptr());
    let no_station = unsafe {
        [
            raw::station_start(null_mut(), 0),
            raw::station_request(null_mut(), 0, 0, null(), 0),
            raw::station_event(null_mut(), 0, 1),
            raw::station_result(null_mut(), 0, 0, 0, 1),
            raw::station_image(null_mut(), 0, START, 0),
            raw::station_ask(null(), 0, null_mut(), 0),
            raw::station_ask(station, length, null_mut(), 0),
            raw::station_message(null_mut(), 0, null(), 0, null_mut(), 0),
            raw::station_message(station, length, null(), 0, null_mut(), 0),
            raw::garage_next(START, null(), 0, null_mut(), 0),
            raw::garage_next(START, five.as_ptr(), five.len(), null_mut(), 0),
            raw::garage_area(null(), 0, null_mut(), 0),
            raw::garage_area(five.as_ptr(), five.len(), null_mut(), 0),
        ]
    };
    assert_eq!(no_station.map(Answer::of), [refusal(NoRoom); 13]);
    let no_input = unsafe {
        [
            raw::station_request(station, length, 0, null(), 0),
            raw::station_request(station, length, 9, null(), 0),
            raw::station_request(station, length, 8, null(), 0),
            raw::station_message(station, length, null(), 0, answer, REPLY_MOST),
            raw::garage_allowed(START, null(), 0),
            raw::garage_next(START, null(), 0, to, 8),
            raw::garage_area(null(), 0, to, 8),
            raw::garage_overlap(null(), 0, five.as_ptr(), five.len()),
            raw::garage_overlap(five.as_ptr(), five.len(), null(), 0),
        ]
    };
    let [empty, many, few @ ..] = no_input.map(Answer::of);
    assert_eq!((empty, many, few), (refusal(EmptySet), refusal(TooMany), [refusal(TooFewBytes); 7]));
    assert_eq!((&room, eight, &reply[..9]), (&start.0, [0xEE; 8], &[6, 0, 128, 0, 1, 255, 0, 0, 0xEE][..]));
}

#[test]
fn questions_on_a_record() {
    assert_eq!((sound(START), cars(START)), (true, Some(0)));
    assert_eq!((sound(1), cars(1)), (false, None));
    assert_eq!(cars(0x0049_1B00_0000_3C00), Some(2));
    assert_eq!(allowed(0x0049_1B00_0000_3C00, &[4, 0, 0, 0, 0]), refusal(OddCount));
    assert_eq!(allowed(START, &[4, 0, 1, 0, 0]), refusal(BadField));
    assert_eq!((next(START, &[6, 0, 0, 0, 0]), next(START, &[4, 0, 0, 0, 0])), (Err(told(BadField)), Err(told(SameHeight))));
    assert_eq!((allowed(START | 3, &[2, 0, 3, 0, 1]), next(START | 3, &[2, 0, 3, 0, 1])), (TAKEN, Ok(0x0009_1E00_0010_0000)));
}

#[test]
fn the_session_of_the_rules() {
    let mut s = Station::start();
    assert_eq!(s.message(&[3, 0, 2, 0, 1, 2, 0, 5, 0]), (TAKEN, vec![6, 0, 128, 0, 0, 255, 0, 0]));
    assert_eq!(s.message(&[2, 0, 5, 0]), (TAKEN, vec![18, 0, 129, 0, 0, 0, 0, 0, 0, 0x1B, 0x89, 0, 0, 0, 0, 0, 0, 0, 0, 0]));
    assert_eq!(s.message(&[3, 0, 2, 0, 3]), (TAKEN, vec![6, 0, 128, 0, 0, 255, 0, 0]));
    let before = s.clone();
    assert_eq!(s.message(&[]), (refusal(TooFewBytes), vec![6, 0, 128, 0, 1, 255, 0, 0]));
    assert_eq!(s.message(&[8, 0, 1, 0, 1, 4, 0, 0, 0, 0]), (refusal_at(SameHeight, 0), vec![6, 0, 128, 0, 26, 0, 0, 0]));
    assert_eq!(s, before);
}

#[test]
fn answers_in_words() {
    let said = |all: &[&dyn ToString]| all.iter().map(|one| one.to_string()).collect::<Vec<_>>();
    assert_eq!(said(&[&Outcome::Failed, &Outcome::Done, &Outcome::Stuck]), ["failed", "done", "stuck"]);
    let events = said(&[&Event::BeginIn, &Event::BeginOut, &Event::EndedDone, &Event::EndedNotDone]);
    assert_eq!(events, ["begin in", "begin out", "ended and done", "ended and not done"]);
    assert_eq!(TAKEN.to_string(), "0 (taken)");
    assert_eq!(refusal_at(OddCount, 2).to_string(), "24 (odd count: a car would be torn) at 2");
    assert_eq!(refusal(Late).to_string(), "29 (late: of a set before the present one)");
    assert_eq!(refusal(NotIssued).to_string(), "30 (of a set that was not issued)");
    assert_eq!(refusal(OutOfTurn).to_string(), "31 (out of turn)");
    assert_eq!(refusal_at(SetApart, 1).to_string(), "32 (a part is set apart) at 1");
    assert_eq!(refusal(KeptOpen).to_string(), "33 (places are kept open)");
}

/// From 27 cars on no drive-in begins; whatever else could be told comes first, an end is taken, and so is an image.
#[test]
fn places_are_kept_open() {
    // the most with the lift empty at street
    let filled = 0x0000_3FFF_FFFF_C3FF;
    let (fewer, open) = (filled & !(1 << 25), filled & !(1 << 25 | 1 << 35));
    assert_eq!([filled, fewer, open].map(cars), [Some(28), Some(27), Some(26)]);
    let mut s = Station::start();
    for full in [filled, fewer] {
        assert_eq!((s.image(full, 0), s.event(1), s.ask()), (TAKEN, refusal(KeptOpen), shown(full)));
        assert_eq!(s.message(&[3, 0, 2, 0, 1]), (refusal(KeptOpen), vec![6, 0, 128, 0, 33, 255, 0, 0]));
    }
    // with 26 one comes, and then the lift must bring it down before it is asked again how many there are
    assert_eq!(
        (s.image(open, 0), s.event(1), s.event(1), s.event(3), s.event(1)),
        (TAKEN, TAKEN, refusal(OutOfTurn), TAKEN, refusal(EventImpossible))
    );
    assert_eq!(s.ask(), shown(open | 1 << 52));
    // who is on the way in may come, which makes 29; and anyone may go
    assert_eq!(
        (s.image(filled | 1 << 55, 0), s.event(3), s.ask(), cars(filled | 1 << 52)),
        (TAKEN, TAKEN, shown(filled | 1 << 52), Some(29))
    );
    assert_eq!((s.event(2), s.event(3), s.event(1)), (TAKEN, TAKEN, refusal(KeptOpen)));
    // thirty fit where the lift is down, and such an image is taken
    let thirty = 0x0040_3FFF_FFFF_FFFF;
    assert_eq!((s.image(thirty, 0), cars(thirty), s.event(1)), (TAKEN, Some(30), refusal(EventImpossible)));
}

/// What is stuck is set apart, through other sets, until an image clears it.
#[test]
fn jams_are_set_apart() {
    let (belt, tilt, middle) = ([1, 2, 2, 0, 1], [3, 0, 3, 1, 0], 0xFF << 21);
    let mut s = Station::start();
    assert_eq!((s.request(2, &[belt, tilt].concat()), s.result(0, 0, 2), s.ask()), (taken_as(0), TAKEN, Ok((START, middle))));
    assert_eq!(
        (s.result(0, 0, 1), s.result(0, 0, 3), s.image(START, 0)),
        (refusal(AlreadyAnswered), refusal(BadField), refusal(SetOutstanding))
    );
    let tilted = START ^ 1 << 48 ^ 1 << 42;
    assert_eq!((s.result(0, 1, 1), s.ask()), (TAKEN, Ok((tilted, middle))), "it outlives its set");
    // at the least place, before an overlap, and whatever the record says; the questions know nothing of it
    assert_eq!(s.request(3, &[tilt, tilt, belt].concat()), refusal_at(SetApart, 2));
    assert_eq!((s.request(1, &[1, 2, 7, 0, 0]), allowed(tilted, &belt)), (refusal_at(SetApart, 0), TAKEN));
    // other sets go on, and what gets stuck of them is set apart too: of the lift one bit
    assert_eq!(
        (s.request(1, &[4, 1, 0, 0, 0]), s.result(1, 0, 1), s.request(1, &[5, 0, 0, 0, 0]), s.event(1)),
        (taken_as(1), TAKEN, taken_as(2), refusal(SetOutstanding))
    );
    assert_eq!((s.result(2, 0, 2), s.ask()), (TAKEN, Ok((tilted | 1 << 53, middle | 1 << 52 | 0xE700))));
    assert_eq!((s.event(1), s.event(2), s.event(3)), (refusal(SetApart), refusal(SetApart), refusal(OutOfTurn)));
    // in bytes too, and by a message
    assert_eq!(s.0[52..], (middle | 1 << 52 | 0xE700u64).to_le_bytes());
    assert_eq!(s.message(&[3, 0, 2, 0, 1]), (refusal(SetApart), vec![6, 0, 128, 0, 32, 255, 0, 0]));
    // an image with a second number is refused, whatever it is; one without clears it
    let before = s.clone();
    assert_eq!(
        (s.image(START, 1), s.image(START, 1 << 52), s.image(START, 1 << 63), &s),
        (refusal(Unsound), refusal(Unsound), refusal(Unsound), &before)
    );
    assert_eq!((s.image(START, 0), s.ask(), s.request(1, &belt)), (TAKEN, shown(START), taken_as(3)));
}

/// The row doesn't stop for the lift: belts beside it stand in one set with it, and a jam of either leaves the other free.
#[test]
fn the_row_goes_on_beside_the_lift() {
    // a car on the lift in the basement, one on each belt beside it
    let loaded = START | 2 << 53 | 0b11 << 4 | 0b11 << 11 | 0b11 << 15;
    let [up, left, right, lift_belt] = [[4, 0, 0, 0, 0], [1, 1, 2, 1, 1], [1, 1, 8, 0, 1], [1, 1, 6, 1, 0]];
    let after = START | 1 << 52 | 0b11 << 6 | 0b11 << 13;
    for order in [[0, 1, 2], [2, 1, 0], [1, 2, 0]] {
        let mut s = Station::start();
        assert_eq!((s.image(loaded, 0), s.request(3, &[up, left, right].concat())), (TAKEN, taken_as(0)));
        for number in order {
            assert_eq!(s.result(0, number, 1), TAKEN, "{order:?}");
        }
        assert_eq!(s.ask(), shown(after));
    }
    let mut s = Station::start();
    assert_eq!((s.image(loaded, 0), s.request(2, &[up, lift_belt].concat())), (TAKEN, refusal_at(Overlap, 1)));
    assert_eq!((s.request(1, &left), s.result(0, 0, 2), s.request(1, &up), s.result(1, 0, 2)), (taken_as(0), TAKEN, taken_as(1), TAKEN));
    assert_eq!((s.ask(), s.request(1, &right)), (Ok((loaded, 1 << 52 | 0x1FFC)), taken_as(2)));
    // a car half on the lift
    let mut s = Station::start();
    assert_eq!((s.image(START | 2 << 53 | 0b11 << 10, 0), s.request(2, &[right, up].concat())), (TAKEN, refusal_at(OddCount, 1)));
}

/// Handed in, anything may be set apart that there is: but no bit above the lift's.
#[test]
fn what_is_set_apart_in_a_handed_in_station() {
    let apart = |number: u64| {
        let mut room = Station::start().0;
        room[52..].copy_from_slice(&number.to_le_bytes());
        Station(room)
    };
    assert_eq!(apart((1 << 53) - 1).ask(), Ok((START, (1 << 53) - 1)));
    for bit in 53..64 {
        let mut s = apart(1 << bit);
        assert_eq!((s.ask(), s.event(1), s.image(START, 0)), (Err(told(Unfit)), refusal(Unfit), refusal(Unfit)), "bit {bit}");
    }
}

/// Every reason of each opcode: the first condition that fails hides the ones behind it.
#[test]
fn each_reason_is_told() {
    let (basement, rotation) = (START | 2 << 53, START | 1 << 53);
    // on the left side: all three lowered; in row 3 a tilted one above a lowered one
    let (lowered, above) = (START ^ 1 << 42 ^ 1 << 48, START ^ 1 << 42 ^ 1 << 40);
    let reasons = [
        (START, [1, 2, 0, 0, 0], HalfMove),
        (START, [1, 3, 5, 0, 0], HalfMove),
        (START, [1, 3, 0, 0, 1], NothingNamed),
        (START, [1, 3, 5, 0, 1], Gap),
        (START, [1, 1, 4, 0, 1], NotAvailable),
        (START | 1 << 21, [1, 2, 2, 0, 1], NotFree),
        (basement | 0b11 << 10, [1, 1, 2, 0, 1], OddCount),
        (START, [2, 0, 0, 0, 0], NothingNamed),
        (START, [2, 0, 5, 0, 0], Gap),
        (START, [2, 0, 4, 0, 0], NotAvailable),
        (START | 0b11 << 1, [2, 0, 1, 0, 0], OddCount),
        (START, [2, 0, 1, 0, 0], NotFree),
        (START, [3, 0, 1, 0, 0], NotAvailable),
        (lowered | 0b11, [3, 0, 1, 0, 0], CellsNotFree),
        (START, [3, 0, 1, 1, 0], NotAvailable),
        (above, [3, 0, 3, 1, 0], NotFree),
        (START, [4, 0, 0, 0, 0], SameHeight),
        (basement | 0b11 << 10, [4, 0, 0, 0, 0], OddCount),
        (START, [5, 0, 0, 0, 0], NotAtRotation),
        (rotation | 0b11 << 7, [5, 0, 0, 0, 0], CellsNotFree),
    ];
    for (record, five, reason) in reasons {
        assert!(sound(record));
        assert_eq!((allowed(record, &five), next(record, &five)), (refusal(reason), Err(told(reason))), "{five:?}");
    }
}
