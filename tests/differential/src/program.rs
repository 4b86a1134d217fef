//! The whole program against the reference: `program PROGRAM MESSAGES SESSIONS`. Two long inputs of so many messages each, given in
//! pieces of many sizes, and many short ones, damaged and cut: what the program writes must be what the reference answers, and that
//! what the papers say of their examples.
//! Every number that can come through the program must have come, and no other: 16 (the program's station is always fit) and 17 (its
//! room is always enough) can't. So must every reason that each opcode can be refused for, and all that calls can meet of drives, of places
//! kept open, of jams and of lift runs beside others in row 1. In the long inputs, after each message, every choice is looked at of which stuck instructions
//! finished (jams.rs), and with each set that has a lift run beside others, of which of them are done (lifts.rs).

use reference::{
    self, answer, answer_at, cars, read_call, read_message, sound, write_message, Answer, Call, Instruction, Message, Station, BEGIN_IN,
    BEGIN_OUT, DONE, END_DONE, END_NOT_DONE, FAILED, REASON_NUMBERS, START, STUCK,
};
use shared::pipes::{answer_in, answers, messages_in};
use shared::{drives, filling, jams, lifts, traffic};
use std::collections::BTreeSet;
use std::process::exit;

/// The papers' instructions that are not allowed: on which record, and why.
const NOT_ALLOWED: [(u64, [u8; 5], u8); 8] = [
    (0x0049_1B00_0000_0C00, [4, 0, 0, 0, 0], 24), // P5: the lift would tear a car
    (0x0049_1B00_0000_3C00, [4, 0, 0, 0, 0], 24), // P6: two cars
    (0x0009_1B00_0000_0006, [2, 0, 3, 0, 1], 24), // P9: the shuttle would
    (0x0029_1B00_0000_0180, [5, 0, 0, 0, 0], 28), // P11: beside a car
    (START, [1, 3, 5, 0, 1], 21),
    (START, [1, 2, 2, 0, 0], 25),
    (START, [1, 2, 0, 0, 0], 25), // before nothing named
    (START, [1, 3, 5, 0, 0], 25), // before the gap
];

/// The reference held against the papers' examples and their table of numbers.
fn examples() {
    for (record, five, number) in NOT_ALLOWED {
        let mut station = Station { record, ..Station::start() };
        assert_eq!(station.request(1, &five), answer_at(number, 0), "{five:?} on {record:#018x}");
    }
    assert!(Instruction::read([5, 0, 0, 0, 0]).is_some_and(|rotate| rotate.allowed(0x0029_1B00_0000_00C0)), "P11");
    // the least one that isn't allowed tells why, whatever a later one has
    let (half, gap) = ([1, 2, 2, 0, 0], [1, 3, 5, 0, 1]);
    assert_eq!(Station::start().request(2, &[half, gap].concat()), answer_at(25, 0));
    assert_eq!(Station::start().request(3, &[[1, 1, 2, 0, 1], gap, half].concat()), answer_at(21, 1));
    for number in 0..=255 {
        let known = !matches!(number, 9 | 14 | 18 | 19 | 34..);
        assert_eq!(read_message(&[6, 0, 128, 0, number, 255, 1, 2]).err().map(|refused| refused.answer), (!known).then_some(answer(4)));
    }
}

/// The same of the number that each set has.
fn issues() {
    let belt = [1, 1, 2, 0, 1];
    let with_issue = |issue| Answer { issue, ..answer(0) };
    let session = reference::serve(&[3, 0, 2, 0, 1, 2, 0, 5, 0]);
    assert_eq!(session, [6, 0, 128, 0, 0, 255, 0, 0, 18, 0, 129, 0, 0, 0, 0, 0, 0, 0x1B, 0x89, 0, 0, 0, 0, 0, 0, 0, 0, 0]);
    // the first set has 0; with it present the numbers from 65535 down to 32769 are late, though none was issued
    let mut station = Station::start();
    assert_eq!((station.result(0, 0, 1), station.request(1, &belt)), (answer(11), with_issue(0)));
    let told = [65535, 32769, 32768, 1].map(|issue| station.result(issue, 0, 1).number);
    assert_eq!(told, [29, 29, 30, 30]);
    // 4 before 29, and 29 before 12
    assert_eq!((station.result(65535, 0, 3), station.result(65535, 8, 1)), (answer(4), answer(29)));
    // a refused request, an event and an image keep the count; after 65535 comes 0
    assert_eq!((station.request(1, &belt), station.result(0, 0, 1)), (answer(6), answer(0)));
    assert_eq!((station.request(0, &[]), station.event(1), station.image(START, 0)), (answer(7), answer(0), answer(0)));
    assert_eq!((station.request(1, &belt), station.result(0, 0, 1).number, station.result(1, 0, 0)), (with_issue(1), 29, answer(0)));
    station.next_issue = 65535;
    assert_eq!((station.request(1, &belt), station.next_issue), (with_issue(65535), 0));
    // as messages: a result begins with it and an answer ends with it, and a result without it is too short
    let mut room = [0; 8];
    let answered = Message::Answer(Answer { number: 0, place: 255, issue: 0x1234 });
    assert_eq!((write_message(&answered, &mut room), room), (Ok(8), [6, 0, 128, 0, 0, 255, 0x34, 0x12]));
    let result = [6, 0, 3, 0, 0x34, 0x12, 7, 1];
    let (read, took) = read_message(&result).expect("a result");
    assert_eq!((write_message(&read, &mut room), room, took), (Ok(8), result, 8));
    assert_eq!(read_message(&[4, 0, 3, 0, 7, 1]).err().map(|refused| refused.answer), Some(answer(2)));
}

/// The same of drives, each with its begin and its end.
fn driving() {
    const COMING: u64 = START | 1 << 55;
    const PARKED: u64 = START | 1 << 52;
    const GOING: u64 = PARKED | 1 << 56;
    let [lift_down, rotate, lift_belt, belt] = [[4, 2, 0, 0, 0], [5, 0, 0, 0, 0], [1, 1, 4, 0, 1], [1, 1, 2, 0, 1]];
    let taken = |events: &[u8], station: &mut Station| events.iter().for_each(|&event| assert_eq!(station.event(event), answer(0)));
    // P2 to P4: a car in, and in again; out of an empty lift; down
    let mut station = Station::start();
    assert_eq!(station.event(BEGIN_OUT), answer(10));
    taken(&[BEGIN_IN, END_DONE], &mut station);
    assert_eq!((station.event(BEGIN_IN), station.record), (answer(10), PARKED));
    assert_eq!((station.request(1, &lift_down).number, station.result(0, 0, 1), station.record), (0, answer(0), 0x0049_1B00_0000_1800));
    // a driver who gives up leaves the record as it was, coming or going; a car counts from the end that is done, and until it
    let mut station = Station::start();
    taken(&[BEGIN_IN], &mut station);
    assert_eq!((station.record, cars(station.record)), (COMING, Some(0)));
    taken(&[END_NOT_DONE, BEGIN_IN, END_DONE, BEGIN_OUT], &mut station);
    assert_eq!((station.record, cars(station.record)), (GOING, Some(1)));
    taken(&[END_NOT_DONE, BEGIN_OUT, END_DONE], &mut station);
    assert_eq!(station, Station::start());
    // out of turn: an end with no begin, and any begin during a drive, before that it is impossible
    assert_eq!([END_DONE, END_NOT_DONE].map(|event| station.event(event)), [answer(31); 2]);
    for record in [COMING, GOING] {
        let mut station = Station { record, ..Station::start() };
        assert_eq!([BEGIN_IN, BEGIN_OUT, 0, 5].map(|event| station.event(event).number), [31, 31, 4, 4]);
        // nor does anything take the lift: allowed or not, at any place, overlapping or not; but a bad field is told before
        for set in [&[lift_down][..], &[rotate], &[lift_belt], &[belt, rotate], &[belt, belt, lift_down]] {
            assert_eq!(station.request(set.len() as u8, &set.concat()), answer(31), "{set:?}");
        }
        assert_eq!(station.request(2, &[lift_down, [4, 3, 0, 0, 0]].concat()), answer_at(4, 1));
        // all else goes on, and the drive ends beside it
        assert_eq!(station.request(2, &[belt, belt].concat()), answer_at(8, 1));
        assert_eq!((station.request(1, &belt).number, station.event(BEGIN_IN).number, station.result(0, 0, 1)), (0, 31, answer(0)));
        assert_eq!((station.request(1, &belt).number, station.event(END_NOT_DONE), station.record), (0, answer(0), record & !(3 << 55)));
    }
    // beside a set with the lift, 6 for all four; a station with both is unfit, whether that instruction is answered or not
    let mut station = Station::start();
    assert_eq!((station.request(2, &[lift_down, [1, 2, 2, 0, 1]].concat()).number, station.result(0, 0, 0)), (0, answer(0)));
    assert_eq!([BEGIN_IN, BEGIN_OUT, END_DONE, END_NOT_DONE].map(|event| station.event(event).number), [6; 4]);
    for answered in [0, 1] {
        let mut both = Station { record: COMING, answered, ..station };
        assert_eq!((both.result(0, 1, 0), both.event(END_DONE), both.ask()), (answer(16), answer(16), answer(16)));
    }
    // which images are sound, and that they replace a drive
    let (turned, down) = (START | 1 << 53, START | 2 << 53);
    assert!([COMING, GOING].into_iter().all(sound));
    let unsound = [PARKED | 1 << 55, START | 1 << 56, START | 3 << 55, PARKED | 3 << 55, turned | 1 << 55, down | 1 << 55, START | 1 << 57];
    assert!(!unsound.into_iter().chain([turned | 1 << 52 | 1 << 56, GOING | 1 << 63]).any(sound));
    let mut station = Station::start();
    for image in [COMING, GOING, PARKED] {
        assert_eq!((station.image(image, 0), station.record), (answer(0), image));
    }
}

/// The same of stations handed in: what their sets may hold.
fn handed_in() {
    let [turn, down, belt, tilt] = [[5, 0, 0, 0, 0], [4, 2, 0, 0, 0], [1, 1, 2, 0, 1], [3, 0, 3, 1, 0]];
    let fit = |record, set: &[[u8; 5]], answered| {
        let mut station = Station { record, count: set.len() as u8, answered, ..Station::start() };
        station.set[..5 * set.len()].copy_from_slice(&set.concat());
        // every call tests it, a result that failed, an event and an ask too
        let mut calls = [station; 5];
        let told = [calls[0].result(65535, 7, 0), calls[1].event(0), calls[2].ask(), calls[3].image(0, 0), calls[4].request(0, &[])];
        assert_eq!(told.map(|answer| answer.number == 16), [!station.fit(); 5]);
        station.fit()
    };
    // overlap, whether both wait, one or none; beside each other or not
    assert!(fit(START, &[belt, tilt], 0) && fit(START, &[belt, tilt], 1));
    assert!(![0, 1, 2].into_iter().any(|answered| fit(START, &[tilt, tilt], answered)));
    assert!(![0, 1, 2, 4, 5].into_iter().any(|answered| fit(START, &[tilt, belt, tilt], answered)));
    assert!(!fit(START, &[down, [1, 1, 4, 0, 1]], 0) && !fit(START, &[belt, belt, tilt], 3));
    // what waits must be allowed, what is answered need not be
    assert!(!fit(START, &[turn], 0) && !fit(START, &[tilt, turn], 1) && fit(START, &[tilt, turn], 2));
    assert!(fit(START | 2 << 53, &[down, [1, 2, 2, 0, 1]], 1), "the lift is down, and a belt still waits");
}

/// The same of jams: what is set apart, until when, and what is refused for it.
fn jamming() {
    let [turn, down, up, belt, tilt] = [[5, 0, 0, 0, 0], [4, 2, 0, 0, 0], [4, 1, 0, 0, 0], [1, 2, 2, 0, 1], [3, 0, 3, 1, 0]];
    let middle: u64 = 0xFF << 21; // of row 2
    let mut station = Station::start();
    // the whole area of a belt, from its result on and when its set has closed; the record stays, and it is answered
    assert_eq!((station.request(2, &[belt, tilt].concat()).number, station.result(0, 0, STUCK), station.record), (0, answer(0), START));
    assert_eq!((station.apart_number(), [FAILED, DONE, STUCK].map(|ending| station.result(0, 0, ending).number)), (middle, [13; 3]));
    assert_eq!(
        (station.result(0, 0, 3), station.result(0, 1, DONE), station.count, station.apart_number()),
        (answer(4), answer(0), 0, middle)
    );
    // the least that touches it is told, before an overlap and whatever the record allows; 31 comes before it
    assert_eq!(station.request(4, &[tilt, tilt, [1, 2, 7, 0, 0], belt].concat()), answer_at(32, 2));
    assert_eq!((station.request(2, &[up, turn].concat()), station.request(1, &[4, 3, 0, 0, 0])), (answer_at(8, 1), answer_at(4, 0)));
    assert_eq!(
        (station.event(BEGIN_IN), station.request(2, &[belt, down].concat()), station.event(END_NOT_DONE)),
        (answer(0), answer(31), answer(0))
    );
    // the lift has one bit; a begin is told of it before that it is impossible, and an end that none is under way
    assert_eq!((station.request(1, &up).number, station.result(1, 0, DONE), station.request(1, &turn).number), (0, answer(0), 0));
    assert_eq!(
        (station.event(BEGIN_IN), station.result(2, 0, STUCK), station.apart_number()),
        (answer(6), answer(0), middle | 1 << 52 | 0xE700)
    );
    assert_eq!([BEGIN_IN, BEGIN_OUT, END_DONE, END_NOT_DONE].map(|event| station.event(event).number), [32, 32, 31, 31]);
    let slots = Instruction::read([2, 1, 1, 0, 1]).map(|shuttle| shuttle.area().number());
    assert_eq!(slots, Some(3 << 18 | 1 << 29 | 0b11 << 43), "the slots of rows 1 and 2 on the right, and their cells");
    // an image must set nothing apart, and clears it all
    assert_eq!((station.image(START, 1), station.image(START, 1 << 63), station.image(1, 0)), (answer(15), answer(15), answer(15)));
    assert_eq!((station.image(START, 0), station.apart_number(), station.request(1, &belt).number), (answer(0), 0, 0));
    assert_eq!((station.image(START, 1), station.result(3, 0, FAILED), station.apart_number()), (answer(6), answer(0), 0));
    // handed in: any parts are fit, also beside a driver in the lift, who can't leave it then; no bit above the lift's is
    let parts = |number| {
        let mut bytes = Station { record: START | 1 << 55, ..Station::start() }.to_bytes();
        bytes[52..].copy_from_slice(&u64::to_le_bytes(number));
        Station::from_bytes(&bytes)
    };
    let mut lift = parts(1 << 52);
    assert_eq!((lift.event(END_DONE), lift.event(BEGIN_IN), parts((1 << 53) - 1).ask()), (answer(32), answer(31), answer(0)));
    assert!((53..64).all(|bit| parts(1 << bit).ask() == answer(16) && parts(1 << bit).to_bytes()[52..] == u64::to_le_bytes(1 << bit)));
    // in bytes: the record, then what is set apart, any two numbers
    let mut shown = [0; 20];
    let both = Message::Image { image: 0x0807_0605_0403_0201, apart: 0x100F_0E0D_0C0B_0A09 };
    assert_eq!((write_message(&both, &mut shown), shown[..4].to_vec()), (Ok(20), vec![18, 0, 129, 0]));
    assert!(shown[4..].iter().copied().eq(1..=16) && read_message(&shown).is_ok_and(|read| read == (both, 20)));
    assert_eq!(read_message(&[10, 0, 4, 0, 0, 0, 0, 0, 0, 0x1B, 9, 0]).err().map(|refused| refused.answer), Some(answer(2)));
}

/// The same of the row beside the lift, which doesn't stop for it.
fn beside_the_lift() {
    // a car on the lift in the basement, one on each belt beside it, one on the left shuttle of row 1; on the right all three are lowered
    const LOADED: u64 = 0x0041_3B00_0001_9833;
    let (up, left, right) = ([4, 0, 0, 0, 0], [1, 1, 2, 1, 1], [1, 1, 8, 0, 1]);
    let (shuttle, tilt, lift_belt) = ([2, 0, 3, 0, 1], [3, 1, 1, 0, 0], [1, 1, 6, 1, 0]);
    let area = |five| Instruction::read(five).map(|one| one.area().number());
    assert_eq!((area(up), sound(LOADED), cars(LOADED)), (Some(1 << 52 | 0x1800), true, Some(4)));
    // all five at once, their results in any order
    let taken = |set: &[[u8; 5]], order: &[u8]| {
        let mut station = Station { record: LOADED, ..Station::start() };
        assert_eq!(station.request(set.len() as u8, &set.concat()), answer(0), "{set:?}");
        for &number in order {
            assert_eq!(station.result(0, number, DONE), answer(0), "{set:?} {order:?}");
        }
        station
    };
    let after = [[0, 1, 2, 3, 4], [4, 3, 2, 1, 0], [1, 3, 0, 2, 4]].map(|order| taken(&[up, left, right, shuttle, tilt], &order).record);
    assert_eq!(after, [0x0013_3600_0010_60C0; 3]);
    // what has the lift in its area still waits for it; and where a car is half on the lift, that is still told
    let mut station = Station { record: LOADED, ..Station::start() };
    for with_lift in [lift_belt, [5, 0, 0, 0, 0], [4, 1, 0, 0, 0]] {
        assert_eq!(station.request(3, &[left, up, with_lift].concat()).number, 8, "{with_lift:?}");
    }
    let mut half = Station { record: 0x0049_1B00_0000_0C00, ..Station::start() };
    assert_eq!([[right, up], [up, right]].map(|set| half.request(2, &set.concat())), [answer_at(24, 1), answer_at(24, 0)]);
    // a jam beside the lift sets nothing of it apart, nor a stuck lift the row
    let mut station = taken(&[left, tilt], &[1]);
    assert_eq!((station.result(0, 0, STUCK), station.apart_number(), station.request(1, &up).number), (answer(0), 0x7FC, 0));
    assert_eq!((station.result(1, 0, STUCK), station.apart_number()), (answer(0), 1 << 52 | 0x1FFC));
    assert_eq!(
        (station.request(1, &left), station.request(1, &lift_belt), station.request(2, &[right, shuttle].concat()).number),
        (answer_at(32, 0), answer_at(32, 0), 0)
    );
    // handed in, both in one set are fit
    let mut both = Station { record: LOADED, count: 2, ..Station::start() };
    both.set[..10].copy_from_slice(&[up, left].concat());
    assert!(both.fit());
    // none of it would hold of records that aren't sound: half a car stands where no lowered shuttle is, and one that comes there clears it
    let (back, left_odd) = (Instruction::read([2, 0, 6, 0, 0]), |record: u64| (record & 0x7FF).count_ones() % 2 == 1);
    for (torn, odd) in [(0x0043_AE00_0000_0002, true), (0x0040_7E00_0000_0006, false)] {
        assert!(!sound(torn) && left_odd(torn) == odd && back.is_some_and(|back| back.allowed(torn) && left_odd(back.next(torn)) != odd));
    }
}

/// The same of places that are kept open.
fn places_kept_open() {
    // the most cars with the lift empty at street; one and two fewer
    const FILLED: u64 = 0x0000_3FFF_FFFF_C3FF;
    let with = |record| Station { record, ..Station::start() };
    let [most, one_less, two_less] = [FILLED, FILLED & !(1 << 30), FILLED & !(1 << 30 | 1 << 39)];
    assert_eq!([most, one_less, two_less].map(cars), [Some(28), Some(27), Some(26)]);
    assert_eq!([most, one_less].map(|record| with(record).event(BEGIN_IN)), [answer(33); 2]);
    // from 26 a car comes in, which makes 27; the next one waits, also when the lift has taken it down and come up empty
    let mut station = with(two_less);
    assert_eq!([BEGIN_IN, END_DONE, BEGIN_IN].map(|event| station.event(event)), [answer(0), answer(0), answer(10)]);
    assert_eq!(
        (cars(station.record), station.event(BEGIN_OUT), station.event(END_DONE), station.record),
        (Some(27), answer(0), answer(0), two_less)
    );
    // out of turn, set apart and impossible are told before it, and a bad field and a set with the lift before these
    let mut down = with(most);
    assert_eq!((down.request(1, &[4, 1, 0, 0, 0]).number, down.event(BEGIN_IN), down.event(0)), (0, answer(6), answer(4)));
    assert_eq!((down.result(0, 0, DONE), down.event(BEGIN_IN)), (answer(0), answer(10)));
    assert_eq!((down.request(1, &[4, 0, 0, 0, 0]).number, down.result(1, 0, STUCK), down.event(BEGIN_IN)), (0, answer(0), answer(32)));
    assert_eq!((with(most | 1 << 55).event(BEGIN_IN), with(most | 1 << 52).event(BEGIN_IN)), (answer(31), answer(10)));
    // an image may have more, with a drive-in under way too, whose end is taken
    let mut station = Station::start();
    assert_eq!(
        (station.image(most | 1 << 55, 0), station.event(END_NOT_DONE), station.event(BEGIN_IN)),
        (answer(0), answer(0), answer(33))
    );
    assert_eq!((station.image(most | 1 << 55, 0), station.event(END_DONE), cars(station.record)), (answer(0), answer(0), Some(29)));
    assert_eq!((station.event(BEGIN_OUT), station.event(END_DONE), cars(station.record)), (answer(0), answer(0), Some(28)));
    assert_eq!((station.image(0x0040_3FFF_FFFF_FFFF, 0), cars(station.record), station.event(BEGIN_IN)), (answer(0), Some(30), answer(10)));
}

/// What the instructions were refused for that the record didn't allow, each with its opcode: each message has one answer.
fn reasons_in<'a>(input: &'a [u8], output: &'a [u8]) -> impl Iterator<Item = (u8, u8)> + 'a {
    messages_in(input).zip(messages_in(output)).filter_map(|(message, answer)| {
        let told = answer_in(answer).filter(|told| REASON_NUMBERS.contains(&told.number))?;
        Some((message[5 + 5 * usize::from(told.place)], told.number))
    })
}

/// Tells of each whole message, from the start on: the station before it, the call and the number that it is answered with.
fn each_call(input: &[u8], mut tell: impl FnMut(&Station, Call, u8)) {
    let mut station = Station::start();
    for call in messages_in(input).filter_map(|message| Some(read_call(message).ok()?.0)) {
        let before = station;
        tell(&before, call, station.take(call).number);
    }
}

pub fn main(words: &[String]) {
    let [_, program, messages, sessions] = words else { panic!("usage: program PROGRAM MESSAGES SESSIONS") };
    let messages: usize = messages.parse().expect("a number");
    let sessions: u64 = sessions.parse().expect("a number");
    examples();
    issues();
    driving();
    handed_in();
    jamming();
    beside_the_lift();
    places_kept_open();
    let (mut seen, mut reasons, mut met, mut filled) = (BTreeSet::new(), BTreeSet::new(), BTreeSet::new(), BTreeSet::new());
    let (mut jams_met, mut choices, mut most) = (BTreeSet::new(), 0, 0);
    let (mut lifts_met, mut lift_choices) = (BTreeSet::new(), 0);
    let long = (0..2).map(|seed| (seed, traffic::input(seed, messages))).inspect(|(_, input)| {
        each_call(input, |before, call, number| {
            met.extend(drives::met(before, call, number));
            filled.extend(filling::met(before, call, number));
        });
        let (jams, looked_at, at_once) = jams::met_in(input);
        jams_met.extend(jams);
        (choices, most) = (choices + looked_at, most.max(at_once));
        let (lifts, looked_at) = lifts::met_in(input);
        lifts_met.extend(lifts);
        lift_choices += looked_at;
    });
    let short = (0..sessions).map(|seed| (seed, traffic::damaged_input(1000 + seed, (seed % 40) as usize)));
    let mut compared = 0;
    for (seed, input) in long.chain(short) {
        let expected = reference::serve(&input);
        let got = answers(program, &input, seed);
        if got != expected {
            let at = got.iter().zip(&expected).take_while(|(a, b)| a == b).count();
            eprintln!("seed {seed}: {} bytes, expected {}; they differ first at {at}", got.len(), expected.len());
            exit(1);
        }
        seen.extend(messages_in(&got).filter_map(answer_in).map(|answer| answer.number));
        reasons.extend(reasons_in(&input, &got));
        compared += 1;
    }
    let wanted: BTreeSet<u8> = (0..=8).chain(10..=13).chain([15]).chain(20..=33).collect();
    if seen != wanted {
        eprintln!("the numbers that came are {seen:?}, expected {wanted:?}");
        exit(1);
    }
    if !traffic::every_reason("program", &reasons) || !drives::every_drive("program", &met) || !jams::every_jam("program", &jams_met) {
        exit(1);
    }
    if !lifts::every_lift("program", &lifts_met) || !filling::every_filling("program", &filled) {
        exit(1);
    }
    println!("program: {compared} inputs, {} messages in the long ones, each answer as the reference's; numbers {seen:?}", 2 * messages);
    println!("program: {} pairs of opcode and reason, all that can come", reasons.len());
    println!("program: {} ways to meet a drive and {} to meet a jam, all that there are", met.len(), jams_met.len());
    println!("program: {} ways to meet places that are kept open, or more cars than leave them so, all that there are", filled.len());
    println!(
        "program: {} ways for a lift run to meet others of row 1, all that there are; {lift_choices} choices of which of a set are done",
        lifts_met.len()
    );
    println!(
        "program: {choices} choices of which stuck instructions finished, of up to {most} at once, each with a layout of the same cars"
    );
}
