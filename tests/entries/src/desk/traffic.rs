//! Seeded traffic for a desk: the station's, with card numbers beside drives and images, right ones and wrong ones.
#![allow(dead_code)] // each driver uses its own part of this module

use reference::desk::{layout, Desk};
use reference::desk_command::{ASK, CARDS_MOST, COMPARE, EVENT, IMAGE, LEAVING, LIST, OUTSTANDING, REQUEST, RESULT, START, WHERE};
use reference::desk_lists;
use reference::{bit, read_call, sound, Call, BEGIN_IN, DRIVE_IN, LIFT_CAR};
use shared::traffic::{any_bytes, framed_message, near_image, near_record, Numbers};
use shared::trials::Given;

/// Few enough numbers that one comes again when its car has left.
fn from_few(numbers: &mut Numbers) -> u32 {
    1 + numbers.below(60) as u32
}

/// Any number but 0, some of them at the ends of what there are.
fn any_card(numbers: &mut Numbers) -> u32 {
    match numbers.below(8) {
        0 => u32::MAX,
        1 => 1 << numbers.below(32),
        2..=4 => from_few(numbers),
        _ => (numbers.next() as u32).max(1),
    }
}

/// A number that a desk has, or has waiting; any where it has none.
fn known_card(numbers: &mut Numbers, desk: &Desk) -> u32 {
    let known: Vec<u32> = desk.cars.iter().map(|car| car.card).chain(desk.coming).collect();
    if known.is_empty() {
        from_few(numbers)
    } else {
        known[numbers.below(known.len() as u64) as usize]
    }
}

/// A card's number: 0, one that is there, waits or is nearly one of these, or any.
pub fn some_card(numbers: &mut Numbers, desk: &Desk) -> u32 {
    match numbers.below(12) {
        0 => 0,
        10 | 11 => desk.coming.unwrap_or_else(|| from_few(numbers)),
        1 | 2 => known_card(numbers, desk),
        3 => known_card(numbers, desk) ^ 1 << numbers.below(32),
        _ => any_card(numbers),
    }
}

/// The numbers that an image may come with: those of the cars where cars are, new ones else.
pub fn right_cards(numbers: &mut Numbers, desk: &Desk, image: u64) -> Vec<u32> {
    let there = |stand| desk.cars.iter().find(|car| car.stand == stand).map(|car| car.card);
    let mut found: Vec<Option<u32>> = layout(image).into_iter().map(there).collect();
    found.extend(bit(image, DRIVE_IN).then_some(desk.coming));
    let mut cards: Vec<u32> = Vec::new();
    for card in &found {
        let fresh = |card: &u32| !cards.contains(card) && !found.contains(&Some(*card));
        let card = card.or_else(|| (0..100).map(|_| any_card(numbers)).find(fresh));
        cards.push(card.unwrap_or(numbers.next() as u32));
    }
    cards
}

/// Cards that stand elsewhere than before: two that change places, or one that the desk has where another was.
fn moved(numbers: &mut Numbers, desk: &Desk, cards: &mut [u32]) {
    if cards.is_empty() {
        return;
    }
    let mut any = || numbers.below(cards.len() as u64) as usize;
    let (one, other) = (any(), any());
    cards.swap(one, other);
    let known = known_card(numbers, desk);
    if numbers.one_in(2) && !cards.contains(&known) {
        cards[one] = known;
    }
}

/// Numbers with an image, and how many they are said to be: mostly the right ones, now and then moved; too many or too few, one 0, one twice, or several of
/// these; more than there can be; or fewer bytes than so many have.
fn some_cards(numbers: &mut Numbers, desk: &Desk, image: u64) -> (u8, Vec<u8>) {
    let mut cards = right_cards(numbers, desk, image);
    if numbers.one_in(3) {
        moved(numbers, desk, &mut cards);
    }
    // by its bits: one twice, a 0, another count, more than there can be
    let wrong = if numbers.one_in(2) { 0 } else { [1, 1, 2, 3, 4, 5, 6, 8][numbers.below(8) as usize] };
    let any = |numbers: &mut Numbers, cards: &[u32]| numbers.below(cards.len().max(1) as u64) as usize;
    if wrong & 1 != 0 {
        let to = if bit(image, DRIVE_IN) { cards.len() - 1 } else { any(numbers, &cards) };
        let from = any(numbers, &cards);
        if from != to {
            cards[to] = cards[from];
        }
    }
    if wrong & 2 != 0 {
        let at = any(numbers, &cards);
        if let Some(card) = cards.get_mut(at) {
            *card = 0;
        }
    }
    if wrong & 4 != 0 {
        if numbers.one_in(2) {
            cards.push(any_card(numbers));
        } else {
            cards.pop();
        }
    }
    let mut count = cards.len() as u8;
    let mut bytes: Vec<u8> = cards.iter().flat_map(|card| card.to_le_bytes()).collect();
    match numbers.below(12) {
        0..=5 if wrong & 8 != 0 => count = CARDS_MOST + numbers.below(3) as u8,
        6..=8 if wrong & 8 != 0 => count = numbers.byte(),
        9 => bytes.truncate(numbers.below(bytes.len() as u64 + 1) as usize),
        _ => {}
    }
    let more = numbers.below(3) as usize;
    bytes.extend(any_bytes(numbers, more));
    (count, bytes)
}

/// A sound image near the record, found in some tries, else any near it; now and then one with many cars, or with none.
fn sound_image(numbers: &mut Numbers, record: u64) -> u64 {
    let (cells, full) = ((1 << 40) - 1, 0xF_FFFF | 0xFF << 21 | 0xFF << 31);
    let record = match numbers.below(8) {
        0 | 1 => record | full,
        2 | 3 => record & !cells & !(1 << LIFT_CAR),
        _ => record,
    };
    let near = (0..20).map(|_| near_record(numbers, record)).find(|&image| sound(image));
    near.unwrap_or_else(|| near_record(numbers, record))
}

/// An image with its numbers.
fn image(numbers: &mut Numbers, desk: &Desk, (image, apart): (u64, u64)) -> Given {
    let (count, cards) = some_cards(numbers, desk, image);
    Given { entry: IMAGE, first: count, image, apart, input: cards, ..Given::default() }
}

/// One call, made for the desk as it is; the desk's own room is not in it yet.
pub fn some_call(numbers: &mut Numbers, desk: &Desk) -> Given {
    let pick = numbers.below(32);
    if pick > 29 {
        let record = sound_image(numbers, desk.station.record);
        let apart = if numbers.one_in(6) { 1 << numbers.below(64) } else { 0 };
        return image(numbers, desk, (record, apart));
    }
    if pick == 1 {
        return Given { entry: WHERE, card: some_card(numbers, desk), ..Given::default() };
    }
    if pick == 3 {
        return Given { entry: EVENT, first: 1 + numbers.below(4) as u8, card: some_card(numbers, desk), ..Given::default() };
    }
    if pick == 2 {
        return Given { entry: LEAVING, output: any_bytes(numbers, 4), ..Given::default() };
    }
    let message = framed_message(numbers, &desk.station);
    match read_call(&message) {
        Ok((Call::Request { count, bytes }, _)) => Given { entry: REQUEST, first: count, input: bytes.to_vec(), ..Given::default() },
        Ok((Call::Event(event), _)) => {
            // now and then a begin while another drive-in is under way
            let first = if desk.coming.is_some() && numbers.one_in(8) { BEGIN_IN } else { event };
            Given { entry: EVENT, first, card: some_card(numbers, desk), ..Given::default() }
        }
        Ok((Call::Result { issue, number, outcome }, _)) => {
            Given { entry: RESULT, first: number, second: outcome, issue, ..Given::default() }
        }
        Ok((Call::Image { image: record, apart }, _)) => image(numbers, desk, (record, apart)),
        _ => Given { entry: ASK, output: any_bytes(numbers, 16), ..Given::default() },
    }
}

/// The same of every entry, also with lengths, counts and fields that are no host's own.
pub fn any_call(numbers: &mut Numbers, desk: &Desk) -> Given {
    let of = |entry, size| Given { entry, output: vec![0xEE; size], ..Given::default() };
    let mut given = match numbers.below(20) {
        0 => of(START, 0),
        1 => of(ASK, 16),
        2 => of(WHERE, 0),
        3 => of(LEAVING, 4),
        4 | 5 => {
            let record = sound_image(numbers, desk.station.record);
            image(numbers, desk, (record, 0))
        }
        6 => of(LIST, desk_lists::LIST),
        7 => of(OUTSTANDING, desk_lists::OPEN),
        8..=10 => {
            let record = sound_image(numbers, desk.station.record);
            Given { entry: COMPARE, output: vec![0xEE; desk_lists::CHANGES], ..image(numbers, desk, (record, 0)) }
        }
        _ => some_call(numbers, desk),
    };
    match (given.entry, numbers.below(6)) {
        (REQUEST, 0) => given.input.truncate(numbers.below(given.input.len() as u64 + 1) as usize),
        (REQUEST, 1) => given.first = numbers.byte(),
        (REQUEST, 2) if !given.input.is_empty() => {
            let at = numbers.below(given.input.len() as u64) as usize;
            given.input[at] = numbers.byte();
        }
        (EVENT, 0) => given.first = numbers.byte(),
        (RESULT, 0) => given.second = numbers.byte(),
        (ASK | LEAVING | LIST | OUTSTANDING | COMPARE, 0) => given.output.truncate(numbers.below(given.output.len() as u64) as usize),
        (ASK | LEAVING | LIST | OUTSTANDING | COMPARE, 1) => given.output.push(numbers.byte()),
        (IMAGE, 0) | (COMPARE, 2) => (given.image, given.apart) = near_image(numbers, &desk.station),
        (WHERE, 0) => given.card = some_card(numbers, desk),
        (WHERE, _) => given.card = known_card(numbers, desk),
        _ => {}
    }
    given
}
