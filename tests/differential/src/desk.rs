//! The desk's program against the reference desk: `desk PROGRAM MESSAGES SESSIONS`. A long input of so many messages, given in pieces of many
//! sizes, and many short ones that are cut or have a wrong length: what the program writes must be what the reference desk is answered with.
//! Each of the desk's own numbers must have come, and each kind of answer to a question. Kinds 10 to 12 are not sent.

use reference::desk::{wanted, Desk};
use reference::{answer, answer_message, read_call, shown_message, Answer, Call, BEGIN_IN, NO_PLACE};
use shared::pipes::{answers, messages_in};
use shared::traffic::{framed_message, message, Numbers};
use std::collections::BTreeSet;
use std::process::exit;

/// The call of one of the station's messages, without a card.
fn called(desk: &mut Desk, call: Call) -> Vec<u8> {
    let told = match call {
        Call::Request { count, bytes } => desk.request(count, bytes),
        Call::Event(event) => desk.event(event, 0),
        Call::Result { issue, number, outcome } => desk.result(issue, number, outcome),
        Call::Image { image, apart } => desk.image(image, apart, 0, &[]),
        Call::Ask => return shown_message(&desk.station).to_vec(),
    };
    answer_message(told).to_vec()
}

/// An image with cards.
fn pictured(desk: &mut Desk, body: &[u8]) -> Answer {
    let count = body.get(16).copied().unwrap_or(0);
    if body.len() != 17 + 4 * usize::from(count) {
        return answer(2);
    }
    let number = |at: usize| body[at..at + 8].iter().rev().fold(0, |number, &byte| number << 8 | u64::from(byte));
    let cards: Vec<u32> = body[17..].chunks_exact(4).map(|four| u32::from_le_bytes([four[0], four[1], four[2], four[3]])).collect();
    match count {
        0 => answer(4),
        _ => desk.image(number(0), number(8), count, &cards),
    }
}

/// Where a card's car is.
fn sought(desk: &Desk, card: u32) -> Vec<u8> {
    let (place, last) = desk.whereabouts(card).map_or((NO_PLACE, false), |(stand, last)| (stand.told(), last));
    let (flag, next) = match desk.moving(card) {
        _ if last => (1, 0),
        Some(to) => (2, to.told()),
        None => (0, 0),
    };
    message(136, &[place, flag, next])
}

/// A message of exactly these bytes.
fn answered(desk: &mut Desk, whole: &[u8]) -> Vec<u8> {
    let body = &whole[4..];
    let card = || body.try_into().map(u32::from_le_bytes);
    let told = match (u16::from_le_bytes([whole[2], whole[3]]), card()) {
        (6, Ok(0)) => answer(4),
        (6, Ok(card)) => desk.event(BEGIN_IN, card),
        (7, _) => pictured(desk, body),
        (8, Ok(card)) => return sought(desk, card),
        (9, _) if body.is_empty() => return message(137, &desk.leaving().unwrap_or(0).to_le_bytes()),
        (6 | 8 | 9, _) => answer(2),
        // longer than any of the station's: too many instructions, another length, or no kind of its
        (1, _) if body.len() > 41 => answer(if body[0] > 8 { 5 } else { 2 }),
        (2..=5, _) if body.len() > 41 => answer(2),
        (_, _) if body.len() > 41 => answer(3),
        _ => match read_call(whole) {
            Ok((call, _)) => return called(desk, call),
            Err(refused) => refused.answer,
        },
    };
    answer_message(told).to_vec()
}

/// All that an input is answered with.
fn served(mut input: &[u8]) -> Vec<u8> {
    let (mut desk, mut written) = (Desk::start(), Vec::new());
    while !input.is_empty() {
        let length = input.first_chunk().map(|&two| usize::from(u16::from_le_bytes(two)));
        match length.map(|length| (length, input.split_at_checked(2 + length))) {
            Some((0 | 1 | 144.., _)) => return [written, answer_message(answer(2)).to_vec()].concat(),
            Some((_, Some((whole, rest)))) => {
                written.extend(answered(&mut desk, whole));
                input = rest;
            }
            _ => return [written, answer_message(answer(1)).to_vec()].concat(),
        }
    }
    written
}

/// A card, mostly one of few, so that some come twice.
fn some_card(numbers: &mut Numbers) -> u32 {
    if numbers.one_in(30) {
        0
    } else {
        1 + numbers.below(60) as u32
    }
}

/// One message, made for the desk as it is: the station's with cards, or a question.
fn some_message(numbers: &mut Numbers, desk: &Desk) -> Vec<u8> {
    let mut bytes = framed_message(numbers, &desk.station);
    if numbers.one_in(5) {
        return if numbers.one_in(4) { message(9, &[]) } else { message(8, &some_card(numbers).to_le_bytes()) };
    }
    if bytes[2..] == [2, 0, BEGIN_IN] && !numbers.one_in(10) {
        return message(6, &some_card(numbers).to_le_bytes());
    }
    if bytes[2..4] == [4, 0] && bytes.len() == 20 && !numbers.one_in(10) {
        let image = u64::from_le_bytes(bytes[4..12].try_into().expect("eight bytes"));
        let cars = wanted(image & ((1 << 57) - 1)) + usize::from(numbers.one_in(8));
        let (first, same) = (1 + numbers.below(1000) as u32, numbers.one_in(10));
        let cards = (0..cars.min(31) as u32).flat_map(|k| (if same { first } else { first + k }).to_le_bytes());
        let body: Vec<u8> = bytes[4..20].iter().copied().chain([cars.min(31) as u8]).chain(cards).collect();
        return message(7, &body);
    }
    // the reference desk does not answer these
    if let 10..=12 = bytes[2] {
        bytes[2] = 13;
    }
    bytes
}

fn input(seed: u64, messages: usize) -> Vec<u8> {
    let (mut numbers, mut desk, mut bytes) = (Numbers(seed), Desk::start(), Vec::new());
    for _ in 0..messages {
        let message = some_message(&mut numbers, &desk);
        answered(&mut desk, &message);
        bytes.extend(message);
    }
    bytes
}

pub fn main(words: &[String]) {
    let [_, program, messages, sessions] = words else { panic!("usage: desk PROGRAM MESSAGES SESSIONS") };
    let messages: usize = messages.parse().expect("how many messages");
    let long = input(1, messages);
    let written = answers(program, &long, 2);
    assert!(written == served(&long), "the long input is answered otherwise");
    let mut came = BTreeSet::new();
    for told in messages_in(&written) {
        came.insert(match told[2] {
            128 => (128, told[4]),
            136 => (136, told[5]),
            137 => (137, u8::from(told[4..] != [0; 4])),
            kind => (kind, 0),
        });
    }
    let own = [(128, 37), (128, 38), (128, 39), (129, 0), (136, 0), (136, 1), (136, 2), (137, 0), (137, 1)];
    let missing: Vec<_> = own.iter().filter(|one| !came.contains(one)).collect();
    if !missing.is_empty() {
        eprintln!("desk: kinds of answers that never came: {missing:?}");
        exit(1);
    }
    for seed in 0..sessions.parse().expect("how many sessions") {
        let mut numbers = Numbers(1000 + seed);
        let mut short = input(seed, 40);
        match numbers.below(3) {
            0 => short.truncate(numbers.below(short.len() as u64) as usize),
            1 => short.extend([numbers.byte(), numbers.byte(), 13, 0, 7]),
            _ => {}
        }
        assert!(answers(program, &short, seed) == served(&short), "session {seed} is answered otherwise");
    }
    println!("desk: {messages} messages and {sessions} sessions are answered as by the reference desk");
}
