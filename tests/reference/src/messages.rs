//! The reference's messages and its program: what bytes say, the bytes of a message, and a whole session answered.
use super::{
    answer, answer_at, read_set, Answer, Call, Station, BEGIN_IN, BEGIN_OUT, DONE, END_DONE, END_NOT_DONE, FAILED, NO_PLACE, STUCK,
};
use std::io::{self, ErrorKind, Read, Write};

// ---- Messages ----------------------------------------------------------------------------------

/// Any message: a call (kinds 1 to 5), an answer (128), an image answered with what is set apart (129).
#[derive(Clone, Copy, Debug, PartialEq, Eq)]
pub enum Message<'a> {
    Call(Call<'a>),
    Answer(Answer),
    Image { image: u64, apart: u64 },
}

/// Why a message isn't read, and how many bytes it took where its length frames it.
#[derive(Clone, Copy, Debug, PartialEq, Eq)]
pub struct Refused {
    pub answer: Answer,
    pub took: Option<usize>,
}

/// The first message's kind, body and bytes taken; what follows it isn't looked at.
fn frame(input: &[u8]) -> Result<(u16, &[u8], usize), Refused> {
    let refused = |number| Err(Refused { answer: answer(number), took: None });
    let &[low, high, ref rest @ ..] = input else { return refused(1) };
    let length = usize::from(u16::from_le_bytes([low, high]));
    if !(2..=43).contains(&length) {
        return refused(2);
    }
    match rest.get(..length) {
        Some(&[low, high, ref body @ ..]) => Ok((u16::from_le_bytes([low, high]), body, 2 + length)),
        _ => refused(1),
    }
}

/// A call's body: an unknown kind first, then a length not the kind's, then a field out of range;
/// a request's count is held against eight before its length is held against the count.
fn call_body(kind: u16, body: &[u8]) -> Result<Call<'_>, Answer> {
    match (kind, body) {
        (1, &[count, ..]) if count > 8 => Err(answer(5)),
        (1, &[count, ref bytes @ ..]) if bytes.len() == 5 * usize::from(count) => match read_set(bytes) {
            Ok(_) => Ok(Call::Request { count, bytes }),
            Err(place) => Err(answer_at(4, place)),
        },
        (2, &[event @ (BEGIN_IN | BEGIN_OUT | END_DONE | END_NOT_DONE)]) => Ok(Call::Event(event)),
        (3, &[low, high, number, outcome @ (FAILED | DONE | STUCK)]) => {
            Ok(Call::Result { issue: u16::from_le_bytes([low, high]), number, outcome })
        }
        (2, [_]) | (3, [_, _, _, _]) => Err(answer(4)),
        (4, _) if body.len() == 16 => {
            let (image, apart) = two_numbers(body);
            Ok(Call::Image { image, apart })
        }
        (5, []) => Ok(Call::Ask),
        (1..=5, _) => Err(answer(2)),
        _ => Err(answer(3)),
    }
}

/// The number of the first eight bytes, and that of the rest, each with its lowest byte first.
fn two_numbers(body: &[u8]) -> (u64, u64) {
    let number = |bytes: &[u8]| bytes.iter().rev().fold(0, |number, &byte| number << 8 | u64::from(byte));
    let (first, second) = body.split_at(8);
    (number(first), number(second))
}

/// The same for every kind. An answer has a number of the table, an instruction's place or none, and any issue.
fn message_body(kind: u16, body: &[u8]) -> Result<Message<'_>, Answer> {
    match (kind, body) {
        (128, &[number @ (0..=8 | 10..=13 | 15..=17 | 20..=33), place @ (0..=7 | NO_PLACE), low, high]) => {
            Ok(Message::Answer(Answer { number, place, issue: u16::from_le_bytes([low, high]) }))
        }
        (128, [_, _, _, _]) => Err(answer(4)),
        (129, _) if body.len() == 16 => {
            let (image, apart) = two_numbers(body);
            Ok(Message::Image { image, apart })
        }
        (128 | 129, _) => Err(answer(2)),
        _ => call_body(kind, body).map(Message::Call),
    }
}

fn framed<T>(read: Result<T, Answer>, took: usize) -> Result<(T, usize), Refused> {
    let refused = |answer| Refused { answer, took: Some(took) };
    read.map(|read| (read, took)).map_err(refused)
}

/// The station's reader: the first message's call and the bytes it took; 128 and 129 are unknown.
pub fn read_call(input: &[u8]) -> Result<(Call<'_>, usize), Refused> {
    frame(input).and_then(|(kind, body, took)| framed(call_body(kind, body), took))
}

/// The library's reader: the first message and the bytes it took; every kind is known.
pub fn read_message(input: &[u8]) -> Result<(Message<'_>, usize), Refused> {
    frame(input).and_then(|(kind, body, took)| framed(message_body(kind, body), took))
}

/// An answer's number, place and issue.
fn answer_body(Answer { number, place, issue }: Answer) -> [u8; 4] {
    let [low, high] = issue.to_le_bytes();
    [number, place, low, high]
}

/// The message that tells an answer.
pub fn answer_message(answer: Answer) -> [u8; 8] {
    let [number, place, low, high] = answer_body(answer);
    [6, 0, 128, 0, number, place, low, high]
}

/// A record's bytes, then those of what is set apart.
fn image_body(image: u64, apart: u64) -> [u8; 16] {
    ((u128::from(apart) << 64) | u128::from(image)).to_le_bytes()
}

/// The message that tells a station's record and what is set apart.
pub fn shown_message(station: &Station) -> [u8; 20] {
    let mut bytes = [18, 0, 129, 0, 0, 0, 0, 0, 0, 0, 0, 0, 0, 0, 0, 0, 0, 0, 0, 0];
    bytes[4..].copy_from_slice(&image_body(station.record, station.apart_number()));
    bytes
}

/// The library's writer, giving the bytes written: refuses more than eight instructions, then a bad
/// field, then a room shorter than the message. The room past the message keeps its bytes, after a
/// refusal all of it does.
pub fn write_message(message: &Message, room: &mut [u8]) -> Result<usize, Answer> {
    let (kind, fields, set): (u16, &[u8], &[u8]) = match *message {
        Message::Call(Call::Request { count, .. }) if count > 8 => return Err(answer(5)),
        Message::Call(Call::Request { count, bytes }) => (1, &[count], bytes.get(..5 * usize::from(count)).ok_or(answer(1))?),
        Message::Call(Call::Event(event)) => (2, &[event], &[]),
        Message::Call(Call::Result { issue, number, outcome }) => {
            let [low, high] = issue.to_le_bytes();
            (3, &[low, high, number, outcome], &[])
        }
        Message::Call(Call::Image { image, apart }) => (4, &image_body(image, apart), &[]),
        Message::Call(Call::Ask) => (5, &[], &[]),
        Message::Answer(answer) => (128, &answer_body(answer), &[]),
        Message::Image { image, apart } => (129, &image_body(image, apart), &[]),
    };
    let mut body = [0; 41];
    let size = fields.len() + set.len();
    body[..fields.len()].copy_from_slice(fields);
    body[fields.len()..size].copy_from_slice(set);
    message_body(kind, &body[..size])?; // what the reader would refuse isn't written
    let room = room.get_mut(..4 + size).ok_or(answer(17))?;
    room[..4].copy_from_slice(&[2 + size as u8, 0, kind as u8, 0]);
    room[4..].copy_from_slice(&body[..size]);
    Ok(4 + size)
}

// ---- The program -------------------------------------------------------------------------------

/// Answers message after message: 129 where an ask is taken, else 128. Gives the bytes used up and
/// whether to go on: not after 1 nor after a length out of range, neither of which frames a message.
/// Where the input hasn't ended, an incomplete last message is left for later.
fn run(
    station: &mut Station,
    take: impl Fn(&mut Station, Call) -> Answer,
    (input, ended): (&[u8], bool),
    output: &mut Vec<u8>,
) -> (usize, bool) {
    let mut at = 0;
    while at < input.len() {
        let (answer, took) = match read_call(&input[at..]) {
            Ok((call, took)) => {
                let answer = take(station, call);
                if call == Call::Ask && answer.number == 0 {
                    output.extend_from_slice(&shown_message(station));
                    at += took;
                    continue;
                }
                (answer, Some(took))
            }
            Err(refused) if refused.answer.number == 1 && !ended => break,
            Err(Refused { answer, took }) => (answer, took),
        };
        output.extend_from_slice(&answer_message(answer));
        let Some(took) = took else { return (at, false) };
        at += took;
    }
    (at, true)
}

/// All the program answers to the whole of an input.
pub fn serve(input: &[u8]) -> Vec<u8> {
    serve_on(&mut Station::start(), input, true).0
}

/// The same on a station as it is, of an input that has ended or hasn't: the answers, the bytes used up and whether to go on.
pub fn serve_on(station: &mut Station, input: &[u8], ended: bool) -> (Vec<u8>, usize, bool) {
    let mut output = Vec::new();
    let (used, on) = run(station, Station::take, (input, ended), &mut output);
    (output, used, on)
}

/// The program over streams: the messages complete after a read are answered with one write before
/// the next read. A started station stays fit, so its fitness isn't tested anew with every call.
pub fn stream(mut input: impl Read, mut output: impl Write) -> io::Result<()> {
    let mut station = Station::start();
    let mut buffer = vec![0; 1 << 16];
    let mut answers = Vec::with_capacity(3 * buffer.len());
    let mut kept = 0; // bytes of an incomplete message, at the front of the buffer
    loop {
        let read = match input.read(&mut buffer[kept..]) {
            Err(error) if error.kind() == ErrorKind::Interrupted => continue,
            read => read?,
        };
        let filled = kept + read;
        let (used, on) = run(&mut station, Station::take_fit, (&buffer[..filled], read == 0), &mut answers);
        output.write_all(&answers)?;
        output.flush()?;
        answers.clear();
        if read == 0 || !on {
            return Ok(());
        }
        buffer.copy_within(used..filled, 0);
        kept = filled - used;
    }
}
