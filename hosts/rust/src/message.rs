//! Messages for those who talk to the program `bin/station` over a pipe (docs/PROTOCOL.md): those that a station reads, kinds 1 to 5, and
//! the two that it answers with, 128 and 129. Each meaning has one form in bytes.
//!
//! ```
//! use station::message::{Message, Reply};
//! use station::{Answer, Event, Parts, Record, Station};
//! let begin = Message::Event(Event::BeginIn).bytes()?;
//! assert_eq!(begin, [3, 0, 2, 0, 1]);
//! // a station of one's own answers as the program does
//! let (_, reply) = Station::new().message(&begin);
//! assert_eq!(Reply::read(&reply)?, (Reply::Answer(Answer::TAKEN), reply.len()));
//! let (_, reply) = Station::new().message(&Message::Ask.bytes()?);
//! assert_eq!(Reply::read(&reply)?.0, Reply::Held { record: Record::START, apart: Parts::NONE });
//! # Ok::<(), station::Refusal>(())
//! ```

use crate::answers::{place_byte, place_in};
use crate::instruction::bytes_of;
use crate::station::both_of;
use crate::{Answer, Event, Instruction, Issue, Kind, Number, Outcome, Parts, Record, Refusal, Station};
use std::io::{self, ErrorKind, Read};

/// The kinds that a station answers with.
const ANSWER: u16 = 128;
const HELD: u16 = 129;
/// The least and the most that a length says.
const LENGTHS: std::ops::RangeInclusive<usize> = 2..=43;

/// A message that a station reads.
#[derive(Clone, Debug, PartialEq, Eq, Hash)]
pub enum Message {
    /// Kind 1: a set is requested. It is answered with its issue where it is taken.
    Request(Vec<Instruction>),
    /// Kind 2: a drive begins or ends.
    Event(Event),
    /// Kind 3: the result of an instruction.
    Result {
        /// The issue of its set.
        issue: Issue,
        /// The instruction, counted from 0.
        number: u8,
        /// How it went.
        outcome: Outcome,
    },
    /// Kind 4: an image to take.
    Image {
        /// The record as somebody saw it.
        record: Record,
        /// What is set apart: with anything but none it isn't taken.
        apart: Parts,
    },
    /// Kind 5: an ask for the image.
    Ask,
}

/// A message that a station answers with.
#[derive(Clone, Debug, PartialEq, Eq, Hash)]
pub enum Reply {
    /// Kind 128: a number, a place and an issue.
    Answer(Answer),
    /// Kind 129: what the station holds.
    Held {
        /// The record.
        record: Record,
        /// What is set apart.
        apart: Parts,
    },
}

/// The bytes of a message of a kind.
fn framed(kind: u16, body: &[u8]) -> Vec<u8> {
    [&(2 + body.len() as u16).to_le_bytes(), &kind.to_le_bytes(), body].concat()
}

/// A record's bytes, then those of what is set apart.
fn both(record: Record, apart: Parts) -> [u8; 16] {
    (u128::from(apart.0) << 64 | u128::from(record.0)).to_le_bytes()
}

/// The two numbers of a body.
fn read_both(body: &[u8]) -> Result<(Record, Parts), Refusal> {
    Ok(both_of(body.try_into().map_err(|_| Number::BadLength)?))
}

/// How many bytes follow a length, if it is in range.
fn following(length: [u8; 2]) -> Result<usize, Refusal> {
    let length = u16::from_le_bytes(length).into();
    if LENGTHS.contains(&length) {
        Ok(length)
    } else {
        Err(Number::BadLength.into())
    }
}

/// The kind and the body of the first message, and how many bytes it has.
fn frame(bytes: &[u8]) -> Result<(u16, &[u8], usize), Refusal> {
    let &[low, high, ref rest @ ..] = bytes else { return Err(Number::TooFewBytes.into()) };
    let length = following([low, high])?;
    match rest.get(..length) {
        Some(&[low, high, ref body @ ..]) => Ok((u16::from_le_bytes([low, high]), body, 2 + length)),
        _ => Err(Number::TooFewBytes.into()),
    }
}

/// The bytes of the next message of a stream; none where it ends between two.
fn next_of(input: &mut impl Read) -> io::Result<Option<Vec<u8>>> {
    let mut bytes = vec![0; 2];
    loop {
        match input.read(&mut bytes[..1]) {
            Ok(0) => return Ok(None),
            Ok(_) => break,
            Err(why) if why.kind() == ErrorKind::Interrupted => {}
            Err(why) => return Err(why),
        }
    }
    input.read_exact(&mut bytes[1..])?;
    let length = following([bytes[0], bytes[1]]).map_err(unread)?;
    bytes.resize(2 + length, 0);
    input.read_exact(&mut bytes[2..])?;
    Ok(Some(bytes))
}

/// What isn't read, as a stream's failure.
fn unread(refusal: Refusal) -> io::Error {
    io::Error::new(ErrorKind::InvalidData, refusal)
}

/// The instructions of a request's body; the place of one that is none is told.
fn set_of(body: &[u8]) -> Result<Vec<Instruction>, Refusal> {
    let Some((&count, bytes)) = body.split_first() else { return Err(Number::BadLength.into()) };
    if usize::from(count) > Station::MOST {
        return Err(Number::TooMany.into());
    }
    if bytes.len() != 5 * usize::from(count) {
        return Err(Number::BadLength.into());
    }
    let one = |(place, five): (u8, &[u8])| {
        let five: [u8; 5] = five.try_into().expect("five bytes");
        Instruction::try_from(five).map_err(|refusal| Refusal { place: Some(place), ..refusal })
    };
    (0..).zip(bytes.chunks(5)).map(one).collect()
}

impl Message {
    /// The message's bytes: 5 where a request has more than eight instructions, which no message can say.
    pub fn bytes(&self) -> Result<Vec<u8>, Refusal> {
        let body = match self {
            Message::Request(set) if set.len() > Station::MOST => return Err(Number::TooMany.into()),
            Message::Request(set) => [vec![set.len() as u8], bytes_of(set)].concat(),
            Message::Event(event) => vec![event.byte()],
            Message::Result { issue, number, outcome } => [&issue.0.to_le_bytes()[..], &[*number, outcome.byte()]].concat(),
            Message::Image { record, apart } => both(*record, *apart).to_vec(),
            Message::Ask => Vec::new(),
        };
        Ok(framed(self.kind().byte().into(), &body))
    }

    /// Its kind.
    pub fn kind(&self) -> Kind {
        match self {
            Message::Request(_) => Kind::Request,
            Message::Event(_) => Kind::Event,
            Message::Result { .. } => Kind::Result,
            Message::Image { .. } => Kind::Image,
            Message::Ask => Kind::Ask,
        }
    }

    /// The first message of some bytes, as a station reads it, and how many bytes it has: 1, 2, 3, 5, 4. What follows it is not looked at.
    pub fn read(bytes: &[u8]) -> Result<(Message, usize), Refusal> {
        let (kind, body, took) = frame(bytes)?;
        let kind = u8::try_from(kind).ok().and_then(|kind| Kind::try_from(kind).ok()).ok_or(Number::UnknownKind)?;
        let message = match (kind, body) {
            (Kind::Request, body) => Message::Request(set_of(body)?),
            (Kind::Event, &[event]) => Message::Event(event.try_into()?),
            (Kind::Result, &[low, high, number, outcome]) => {
                Message::Result { issue: Issue(u16::from_le_bytes([low, high])), number, outcome: outcome.try_into()? }
            }
            (Kind::Image, body) => read_both(body).map(|(record, apart)| Message::Image { record, apart })?,
            (Kind::Ask, []) => Message::Ask,
            _ => return Err(Number::BadLength.into()),
        };
        Ok((message, took))
    }

    /// The next message of a stream; none where it ends between two.
    pub fn read_from(input: &mut impl Read) -> io::Result<Option<Message>> {
        let Some(bytes) = next_of(input)? else { return Ok(None) };
        Message::read(&bytes).map(|(message, _)| Some(message)).map_err(unread)
    }
}

impl Reply {
    /// The message's bytes.
    pub fn bytes(&self) -> Vec<u8> {
        match *self {
            Reply::Answer(Answer { number, place, issue }) => {
                let [low, high] = issue.0.to_le_bytes();
                framed(ANSWER, &[number as u8, place_byte(place), low, high])
            }
            Reply::Held { record, apart } => framed(HELD, &both(record, apart)),
        }
    }

    /// The first of some bytes, and how many it has: 1, 2, 3, and 4 where an answer's number is none that a message is answered with, or
    /// its place none of a set.
    pub fn read(bytes: &[u8]) -> Result<(Reply, usize), Refusal> {
        let (kind, body, took) = frame(bytes)?;
        let reply = match (kind, body) {
            (ANSWER, &[number, place, low, high]) => {
                let number = Number::try_from(number).ok().filter(|&number| number <= Number::KeptOpen).ok_or(Number::BadField)?;
                let place = place_in(place);
                if place.is_some_and(|place| usize::from(place) >= Station::MOST) {
                    return Err(Number::BadField.into());
                }
                Reply::Answer(Answer { number, place, issue: Issue(u16::from_le_bytes([low, high])) })
            }
            (HELD, body) => read_both(body).map(|(record, apart)| Reply::Held { record, apart })?,
            (ANSWER, _) => return Err(Number::BadLength.into()),
            _ => return Err(Number::UnknownKind.into()),
        };
        Ok((reply, took))
    }

    /// The next of a stream; none where it ends between two.
    pub fn read_from(input: &mut impl Read) -> io::Result<Option<Reply>> {
        let Some(bytes) = next_of(input)? else { return Ok(None) };
        Reply::read(&bytes).map(|(reply, _)| Some(reply)).map_err(unread)
    }
}
