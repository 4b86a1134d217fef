//! Messages: read as a station reads them, and with one form in bytes.

use station::message::{Message, Reply};
use station::{Answer, Event, Instruction, Issue, Number, Outcome, Parts, Record, Refusal, Station};
use std::io::{self, ErrorKind, Read};

/// Numbers that look like chance and are the same each time.
struct Numbers(u64);

impl Numbers {
    fn next(&mut self) -> u64 {
        self.0 ^= self.0 << 13;
        self.0 ^= self.0 >> 7;
        self.0 ^= self.0 << 17;
        self.0
    }

    fn below(&mut self, end: u64) -> u64 {
        self.next() % end
    }
}

/// A message of every kind, with their bytes.
fn examples() -> Vec<(Message, Vec<u8>)> {
    let down: Instruction = "lift basement".parse().expect("an instruction");
    vec![
        (Message::Request(Vec::new()), vec![3, 0, 1, 0, 0]),
        (Message::Request(vec![down]), vec![8, 0, 1, 0, 1, 4, 2, 0, 0, 0]),
        (Message::Request(vec![Instruction::Rotate; 8]), [&[43, 0, 1, 0, 8][..], &[5, 0, 0, 0, 0].repeat(8)].concat()),
        (Message::Event(Event::EndedNotDone), vec![3, 0, 2, 0, 4]),
        (Message::Result { issue: Issue(0x1234), number: 7, outcome: Outcome::Stuck }, vec![6, 0, 3, 0, 0x34, 0x12, 7, 2]),
        (
            Message::Image { record: Record::START, apart: Parts(1 << 63) },
            vec![18, 0, 4, 0, 0, 0, 0, 0, 0, 0x1B, 9, 0, 0, 0, 0, 0, 0, 0, 0, 0x80],
        ),
        (Message::Ask, vec![2, 0, 5, 0]),
    ]
}

#[test]
fn every_kind_has_one_form() {
    for (message, bytes) in examples() {
        assert_eq!(message.bytes().as_ref(), Ok(&bytes));
        assert_eq!(Message::read(&bytes), Ok((message.clone(), bytes.len())));
        assert_eq!(Message::read(&[&bytes[..], &[9, 9]].concat()), Ok((message, bytes.len())), "what follows isn't looked at");
        for cut in 0..bytes.len() {
            assert_eq!(Message::read(&bytes[..cut]), Err(Number::TooFewBytes.into()));
        }
    }
    assert_eq!(Message::Request(vec![Instruction::Rotate; 9]).bytes(), Err(Number::TooMany.into()));
    let answer = Answer { number: Number::OddCount, place: Some(7), issue: Issue(0) };
    let replies = [
        (Reply::Answer(answer), vec![6, 0, 128, 0, 24, 7, 0, 0]),
        (Reply::Answer(Answer { issue: Issue(0x1234), ..Answer::TAKEN }), vec![6, 0, 128, 0, 0, 255, 0x34, 0x12]),
        (Reply::Held { record: Record::START, apart: Parts(1) }, vec![18, 0, 129, 0, 0, 0, 0, 0, 0, 0x1B, 9, 0, 1, 0, 0, 0, 0, 0, 0, 0]),
    ];
    for (reply, bytes) in replies {
        assert_eq!((reply.bytes(), Reply::read(&bytes)), (bytes.clone(), Ok((reply, bytes.len()))));
        assert_eq!(Message::read(&bytes), Err(Number::UnknownKind.into()), "a station doesn't read it");
    }
    let refused: [(&[u8], Number); 6] = [
        (&[6, 0, 128, 0, 14, 255, 0, 0], Number::BadField),
        (&[6, 0, 128, 0, 35, 255, 0, 0], Number::BadField),
        (&[6, 0, 128, 0, 24, 8, 0, 0], Number::BadField),
        (&[5, 0, 128, 0, 24, 7, 0], Number::BadLength),
        (&[3, 0, 129, 0, 0], Number::BadLength),
        (&[2, 0, 5, 0], Number::UnknownKind),
    ];
    for (bytes, number) in refused {
        assert_eq!(Reply::read(bytes), Err(number.into()), "{bytes:?}");
    }
}

/// Bytes near a message: some changed, cut or with more behind them.
fn damaged(numbers: &mut Numbers) -> Vec<u8> {
    let all = examples();
    let mut bytes = all[numbers.below(all.len() as u64) as usize].1.clone();
    for _ in 0..numbers.below(4) {
        let at = numbers.below(bytes.len() as u64) as usize;
        bytes[at] = if numbers.below(2) == 0 { numbers.below(8) as u8 } else { numbers.next() as u8 };
    }
    match numbers.below(6) {
        0 => bytes.truncate(numbers.below(bytes.len() as u64 + 1) as usize),
        1 => bytes.resize(bytes.len() + numbers.below(50) as usize, 0),
        _ => {}
    }
    bytes
}

/// Of any bytes: what isn't read is told what the station answers, and the station reads what is; each has the form that it was read from.
#[test]
fn they_are_read_as_the_station_reads_them() {
    let mut numbers = Numbers(0x9E37_79B9_7F4A_7C15);
    let (mut read, mut refused) = (0, std::collections::BTreeSet::new());
    for _ in 0..50_000 {
        let bytes = damaged(&mut numbers);
        let (answer, reply) = Station::new().message(&bytes);
        match Message::read(&bytes) {
            Ok((message, took)) => {
                read += 1;
                assert_eq!(message.bytes().as_deref(), Ok(&bytes[..took]));
                assert!(!matches!(answer.number as u8, 1..=5), "{bytes:?}: {answer}");
            }
            Err(refusal) => {
                refused.insert(refusal.number);
                assert_eq!(answer.into_result(), Err(refusal), "{bytes:?}");
            }
        }
        match Reply::read(&reply) {
            Ok((Reply::Answer(told), 8)) => assert_eq!(told, answer),
            Ok((Reply::Held { record: Record::START, apart: Parts::NONE }, 20)) => assert_eq!(answer, Answer::TAKEN),
            other => panic!("{other:?}"),
        }
    }
    use Number::{BadField, BadLength, TooFewBytes, TooMany, UnknownKind};
    assert_eq!(refused.into_iter().collect::<Vec<_>>(), [TooFewBytes, BadLength, UnknownKind, BadField, TooMany]);
    assert!(read > 10_000, "{read} were read");
}

/// A stream that gives a byte at a time, and is interrupted before each.
struct Slow<'a>(&'a [u8], bool);

impl Read for Slow<'_> {
    fn read(&mut self, room: &mut [u8]) -> io::Result<usize> {
        self.1 = !self.1;
        if self.1 {
            return Err(ErrorKind::Interrupted.into());
        }
        let most = room.len().min(1);
        self.0.read(&mut room[..most])
    }
}

#[test]
fn messages_of_a_stream() {
    let all = examples();
    let bytes: Vec<u8> = all.iter().flat_map(|(_, bytes)| bytes.clone()).collect();
    let mut input = Slow(&bytes, false);
    for (message, _) in all {
        assert_eq!(Message::read_from(&mut input).expect("a message"), Some(message));
    }
    assert_eq!(Message::read_from(&mut input).expect("an end"), None);
    // it ends inside a message; a length out of range; a kind that isn't one
    let failing = |bytes: &[u8]| Reply::read_from(&mut Slow(bytes, false)).expect_err("no reply");
    assert_eq!((failing(&[6]).kind(), failing(&[6, 0, 128, 0, 0, 255, 0]).kind()), (ErrorKind::UnexpectedEof, ErrorKind::UnexpectedEof));
    for (bytes, number) in [(&[44, 0][..], Number::BadLength), (&[2, 0, 5, 0], Number::UnknownKind)] {
        let why = failing(bytes);
        assert_eq!((why.kind(), why.to_string()), (ErrorKind::InvalidData, Refusal::from(number).to_string()));
    }
    let reply = Reply::read_from(&mut Slow(&[6, 0, 128, 0, 0, 255, 0, 0], false)).expect("a reply");
    assert_eq!(reply, Some(Reply::Answer(Answer::TAKEN)));
}
