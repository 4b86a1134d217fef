//! Logs in hexadecimal text for the explainer: texts that mean the same, logs of both directions, with an answer changed or a message left
//! out, recordings of answers, and each wrong line and wrong word told.

use super::shown::{paragraphs, Told};
use super::text;
use reference::{answer, answer_message, read_call, serve, serve_on, Call, Station};
use shared::journal_form::{Written, BAD_LENGTH, CLOSED, CUT_SHORT, MESSAGES};
use shared::page::blocks;
use shared::traffic::input;
use std::process::{Command, Stdio};

fn hexadecimal(bytes: &[u8]) -> String {
    bytes.iter().map(|byte| format!("{byte:02X}")).collect::<Vec<_>>().join(" ")
}

/// The messages of an input, each whole.
fn messages(bytes: &[u8]) -> Vec<&[u8]> {
    let (mut all, mut rest) = (Vec::new(), bytes);
    while let Some((message, behind)) = rest.first().and_then(|&low| rest.split_at_checked(2 + usize::from(low))) {
        all.push(message);
        rest = behind;
    }
    all
}

/// A log of both directions, a line for each message.
fn log(sent: &[&[u8]], answers: &[&[u8]]) -> String {
    sent.iter().zip(answers).map(|(sent, answer)| format!("> {}\n< {}\n", hexadecimal(sent), hexadecimal(answer))).collect()
}

/// The answers that are told of what was sent.
fn replies(told: &[Told]) -> Vec<u8> {
    told.iter().filter(|told| told.sent).flat_map(|told| told.reply.clone().unwrap_or_default()).collect()
}

fn has(told: &Told, words: &str) -> bool {
    told.lines.iter().any(|line| line.trim().starts_with(words))
}

/// Texts that mean the same messages: all in one stream as `od` writes them, one a line, several a line, with blanks, marks and comments.
fn same_texts(sent: &[&[u8]]) -> Vec<String> {
    let all = sent.concat();
    let lines = |mark: &str| sent.iter().map(|message| format!("{mark}{}\n", hexadecimal(message))).collect::<String>();
    vec![
        lines("> "),
        lines(""),
        all.chunks(16).map(|line| format!(" {}\n", hexadecimal(line).to_lowercase())).collect(),
        sent.chunks(3).map(|some| format!(">{}\n", hexadecimal(&some.concat()).replace(' ', ""))).collect(),
        lines("\t>  ").replace("\n", " # a comment\r\n\n   # another\n"),
        lines("").trim_end().to_string(),
        // as owner.py prints them, and as the system's journal has that
        lines("2026-11-17T18:41:42.007+00:00 > "),
        lines("Nov 17 18:41:42 north owner.py[77]: 2026-11-17T18:41:42.007+00:00 > "),
    ]
}

/// Logs of traffic in all these forms. Both directions are in agreement; with one answer changed, or a request left out, they are not.
fn forms(explain: &str) {
    let hex = format!("{explain} --hex");
    for seed in 100..108 {
        let bytes = input(seed, 300);
        let answers = serve(&bytes);
        let (sent, answered) = (messages(&bytes), messages(&answers));
        assert!(sent.len() == answered.len() && sent.iter().all(|message| !matches!(message[2..4], [128 | 129, 0])), "seed {seed}");
        for form in same_texts(&sent) {
            let (shown, told, well) = text(&hex, form.as_bytes());
            let found = paragraphs(&shown);
            let bytes_too = found.iter().zip(&sent).all(|(told, sent)| told.bytes == *sent);
            assert!(well && told.is_empty() && bytes_too && replies(&found) == answers, "seed {seed}: {told}{form}");
            let timed = |told: &Told| told.at.ends_with(" (2026-11-17T18:41:42.007+00:00)");
            assert!(found.iter().all(|told| timed(told) == form.contains("2026")), "seed {seed}: {form}");
            // that it is text is seen by itself, and told
            let note = "explain: note: this is hexadecimal text, and is read as with --hex\n";
            assert_eq!(text(explain, form.as_bytes()), (shown, note.to_string(), true), "seed {seed}: {form}");
        }
        let (shown, told, well) = text(&hex, log(&sent, &answered).as_bytes());
        let found = paragraphs(&shown);
        assert!(well && told.is_empty() && replies(&found) == answers, "seed {seed}: {told}");
        for (told, number) in found.iter().zip(1..) {
            let agrees = told.lines.contains(&format!("as the station answers message {}", number - 1));
            let right = told.sent || agrees && told.reply.as_ref() == Some(&told.bytes);
            assert!(told.sent == (number % 2 == 1) && right, "seed {seed}: {:?}", told.lines);
        }
        // all that is sent before all answers, as two recordings one behind the other
        let (shown, told, well) = text(&hex, format!("> {}\n< {}\n", hexadecimal(&bytes), hexadecimal(&answers)).as_bytes());
        let agree = paragraphs(&shown).iter().filter(|told| has(told, "as the station answers message ")).count();
        assert_eq!((told.as_str(), well, agree), ("", true, sent.len()));

        // an answer that says otherwise
        for changed in (0..sent.len()).step_by(37) {
            let mut other = answered[changed].to_vec();
            other[4] ^= 64;
            let mut wrong = answered.clone();
            wrong[changed] = &other;
            let (shown, told, well) = text(&hex, log(&sent, &wrong).as_bytes());
            let differ: Vec<usize> = paragraphs(&shown).iter().filter(|told| has(told, "it differs: ")).map(|told| told.number).collect();
            // an image that differs can be gone on from
            let digits = hexadecimal(&other[4..]).replace(' ', "");
            let from = format!("to go on from the log's image, cut the log behind it: --from {digits}\n");
            assert_eq!(shown.contains(&from), other[2] == 129, "seed {seed}");
            let line = format!("explain: line {0}: the answer of message {0} is not the station's\n", 2 * changed + 2);
            assert_eq!((differ, told, well), (vec![2 * changed + 2], line, false), "seed {seed}");
        }
        // a request that was taken is left out with its answer: its results are told otherwise
        let taken = |at: &usize| matches!(read_call(sent[*at]), Ok((Call::Request { .. }, _))) && answered[*at][4] == 0;
        for left_out in (0..sent.len() - 50).filter(taken).step_by(9) {
            let (mut sent, mut answered) = (sent.clone(), answered.clone());
            sent.remove(left_out);
            answered.remove(left_out);
            let (shown, _, well) = text(&hex, log(&sent, &answered).as_bytes());
            assert!(!well && shown.contains("it differs: "), "seed {seed}: without message {left_out}");
        }

        // a recording of the answers alone
        let (shown, told, well) = text(explain, &answers);
        let found = paragraphs(&shown);
        let all = found.iter().all(|told| !told.sent && told.reply.as_ref() == Some(&told.bytes));
        let refusals = answered.iter().filter(|answer| answer[2] == 128 && answer[4] != 0).count();
        assert!(shown.ends_with(&format!("\n{} answers, {refusals} of a refusal\n", answered.len())), "seed {seed}");
        assert!(well && told.is_empty() && all && found.iter().flat_map(|told| told.bytes.clone()).collect::<Vec<_>>() == answers);
    }
}

/// Journals: what they carry is told with the answers of the station that they begin with, and where each message is in the file. A session that
/// ended inside a message, or by a length out of range, is told with its answer. One that is torn or damaged is told up to there.
fn journals(explain: &str) {
    let (start, mut later) = (Station::start(), Station::start());
    serve_on(&mut later, &input(70, 400), true);
    for (seed, first) in [(71, start), (72, later)] {
        let (mut station, mut expected, mut places) = (first, Vec::new(), Vec::new());
        let mut journal = Written::begun(b"north", &first);
        for piece in messages(&input(seed, 200)).chunks(7) {
            places.extend(piece.iter().scan(journal.bytes.len() + 8, |at, message| {
                *at += message.len();
                Some(*at - message.len())
            }));
            journal.add(MESSAGES, &piece.concat());
            expected.extend(serve_on(&mut station, &piece.concat(), true).0);
        }
        let whole = journal.clone();
        for (kind, left, answered) in
            [(CUT_SHORT, &[6, 0, 3][..], answer(1)), (BAD_LENGTH, &[44, 0, 1, 1], answer(2)), (CLOSED, &[], answer(0))]
        {
            if kind != CLOSED {
                places.push(journal.bytes.len() + 8);
                expected.extend(answer_message(answered));
            }
            journal.add(kind, left);
        }
        let (shown, told, well) = text(explain, &journal.bytes);
        let found = paragraphs(&shown);
        assert!(well && told.is_empty() && replies(&found) == expected, "seed {seed}: {told}");
        assert!(found.iter().zip(&places).all(|(told, at)| told.at == format!("byte {at}")), "seed {seed}: places");
        assert!(
            shown.contains("the journal is closed") && found.iter().filter(|told| has(told, "the session ended here")).count() == 2,
            "seed {seed}"
        );
        // with a part missing, and with a changed byte
        let size = whole.bytes.len();
        for (bytes, words) in [
            (whole.bytes[..size - 1].to_vec(), "ends inside an append"),
            ([&whole.bytes[..size - 9], &[whole.bytes[size - 9] ^ 1], &whole.bytes[size - 8..]].concat(), "is damaged"),
        ] {
            let (shown, told, well) = text(explain, &bytes);
            let fewer = replies(&paragraphs(&shown));
            assert!(
                !well
                    && told.starts_with("explain: byte ")
                    && told.contains(words)
                    && expected.starts_with(&fewer)
                    && fewer.len() < expected.len(),
                "seed {seed}: {told}"
            );
        }
        for (at, words) in [(20, "format"), (100, "head is damaged")] {
            let mut bytes = whole.bytes.clone();
            bytes[at] ^= 1;
            let (shown, told, well) = text(explain, &bytes);
            assert!(!well && shown.is_empty() && told.contains(words), "seed {seed}: {told}");
        }
        let (_, told, well) = text(&format!("{explain} --from 00000000001B0900"), &whole.bytes);
        assert!(!well && told.contains("its own beginning"), "{told}");
    }
}

/// Whether a line of a session is one whole message, or answered, or has a length out of range: those out of step are the program's alone.
fn in_step(line: &str) -> bool {
    let bytes: Vec<&str> = line.split_whitespace().collect();
    let length = bytes.get(1).and_then(|byte| usize::from_str_radix(byte, 16).ok()).unwrap_or(0);
    bytes[0] != ">" || bytes.len() == 3 + length || !(2..=43).contains(&length)
}

/// The sessions of a page that are in step: their answers are the station's, as far as it reads.
fn sessions(explain: &str, page: &str) -> usize {
    let content = std::fs::read_to_string(page).expect("the page is there");
    let all = blocks(&content, &["session"]);
    let sessions: Vec<_> = all.iter().filter(|(_, _, session)| session.lines().all(in_step)).collect();
    for (line, _, session) in &sessions {
        let (shown, told, well) = text(&format!("{explain} --hex"), session.as_bytes());
        let stops = told.starts_with("explain: line ") && told.contains("expected a length from 2 to 43");
        let answers = paragraphs(&shown).iter().filter(|told| !told.sent).count();
        assert!((well || stops) && !shown.contains("it differs") && answers > 0, "{page}:{line}: {told}{shown}");
    }
    assert!(sessions.len() > 15, "{page} has {} sessions in step", sessions.len());
    sessions.len()
}

const BEGIN: &str = "03 00 02 00 01";

/// Texts with a wrong line, and what is told of it.
fn wrong_texts() -> Vec<(String, &'static str)> {
    let text = |lines: &[&str]| lines.join("\n") + "\n";
    vec![
        (text(&["0G"]), "line 1: expected digits in hexadecimal, found `G`"),
        (text(&["", "# c", "> 03 00 02 00 0"]), "line 3: expected two digits for each byte, found 9 digits"),
        (text(&["? 03"]), "line 1: expected digits in hexadecimal, found `?`"),
        (text(&["02 00 > 05 00"]), "line 1: expected digits in hexadecimal, found `>`"),
        (text(&["18:41> 02 00 05 00"]), "line 1: expected digits in hexadecimal, found `:`"),
        (text(&[&format!("18:41 > {BEGIN}"), "18:42 < 06"]), "line 2 (18:42): expected the second byte of a length, and the input ends"),
        (text(&["03 00 02"]), "line 1: expected 5 bytes of a message, found 3, and the input ends"),
        (text(&["03"]), "line 1: expected the second byte of a length, and the input ends"),
        (text(&[BEGIN, "> 03 00", "< 06 00"]), "line 2: expected 5 bytes of a message, found 2, and line 3 begins another"),
        (text(&["> 03 00 02", "!"]), "line 1: expected 5 bytes of a message, found 3, and line 2 begins another"),
        (text(&["01 00 05"]), "line 1: expected a length from 2 to 43 = 0x002B, found 1 = 0x0001"),
        (text(&[BEGIN, "02 00 05 00 2C 00"]), "line 2: expected a length from 2 to 43 = 0x002B, found 44 = 0x002C"),
        (text(&["< 00 01"]), "line 1: expected a length from 2 to 43 = 0x002B, found 256 = 0x0100"),
        (text(&["! again"]), "line 1: expected nothing behind `!`"),
        (text(&["card"]), "line 1: expected one card's number, found 0"),
        (text(&["card 1 2"]), "line 1: expected one card's number, found 2"),
        (text(&["card 0"]), "line 1: expected a card's number from 1 to 4294967295, found `0`"),
        (text(&["card -"]), "line 1: expected a card's number from 1 to 4294967295, found `-`"),
        (text(&["cards 1 x"]), "line 1: expected a card's number from 1 to 4294967295, or `-`, found `x`"),
        (text(&["cards 1 2 1"]), "line 1: card 1 stands twice"),
        (text(&["card 4294967296"]), "line 1: expected a card's number from 1 to 4294967295, found `4294967296`"),
        (text(&["card 17", "> 02 00 05 00"]), "line 1: expected a begin in behind it"),
        (text(&["card 17", "card 18", &format!("> {BEGIN}")]), "line 1: expected a begin in behind it"),
        (text(&["cards 17", &format!("> {BEGIN}")]), "line 1: expected an image behind it"),
        (text(&["card 17"]), "line 1: expected a begin in behind it"),
        (
            text(&["cards 17 18", "> 12 00 04 00 00 00 00 01 00 1B 09 00 00 00 00 00 00 00 00 00"]),
            "line 1: expected 1 cards, as many as the image has cars, found 2 (a desk would tell 39)",
        ),
        (
            text(&["cards 17", "> 12 00 04 00 00 00 00 01 00 1B 09 00 00 00 00 00 00 00 00 00", "card 17", &format!("> {BEGIN}")]),
            "line 3: card 17 is in the garage already (a desk would tell 38)",
        ),
    ]
}

/// Words that the command doesn't take, and what is told of them.
fn wrong_words() -> Vec<(Vec<&'static str>, &'static str)> {
    let usage = "usage: explain ";
    let mut all: Vec<(Vec<&str>, &str)> = [
        &["--nonsense"][..],
        &["-q"],
        &["--from"],
        &["--from", "00"],
        &["--from", "00000000001B09000"],
        &["--issue"],
        &["--issue", "65536"],
        &["--issue", "x"],
        &["--cards", "1"],
        &["--cards"],
        &["03 00 02 00 0"],
        &["0x03"],
        &[""],
        &["--hex", "03"],
        &["log.txt"],
        &["--from", "00000000001B0900", "--cards", "0"],
    ]
    .map(|words| (words.to_vec(), usage))
    .into();
    all.push((vec!["--from", "01 00 00 00 00 1B 09 00"], "--from: not sound: cell 0 of row 1 is half a car"));
    all.push((vec!["--from", "00000000001B09000000000000002000"], "--from: what is set apart has a bit above 52"));
    all.push((vec!["--from", "00000000001B0900", "--cards", "1"], "--cards: expected 0, as many as the record has cars, found 1"));
    all
}

/// What the program tells with some words and nothing to read, and its status.
fn words(explain: &str, words: &[&str]) -> (String, String, Option<i32>) {
    let output = Command::new(explain).args(words).stdin(Stdio::null()).output().expect("the program starts");
    let text = |bytes: &[u8]| String::from_utf8_lossy(bytes).into_owned();
    (text(&output.stdout), text(&output.stderr), output.status.code())
}

pub fn all(explain: &str, page: &str) {
    forms(explain);
    journals(explain);
    let sessions = sessions(explain, page);
    let (texts, given) = (wrong_texts(), wrong_words());
    for (input, expected) in &texts {
        let (shown, told, well) = text(&format!("{explain} --hex"), input.as_bytes());
        assert_eq!((told, well), (format!("explain: {expected}\n"), false), "{input}{shown}");
        if input.starts_with(BEGIN) {
            assert!(has(&paragraphs(&shown)[0], "event 1 = 0x01, begin in"), "{shown}");
        }
    }
    for (wrong, expected) in &given {
        let (shown, told, status) = words(explain, wrong);
        let right = told.starts_with(&format!("explain: {expected}")) && told.lines().count() == 1;
        assert!(shown.is_empty() && right && status == Some(2), "{wrong:?}: {status:?} {told}{shown}");
    }
    // messages as words, in one or several; and a log that begins elsewhere
    let (one, several) = (words(explain, &["08000100010402000000"]), words(explain, &["08 00", "01", "00 01 04", "02000000"]));
    assert!(one == several && one.2 == Some(0) && replies(&paragraphs(&one.0)) == [6, 0, 128, 0, 0, 255, 0, 0]);
    let from = ["--from", "00000000001B4900 FC1F000000001000", "--issue", "65535"];
    let (shown, _, status) = words(explain, &[&from[..], &["08 00 01 00 01 01 01 02 01 01", "08 00 01 00 01 01 01 08 01 01"]].concat());
    let (set_apart, taken) = ([6, 0, 128, 0, 32, 0, 0, 0], [6, 0, 128, 0, 0, 255, 255, 255]);
    assert_eq!((replies(&paragraphs(&shown)), status), ([set_apart, taken].concat(), Some(0)), "{shown}");
    assert!(shown.contains("\n    set apart before the log begins: cells 2 to 10\n"), "{shown}");
    println!("explain: logs of both ways; {sessions} sessions of {page}; {} wrong texts, {} wrong words", texts.len(), given.len());
}
