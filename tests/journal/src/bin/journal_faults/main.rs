//! Journals that are missing, damaged, full, shared or long: `journal_faults SCRIPT PROGRAM DIRECTORY MESSAGES`. The script is the command
//! that people start, whose status and words are looked at; the program is started as it is where something is made to fail in its process
//! or a second station is needed. Where the station must not start or go on, it answers nothing more, says one line on standard error, and
//! leaves what is in the journal. At the end the time to the first answer is measured, with a journal of so many messages.

mod files;

use shared::journal_form::{journal_of, read, Written, BAD_LENGTH, CUT_SHORT, MESSAGES};
use shared::journals::{new, started, Call, Trouble, ASK, GARAGE, INPUT_OUTPUT_ERROR, NO_SPACE_LEFT};
use shared::pipes::messages_in;
use shared::reference::{serve, serve_on, Station};
use shared::traffic::{input, Numbers};
use std::fs;
use std::io::{Read, Write};
use std::path::Path;
use std::process::{Child, Output};
use std::thread;
use std::time::{Duration, Instant};

/// A station that is given an input to its end.
fn run(program: &str, words: &[&str], bytes: &[u8], trouble: Trouble) -> Output {
    let mut child = started(program, words, trouble);
    let mut pipe = child.stdin.take().expect("a pipe");
    thread::scope(|all| {
        // it may stop before it has read everything
        all.spawn(move || drop(pipe.write_all(bytes)));
        child.wait_with_output().expect("it ends")
    })
}

/// One line on standard error, which is shown.
fn one_line(what: &str, words: &[u8]) {
    let lines = words.iter().filter(|&&byte| byte == b'\n').count();
    let words = String::from_utf8_lossy(words);
    assert!(words.starts_with("station: ") && lines == 1 && words.ends_with('\n'), "{what}: it told {words:?}");
    println!("  {what}: {}", words.trim_end());
}

/// It has not started: no answer, one line, and by the script a status of its own.
fn not_started(what: &str, status: Option<i32>, output: &Output) {
    assert!(output.stdout.is_empty(), "{what}: it has answered");
    assert!(status.is_none() || output.status.code() == status, "{what}: {:?}", output.status);
    one_line(what, &output.stderr);
}

/// The messages that the journal in a file has, which must be one, whole or torn; and its whole bytes.
fn kept(path: &str) -> (Vec<u8>, Vec<u8>) {
    let bytes = fs::read(path).expect("the journal");
    let read = read(&bytes).unwrap_or_else(|why| panic!("the journal is rejected: {why:?}"));
    assert!(read.starts() && read.name == GARAGE.as_bytes(), "the journal is closed, damaged or another garage's");
    (read.recorded(), bytes[..read.whole].to_vec())
}

/// A journal with these messages.
fn journal(messages: &[u8]) -> Vec<u8> {
    journal_of(GARAGE.as_bytes(), messages)
}

/// What the reference answers to an ask after some messages.
fn image_after(bytes: &[u8]) -> Vec<u8> {
    let mut station = Station::start();
    serve_on(&mut station, bytes, true);
    serve_on(&mut station, &ASK, true).0
}

/// Sends some bytes and reads so many of what comes back, or all that comes where it ends.
fn exchanged(station: &mut Child, bytes: &[u8], answers: usize) -> Vec<u8> {
    // where it has stopped nobody reads them
    drop(station.stdin.as_mut().expect("a pipe").write_all(bytes));
    let mut all = Vec::new();
    station.stdout.as_mut().expect("a pipe").take(answers as u64).read_to_end(&mut all).expect("what it writes");
    all
}

struct Place<'a> {
    script: &'a str,
    program: &'a str,
    directory: &'a str,
}

impl Place<'_> {
    fn file(&self, name: &str) -> String {
        format!("{}/{name}.journal", self.directory)
    }

    /// A file with these bytes.
    fn with(&self, name: &str, bytes: &[u8]) -> String {
        let path = self.without(name);
        fs::write(&path, bytes).expect("a file");
        path
    }

    /// A file that is not there.
    fn without(&self, name: &str) -> String {
        let path = self.file(name);
        if Path::new(&path).exists() {
            fs::remove_file(&path).expect("an old file goes");
        }
        path
    }

    /// What is there of an append that the file ends inside of, or whose rest is zeros, is cut off and kept beside the journal, and nothing
    /// else. A journal that has nothing yet, and one that is new.
    fn torn(&self) {
        let (messages, last) = (input(8, 40), input(9, 3));
        let whole = journal(&messages);
        let next = read(&whole).map(|read| Written { bytes: Vec::new(), sum: read.sum }.with(MESSAGES, &last).bytes).expect("a journal");
        let tails = (1..next.len()).map(|size| next[..size].to_vec()).chain([1, 7, 8, 12, 500, 65_549].map(|size| vec![0; size]));
        let mut before = Vec::new();
        for (time, tail) in tails.enumerate() {
            let path = self.with("torn", &[&whole[..], &tail].concat());
            if time == 0 {
                drop(fs::remove_file(format!("{path}.torn")));
            }
            let output = run(self.program, &[&path], &ASK, Trouble::Nothing);
            let told = String::from_utf8_lossy(&output.stderr);
            assert!(output.stdout == image_after(&messages), "{} bytes of an append at the end", tail.len());
            assert!(
                told.starts_with("station: note: ") && told.ends_with('\n') && told.matches('\n').count() == 1,
                "of a tail it told {told:?}"
            );
            assert!(
                told.contains(&format!(" {} bytes", tail.len())) && told.contains(&format!(" {} ", whole.len())),
                "of a tail it told {told:?}"
            );
            before.extend(&tail);
            assert!(fs::read(format!("{path}.torn")).is_ok_and(|kept| kept == before), "a tail of {} bytes is not kept", tail.len());
            assert!(kept(&path).0 == [&messages[..], &ASK].concat(), "a tail of {} bytes is left", tail.len());
        }
        let path = self.with("torn", &[&whole[..], &next[..9]].concat());
        let output = run(self.script, &[&path], &ASK, Trouble::Nothing);
        assert!(output.status.success(), "a note makes the status {:?}", output.status);
        one_line("a torn journal", &output.stderr);
        let path = self.with("torn", &[&whole[..], &next[..9]].concat());
        let uncut = run(self.program, &[&path], &ASK, Trouble::Fails(Call::Cut, INPUT_OUTPUT_ERROR));
        assert!(uncut.stdout.is_empty() && String::from_utf8_lossy(&uncut.stderr).contains("can't be cut"), "a tail that can't be cut off");
        let path = self.with("torn", &[&whole[..], &next[..9]].concat());
        let unkept = run(self.program, &[&path], &ASK, Trouble::Fails(Call::Write, NO_SPACE_LEFT));
        assert!(
            unkept.stdout.is_empty() && fs::read(&path).expect("the journal").len() == whole.len() + 9,
            "a tail that can't be kept is cut off"
        );
        let path = self.with("begun", &journal(&[]));
        assert_eq!(run(self.program, &[&path], &ASK, Trouble::Nothing).stdout, image_after(&[]), "a journal without a message");
        let path = self.without("a new one, with spaces in its name");
        assert_eq!(run(self.script, &new(&path), &ASK, Trouble::Nothing).stdout, image_after(&[]), "a new journal");
        assert_eq!(fs::read(&path).expect("the journal"), journal(&ASK), "a new journal");
    }

    /// What stops a session is answered, and is noted in the journal, but is no message of it.
    fn stops(&self) {
        let messages = input(9, 60);
        for end in [&[1, 0][..], &[44, 0], &[255, 255, 7], &[9], &[6, 0, 3, 0, 1], &[43; 44], &[0; 60]] {
            let (path, bytes) = (self.without("stops"), [&messages[..], end].concat());
            let answers = serve(&bytes);
            assert_eq!(run(self.program, &new(&path), &bytes, Trouble::Nothing).stdout, answers, "a session that ends in {end:?}");
            let read = read(&fs::read(&path).expect("the journal")).expect("a journal");
            assert!(read.recorded() == messages, "{end:?} is among the messages, or one of them is not");
            let last = read.appends.last().expect("an append");
            let kind = if answers[answers.len() - 4] == 1 { CUT_SHORT } else { BAD_LENGTH };
            assert!(
                last.kind == kind && !last.carried.is_empty() && end.starts_with(&last.carried),
                "what ended a session is noted as {last:?}"
            );
            // a whole session after it, which nothing ends
            assert_eq!(
                run(self.program, &[&path], &ASK, Trouble::Nothing).stdout,
                image_after(&messages),
                "after a session that ended in {end:?}"
            );
            assert_eq!(kept(&path).0, [&messages[..], &ASK].concat());
        }
    }

    /// A device that gets full: what fits is answered, what does not is not, and the restart goes on from what is whole.
    fn full(&self) {
        let (path, bytes) = (self.without("full"), input(10, 3000));
        let mut station = started(self.program, &new(&path), Trouble::FullAt(8000));
        let (mut model, mut sent, mut back) = (Station::start(), 0, Vec::<u8>::new());
        for messages in messages_in(&bytes).collect::<Vec<_>>().chunks(40) {
            let piece = messages.concat();
            let answers = serve_on(&mut model, &piece, true).0.len();
            let came = exchanged(&mut station, &piece, answers);
            back.extend(&came);
            if came.len() < answers {
                break;
            }
            sent += piece.len();
        }
        let ended = station.wait_with_output().expect("it ends");
        one_line("a device that gets full", &ended.stderr);
        let (messages, _) = kept(&path);
        assert!(
            fs::metadata(&path).is_ok_and(|file| file.len() == 8000) && bytes.starts_with(&messages),
            "a full device: the journal is not what was sent"
        );
        assert!(
            sent > 0 && back == serve(&bytes[..sent]) && sent <= messages.len(),
            "a full device: answered and not kept, or not answered"
        );
        assert_eq!(run(self.program, &[&path], &ASK, Trouble::Nothing).stdout, image_after(&messages), "after a full device");
    }

    /// A limit on a file's size, which ends a process by a signal: the command's program says one line, and what it answered is kept.
    fn limited(&self) {
        let (path, bytes) = (self.without("limited"), input(10, 3000));
        let output = run(self.script, &new(&path), &bytes, Trouble::LimitedTo(8000));
        assert_eq!(output.status.code(), Some(1), "a limit on a file's size");
        one_line("a limit on a file's size", &output.stderr);
        let (messages, _) = kept(&path);
        assert!(bytes.starts_with(&messages) && serve(&messages).starts_with(&output.stdout), "a limit: answered and not kept");
        assert_eq!(run(self.program, &[&path], &ASK, Trouble::Nothing).stdout, image_after(&messages), "after a limit");
    }

    /// Calls that fail: nothing is answered, and no message is in the journal that was answered and is lost.
    fn failing(&self) {
        let messages = input(12, 50);
        let failing = [
            ("a journal that can't be written for want of room", Call::Write, NO_SPACE_LEFT, &messages[..]),
            ("a journal that can't be written", Call::Write, INPUT_OUTPUT_ERROR, &messages),
            ("a journal that doesn't come to the disk", Call::SyncData, INPUT_OUTPUT_ERROR, &messages),
            ("a journal whose start doesn't", Call::Sync, INPUT_OUTPUT_ERROR, &messages),
        ];
        for (what, call, error, before) in failing {
            let path = self.with("failing", &journal(before));
            not_started(what, None, &run(self.program, &[&path], &ASK, Trouble::Fails(call, error)));
            let (messages, _) = kept(&path);
            assert!(messages == *before || messages == [before, &ASK].concat(), "{what}: the journal has changed");
            assert_eq!(run(self.program, &[&path], &ASK, Trouble::Nothing).stdout, image_after(&messages), "after that");
        }
        let path = self.without("failing");
        let unnamed = run(self.program, &new(&path), &ASK, Trouble::Fails(Call::Sync, INPUT_OUTPUT_ERROR));
        not_started("a new journal that doesn't come to the disk", None, &unnamed);
        // what ends a session is answered when it is noted
        let path = self.with("failing", &journal(&messages));
        for call in [Call::Write, Call::SyncData] {
            let cut = run(self.program, &[&path], &ASK[..3], Trouble::Fails(call, INPUT_OUTPUT_ERROR));
            assert!(cut.stdout.is_empty() && !cut.stderr.is_empty(), "what ended a session is answered and not noted");
        }
    }

    /// Two stations on one journal, the second begun when the first has answered: the first finds it longer than it should be, stops, and
    /// answers nothing more. The second goes on.
    fn shared(&self) {
        let path = self.with("shared", &journal(&[]));
        let image = image_after(&[]);
        let mut one = started(self.program, &[&path], Trouble::Nothing);
        assert_eq!(exchanged(&mut one, &ASK, 20), image);
        let mut other = started(self.program, &[&path], Trouble::Nothing);
        assert_eq!(exchanged(&mut other, &ASK, 20), image);
        assert_eq!(exchanged(&mut one, &ASK, 20), [], "it has answered though another station has written");
        one_line("a shared journal", &one.wait_with_output().expect("it ends").stderr);
        assert_eq!(exchanged(&mut other, &ASK, 20), image, "the second goes on");
        assert!(other.wait_with_output().expect("it ends").stderr.is_empty());
        // both have appended behind the same end: the second's is wrong there
        let read = read(&fs::read(&path).expect("the journal")).expect("a journal");
        assert!(!read.appends.is_empty(), "what the first has answered is lost");
    }

    /// A journal that is taken away under a running station: renamed, removed, or replaced by a copy. It is noticed at the next append, and
    /// nothing more is answered.
    fn moved(&self) {
        let aside = self.without("aside");
        let taken_away: [(&str, fn(&str, &str)); 3] = [
            ("a journal that was renamed", |path, aside| fs::rename(path, aside).expect("another name")),
            ("a journal that was removed", |path, _| fs::remove_file(path).expect("it goes")),
            ("a journal that was replaced", |path, aside| {
                fs::copy(path, aside).expect("a copy");
                fs::rename(aside, path).expect("its name");
            }),
        ];
        for (what, take_away) in taken_away {
            let path = self.without("moved");
            assert!(run(self.program, &new(&path), &ASK, Trouble::Nothing).stderr.is_empty(), "a new journal");
            let mut station = started(self.program, &[&path], Trouble::Nothing);
            assert_eq!(exchanged(&mut station, &ASK, 20), image_after(&[]));
            take_away(&path, &aside);
            assert_eq!(exchanged(&mut station, &ASK, 20), [], "{what}: it has answered");
            one_line(what, &station.wait_with_output().expect("it ends").stderr);
            if Path::new(&path).exists() {
                assert_eq!(kept(&path).0, ASK.repeat(2), "{what}: the other one has changed");
            }
        }
    }

    /// Two stations that are sent messages at once: at most one of them answers, and what it answered stands at the front of the journal.
    fn raced(&self, times: u64) {
        let mut answered = 0;
        for time in 0..times {
            let path = self.with("raced", &journal(&[]));
            let mut both = [(); 2].map(|()| started(self.program, &[&path], Trouble::Nothing));
            let inputs = [input(100 + time, 30), input(200 + time, 30)];
            both.iter().for_each(|station| opened(station.id(), &path));
            for (station, bytes) in both.iter_mut().zip(&inputs) {
                drop(station.stdin.take().expect("a pipe").write_all(bytes));
            }
            let ended = both.map(|station| station.wait_with_output().expect("it ends"));
            let messages = read(&fs::read(&path).expect("the journal")).expect("a journal").recorded();
            let answering: Vec<_> = ended.iter().zip(&inputs).filter(|(output, _)| !output.stdout.is_empty()).collect();
            assert!(answering.len() < 2, "both of two stations have answered");
            for (output, bytes) in &answering {
                assert!(output.stdout == serve(bytes) && messages.starts_with(bytes), "of two stations one has answered what is not kept");
            }
            answered += answering.len();
        }
        println!("  two stations at once, {times} times: one of them answered {answered} times, and never both");
    }

    /// The same input with a journal and without, in one go and with a restart anywhere: the same answers.
    fn restarts(&self) {
        let (bytes, mut numbers) = (input(11, 3000), Numbers(11));
        let (expected, messages) = (serve(&bytes), messages_in(&bytes).collect::<Vec<_>>());
        for turn in 0..12 {
            let path = self.without("restarts");
            let program = if turn == 0 { self.script } else { self.program };
            let (first, second) = messages.split_at(numbers.below(3001) as usize);
            let first = run(program, &new(&path), &first.concat(), Trouble::Nothing);
            let second = run(program, &[&path], &second.concat(), Trouble::Nothing);
            assert!(
                first.status.success() && second.status.success() && [first.stdout, second.stdout].concat() == expected,
                "with a restart"
            );
            assert!(kept(&path).0 == bytes, "the journal is not what was sent");
        }
        assert_eq!(run(self.program, &[], &bytes, Trouble::Nothing).stdout, expected, "without a journal");
    }

    /// A journal of so many messages: its image, and how long the first answer takes.
    fn long(&self, messages: usize) {
        let block = input(13, messages.min(20_000));
        let bytes = block.repeat(messages / 20_000);
        let mut long = Written::begun(GARAGE.as_bytes(), &Station::start());
        let mut read = Vec::new();
        for message in messages_in(&bytes) {
            if read.len() + message.len() > 65_000 {
                long.add(MESSAGES, &std::mem::take(&mut read));
            }
            read.extend(message);
        }
        long.add(MESSAGES, &read);
        let path = self.with("long", &long.bytes);
        // on the disk, as a journal is
        fs::File::open(&path).and_then(|file| file.sync_all()).expect("a sync");
        let begun = Instant::now();
        let mut station = started(self.program, &[&path], Trouble::Nothing);
        let came = exchanged(&mut station, &ASK, 20);
        let took = begun.elapsed().as_secs_f64();
        station.wait_with_output().expect("it ends");
        assert_eq!(came, image_after(&bytes), "the image after a long journal");
        println!("  a journal of {messages} messages, {} bytes: {took:.2} s to the first answer", bytes.len());
        fs::remove_file(&path).expect("it goes");
    }
}

/// Waits until a process has the journal open to append, as the system tells.
fn opened(process: u32, path: &str) {
    let path = fs::canonicalize(path).expect("the journal");
    let appends = |descriptor: &fs::DirEntry| {
        let told = fs::read_to_string(format!("/proc/{process}/fdinfo/{}", descriptor.file_name().to_string_lossy())).unwrap_or_default();
        let flags = told.lines().find_map(|line| u32::from_str_radix(line.strip_prefix("flags:")?.trim(), 8).ok());
        fs::read_link(descriptor.path()).is_ok_and(|open| open == path) && flags.is_some_and(|flags| flags & 0o2000 != 0)
    };
    for _ in 0..10_000 {
        let descriptors = fs::read_dir(format!("/proc/{process}/fd")).expect("the process");
        if descriptors.flatten().any(|descriptor| appends(&descriptor)) {
            return;
        }
        thread::sleep(Duration::from_millis(1));
    }
    panic!("a station has not opened its journal to append");
}

fn main() {
    let words: Vec<String> = std::env::args().collect();
    let [_, script, program, directory, messages] = &words[..] else { panic!("usage: journal_faults SCRIPT PROGRAM DIRECTORY MESSAGES") };
    let place = Place { script, program, directory };
    place.asked_wrong();
    place.not_there();
    place.no_journal();
    place.torn();
    place.stops();
    place.described();
    place.full();
    place.limited();
    place.failing();
    place.shared();
    place.moved();
    place.raced(20);
    place.restarts();
    place.long(messages.parse().expect("a number"));
    println!("journal_faults: every journal that can't be trusted stops the station, and no other does");
}
