//! The journal under power cuts: `power_cuts PROGRAM DIRECTORY CUTS`. A client sends messages to the station and notes the answers, the
//! station is killed at a random moment, and started again on its journal, so many times. The program is started as it is, not by a script,
//! so that what is killed is the station itself. After each cut the journal must be what it was before and then appends with the messages that
//! were sent, in order, up to some byte; every message that was answered must be in it; and every answer must be the reference's, on one
//! station that has gone on through all cuts. What must have come besides, or the run fails, stands in `Came`. Of ten sessions one has a client
//! that reads nothing, so that however fast the disk is some messages are kept and not answered.

use shared::journal_form::{read, Read as Journal, Written, MESSAGES};
use shared::journals::{narrowed, new, started, Trouble, ASK};
use shared::pipes::messages_in;
use shared::reference::{drive_under_way, read_call, serve_on, Call, Station, START};
use shared::traffic::{framed_message, image, result, Numbers};
use std::fs;
use std::io::{Read, Write};
use std::path::Path;
use std::sync::{Arc, Condvar, Mutex};
use std::thread;
use std::time::{Duration, Instant};

/// More time than a station ever takes for an answer.
const LONG: Duration = Duration::from_secs(60);

/// What came of all cuts so far.
#[derive(Debug, Default)]
struct Came {
    /// Cuts before the first answer of a session, and after it.
    unanswered: usize,
    answered: usize,
    /// Sessions whose journal has messages that were not answered any more, and that has not all that was sent.
    kept_unanswered: usize,
    not_kept: usize,
    /// Starts on a journal that ends inside an append.
    torn: usize,
    /// Cuts with a set outstanding, with a drive under way and with something set apart.
    set_over: usize,
    drive_over: usize,
    apart_over: usize,
    /// Results of sets from before the cut: of the one that was outstanding, taken; of those before it, told as late.
    taken: usize,
    late: usize,
}

impl Came {
    fn all(&self) -> bool {
        let over = [self.set_over, self.drive_over, self.apart_over, self.taken, self.late];
        [self.unanswered, self.answered, self.kept_unanswered, self.not_kept, self.torn].iter().chain(&over).all(|&n| n > 0)
    }
}

/// How many bytes have come back, and whether no more will.
#[derive(Default)]
struct Back {
    state: Mutex<(usize, bool)>,
    changed: Condvar,
}

impl Back {
    fn comes(&self, bytes: usize, ended: bool) {
        let mut state = self.state.lock().expect("the state");
        *state = (state.0 + bytes, ended);
        self.changed.notify_all();
    }

    /// Waits until so many bytes are there or no more will come, and says whether they are there.
    fn wait_for(&self, bytes: usize) -> bool {
        let waiting = self.changed.wait_timeout_while(self.state.lock().expect("the state"), LONG, |state| state.0 < bytes && !state.1);
        let (state, time) = waiting.expect("the state");
        assert!(!time.timed_out(), "the station doesn't answer");
        state.0 >= bytes
    }
}

/// A session's messages, of any sort but those that end it: first an ask, so that the image is seen; now and then a result of a set from
/// before, and an image with a drive under way. With each stands how many bytes of answers there are up to it.
fn session(numbers: &mut Numbers, from: &Station, count: u64) -> Vec<(Vec<u8>, usize)> {
    let (mut station, mut answers) = (*from, 0);
    let mut with_answer = |message: Vec<u8>, station: &mut Station| {
        answers += serve_on(station, &message, true).0.len();
        (message, answers)
    };
    let mut all = vec![with_answer(ASK.to_vec(), &mut station)];
    for _ in 0..count {
        let message = match numbers.below(20) {
            0 | 1 => result(station.present_issue().wrapping_sub(1 + numbers.below(3) as u16), 0, numbers.below(3) as u8),
            2 => image(START | 1 << 55, 0),
            _ => framed_message(numbers, &station),
        };
        all.push(with_answer(message, &mut station));
    }
    all
}

/// Sends each message when the one before is answered, as a planner does that waits.
fn in_step(mut to: impl Write, messages: &[(Vec<u8>, usize)], back: &Back) {
    for (message, answers) in messages {
        if to.write_all(message).is_err() || !back.wait_for(*answers) {
            break;
        }
    }
}

/// Sends all in pieces of any size, and waits for nothing.
fn ahead(mut to: impl Write, messages: &[(Vec<u8>, usize)], seed: u64) {
    let (bytes, mut sizes) = (sent(messages), Numbers(seed));
    let mut rest = &bytes[..];
    while !rest.is_empty() {
        let most = if sizes.one_in(3) { 9 } else { 2500 };
        let (piece, more) = rest.split_at(rest.len().min(1 + sizes.below(most) as usize));
        if to.write_all(piece).is_err() {
            break;
        }
        rest = more;
        if sizes.one_in(6) {
            thread::sleep(Duration::from_micros(sizes.below(1000)));
        }
    }
}

fn sent(messages: &[(Vec<u8>, usize)]) -> Vec<u8> {
    messages.iter().flat_map(|(message, _)| message).copied().collect()
}

/// A session that is cut: at any moment from its start on, or when some of the answers have come and a moment later. What was sent, and
/// what came back.
fn cut_session(program: &str, journal: &str, numbers: &mut Numbers, from: &Station) -> (Vec<u8>, Vec<u8>) {
    let waits = numbers.one_in(2);
    let count = if waits { numbers.below(30) } else { 100 + numbers.below(600) };
    let messages = session(numbers, from, count);
    let (seed, bytes) = (numbers.next(), sent(&messages));
    let answers = messages.last().map_or(0, |(_, answers)| *answers);
    // how soon a station has started depends on the machine
    let (until, moment) = match numbers.below(8) {
        0 => (0, numbers.below(2000)),
        1 => (0, numbers.below(100_000)),
        2..=4 => (1 + numbers.below(answers as u64), 0),
        _ => (1 + numbers.below(answers as u64), numbers.below(8000)),
    };
    let mut child = started(program, &[journal], Trouble::Nothing);
    let (to, mut from) = (child.stdin.take().expect("a pipe"), child.stdout.take().expect("a pipe"));
    let back = Arc::new(Back::default());
    let heard = Arc::clone(&back);
    let reader = thread::spawn(move || {
        let (mut all, mut room) = (Vec::new(), [0; 4096]);
        loop {
            let n = from.read(&mut room).expect("what the station writes");
            heard.comes(n, n == 0);
            if n == 0 {
                return all;
            }
            all.extend(&room[..n]);
        }
    });
    let told = Arc::clone(&back);
    let writer = thread::spawn(move || if waits { in_step(to, &messages, &told) } else { ahead(to, &messages, seed) });
    back.wait_for(until as usize);
    thread::sleep(Duration::from_micros(moment));
    child.kill().expect("the station is killed");
    let ended = child.wait_with_output().expect("the station has ended");
    noted(&ended.stderr);
    writer.join().expect("the writer ends");
    (bytes, reader.join().expect("the reader ends"))
}

/// A session whose client reads nothing. It is cut when the journal has more messages than the pipe holds answers of.
fn unread_session(program: &str, journal: &str, numbers: &mut Numbers, from: &Station, had: &Journal) -> (Vec<u8>, Vec<u8>) {
    let mut child = started(program, &[journal], Trouble::Nothing);
    let (to, room) = (child.stdin.take().expect("a pipe"), narrowed(child.stdout.as_ref().expect("a pipe")));
    // no answer has fewer than eight bytes
    let messages = session(numbers, from, room as u64 / 8);
    let last = messages.iter().position(|(_, answers)| *answers > room).expect("more answers than there is room for");
    let enough = sent(&messages[..=last]).len();
    let (seed, bytes) = (numbers.next(), sent(&messages));
    let writer = thread::spawn(move || ahead(to, &messages, seed));
    let kept = || {
        // the file's length is a quick look, since most of it is messages
        let long = fs::metadata(journal).is_ok_and(|file| file.len() as usize >= had.whole + enough);
        let says = if long { fs::read(journal).ok().and_then(|bytes| read(&bytes).ok()) } else { None };
        says.map_or(0, |says| says.recorded().len())
    };
    let begun = Instant::now();
    while kept() < had.recorded().len() + enough {
        assert!(begun.elapsed() < LONG, "the station keeps nothing more when nobody reads its answers");
        thread::sleep(Duration::from_millis(1));
    }
    child.kill().expect("the station is killed");
    // first it must be gone: as soon as the pipe is read it could write more
    child.wait().expect("the station is gone");
    let ended = child.wait_with_output().expect("the station has ended");
    noted(&ended.stderr);
    writer.join().expect("the writer ends");
    (bytes, ended.stdout)
}

/// Nothing is told but that a tail was cut off.
fn noted(told: &[u8]) {
    let told = String::from_utf8_lossy(told);
    assert!(told.lines().all(|line| line.starts_with("station: note: ")), "the station has told: {told}");
}

/// The journal's bytes and what they say.
fn journal_in(path: &str) -> (Vec<u8>, Journal) {
    let bytes = fs::read(path).expect("the journal");
    let says = read(&bytes).unwrap_or_else(|why| panic!("the journal is rejected: {why:?}"));
    assert!(says.starts(), "the journal is damaged at byte {}", says.whole);
    (bytes, says)
}

/// The session held against the journal that it left, and the reference taken on over what is in it.
fn looked_at(before: &Journal, now: &Journal, (sent, back): (&[u8], &[u8]), station: &mut Station, came: &mut Came) -> usize {
    assert!(now.appends.starts_with(&before.appends), "the journal has lost something that it had");
    let kept = &now.recorded()[before.recorded().len()..];
    assert!(sent.starts_with(kept), "the journal has what was not sent");
    let (mut answers, mut messages, cut) = (Vec::new(), 0, *station);
    for message in messages_in(kept) {
        let answer = serve_on(station, message, true).0;
        if let Ok((Call::Result { issue, .. }, _)) = read_call(message) {
            let behind = cut.present_issue().wrapping_sub(issue);
            came.taken += usize::from(answer[4] == 0 && behind == 0 && cut.count > 0);
            came.late += usize::from(answer[4] == 29 && behind < 1000);
        }
        answers.extend(answer);
        messages += 1;
    }
    assert!(answers.starts_with(back), "an answer is not the reference's, or its message is not in the journal");
    came.unanswered += usize::from(back.is_empty());
    came.answered += usize::from(!back.is_empty());
    came.kept_unanswered += usize::from(back.len() < answers.len());
    came.not_kept += usize::from(kept.len() < sent.len());
    came.set_over += usize::from(station.count > 0);
    came.drive_over += usize::from(drive_under_way(station.record));
    came.apart_over += usize::from(station.apart_number() != 0);
    messages
}

/// A tail that is cut short, as a power cut may leave one: some bytes of an append, but not all.
fn tear(journal: &str, sum: u32, numbers: &mut Numbers, station: &Station) {
    let next = Written { bytes: Vec::new(), sum }.with(MESSAGES, &framed_message(numbers, station)).bytes;
    let size = 1 + numbers.below(next.len() as u64 - 1) as usize;
    fs::OpenOptions::new().append(true).open(journal).expect("the journal").write_all(&next[..size]).expect("a tail");
}

/// A session that isn't cut: what comes back to one ask.
fn asked(program: &str, words: &[&str]) -> Vec<u8> {
    let mut child = started(program, words, Trouble::Nothing);
    child.stdin.take().expect("a pipe").write_all(&ASK).expect("an ask");
    let ended = child.wait_with_output().expect("the station ends");
    noted(&ended.stderr);
    assert!(ended.status.success(), "the station has ended badly");
    ended.stdout
}

fn main() {
    let words: Vec<String> = std::env::args().collect();
    let [_, program, directory, cuts] = &words[..] else { panic!("usage: power_cuts PROGRAM DIRECTORY CUTS") };
    let journal = format!("{directory}/power-cuts.journal");
    if Path::new(&journal).exists() {
        fs::remove_file(&journal).expect("an old journal goes");
    }
    let (mut numbers, mut station, mut came, mut messages) = (Numbers(25), Station::start(), Came::default(), 1);
    assert!(asked(program, &new(&journal)) == serve_on(&mut station, &ASK, true).0, "the first image");
    let cuts: usize = cuts.parse().expect("a number");
    drop(fs::remove_file(format!("{journal}.torn")));
    let mut cut_off = 0;
    // what a cut meets is a matter of moments: where something has not come yet, there are some more
    let mut cut = 0;
    while cut < cuts || (!came.all() && cut < 4 * cuts) {
        let (bytes, before) = journal_in(&journal);
        // one tail at a time: a station that is killed before it has looked at its journal leaves the last one there
        if cut % 3 == 1 && before.whole == bytes.len() {
            tear(&journal, before.sum, &mut numbers, &station);
        }
        let held = fs::read(&journal).expect("the journal");
        came.torn += usize::from(before.whole < held.len());
        let (sent, back) = if cut % 10 == 9 {
            unread_session(program, &journal, &mut numbers, &station, &before)
        } else {
            cut_session(program, &journal, &mut numbers, &station)
        };
        let (now, says) = journal_in(&journal);
        // a tail is in the journal, or beside it, or both
        let torn = fs::read(format!("{journal}.torn")).unwrap_or_default();
        let kept = torn[cut_off..].windows((held.len() - before.whole).max(1)).any(|window| window == &held[before.whole..]);
        assert!(before.whole == held.len() || now == held || kept, "a tail that was cut off is lost");
        cut_off = torn.len();
        messages += looked_at(&before, &says, (&sent, &back), &mut station, &mut came);
        cut += 1;
    }
    assert!(asked(program, &[&journal]) == serve_on(&mut station, &ASK, true).0, "the last image");
    if !came.all() {
        eprintln!("power_cuts: not everything came: {came:?}");
        std::process::exit(1);
    }
    println!("power_cuts: {cut} cuts, {messages} messages in the journal, none lost that was answered, each answer the reference's on one station");
    println!("power_cuts: {came:?}");
}
