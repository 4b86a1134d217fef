//! What a lost power supply can leave at every call of the system: `journal_power STATION TOOL DIRECTORY`. The program is followed while it makes
//! a journal, keeps a session in it, cuts off a tail, and while the tool follows one journal by another (traced.rs says which folders may be
//! left). In each of them whatever was answered is in the journal, bytes that were cut off are kept, and of an old journal and the one that
//! follows it exactly one can be started. Where that is the old one, the same command once more makes the new one.

use shared::journal_form::{journal_of, read, End, Read, Written, BAD_LENGTH, CUT_SHORT, MESSAGES};
use shared::journals::{new, started, Trouble, ASK, GARAGE};
use shared::reference::{answer, answer_message, serve_on, Station};
use shared::traced::{restored, traced, Folder, Left};
use shared::traffic::{framed_message, Numbers};
use std::collections::BTreeSet;
use std::fs;
use std::io::Write;
use std::path::Path;
use std::process::Output;

const OLD: &str = "old.journal";
const NEW: &str = "new.journal";

/// All answers that the station gave for what a journal has.
fn answers_of(says: &Read) -> Vec<u8> {
    let (mut station, mut all) = (says.first, Vec::new());
    for append in &says.appends {
        match append.kind {
            MESSAGES => all.extend(serve_on(&mut station, &append.carried, false).0),
            CUT_SHORT => all.extend(answer_message(answer(1))),
            BAD_LENGTH => all.extend(answer_message(answer(2))),
            _ => {}
        }
    }
    all
}

fn some_messages(seed: u64, station: &mut Station, count: usize) -> Vec<u8> {
    let mut numbers = Numbers(seed);
    (0..count)
        .flat_map(|_| {
            let message = framed_message(&mut numbers, station);
            serve_on(station, &message, true);
            message
        })
        .collect()
}

/// Messages after which a set is outstanding with a result, something is set apart and sets have a number.
fn busy_messages() -> Vec<u8> {
    let (mut numbers, mut station, mut all) = (Numbers(6), Station::start(), Vec::new());
    loop {
        let message = framed_message(&mut numbers, &station);
        serve_on(&mut station, &message, true);
        all.extend(message);
        if station.count > 1 && station.answered != 0 && station.apart_number() != 0 && station.next_issue > 20 {
            return all;
        }
        assert!(all.len() < 1 << 16, "no such station came");
    }
}

struct Place<'a> {
    station: &'a str,
    tool: &'a str,
    directory: &'a str,
}

impl Place<'_> {
    /// The folder that is followed, with these files, and its path.
    fn folder(&self, files: &[(&str, &[u8])]) -> String {
        let path = format!("{}/power", self.directory);
        restored(&files.iter().map(|(name, bytes)| ((*name).to_string(), bytes.to_vec())).collect(), &path);
        path
    }

    fn run(&self, program: &str, words: &[&str], bytes: &[u8]) -> Output {
        let mut child = started(program, words, Trouble::Nothing);
        drop(child.stdin.take().expect("a pipe").write_all(bytes));
        let output = child.wait_with_output().expect("it ends");
        assert!(output.status.code().is_some(), "{words:?}: it was ended by a signal: {}", output.status);
        output
    }

    /// As the command does it: where the old journal is torn, a station is started on it first, and given nothing.
    fn follow(&self, words: &[String]) -> Output {
        self.untorn(&words[1]);
        self.run(self.tool, &words.iter().map(String::as_str).collect::<Vec<_>>(), &[])
    }

    fn untorn(&self, old: &str) {
        let torn = fs::read(old).ok().and_then(|bytes| read(&bytes).ok()).is_some_and(|says| says.end == End::Torn);
        if torn {
            self.run(self.station, &[old], &[]);
        }
    }

    /// Whether a station starts on a file of a folder, and then what it answers to an ask.
    fn starts(&self, path: &str) -> Option<Vec<u8>> {
        Some(self.run(self.station, &[path], &ASK).stdout).filter(|answers| !answers.is_empty())
    }

    /// Whatever was answered by then is in the journal of that moment, behind what was there before.
    fn kept(what: &str, left: &Left, output: &[u8], before: usize) {
        let says = left.folder.get(OLD).and_then(|bytes| read(bytes).ok());
        let Some(says) = says else {
            return assert!(left.answered == 0 && before == 0, "{what}, after {}: the journal is lost", left.after);
        };
        assert!(says.starts(), "{what}, after {}: the journal is damaged", left.after);
        let answers = answers_of(&says);
        assert!(
            answers.len() >= before && answers[before..].starts_with(&output[..left.answered]),
            "{what}, after {}: an answer is lost",
            left.after
        );
    }

    /// A new journal, and a session that ends inside of a message.
    fn made(&self) {
        let folder = self.folder(&[]);
        let messages = some_messages(1, &mut Station::start(), 6);
        let run = traced(self.station, &new(&format!("{folder}/{OLD}")), &folder, &[&messages, &ASK, &ASK[..3]]);
        assert!(run.told.is_empty() && run.output.len() > 28, "a new journal: it told {}", run.told);
        run.left.iter().for_each(|left| Self::kept("a new journal", left, &run.output, 0));
        assert_eq!(run.data_syncs, 3, "the disk is waited for once for each read");
        println!("  a new journal and a session: {} calls, {} folders that may be left", run.calls, run.left.len());
    }

    /// A journal with a tail, a session, and an end by a length out of range.
    fn torn(&self) {
        let mut station = Station::start();
        let whole = Written::begun(GARAGE.as_bytes(), &station).with(MESSAGES, &some_messages(2, &mut station, 9));
        let next = whole.clone().with(MESSAGES, &some_messages(3, &mut station, 9)).bytes;
        let torn = &next[..next.len() - 3];
        let folder = self.folder(&[(OLD, torn), ("old.journal.torn", b"kept before")]);
        let run = traced(self.station, &[&format!("{folder}/{OLD}")], &folder, &[&ASK, &ASK, &[44, 0]]);
        assert!(run.told.starts_with("station: note: ") && run.output.len() == 48, "a torn journal: it told {}", run.told);
        let before = read(&whole.bytes).ok().map_or(0, |says| answers_of(&says).len());
        for left in &run.left {
            Self::kept("a torn journal", left, &run.output, before);
            let beside =
                left.folder.get("old.journal.torn").is_some_and(|kept| *kept == [b"kept before", &torn[whole.bytes.len()..]].concat());
            assert!(beside || left.folder[OLD].starts_with(torn), "after {}: the tail is neither in the journal nor beside it", left.after);
        }
        println!("  a tail cut off and a session: {} calls, {} folders that may be left", run.calls, run.left.len());
        // where nothing was kept before, the name of what is kept is new
        let folder = self.folder(&[(OLD, torn)]);
        let run = traced(self.station, &[&format!("{folder}/{OLD}")], &folder, &[&ASK]);
        for left in &run.left {
            let beside = left.folder.get("old.journal.torn").is_some_and(|kept| kept == &torn[whole.bytes.len()..]);
            assert!(beside || left.folder[OLD].starts_with(torn), "after {}: the tail is neither in the journal nor beside it", left.after);
        }
    }

    /// One journal followed by another: what may be left on the way, each folder once.
    fn followed(&self, what: &str, old: &[u8], end: &Station, named: &[&str]) {
        let folder = self.folder(&[(OLD, old)]);
        let words = |folder: &str| {
            [
                ["--follow".to_string(), format!("{folder}/{OLD}"), format!("{folder}/{NEW}")].as_slice(),
                &named.iter().map(|word| (*word).to_string()).collect::<Vec<_>>(),
            ]
            .concat()
        };
        let given = words(&folder);
        self.untorn(&given[1]);
        let run = traced(self.tool, &given.iter().map(String::as_str).collect::<Vec<_>>(), &folder, &[]);
        let lines = run.told.lines().filter(|line| !line.contains(": note: ")).count();
        assert!(lines == 0, "{what}: it told {}", run.told);
        let image = serve_on(&mut end.clone(), &ASK, true).0;
        let cut = format!("{}/cut", self.directory);
        let mut seen = BTreeSet::<Folder>::new();
        // on a journal of version 1.0 no station of this version starts, and one of that version did until it was closed
        let bare = read(old).is_err();
        let whole = &old[..read(old).map_or(old.len(), |says| says.whole)];
        // of the copy's first parts one in 97 bytes is enough, and all that end within its mark
        let dull = |folder: &Folder| {
            let part = folder.get(&format!("{NEW}.part")).map_or(0, Vec::len);
            !folder.contains_key(NEW) && part < whole.len() && part % 97 != 0
        };
        for left in run.left.iter().filter(|left| !dull(&left.folder) && seen.insert(left.folder.clone())) {
            let present = |name: &str| {
                restored(&left.folder, &cut);
                self.starts(&format!("{cut}/{name}"))
            };
            let (by_old, by_new) = (present(OLD), present(NEW));
            let old_starts = if bare { left.folder[OLD] == old } else { by_old.is_some() };
            assert!(old_starts || by_new.is_some(), "{what}, after {}: neither can be started", left.after);
            assert!(!old_starts || by_new.is_none(), "{what}, after {}: both can be started", left.after);
            assert!(left.folder[OLD].starts_with(whole), "{what}, after {}: of the old journal something is lost", left.after);
            for image_now in [&by_old, &by_new].into_iter().flatten() {
                assert!(*image_now == image, "{what}, after {}: the garage is another", left.after);
            }
            if by_new.is_some() {
                continue;
            }
            // once more, from whatever was left
            restored(&left.folder, &cut);
            let again = self.follow(&words(&cut));
            let told = String::from_utf8_lossy(&again.stderr);
            assert!(told.lines().all(|line| line.contains(": note: ")), "{what}, after {}: once more it told {told}", left.after);
            let head = fs::read(format!("{cut}/{NEW}")).ok().and_then(|bytes| read(&bytes).ok());
            assert!(
                head.is_some_and(|says| says.first == *end && says.appends.is_empty()),
                "{what}, after {}: the new journal begins with another station",
                left.after
            );
            assert!(self.starts(&format!("{cut}/{OLD}")).is_none(), "{what}, after {}: the old journal can still be started", left.after);
            assert!(
                self.starts(&format!("{cut}/{NEW}")).is_some_and(|shown| shown == image),
                "{what}, after {}: the new one can't",
                left.after
            );
        }
        // all of it, and then the same answers as without another journal
        let (mut station, messages) = (*end, some_messages(9, &mut end.clone(), 200));
        let (old_path, new_path) = (format!("{folder}/{OLD}"), format!("{folder}/{NEW}"));
        assert!(
            self.starts(&old_path).is_none() && fs::read(&old_path).is_ok_and(|bytes| bytes.starts_with(whole) && (!bare || bytes != old)),
            "{what}: the old journal"
        );
        assert!(
            self.run(self.station, &[&new_path], &messages).stdout == serve_on(&mut station, &messages, true).0,
            "{what}: the answers are others"
        );
        assert!(!Path::new(&format!("{new_path}.part")).exists(), "{what}: a part is left");
        println!("  {what}: {} calls, {} folders that may be left; in each exactly one starts", run.calls, seen.len());
    }

    /// What can't be followed: nothing changes, and one line says why.
    fn unfollowed(&self, old: &[u8]) {
        let damaged = [&old[..200], &[old[200] ^ 1], &old[201..]].concat();
        let south = journal_of(b"south", &ASK);
        let cases: [(&str, &[(&str, &[u8])], &[&str]); 7] = [
            ("a new journal that is there", &[(OLD, old), (NEW, &south)], &[OLD, NEW]),
            ("a damaged journal", &[(OLD, &damaged)], &[OLD, NEW]),
            ("another garage's journal", &[(OLD, &south)], &[OLD, NEW, "--garage", GARAGE]),
            ("a journal of version 1.0 without a name", &[(OLD, &ASK)], &[OLD, NEW]),
            ("an empty file", &[(OLD, &[])], &[OLD, NEW, "--garage", GARAGE]),
            ("a journal that is to follow itself", &[(OLD, old)], &[OLD, OLD]),
            ("a journal under the name of a part", &[("new.journal.part", old)], &["new.journal.part", NEW]),
        ];
        for (what, files, words) in cases {
            let folder = self.folder(files);
            let paths: Vec<String> =
                words.iter().map(|word| if word.contains("journal") { format!("{folder}/{word}") } else { (*word).to_string() }).collect();
            let all: Vec<&str> = ["--follow"].into_iter().chain(paths.iter().map(String::as_str)).collect();
            let output = self.run(self.tool, &all, &[]);
            let told = String::from_utf8_lossy(&output.stderr);
            assert!(told.starts_with("station: ") && told.lines().count() == 1, "{what}: it told {told:?}");
            for (name, bytes) in files {
                assert!(fs::read(format!("{folder}/{name}")).is_ok_and(|now| now == **bytes), "{what}: it has changed");
            }
            println!("  {what}: {}", told.trim_end());
        }
    }
}

fn main() {
    let words: Vec<String> = std::env::args().collect();
    let [_, station, tool, directory] = &words[..] else { panic!("usage: journal_power STATION TOOL DIRECTORY") };
    let place = Place { station, tool, directory };
    place.made();
    place.torn();
    let messages = busy_messages();
    let mut end = Station::start();
    serve_on(&mut end, &messages, true);
    let old = Written::begun(GARAGE.as_bytes(), &Station::start()).with(MESSAGES, &messages);
    let torn = old.clone().with(MESSAGES, &ASK).bytes;
    place.followed("a journal followed by another", &old.bytes, &end, &[]);
    place.followed("one with a tail", &torn[..torn.len() - 2], &end, &[]);
    place.followed("one of version 1.0", &messages, &end, &["--garage", GARAGE]);
    place.unfollowed(&old.bytes);
    println!("journal_power: whatever was answered is kept, and of two journals exactly one can be started");
}
