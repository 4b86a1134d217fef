//! Words that are wrong, files that are no journal of this garage, and what is told of journals: nothing starts, one line says why, and not a
//! byte changes.

use super::{image_after, journal, not_started, run, Place};
use shared::journal_form::{journal_of, Written, CARDS, CLOSED, CUT_SHORT, HEAD, MESSAGES, NUMBERS};
use shared::journals::{new, Trouble, ASK, GARAGE};
use shared::reference::{serve_on, Station};
use shared::traffic::input;
use std::fs;
use std::os::unix::fs::PermissionsExt;
use std::path::Path;
use std::process::Command;

impl Place<'_> {
    /// What is asked for in the wrong way.
    pub fn asked_wrong(&self) {
        let (path, none) = (self.with("there", &journal(&ASK)), self.without("none"));
        let long = "n".repeat(41);
        let wrong: [(&str, &[&str]); 17] = [
            ("an unknown word", &["--old", &path]),
            ("an unknown word alone", &["--other"]),
            ("two journals", &[&path, &path]),
            ("a new journal without its file", &["--new"]),
            ("a new journal without a garage", &["--new", &none]),
            ("a new journal with two words", &["--new", &none, GARAGE]),
            ("a new journal whose garage is not said", &["--new", &none, "--garage"]),
            ("a garage without a name", &["--new", &none, "--garage", ""]),
            ("a garage with a blank in its name", &["--new", &none, "--garage", "the north"]),
            ("a garage with a bell in its name", &["--new", &none, "--garage", "\u{7}"]),
            ("a garage with a name of 41 bytes", &["--new", &none, "--garage", &long]),
            ("two words too many", &["--new", &none, "--garage", GARAGE, "--garage", GARAGE]),
            ("no name", &[""]),
            ("a garage without a journal", &["--garage", GARAGE]),
            ("a garage that is not said", &["--garage", &path]),
            ("a garage and two journals", &["--garage", GARAGE, &path, &path]),
            ("a name that begins as a word", &["--garage", GARAGE, "--new"]),
        ];
        for (what, words) in wrong {
            not_started(what, Some(2), &run(self.script, words, &ASK, Trouble::Nothing));
        }
        assert!(fs::read(&path).expect("the file") == journal(&ASK), "wrong words have changed a journal");
        assert!(!Path::new(&none).exists(), "wrong words have made a journal");
    }

    /// Files that are not what they should be.
    pub fn not_there(&self) {
        let by_script = |words: &[&str]| run(self.script, words, &ASK, Trouble::Nothing);
        let path = self.without("missing");
        not_started("a journal that is not there", Some(1), &by_script(&[&path]));
        assert!(!Path::new(&path).exists(), "a wrong path has made a journal");
        let there = journal(&input(7, 300));
        let path = self.with("there", &there);
        not_started("a new journal that is there", Some(1), &by_script(&new(&path)));
        assert!(fs::read(&path).expect("the file") == there, "a journal that was there has changed");
        not_started("a directory", Some(1), &by_script(&[self.directory]));
        not_started("a new journal in no directory", Some(1), &by_script(&new(&format!("{}/none/new", self.directory))));
        not_started("a name that is too long", Some(1), &by_script(&[&"n".repeat(5000)]));
        let pipe = self.without("pipe");
        assert!(Command::new("mkfifo").arg(&pipe).status().is_ok_and(|made| made.success()), "a pipe");
        not_started("a pipe", Some(1), &by_script(&[&pipe]));
        // nothing stands at the start of a process's memory
        not_started("a file that can't be read", Some(1), &by_script(&["/proc/self/mem"]));
        not_started("a device without a disk", Some(1), &by_script(&["/dev/null"]));
        not_started("a device that is always full", Some(1), &by_script(&["/dev/full"]));
        // the program as it is: root would be let in by the script
        fs::set_permissions(&path, fs::Permissions::from_mode(0o444)).expect("a mode");
        not_started("a journal that can't be written", None, &run(self.program, &[&path], &ASK, Trouble::ModeHolds));
        fs::set_permissions(&path, fs::Permissions::from_mode(0o644)).expect("a mode");
    }

    /// Files that are no journal of this garage: one line says so, and not a byte of them changes.
    pub fn no_journal(&self) {
        let (messages, start) = (input(7, 30), Station::start());
        let mut other = journal(&messages);
        other[20] = 3;
        let mut head = journal(&messages);
        head[70] ^= 1;
        let unfit = Written::begun(GARAGE.as_bytes(), &Station { record: 1, ..start }).with(MESSAGES, &ASK).bytes;
        let closed = Written::begun(GARAGE.as_bytes(), &start).with(MESSAGES, &messages).with(CLOSED, &[]).bytes;
        // with a tail that is torn, which a station would cut off
        let cards = Written::begun(GARAGE.as_bytes(), &start).with(CARDS, &[0; NUMBERS]).with(MESSAGES, &messages).bytes;
        let cards = [&cards[..], &[0; 9]].concat();
        let files: [(&str, &[u8], &str); 10] = [
            ("an empty file", &[], "empty"),
            ("another file", b"Tuesday: the lift was serviced; belts to be looked at.\n", ""),
            ("one whose front reads as a length", b"\x2a\x00 notes", ""),
            ("a journal of version 1.0", &messages, ""),
            ("half a head", &other[..HEAD / 2], ""),
            ("a journal of another format", &other, "format"),
            ("a journal with a damaged head", &head, "damaged"),
            ("a journal with a station that is not fit", &unfit, "fit"),
            ("a journal that is closed", &closed, "closed"),
            ("a journal with cards", &cards, "cards"),
        ];
        for (what, bytes, word) in files {
            let path = self.with("other", bytes);
            let output = run(self.script, &[&path], &ASK, Trouble::Nothing);
            not_started(what, Some(1), &output);
            assert!(String::from_utf8_lossy(&output.stderr).contains(word), "{what}: it does not say {word}");
            assert!(fs::read(&path).expect("the file") == bytes, "{what}: it has changed");
            assert!(!Path::new(&format!("{path}.torn")).exists(), "{what}: something was cut off");
        }
        let other = journal_of(b"south", &messages);
        let path = self.with("other", &other);
        let output = run(self.script, &["--garage", GARAGE, &path], &ASK, Trouble::Nothing);
        not_started("another garage's journal", Some(1), &output);
        let told = String::from_utf8_lossy(&output.stderr);
        assert!(told.contains(GARAGE) && told.contains("south"), "another garage's journal: it does not say both names");
        assert!(fs::read(&path).expect("the file") == other, "another garage's journal has changed");
        // its own it goes on from, with its name and without
        for (words, asks) in [(&["--garage", "south", &path][..], 1), (&[&path], 2)] {
            assert_eq!(
                run(self.script, words, &ASK, Trouble::Nothing).stdout,
                image_after(&[&messages[..], &ASK.repeat(asks - 1)].concat()),
                "its own"
            );
        }
        // a name may have 40 bytes, and any that is not a blank or a control
        let long = format!("{}~\u{e5}", "!".repeat(37));
        let path = self.without("long");
        assert_eq!(run(self.script, &["--new", &path, "--garage", &long], &ASK, Trouble::Nothing).stdout, image_after(&[]), "a long name");
        assert_eq!(fs::read(&path).expect("the journal"), journal_of(long.as_bytes(), &ASK), "a long name");
    }

    /// What a journal is, and what was recorded in it: whole, torn, damaged, closed, and of what is none. Not a byte changes.
    pub fn described(&self) {
        let (messages, start) = (input(14, 70), Station::start());
        let mut later = start;
        serve_on(&mut later, &messages, true);
        let whole = Written::begun(GARAGE.as_bytes(), &start).with(MESSAGES, &messages).with(CUT_SHORT, &[9]).with(MESSAGES, &ASK);
        let closed = Written::begun(GARAGE.as_bytes(), &later).with(MESSAGES, &messages).with(CLOSED, &[]).bytes;
        let size = whole.bytes.len();
        let damaged = [&whole.bytes[..size - 9], &[whole.bytes[size - 9] ^ 1], &whole.bytes[size - 8..]].concat();
        let both = [&messages[..], &ASK].concat();
        let numbers: Vec<u8> = (0..NUMBERS).map(|at| at as u8).collect();
        let cards = Written::begun(GARAGE.as_bytes(), &start)
            .with(CARDS, &[&numbers[..], &messages].concat())
            .with(CARDS, &numbers)
            .with(MESSAGES, &ASK);
        let files: [(&str, &[u8], String, &[u8]); 5] = [
            ("whole", &whole.bytes, format!("start 71 3 {size} whole"), &both),
            ("torn", &whole.bytes[..size - 1], format!("start 70 2 {} torn 16 bytes", size - 1), &messages),
            ("damaged", &damaged, format!("start 70 2 {size} damaged at byte {}", size - 17), &messages),
            ("closed", &closed, format!("snapshot 70 2 {} closed", closed.len()), &messages),
            ("with cards", &cards.bytes, format!("start 71 3 {} whole", cards.bytes.len()), &both),
        ];
        for (what, bytes, says, recorded) in files {
            let path = self.with("described", bytes);
            let output = run(self.script, &["--describe", &path], &[], Trouble::Nothing);
            let text = String::from_utf8_lossy(&output.stdout).into_owned();
            let value = |name: &str| {
                text.lines()
                    .find_map(|line| line.strip_prefix(&format!("{name} ")))
                    .unwrap_or_else(|| panic!("{what}: no {name} in {text}"))
                    .to_string()
            };
            let told = [
                value("beginning").split(' ').next().unwrap_or_default().to_string(),
                value("messages"),
                value("appends"),
                value("bytes"),
                value("state"),
            ]
            .join(" ");
            assert_eq!((told, value("garage"), value("format")), (says, GARAGE.to_string(), "2".to_string()), "a {what} journal");
            assert!(
                output.status.success() && output.stderr.is_empty(),
                "a {what} journal: it told {}",
                String::from_utf8_lossy(&output.stderr)
            );
            let output = run(self.script, &["--recorded", &path], &[], Trouble::Nothing);
            assert!(recorded.starts_with(&output.stdout), "a {what} journal: more is recorded than was answered");
            if what == "damaged" {
                assert!(!output.status.success() && !output.stderr.is_empty(), "of a damaged journal nothing is told");
            } else {
                assert!(
                    output.stdout == recorded && output.status.success() && output.stderr.iter().all(|_| what == "torn"),
                    "a {what} journal: what was recorded"
                );
            }
            assert!(fs::read(&path).expect("the file") == bytes, "a {what} journal has changed");
        }
        for (what, bytes) in [("an empty file", &[][..]), ("another file", b"Tuesday"), ("a journal of version 1.0", &messages)] {
            let path = self.with("described", bytes);
            for word in ["--describe", "--recorded"] {
                not_started(&format!("{what}, {word}"), Some(1), &run(self.script, &[word, &path], &[], Trouble::Nothing));
            }
        }
    }
}
