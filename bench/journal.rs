//! The station with a journal beside the station without, in turns: `journal STATION INPUT DIRECTORY`. In bulk, all of the input at once, with
//! what the same appends take without a station or a checksum; one by one, each message when the one before is answered, with what the disk takes
//! for the same appends alone; and the time to the first answer with all of the input in the journal, beside a station that is given the same
//! messages. Of each the least of five runs. The journals are made in the directory: what is measured is its disk.

mod one_by_one;

use one_by_one::{answered, messages, ASK};
use std::fs::{self, File, OpenOptions};
use std::io::{Read, Write};
use std::path::Path;
use std::process::{Child, Command, Stdio};
use std::time::Instant;

const RUNS: usize = 5;
/// So many messages one by one, without a journal and with one.
const QUICK: usize = 20_000;
const SLOW: usize = 200;

fn seconds(run: impl FnOnce()) -> f64 {
    let begun = Instant::now();
    run();
    begun.elapsed().as_secs_f64()
}

struct Bench {
    station: String,
    input: String,
    journal: String,
    bytes: Vec<u8>,
}

impl Bench {
    fn command(&self, words: &[&str]) -> Command {
        let mut command = Command::new(&self.station);
        command.args(words);
        command
    }

    fn without(&self) {
        if Path::new(&self.journal).exists() {
            fs::remove_file(&self.journal).expect("it goes");
        }
    }

    /// All of the input at once.
    fn bulk(&self, words: &[&str]) -> f64 {
        self.without();
        seconds(|| {
            let input = File::open(&self.input).expect("the input");
            assert!(self.command(words).stdin(input).stdout(Stdio::null()).status().expect("it runs").success(), "it ended badly");
        })
    }

    /// The same reads, each appended as it is and waited for, by no station.
    fn appends(&self) -> f64 {
        self.without();
        seconds(|| {
            let mut input = File::open(&self.input).expect("the input");
            let mut file = OpenOptions::new().append(true).create(true).open(&self.journal).expect("a file");
            let mut room = vec![0; 65_536];
            loop {
                let size = input.read(&mut room).expect("a read");
                if size == 0 {
                    break;
                }
                file.write_all(&room[..size]).and_then(|()| file.sync_data()).expect("an append");
            }
        })
    }

    fn started(&self, words: &[&str]) -> Child {
        self.command(words).stdin(Stdio::piped()).stdout(Stdio::piped()).spawn().expect("it starts")
    }

    /// So many messages, each sent when the one before is answered; the time of one.
    fn one_by_one(&self, words: &[&str], count: usize) -> f64 {
        self.without();
        let mut station = self.started(words);
        answered(&mut station, &ASK);
        let all = seconds(|| messages(&self.bytes).take(count).for_each(|message| answered(&mut station, message)));
        drop(station.stdin.take());
        assert!(station.wait().expect("it ends").success());
        all / count as f64
    }

    /// What the disk takes for one of these appends.
    fn disk(&self) -> f64 {
        self.without();
        let mut file = OpenOptions::new().append(true).create(true).open(&self.journal).expect("a file");
        let append = |message| file.write_all(message).and_then(|()| file.sync_data()).expect("an append");
        seconds(|| messages(&self.bytes).take(SLOW).for_each(append)) / SLOW as f64
    }

    /// From the start to the first answer.
    fn first_answer(&self, words: &[&str]) -> f64 {
        seconds(|| {
            let mut station = self.started(words);
            answered(&mut station, &ASK);
            drop(station.stdin.take());
            assert!(station.wait().expect("it ends").success());
        })
    }
}

/// The least times of some runs, taken in turns.
fn least<const N: usize>(runs: [&dyn Fn() -> f64; N]) -> [f64; N] {
    let mut best = [f64::INFINITY; N];
    for _ in 0..RUNS {
        for (best, run) in best.iter_mut().zip(&runs) {
            *best = best.min(run());
        }
    }
    best
}

fn main() {
    let words: Vec<String> = std::env::args().collect();
    let [_, station, input, directory] = &words[..] else { panic!("usage: journal STATION INPUT DIRECTORY") };
    let bytes = fs::read(input).expect("the input");
    let bench = Bench { station: station.clone(), input: input.clone(), journal: format!("{directory}/bench.journal"), bytes };
    let (count, new) = (messages(&bench.bytes).count() as f64, ["--new", &bench.journal, "--garage", "bench"]);

    let [without, with, appends] = least([&|| bench.bulk(&[]), &|| bench.bulk(&new), &|| bench.appends()]);
    println!(
        "in bulk:    without a journal {:>9.0} messages/s, with one {:>9.0}, {:.2} times the time",
        count / without,
        count / with,
        with / without
    );
    println!(
        "            the appends alone take {appends:.3} s; with a journal it takes {:.2} times both together",
        with / (without + appends)
    );
    let [without, with, disk] = least([&|| bench.one_by_one(&[], QUICK), &|| bench.one_by_one(&new, SLOW), &|| bench.disk()]);
    println!(
        "one by one: without a journal {:>9.0} messages/s, with one {:>9.0}; the disk alone {:>9.0} appends/s",
        1.0 / without,
        1.0 / with,
        1.0 / disk
    );

    let served = bench.bulk(&new);
    let copy = format!("{}.copy", bench.journal);
    fs::rename(&bench.journal, &copy).expect("a long journal");
    let [with, without, bulk] = least([&|| bench.first_answer(&[&copy]), &|| bench.first_answer(&[]), &|| bench.bulk(&[])]);
    println!(
        "first answer: {with:.3} s with a journal of {count:.0} messages, {without:.3} s without one; they were answered in {served:.3} s"
    );
    println!("              a replay takes {:.2} times what the station takes to answer the same messages without a journal", with / bulk);
    fs::remove_file(&copy).expect("it goes");
    bench.without();
}
