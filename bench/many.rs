//! Many stations on one machine, each with a client of its own that sends a message when the one before is answered: `many STATION INPUT
//! DIRECTORY COUNT..`. For each count without journals and with one for each station, made in the directory: the time until all that were
//! started have answered, messages a second in all over some seconds, the stations' processor time for a message, and the memory of one;
//! with journals also the time until all have answered that were started again on them, and what the disk takes for the same appends to as
//! many files without stations. Of each number the best of three rounds.

mod one_by_one;

use one_by_one::{answered, messages, ASK};
use std::fs::{self, File};
use std::io::Write;
use std::process::{Child, Command, Stdio};
use std::sync::atomic::{AtomicBool, Ordering};
use std::sync::Barrier;
use std::thread::{self, Builder};
use std::time::{Duration, Instant};

const LASTING: Duration = Duration::from_secs(2);
/// More than a client needs, and little enough for a thousand of them.
const STACK: usize = 128 * 1024;
/// Each is measured so often, and the best of each number counts.
const ROUNDS: usize = 3;

/// The nanoseconds for which a station has had a processor.
fn processor(station: &Child) -> u64 {
    let said = fs::read_to_string(format!("/proc/{}/schedstat", station.id())).expect("the kernel tells it");
    said.split(' ').next().and_then(|first| first.parse().ok()).expect("a number")
}

/// A line of what the kernel tells of a station's memory, in KB.
fn memory(station: &Child, name: &str) -> u64 {
    let said = fs::read_to_string(format!("/proc/{}/smaps_rollup", station.id())).expect("the kernel tells it");
    said.lines().find_map(|line| line.strip_prefix(name)?.trim().strip_suffix(" kB")?.parse().ok()).expect("a size")
}

struct Bench<'a> {
    program: &'a str,
    directory: &'a str,
    input: Vec<&'a [u8]>,
}

impl Bench<'_> {
    fn journal(&self, at: usize) -> String {
        format!("{}/many-{at}.journal", self.directory)
    }

    /// Starts so many stations, each with the words that are given for it, and waits until all have answered; gives the seconds too.
    fn started(&self, count: usize, words: impl Fn(usize) -> Vec<String>) -> (Vec<Child>, f64) {
        let begun = Instant::now();
        let start = |at| Command::new(self.program).args(words(at)).stdin(Stdio::piped()).stdout(Stdio::piped()).spawn();
        let mut stations: Vec<Child> = (0..count).map(|at| start(at).expect("it starts")).collect();
        for station in &mut stations {
            answered(station, &ASK);
        }
        (stations, begun.elapsed().as_secs_f64())
    }

    fn ended(&self, mut stations: Vec<Child>) {
        for station in &mut stations {
            drop(station.stdin.take());
        }
        for mut station in stations {
            assert!(station.wait().expect("it ends").success(), "it ended badly");
        }
    }

    /// Clients side by side for some seconds, each doing one message after the other: how many messages in all, and the seconds.
    fn served<C: FnMut(&[u8]) + Send>(&self, clients: Vec<C>) -> (u64, f64) {
        let (over, ready) = (AtomicBool::new(false), Barrier::new(clients.len() + 1));
        thread::scope(|scope| {
            let started = |mut client: C| {
                let (over, ready) = (&over, &ready);
                let work = move || {
                    ready.wait();
                    self.input.iter().cycle().take_while(|_| !over.load(Ordering::Relaxed)).map(|message| client(message)).count() as u64
                };
                Builder::new().stack_size(STACK).spawn_scoped(scope, work).expect("a client")
            };
            let clients: Vec<_> = clients.into_iter().map(started).collect();
            ready.wait();
            let begun = Instant::now();
            thread::sleep(LASTING);
            over.store(true, Ordering::Relaxed);
            let count = clients.into_iter().map(|client| client.join().expect("a client's count")).sum();
            (count, begun.elapsed().as_secs_f64())
        })
    }

    /// Seconds for an append, with a file for each client and no station.
    fn disk(&self, count: usize) -> f64 {
        let client = |at| {
            let mut file = File::create(self.journal(at)).expect("a file");
            move |message: &[u8]| file.write_all(message).and_then(|()| file.sync_data()).expect("an append")
        };
        let (appends, seconds) = self.served((0..count).map(client).collect());
        seconds / appends as f64
    }

    /// Seconds to start, seconds for a message, processor seconds for one, KB of a station that are resident and that are its share; with
    /// journals also seconds to start again on them, and for an append to the disk alone.
    fn round(&self, count: usize, with: bool) -> [f64; 7] {
        let words = |at| if with { ["--new", &self.journal(at), "--garage", "many"].map(String::from).to_vec() } else { Vec::new() };
        let (mut stations, start) = self.started(count, words);
        let before: u64 = stations.iter().map(processor).sum();
        let (answers, seconds) = self.served(stations.iter_mut().map(|station| move |message: &[u8]| answered(station, message)).collect());
        let used = stations.iter().map(processor).sum::<u64>() - before;
        let of_one = |name| stations.iter().map(|station| memory(station, name)).sum::<u64>() as f64 / count as f64;
        let mut numbers = [start, seconds / answers as f64, used as f64 / 1e9 / answers as f64, of_one("Rss:"), of_one("Pss:"), 0.0, 0.0];
        self.ended(stations);
        if with {
            let (stations, again) = self.started(count, |at| vec![self.journal(at)]);
            self.ended(stations);
            (numbers[5], numbers[6]) = (again, self.disk(count));
            for at in 0..count {
                fs::remove_file(self.journal(at)).expect("it goes");
            }
        }
        numbers
    }

    fn measure(&self, count: usize, with: bool) {
        let mut best = [f64::INFINITY; 7];
        for _ in 0..ROUNDS {
            for (best, number) in best.iter_mut().zip(self.round(count, with)) {
                *best = best.min(number);
            }
        }
        let [start, message, processor, resident, share, again, append] = best;
        print!("{count:>5} {:<8} start {start:>6.3} s, {:>7.0} messages/s in all, ", if with { "with" } else { "without" }, 1.0 / message);
        print!("{:>6.1} us of processor time a message, {resident:>5.0} KB resident, {share:>5.0} KB as its share", processor * 1e6);
        if with {
            print!(", start again {again:>6.3} s; the disk alone {:>7.0} appends/s", 1.0 / append);
        }
        println!();
    }
}

fn main() {
    let words: Vec<String> = std::env::args().collect();
    let [_, program, input, directory, counts @ ..] = &words[..] else { panic!("usage: many STATION INPUT DIRECTORY COUNT..") };
    let bytes = fs::read(input).expect("the input");
    let bench = Bench { program, directory, input: messages(&bytes).collect() };
    for count in counts {
        let count = count.parse().expect("a count");
        for with in [false, true] {
            bench.measure(count, with);
        }
    }
}
