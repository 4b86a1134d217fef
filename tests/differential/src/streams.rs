//! Input and output at their worst: `streams STATION REPORT`, the paths of both programs. In each case what the program writes must be
//! what the reference answers or counts, or a first part of it where the output fails; its status must be the one that
//! docs/PROTOCOL.md names, and standard error must have one line where something failed and nothing otherwise.

use reference::week;
use shared::traffic;
use std::fs::File;
use std::io::{Read, Write};
use std::os::fd::{AsRawFd, FromRawFd, OwnedFd};
use std::os::unix::net::UnixStream;
use std::os::unix::process::CommandExt;
use std::process::{exit, Child, Command, Stdio};
use std::thread::{self, sleep, JoinHandle};
use std::time::Duration;

extern "C" {
    fn fcntl(descriptor: i32, command: i32, ...) -> i32;
    fn kill(process: i32, signal: i32) -> i32;
    fn signal(number: i32, handler: usize) -> usize;
    fn setrlimit(resource: i32, limits: &[u64; 2]) -> i32;
    fn pipe2(ends: &mut [i32; 2], flags: i32) -> i32;
}

/// A pipe that no other program inherits: what is read and where it is written. The standard library has one since Rust 1.87.
fn pipe() -> (File, File) {
    const CLOSED_IN_OTHERS: i32 = 0o2_000_000;
    let mut ends = [-1; 2];
    assert_eq!(unsafe { pipe2(&mut ends, CLOSED_IN_OTHERS) }, 0, "a pipe");
    // both are open, and nobody else has them
    let [from, to] = ends.map(|end| File::from(unsafe { OwnedFd::from_raw_fd(end) }));
    (from, to)
}

const SIGPIPE: i32 = 13;
const SIGTERM: i32 = 15;
const SIGCONT: i32 = 18;
const SIGSTOP: i32 = 19;
const SIGXFSZ: i32 = 25;

/// A moment.
const SHORT: Duration = Duration::from_millis(3);

/// So many bytes of answers, the last of them inside an answer, and then the output takes no more.
const SOME: usize = 100_001;

/// What is done in the program's process before it starts: nothing but the system's own way with a pipe that nobody reads, or no
/// signal for that, or files that can't grow and no signal for that.
fn as_usual() {
    unsafe { signal(SIGPIPE, 0) };
}
fn no_pipe_signal() {
    unsafe { signal(SIGPIPE, 1) };
}
fn small_files() {
    const FILE_SIZE: i32 = 1;
    unsafe {
        signal(SIGXFSZ, 1);
        setrlimit(FILE_SIZE, &[SOME as u64; 2]);
    }
}

/// A program: its path, under which name it tells of failures, and what it must write for an input.
struct Program<'a> {
    path: &'a str,
    name: &'a str,
    serve: fn(&[u8]) -> Vec<u8>,
}

/// From here on a read or a write that would have to wait fails instead.
fn never_waits(file: &impl AsRawFd) {
    const SET_FLAGS: i32 = 4;
    const NONBLOCK: i32 = 0o4000;
    let done = unsafe { fcntl(file.as_raw_fd(), SET_FLAGS, NONBLOCK) };
    assert_eq!(done, 0, "the flag is set");
}

/// The program, in a group of its own.
fn start(program: &Program, input: impl Into<Stdio>, output: impl Into<Stdio>, before: fn()) -> Child {
    let mut command = Command::new(program.path);
    command.stdin(input).stdout(output).stderr(Stdio::piped()).process_group(0);
    unsafe {
        command.pre_exec(move || {
            before();
            Ok(())
        });
    }
    command.spawn().expect("the program starts")
}

/// Sends a signal to the program and what it has started, or to the one process.
fn signal_all(child: &Child, number: i32) {
    unsafe { kill(-(child.id() as i32), number) };
}
fn signal_one(child: &Child, number: i32) {
    unsafe { kill(child.id() as i32, number) };
}

/// Writes an input in pieces of so many bytes, with a pause after each, until it ends or no one reads any more.
fn sender(mut to: impl Write + Send + 'static, input: Vec<u8>, piece: usize, pause: Duration) -> JoinHandle<()> {
    thread::spawn(move || {
        for part in input.chunks(piece) {
            if to.write_all(part).is_err() {
                break;
            }
            sleep(pause);
        }
    })
}

/// Reads at most so many bytes, slowly.
fn slowly(mut from: impl Read, most: usize) -> Vec<u8> {
    let (mut got, mut room) = (Vec::new(), [0; 8192]);
    while got.len() < most {
        let wanted = room.len().min(most - got.len());
        match from.read(&mut room[..wanted]).expect("the reader reads") {
            0 => break,
            n => got.extend(&room[..n]),
        }
        sleep(SHORT);
    }
    got
}

/// What a case is held to.
struct Case {
    name: &'static str,
    got: Vec<u8>,
    expected: Vec<u8>,
    status: i32,
    /// What stands on standard error after the program's name, if anything does.
    words: &'static str,
}

/// Waits for the program's end; whether all was as expected.
fn held(program: &Program, child: Child, case: Case) -> bool {
    let ended = child.wait_with_output().expect("the program ends");
    let (status, words) = (ended.status.code(), String::from_utf8_lossy(&ended.stderr));
    let told = if case.words.is_empty() { String::new() } else { format!("{}: {}\n", program.name, case.words) };
    let right = case.got == case.expected && status == Some(case.status) && words == told;
    if !right {
        let same = case.got.iter().zip(&case.expected).take_while(|(a, b)| a == b).count();
        eprintln!(
            "{}, {}: {} bytes came, {} expected, the first {same} the same",
            program.name,
            case.name,
            case.got.len(),
            case.expected.len()
        );
        eprintln!("  status {status:?}, expected {}; standard error {words:?}, expected {told:?}", case.status);
    }
    right
}

/// All the answers come, and then nothing more: status 0, no word.
fn all_come(program: &Program, name: &'static str, child: Child, got: Vec<u8>, input: &[u8]) -> bool {
    held(program, child, Case { name, got, expected: (program.serve)(input), status: 0, words: "" })
}

/// A device that takes nothing.
fn full_device(program: &Program) -> bool {
    let (input, to) = pipe();
    let child = start(program, input, File::create("/dev/full").expect("the device"), as_usual);
    let sent = sender(to, traffic::input(1, 1000), 500, Duration::ZERO);
    let words = "standard output: No space left on device";
    let right = held(program, child, Case { name: "full device", got: Vec::new(), expected: Vec::new(), status: 1, words });
    sent.join().expect("the sender ends");
    right
}

/// A reader that goes away after some bytes, with the system's signal for it in force and without.
fn closed_pipe(program: &Program, name: &'static str, before: fn(), status: i32, words: &'static str) -> bool {
    let (input, to) = pipe();
    let (from, output) = pipe();
    let messages = traffic::input(2, 60_000);
    let mut expected = (program.serve)(&messages);
    expected.truncate(SOME);
    let child = start(program, input, output, before);
    let sent = sender(to, messages, 50_000, Duration::ZERO);
    let got = slowly(from, expected.len());
    let right = held(program, child, Case { name, got, expected, status, words });
    sent.join().expect("the sender ends");
    right
}

/// A file that takes some bytes and then no more.
fn full_file(program: &Program) -> bool {
    let path = std::env::temp_dir().join(format!("streams.{}", std::process::id()));
    let (input, to) = pipe();
    let messages = traffic::input(9, 60_000);
    let mut expected = (program.serve)(&messages);
    expected.truncate(SOME);
    let mut child = start(program, input, File::create(&path).expect("a file"), small_files);
    let sent = sender(to, messages, 50_000, Duration::ZERO);
    child.wait().expect("the program ends");
    let got = std::fs::read(&path).expect("the file is there");
    std::fs::remove_file(&path).expect("the file goes");
    sent.join().expect("the sender ends");
    held(program, child, Case { name: "full file", got, expected, status: 1, words: "standard output: File too large" })
}

/// A slow reader behind an output that never waits.
fn slow_reader(program: &Program) -> bool {
    let (input, to) = pipe();
    let (from, output) = pipe();
    never_waits(&output);
    let messages = traffic::input(3, 400_000);
    let child = start(program, input, output, as_usual);
    let sent = sender(to, messages.clone(), 200_000, Duration::ZERO);
    let got = slowly(from, usize::MAX);
    sent.join().expect("the sender ends");
    all_come(program, "slow reader", child, got, &messages)
}

/// An input that comes in pieces with pauses, and is read without waiting or as it comes.
fn pieces(program: &Program, name: &'static str, waits: bool, messages: Vec<u8>, piece: usize, pause: Duration) -> bool {
    let (input, to) = pipe();
    let (mut from, output) = pipe();
    if !waits {
        never_waits(&input);
    }
    let child = start(program, input, output, as_usual);
    let sent = sender(to, messages.clone(), piece, pause);
    let mut got = Vec::new();
    from.read_to_end(&mut got).expect("the reader reads");
    sent.join().expect("the sender ends");
    all_come(program, name, child, got, &messages)
}

/// Stopped and continued again and again, on sockets whose calls have a time limit: such calls are interrupted by it and fail at the limit.
fn interrupted(program: &Program, name: &'static str, piece: usize, pause: Duration) -> bool {
    let (to, input) = UnixStream::pair().expect("a socket");
    let (from, output) = UnixStream::pair().expect("a socket");
    input.set_read_timeout(Some(20 * SHORT)).expect("a limit");
    output.set_write_timeout(Some(SHORT)).expect("a limit");
    let messages = traffic::input(4, 100_000);
    let child = start(program, OwnedFd::from(input), OwnedFd::from(output), as_usual);
    let sent = sender(to, messages.clone(), piece, pause);
    let read = thread::spawn(move || slowly(from, usize::MAX));
    while !read.is_finished() {
        signal_all(&child, SIGSTOP);
        sleep(SHORT);
        signal_all(&child, SIGCONT);
        sleep(SHORT);
    }
    sent.join().expect("the sender ends");
    all_come(program, name, child, read.join().expect("the reader ends"), &messages)
}

/// An input that can't be read.
fn no_input(program: &Program) -> bool {
    let (mut from, output) = pipe();
    let child = start(program, File::open("/").expect("a folder"), output, as_usual);
    let mut got = Vec::new();
    from.read_to_end(&mut got).expect("the reader reads");
    let words = "standard input: Is a directory";
    held(program, child, Case { name: "no input", got, expected: Vec::new(), status: 1, words })
}

/// Asked to end while it waits for a message: nothing is left running that holds the output open.
fn asked_to_end(program: &Program) -> bool {
    let (input, mut to) = pipe();
    let (mut from, output) = pipe();
    let messages = traffic::input(5, 1);
    let expected = (program.serve)(&messages);
    let child = start(program, input, output, as_usual);
    to.write_all(&messages).expect("the program reads");
    let mut got = vec![0; expected.len()];
    from.read_exact(&mut got).expect("the reader reads");
    signal_one(&child, SIGTERM);
    from.read_to_end(&mut got).expect("the reader reads");
    held(program, child, Case { name: "asked to end", got, expected, status: 128 + SIGTERM, words: "" })
}

/// An input that ends inside a message.
fn cut_in_a_message(program: &Program) -> bool {
    let mut cut = traffic::input(6, 300);
    cut.extend([10, 0, 4, 0, 1]);
    pieces(program, "cut in a message", true, cut, 1000, SHORT)
}

pub fn main(words: &[String]) {
    let [_, station, report] = words else { panic!("usage: streams STATION REPORT") };
    thread::spawn(|| {
        sleep(Duration::from_secs(120));
        eprintln!("streams: a case doesn't end");
        exit(1);
    });
    let station = &Program { path: station, name: "station", serve: reference::serve };
    let report = &Program { path: report, name: "report", serve: |input| week::Week::of(input).report().into_bytes() };
    let both = |program| {
        [
            full_device(program),
            pieces(program, "input that never waits", false, traffic::input(7, 20_000), 4000, 2 * SHORT),
            pieces(program, "byte by byte", true, traffic::input(8, 300), 1, Duration::ZERO),
            cut_in_a_message(program),
            interrupted(program, "reads interrupted", 10_000, 2 * SHORT),
            no_input(program),
        ]
    };
    // what the report writes is short, and comes when all is read: its output is never slow
    let answering = [
        full_file(station),
        // the program itself sees to it that no signal comes of it
        closed_pipe(station, "closed pipe", as_usual, 1, "standard output: Broken pipe"),
        closed_pipe(station, "closed pipe, no signal", no_pipe_signal, 1, "standard output: Broken pipe"),
        slow_reader(station),
        interrupted(station, "writes interrupted", 200_000, Duration::ZERO),
        asked_to_end(station),
    ];
    let cases = [both(station), both(report), answering].concat();
    let wrong = cases.iter().filter(|right| !**right).count();
    println!("streams: {} cases of input and output that wait, fail or go away, {wrong} wrong", cases.len());
    exit(i32::from(wrong > 0));
}
