//! The floor on paper, against the reference: `drawings PROGRAM RECORDS SHARE STACK HOST..`. Examples written by hand and so many records are
//! drawn and read back by the entries, sound ones and others, into every room that is too short; and drawings damaged in every way of a
//! list at every line, cut at every byte, with text behind them, and with several faults. One in SHARE of these calls is made by the host in
//! C too, none with more stack than STACK; of each sort some go through the program, both ways, with images in many spellings. Every
//! number and every place must have come by each of the three, no other may, and every way of the lists. Each wrong reference must be found
//! out by a call of the run.

mod examples;

use entries::drawer::{Drawer, ENTRIES, REFERENCE, WRONG};
use examples::{drawn_ones, refused_ones, spelled_ones};
use reference::drawing::{apart, begins_hex, drawn, hex_line, image_in, record_in, LINES, NOT_A_DRAWING, NO_ROOM, UNSOUND};
use reference::{sound, NO_PLACE, START};
use shared::drawing_traffic::{any_record, changed_text, drawable_record, faulty_text, lift_settings, lines_of, sound_record, DAMAGES};
use shared::pipes;
use shared::traffic::{any_bytes, Numbers};
use std::collections::{BTreeMap, BTreeSet};
use std::process::exit;
use wrong::fault::{all_of, Fault};

/// What a call is given: a record to be written or a text to be read; and the same of what is set apart.
enum Given {
    Record(u64),
    Text(Vec<u8>),
    Apart(u64),
    ApartText(Vec<u8>),
}

/// A call, and the room that is lent for what comes of it.
struct Call {
    given: Given,
    room: Vec<u8>,
}

impl Call {
    /// What it returns, and the room that it leaves.
    fn by(&self, drawer: &Drawer) -> (u32, Vec<u8>) {
        let mut room = self.room.clone();
        let said = match &self.given {
            Given::Record(image) => (drawer.write)(*image, &mut room),
            Given::Text(text) => (drawer.read)(text, &mut room),
            Given::Apart(parts) => (drawer.write_apart)(*parts, &mut room),
            Given::ApartText(text) => (drawer.read_apart)(text, &mut room),
        };
        (said, room)
    }

    /// As the host in C takes it; a call that is refused may write nothing.
    fn told(&self) -> Vec<u8> {
        let (entry, image, text) = match &self.given {
            Given::Record(image) => (0, *image, &[][..]),
            Given::Text(text) => (1, 0, &text[..]),
            Given::Apart(parts) => (2, *parts, &[][..]),
            Given::ApartText(text) => (3, 0, &text[..]),
        };
        let sizes = [text.len() as u32, self.room.len() as u32].map(u32::to_le_bytes).concat();
        let taken = u8::from(self.by(&REFERENCE).0 as u8 == 0);
        [&[entry, taken], &image.to_le_bytes()[..], &sizes, text, &self.room].concat()
    }
}

/// A number and its place, with what it was told of.
type Told = (&'static str, u8, u8);

/// All that can be told by a call.
fn all_told() -> BTreeSet<Told> {
    let whole = |what, numbers: &'static [u8]| numbers.iter().map(move |&number| (what, number, NO_PLACE));
    let lines = |what| (0..=LINES as u8).map(move |place| (what, NOT_A_DRAWING, place));
    let floor = whole("a record", &[0, UNSOUND, NO_ROOM]).chain(whole("a text", &[0, UNSOUND, NO_ROOM])).chain(lines("a text"));
    let apart = whole("parts", &[0, UNSOUND, NO_ROOM]).chain(whole("a text of parts", &[0, NO_ROOM])).chain(lines("a text of parts"));
    floor.chain(apart).collect()
}

/// What the program tells where it refuses something.
const NOT_HEX: &str = "draw: not an image in hex: sixteen or thirty-two digits are wanted\n";
const TOO_LONG: &str = "draw: not an image in hex: more than 65536 bytes\n";
const NOT_SOUND: &str = "draw: 15: the record is not sound\n";
const NO_PART: &str = "draw: 15: what is set apart has a bit above 52\n";

/// So many bytes may have the digits and the blanks between them.
const LONGEST_HEX: usize = 65536;

/// The place, where the drawing's own lines come after so many.
fn bad_line(place: u8, before: usize) -> String {
    if usize::from(place) == LINES {
        return "draw: 41, place 6: text after the last line\n".to_string();
    }
    format!("draw: 41, place {place}: not a drawing; line {} is the first bad one\n", usize::from(place) + before + 1)
}

/// All that it can tell, of an image in hex or of a drawing; nothing where it is taken.
fn all_lines() -> BTreeSet<(bool, String)> {
    let either = ["", NOT_SOUND].into_iter().flat_map(|line| [(true, line.to_string()), (false, line.to_string())]);
    either
        .chain([NOT_HEX, TOO_LONG, NO_PART].map(|line| (true, line.to_string())))
        .chain((0..=LINES as u8).map(|place| (false, bad_line(place, 0))))
        .chain((0..LINES as u8).map(|place| (false, bad_line(place, LINES))))
        .collect()
}

fn is_hex(input: &[u8]) -> bool {
    input.first().is_some_and(|&first| begins_hex(first))
}

/// What it writes for hex: a drawing, or two.
fn of_hex(input: &[u8]) -> Result<String, String> {
    let (image, parts) = image_in(input).ok_or(NOT_HEX.to_string())?;
    if !sound(image) {
        return Err(NOT_SOUND.to_string());
    }
    match parts {
        Some(parts) if parts >> 53 != 0 => Err(NO_PART.to_string()),
        Some(parts) => Ok(drawn(image) + &apart::drawn(parts)),
        None => Ok(drawn(image)),
    }
}

/// What it writes for a drawing, or for two: what follows the sixth line is one if it begins with one of its marks.
fn of_text(input: &[u8]) -> Result<String, String> {
    let end = input.iter().enumerate().filter(|(_, &byte)| byte == b'\n').nth(LINES - 1).map_or(input.len(), |(at, _)| at + 1);
    let (first, second) = input.split_at(end);
    let two = second.first().is_some_and(|&first| apart::begins(first));
    let line = record_in(if two { first } else { input }).map(hex_line).map_err(|said| {
        if said.number == UNSOUND {
            NOT_SOUND.to_string()
        } else {
            bad_line(said.place, 0)
        }
    })?;
    if !two {
        return Ok(line);
    }
    apart::parts_in(second).map(|parts| line + &hex_line(parts)).map_err(|said| bad_line(said.place, LINES))
}

/// What the program writes, what it tells, and whether its status is 0.
fn of_program(input: &[u8]) -> (Vec<u8>, String, bool) {
    let written = if is_hex(input) && input.len() > LONGEST_HEX {
        Err(TOO_LONG.to_string())
    } else if is_hex(input) {
        of_hex(input)
    } else {
        of_text(input)
    };
    match written {
        Ok(text) => (text.into_bytes(), String::new(), true),
        Err(line) => (Vec::new(), line, false),
    }
}

/// What came so far, and where something was wrong.
struct Run {
    /// By the entries and by the host in C.
    came: [BTreeMap<Told, usize>; 2],
    /// By the program: what it told, of an image in hex or of a drawing.
    by_program: BTreeSet<(bool, String)>,
    programs: usize,
    ways: BTreeSet<String>,
    unfound: Vec<&'static Fault>,
    wrong: usize,
    numbers: Numbers,
    /// For the host in C: one in so many.
    share: u64,
    kept: Vec<Call>,
}

impl Run {
    fn new(share: u64) -> Self {
        let (came, by_program, ways, kept) = Default::default();
        Run { came, by_program, programs: 0, ways, unfound: all_of("drawing").collect(), wrong: 0, numbers: Numbers(13), share, kept }
    }

    fn fault(&mut self, who: &str, given: &Given, got: String, expected: String) {
        self.wrong += 1;
        if self.wrong > 5 {
            return;
        }
        match given {
            Given::Record(image) | Given::Apart(image) => eprintln!("drawings: {who}, {image:#018X}: {got}, expected {expected}"),
            Given::Text(text) | Given::ApartText(text) => {
                eprintln!("drawings: {who}, {:?}: {got}, expected {expected}", String::from_utf8_lossy(text))
            }
        }
    }

    /// Held against the reference: what a call by someone returned and left.
    fn held(&mut self, by: usize, call: &Call, got: (u32, Vec<u8>)) -> u32 {
        let expected = call.by(&REFERENCE);
        if got != expected {
            let told = |(said, room): &(u32, Vec<u8>)| format!("{said:#X} and {:?}", String::from_utf8_lossy(room));
            self.fault(["the entry", "the host in C"][by], &call.given, told(&got), told(&expected));
        }
        let [number, place, ..] = got.0.to_le_bytes();
        let what = match call.given {
            Given::Record(_) => "a record",
            Given::Text(_) => "a text",
            Given::Apart(_) => "parts",
            Given::ApartText(_) => "a text of parts",
        };
        *self.came[by].entry((what, number, place)).or_default() += 1;
        expected.0
    }

    /// Those of the wrong references that are found out by this, if they weren't before.
    fn find(&mut self, differs: impl Fn(&Drawer) -> bool) {
        self.unfound.retain(|fault| !fault.with(|| differs(&WRONG)));
    }

    /// Made by the entry, and by the wrong references; some are kept for the host in C. Gives what must be returned.
    fn made(&mut self, given: Given, size: usize, keep: bool) -> u32 {
        let call = Call { given, room: any_bytes(&mut self.numbers, size) };
        let got = call.by(&ENTRIES);
        self.find(|wrong| call.by(wrong) != got);
        let said = self.held(0, &call, got);
        if keep || self.numbers.one_in(self.share) {
            self.kept.push(call);
        }
        said
    }

    /// Read into a room of a record's eight bytes or more; gives the place.
    fn read(&mut self, text: &[u8], keep: bool) -> u8 {
        let more = [0, 0, 1, 40][self.numbers.below(4) as usize];
        let said = self.made(Given::Text(text.to_vec()), 8 + more, keep);
        if let 0 | UNSOUND = said as u8 {
            self.shown(text, said as u8);
        }
        said.to_le_bytes()[1]
    }

    /// What a text shows that was taken, or told 15 for what it shows.
    fn shown(&mut self, text: &[u8], number: u8) {
        let text = String::from_utf8_lossy(text);
        let lines: Vec<&str> = text.lines().collect();
        self.ways.insert(format!("lift line {} told {number}", lines[5]));
        if number != 0 {
            return;
        }
        self.ways.insert(format!("{} bytes", text.len()));
        for (line, at) in lines[..5].iter().zip(0..) {
            self.ways.extend(line.chars().zip(0..).map(|(sign, place)| format!("line {at} has {sign} at {place}")));
        }
    }

    /// A record drawn, sound or not, into a room that is long enough, and where it is sound into one that just fits and one that is a byte
    /// too short, and read back; or into every room up to the longest drawing's, and read back into every room that is too short too.
    fn both_ways(&mut self, image: u64, all_rooms: bool) {
        let more = self.numbers.below(40) as usize;
        let said = self.made(Given::Record(image), 66 + more, all_rooms);
        let (taken, size) = (said as u8 == 0, (said >> 16) as usize);
        let rooms = if all_rooms {
            0..67
        } else if taken {
            size - 1..size + 1
        } else {
            0..0
        };
        for room in rooms {
            self.made(Given::Record(image), room, all_rooms);
        }
        if !taken {
            return;
        }
        let text = drawn(image).into_bytes();
        self.read(&text, all_rooms);
        for room in if all_rooms { 0..8 } else { 0..0 } {
            self.made(Given::Text(text.clone()), room, true);
        }
    }

    /// What is set apart, drawn into rooms that fit, just fit and don't, and read back, also by the entry for records, which takes none; and
    /// its drawing cut, with a byte changed, and with text behind it.
    fn parts(&mut self, parts: u64, keep: bool) {
        for room in [0, 52, 53, 55, 56, 66] {
            self.made(Given::Apart(parts), room, keep);
        }
        let text = apart::drawn(parts).into_bytes();
        for room in [0, 7, 8, 20] {
            self.made(Given::ApartText(text.clone()), room, keep);
        }
        self.made(Given::Text(text.clone()), 8, keep);
        let (at, byte) = (self.numbers.below(text.len() as u64) as usize, self.numbers.byte());
        let mut changed = text.clone();
        changed[at] = [byte, b'#', b'x', b'.', b'-', b'L'][self.numbers.below(6) as usize];
        let behind = [&text[..], &[byte]].concat();
        for other in [changed, behind, text[..at].to_vec(), drawn(START | parts & 0xFF_FFFF_FFFF).into_bytes()] {
            self.made(Given::ApartText(other), 8, keep);
        }
    }

    /// Every way of damage at every line of a sound record's drawing.
    fn damaged(&mut self, image: u64) {
        for damage in &DAMAGES {
            for &(line, told) in damage.told {
                let mut lines = lines_of(&drawn(image));
                damage.spoil(&mut self.numbers, &mut lines, line);
                let text = lines.concat();
                let place = self.read(&text, false);
                if place == told {
                    self.ways.insert(format!("{}, line {line}", damage.name));
                } else {
                    self.fault(damage.name, &Given::Text(text), format!("line {place} is told"), format!("line {told}"));
                }
            }
        }
    }

    /// Made by the host in C, all in one run; gives the most stack that a call took.
    fn by_host(&mut self, host: &str) -> u32 {
        let kept = std::mem::take(&mut self.kept);
        let input: Vec<u8> = kept.iter().flat_map(Call::told).collect();
        let (output, mut at, mut most) = (pipes::answers(host, &input, 1), 0, 0);
        for call in &kept {
            let end = at + 8 + call.room.len();
            let Some((head, room)) = output.get(at..end).and_then(|answer| answer.split_first_chunk::<8>()) else { break };
            let [said, stack] = [&head[..4], &head[4..]].map(|four| u32::from_le_bytes(*four.first_chunk().expect("four")));
            self.held(1, call, (said, room.to_vec()));
            (at, most) = (end, most.max(stack));
        }
        if at != output.len() || self.came[1].values().sum::<usize>() != kept.len() {
            self.fault("the host in C", &Given::Text(Vec::new()), "another number of answers".to_string(), kept.len().to_string());
        }
        most
    }

    fn program(&mut self, program: &str, input: &[u8]) {
        self.programs += 1;
        let (expected, hex) = (of_program(input), is_hex(input));
        let got = pipes::run(program, input, self.programs as u64);
        if got != expected {
            self.fault("the program", &Given::Text(input.to_vec()), format!("{got:?}"), format!("{expected:?}"));
        }
        if hex {
            self.find(|wrong| (wrong.image_in)(input) != image_in(input));
        }
        self.by_program.insert((hex, got.1));
    }

    /// Whether all came that can, and nothing else; if not, says what is amiss.
    fn complete(&self) -> bool {
        let mut right = self.wrong == 0;
        let mut same = |what: &str, amiss: Vec<String>| {
            if !amiss.is_empty() {
                right = false;
                eprintln!("drawings: {what}: {amiss:?}");
            }
        };
        let every = all_told();
        for (came, by) in self.came.iter().zip(["the entries", "the host in C"]) {
            let came: BTreeSet<Told> = came.keys().copied().collect();
            let amiss = came.symmetric_difference(&every).map(|told| format!("{told:?}"));
            same(&format!("numbers and places that {by} never told, or can't"), amiss.collect());
        }
        let amiss = self.by_program.symmetric_difference(&all_lines()).map(|told| format!("{told:?}")).collect();
        same("what the program never told, or can't", amiss);
        same("ways that never came, or can't", self.ways.symmetric_difference(&all_ways()).cloned().collect());
        same("wrong references that were not found out", self.unfound.iter().map(|fault| fault.name.to_string()).collect());
        right
    }
}

/// Every way of damage at each of its lines; every line of the lift, the seven of sound records taken and all eighteen told 15; every mark
/// and letter at each of its places, and every length, of what is taken.
fn all_ways() -> BTreeSet<String> {
    let damage = DAMAGES.iter().flat_map(|damage| damage.told.iter().map(|(line, _)| format!("{}, line {line}", damage.name)));
    let lift = |setting| lines_of(&drawn(START | setting))[5].clone();
    let lifts = lift_settings().flat_map(|setting| {
        let words = String::from_utf8_lossy(&lift(setting)).trim_end().to_string();
        [Some(15), sound(START | setting).then_some(0)].into_iter().flatten().map(move |number| format!("lift line {words} told {number}"))
    });
    let signs = [("#.", 20), ("#.", 10), ("#.", 10), ("LTB-", 3), ("LTB-", 3)].into_iter().zip(0..).flat_map(|((signs, size), at)| {
        signs.chars().flat_map(move |sign| (0..size).map(move |place| format!("line {at} has {sign} at {place}")))
    });
    let lengths = [58, 60, 61, 62, 64, 66].map(|size| format!("{size} bytes"));
    damage.chain(lifts).chain(signs).chain(lengths).collect()
}

/// The examples, by all who draw; what the program is to be given of them.
fn examples(run: &mut Run) -> Vec<Vec<u8>> {
    let mut inputs = vec![Vec::new()];
    for (image, text) in drawn_ones() {
        assert_eq!((drawn(image), record_in(text.as_bytes())), (text.clone(), Ok(image)));
        run.both_ways(image, true);
        inputs.extend([text.into_bytes(), hex_line(image).into_bytes()]);
    }
    for (text, number, place) in refused_ones() {
        let said = record_in(text.as_bytes()).expect_err("refused");
        assert_eq!((said.number, said.place), (number, place), "{text:?}");
        run.read(text.as_bytes(), true);
        run.made(Given::Text(text.clone().into_bytes()), 7, true);
        inputs.push(text.into_bytes());
    }
    for (text, image) in spelled_ones() {
        assert_eq!(image_in(text.as_bytes()), image.map(|image| (image, None)), "{text:?}");
        inputs.push(text.into_bytes());
    }
    // long inputs: hex with as many blanks as there may be and with one more, a drawing with much behind it, a line that doesn't end
    let (hex, text) = (hex_line(START), drawn(START));
    let long = [
        hex.clone() + &" ".repeat(LONGEST_HEX - hex.len()),
        hex + &" ".repeat(LONGEST_HEX),
        text + &"\n".repeat(LONGEST_HEX),
        ".".repeat(200_000),
    ];
    inputs.extend(long.map(String::into_bytes));
    inputs
}

/// Every line of the lift, on a floor with cars, cut at every byte and with text behind it.
fn cut_anywhere(run: &mut Run) {
    for setting in lift_settings() {
        let image = 0x0009_1B22_0020_0003 | setting;
        run.both_ways(image, true);
        let text = [drawn(image).as_bytes(), b"\nmore"].concat();
        for end in 0..=text.len() {
            run.read(&text[..end], true);
        }
    }
}

/// A record with what is set apart, for the program: in hex, as two drawings, and with a fault in the second.
fn with_parts(numbers: &mut Numbers, image: u64, other: u64, parts: u64) -> Vec<Vec<u8>> {
    let known = parts & ((1 << 53) - 1);
    let texts = [apart::drawn(known), apart::drawn(!known & ((1 << 53) - 1))];
    let mut inputs: Vec<Vec<u8>> =
        [[image, parts], [image, known], [other, known]].iter().map(|two| two.map(hex_line).concat().into_bytes()).collect();
    inputs.push((hex_line(image) + &hex_line(known) + &hex_line(0)).into_bytes());
    for second in &texts {
        let mut changed = second.clone().into_bytes();
        let at = 1 + numbers.below(changed.len() as u64 - 1) as usize;
        changed[at] = b'*';
        inputs.extend([[drawn(image).as_bytes(), second.as_bytes()].concat(), [drawn(image).as_bytes(), &changed].concat()]);
        for line in 0..LINES {
            let mut lines = lines_of(second);
            lines[line].insert(1, b'*');
            inputs.push([drawn(image).into_bytes(), lines.concat()].concat());
        }
        inputs.push([drawn(image).as_bytes(), second.as_bytes(), b"."].concat());
        inputs.push([drawn(other & !(3 << 57) | 1 << 4).as_bytes(), second.as_bytes()].concat());
        inputs.push([drawn(image).as_bytes(), &second.as_bytes()[..at]].concat());
    }
    inputs
}

pub fn main(words: &[String]) {
    let [_, program, records, share, stack, host @ ..] = words else { panic!("usage: drawings PROGRAM RECORDS SHARE STACK HOST..") };
    let number = |word: &str| word.parse::<u32>().expect("a number");
    let mut run = Run::new(number(share).into());
    let mut inputs = examples(&mut run);
    cut_anywhere(&mut run);
    // none of the parts, the lift alone, all of them, and the first bit that is none's
    [0, 1 << 52, (1 << 53) - 1, 1 << 53].into_iter().for_each(|parts| run.parts(parts, true));
    for at in 0..number(records) {
        let image = sound_record(&mut run.numbers);
        let [other, drawable] = [any_record, drawable_record].map(|made| made(&mut run.numbers, image));
        run.both_ways(image, at % 100 == 0);
        run.both_ways(other, false);
        let parts = run.numbers.next() >> [0, 11, 11, 12][run.numbers.below(4) as usize] & run.numbers.next();
        run.parts(parts, at % 100 == 0);
        run.read(drawn(drawable).as_bytes(), false);
        let texts = [faulty_text, changed_text].map(|made| made(&mut run.numbers, image));
        texts.iter().for_each(|text| {
            run.read(text, false);
        });
        if at % 50 == 0 {
            run.damaged(image);
        }
        if at % 400 == 0 {
            inputs.extend(texts.into_iter().chain([image, other].map(|image| hex_line(image).into_bytes())));
            inputs.extend(with_parts(&mut run.numbers, image, other, parts));
        }
    }
    let most = run.by_host(&host.join(" "));
    if most > number(stack) {
        eprintln!("drawings: a call took {most} bytes of stack, which is above {stack}");
        exit(1);
    }
    for input in &inputs {
        run.program(program, input);
    }
    if !run.complete() {
        exit(1);
    }
    let [calls, by_host] = run.came.each_ref().map(|came| came.values().sum::<usize>());
    let count = |told: &dyn Fn(&Told) -> bool| run.came[0].iter().filter(|(key, _)| told(key)).map(|(_, often)| often).sum::<usize>();
    let (drawings, read) = (count(&|told| *told == ("a record", 0, NO_PLACE)), count(&|told| *told == ("a text", 0, NO_PLACE)));
    println!("drawings: {calls} calls of the entries ({drawings} drawings written, {read} read), {by_host} of the host in C, {} runs of the program,", run.programs);
    println!("drawings: each as the reference says; every number, every place of 41 from 0 to 6 by each, {} ways; {} wrong references found out; at most {most} bytes of stack",
        run.ways.len(), all_of("drawing").count());
}
