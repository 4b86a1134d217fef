//! The explainer's text held against the reference: answers, reasons, and the floors after what was taken.

use super::shown::{floor, paragraphs, parts_in, Floor, Told};
use super::text;
use reference::drawing::drawn;
use reference::{cars, drive_under_way, read_call, sound, Call, Instruction, Parts, Station};
use shared::sound_records::SoundRecords;
use shared::texts::words;
use shared::traffic::Numbers;
use std::collections::BTreeSet;

/// The reference station beside a text, with how the outstanding set's instructions ended, and which numbers came.
pub struct Beside {
    pub station: Station,
    endings: [Option<u8>; 8],
    stuck: Vec<Stuck>,
    pub came: BTreeSet<u8>,
    pub floors: usize,
    pub causes: usize,
}

/// A stuck result since the last image: what it has set apart, and the line that tells of it under a 32.
struct Stuck {
    parts: u64,
    line: String,
}

/// Words that mean the same read the same.
pub fn plain(words: &str) -> String {
    words.replace(',', "").replace(" row ", " rows ")
}

/// Both slots of a shuttle as one, as the view marks them.
fn slots_as_one(apart: u64) -> u64 {
    (apart | (apart >> 6 & 0x3F << 40)) & 0x3F_FFFF_FFFF_FFFF & !(0x3F << 46) & !(1 << 52)
}

/// A floor that is shown is that of a record and what is set apart; gives the lines behind it.
fn view<'a>(shown: &'a Floor, record: u64, apart: u64, place: &str) -> &'a [String] {
    let drawing = drawn(record);
    let sides: Vec<String> = drawing.lines().skip(3).take(2).map(str::to_string).collect();
    assert_eq!((&shown.drawing, &shown.letters[..]), (&drawing, &sides[..]), "{place}");
    assert_eq!((shown.occupied, shown.apart), (record & 0xFF_FFFF_FFFF, slots_as_one(apart)), "{place}: {:?}", shown.below);
    let [lift, drive, set_apart, count, behind @ ..] = &shown.below[..] else { panic!("{place}: {:?}", shown.below) };
    let height = ["street", "rotation", "basement"][(record >> 53 & 3) as usize];
    assert!(lift.starts_with(&format!("lift at {height}")) && lift.ends_with(", set apart") == (apart >> 52 == 1), "{place}: {lift}");
    let under_way = ["no drive", "a drive-in", "a drive-out"][(record >> 55 & 3) as usize];
    assert!(drive.starts_with(&format!("{under_way} is under way")), "{place}: {drive}");
    assert_eq!(parts_in(set_apart.strip_prefix("set apart: ").expect("parts")), apart, "{place}");
    assert_eq!(count.split("; ").next().map(str::to_string), cars(record).map(|cars| format!("cars: {cars}")), "{place}");
    behind
}

/// So many floors with any parts set apart, as a recording of images that were answered.
pub fn views(explain: &str, count: usize) {
    let (records, mut numbers) = (SoundRecords::new(), Numbers(7));
    let apart = |numbers: &mut Numbers| numbers.next() >> 11 & if numbers.one_in(2) { u64::MAX } else { numbers.next() };
    let images: Vec<(u64, u64)> = (0..count).map(|_| (records.any(&mut numbers), apart(&mut numbers))).collect();
    let message = |&(image, apart): &(u64, u64)| [vec![18, 0, 129, 0], image.to_le_bytes().to_vec(), apart.to_le_bytes().to_vec()].concat();
    let (shown, told, well) = text(explain, &images.iter().flat_map(message).collect::<Vec<u8>>());
    assert_eq!((told.as_str(), well), ("", true));
    let found = paragraphs(&shown);
    assert_eq!(found.len(), count);
    for (told, (image, apart)) in found.iter().zip(images) {
        let floor = floor(&told.lines, "its floor:").unwrap_or_else(|| panic!("{:?}", told.lines));
        assert!(!told.sent && view(&floor, image, apart, &told.at).is_empty(), "{:?}", told.lines);
    }
    println!("explain: {count} floors with any parts set apart, each mark as the record has it");
}

impl Beside {
    pub fn new() -> Self {
        let (came, stuck) = (BTreeSet::new(), Vec::new());
        Beside { station: Station::start(), endings: [None; 8], stuck, came, floors: 0, causes: 0 }
    }

    /// Another text follows, which begins with a station: how instructions ended is not known there, nor by what something is set apart.
    pub fn begin_with(&mut self, station: Station) {
        let answered = |at: usize| (station.to_bytes()[9] >> at & 1 == 1).then_some(3);
        (self.station, self.endings, self.stuck) = (station, std::array::from_fn(answered), Vec::new());
    }

    /// Another text follows, which begins at the start.
    pub fn restart(&mut self) {
        (self.station, self.endings, self.stuck) = (Station::start(), [None; 8], Vec::new());
    }

    /// Under a 32 the stuck results are named that have set some of these parts apart, and no others.
    fn causes(&mut self, some: u64, lines: &[String]) {
        let told: Vec<String> = lines.iter().map(|line| plain(line.trim())).filter(|line| line.starts_with("set apart by ")).collect();
        let expected: Vec<String> = self.stuck.iter().filter(|stuck| stuck.parts & some != 0).map(|stuck| plain(&stuck.line)).collect();
        assert_eq!(told, expected, "{lines:?}");
        self.causes += told.len();
    }

    pub fn set_lines(&self) -> Vec<String> {
        if self.station.count == 0 {
            return vec!["no set is outstanding".to_string()];
        }
        let issue = self.station.present_issue();
        let one = |(five, at): (&[u8], usize)| {
            let state =
                self.endings[at].map_or("waits for its result", |ending| ["failed", "done", "stuck", "answered"][usize::from(ending)]);
            format!("  {at}: {}: {state}", words(*five.first_chunk().expect("five")).expect("an instruction"))
        };
        let held = self.station.set.chunks(5).take(self.station.count.into()).zip(0..).map(one);
        std::iter::once(format!("set {issue} = 0x{issue:04X} is outstanding:")).chain(held).map(|line| plain(&line)).collect()
    }

    fn floor(&mut self, shown: &Floor, place: &str) {
        let set = view(shown, self.station.record, self.station.apart_number(), place);
        assert_eq!(set.iter().map(|line| plain(line)).collect::<Vec<_>>(), self.set_lines(), "{place}");
        self.floors += 1;
    }

    /// What stands against a request that is refused.
    fn request(&self, fives: &[[u8; 5]], number: u8, at: usize, lines: &[String]) {
        let read = |five: &[u8; 5]| Instruction::read(*five);
        let area = |five: &[u8; 5]| read(five).map_or(Parts::NONE, |one| one.area()).number();
        let told = |prefix: &str| lines.iter().filter_map(|line| line.trim().strip_prefix(prefix)).map(str::to_string).collect::<Vec<_>>();
        match number {
            8 => {
                let both: Vec<(String, u64)> = told("it overlaps ")
                    .iter()
                    .map(|line| {
                        let (which, parts) = line.split_once(": both have ").expect("what both have");
                        (which.split(':').next().unwrap_or_default().to_string(), parts_in(parts))
                    })
                    .collect();
                let shared = |(five, earlier): (&[u8; 5], usize)| (earlier.to_string(), area(five) & area(&fives[at]));
                let expected: Vec<_> = fives[..at].iter().zip(0..).map(shared).filter(|(_, shared)| *shared != 0).collect();
                assert_eq!(both, expected);
            }
            31 => {
                assert!(drive_under_way(self.station.record) && lines.iter().any(|line| line.ends_with("is under way")), "{lines:?}");
                let lift: Vec<usize> = fives.iter().zip(0..).filter(|(five, _)| area(five) >> 52 == 1).map(|(_, at)| at).collect();
                let named = told("with the lift in its area: ").into_iter().filter_map(|line| line.split(':').next()?.parse().ok());
                assert_eq!(named.collect::<Vec<usize>>(), lift);
            }
            32 => {
                let apart = self.station.apart_number();
                let parts = |prefix: &str| told(prefix).iter().map(|words| parts_in(words)).collect::<Vec<_>>();
                assert_eq!((parts("set apart: "), parts("of that it touches: ")), (vec![apart], vec![apart & area(&fives[at])]));
            }
            20..=28 => {
                let conditions = read(&fives[at]).map_or(Vec::new(), |one| one.conditions(self.station.record));
                let expected: Vec<u8> = conditions.iter().filter(|one| !one.holds).map(|one| one.number).collect();
                let shown: Vec<u8> = lines
                    .iter()
                    .filter_map(|line| {
                        let (number, rest) = line.trim().split_once(' ')?;
                        rest.starts_with("no  ").then(|| number.parse().ok())?
                    })
                    .collect();
                assert_eq!((shown.first(), &shown), (Some(&number), &expected), "{lines:?}");
                assert!(lines.iter().any(|line| line.ends_with(", at fault")), "{lines:?}");
            }
            _ => {}
        }
    }

    /// What stands against any message that is refused.
    pub fn refused(&mut self, call: &Call, number: u8, place: u8, lines: &[String]) {
        let outstanding = || {
            let set = self.set_lines();
            let lines: Vec<String> = lines.iter().map(|line| plain(line.strip_prefix("  ").unwrap_or(line))).collect();
            assert!(lines.windows(set.len()).any(|window| window == set), "{lines:?} has {set:?}");
        };
        if matches!(number, 6 | 11 | 12 | 13 | 29 | 30) {
            outstanding();
        }
        match *call {
            Call::Request { bytes, .. } => {
                let fives: Vec<[u8; 5]> = bytes.chunks(5).map(|five| *five.first_chunk().expect("five")).collect();
                self.request(&fives, number, place.into(), lines);
                if number == 32 {
                    let area = Instruction::read(fives[usize::from(place)]).map_or(Parts::NONE, |one| one.area());
                    self.causes(area.number() & self.station.apart_number(), lines);
                }
            }
            Call::Event(_) if number == 32 => self.causes(1 << 52, lines),
            Call::Image { image, apart } if number == 15 => {
                let hint = lines.iter().any(|line| line.trim().starts_with("hint: "));
                let second = lines.iter().any(|line| line.contains("second number is not 0"));
                assert_eq!((hint, second), (!sound(image), apart != 0), "{lines:?}");
            }
            Call::Event(_) if number == 33 => {
                let count = format!("the record has {} cars", cars(self.station.record).unwrap_or(0));
                assert!(lines.iter().any(|line| line.contains(&count)), "{lines:?}");
            }
            Call::Event(_) if number == 10 => assert!(lines.iter().any(|line| line.trim().starts_with("lift at ")), "{lines:?}"),
            _ => {}
        }
    }

    /// A paragraph of a message that was sent, which is then given to the reference.
    pub fn sent(&mut self, told: &Told) {
        let (place, before) = (format!("message {} at {}", told.number, told.at), self.station);
        let reply = told.reply.as_ref().unwrap_or_else(|| panic!("{place}: {:?}", told.lines));
        let number = if reply[2] == 128 { reply[4] } else { 0 };
        self.came.insert(number);
        let said = |words: &str| told.lines.iter().any(|line| line.contains(words));
        assert_eq!(said("to do: ") && !said("never answers so"), number != 0, "{place}: {:?}", told.lines);
        // which field is wrong
        const FIELDS: [&str; 4] = [", and should be ", " is no instruction: there are ", "an event is 1 to 4", "a result ends with "];
        assert_eq!(FIELDS.into_iter().any(said), number == 4, "{place}: {:?}", told.lines);
        let Ok((call, _)) = read_call(&told.bytes) else { return };
        if number != 0 {
            self.refused(&call, number, reply[5], &told.lines);
            return;
        }
        if let Call::Result { issue, number, outcome: 2 } = call {
            let five = *self.station.set[5 * usize::from(number)..].first_chunk().expect("five");
            let parts = Instruction::read(five).map_or(Parts::NONE, |one| one.area()).number();
            let (which, words) = (format!("instruction {number} = 0x{number:02X} of set {issue} = 0x{issue:04X}"), words(five));
            let line = format!("set apart by message {}, {}: {which}, {}, was stuck", told.number, told.at, words.expect("an instruction"));
            self.stuck.push(Stuck { parts, line });
        }
        self.station.take(call);
        match call {
            Call::Image { .. } => self.stuck.clear(),
            Call::Request { .. } => self.endings = [None; 8],
            Call::Result { number, outcome, .. } => self.endings[usize::from(number)] = Some(outcome),
            _ => {}
        }
        if let Some(shown) = floor(&told.lines, "the floor:") {
            return self.floor(&shown, &place);
        }
        let same = (self.station.record, self.station.apart) == (before.record, before.apart);
        assert!(same && (matches!(call, Call::Image { .. } | Call::Ask) || told.lines.len() > 2), "{place}: no floor");
    }
}

/// Holds a text of recorded messages against the reference; gives the answers that it tells, as the program would write them.
pub fn held(text: &str, beside: &mut Beside) -> Vec<u8> {
    let (mut answers, mut at) = (Vec::new(), 0);
    for (told, number) in paragraphs(text).iter().zip(1..) {
        assert_eq!((told.sent, told.number, &told.at), (true, number, &format!("byte {at}")));
        beside.sent(told);
        answers.extend(told.reply.iter().flatten());
        at += told.bytes.len();
    }
    if at > 0 {
        let shown = last_floor(text).unwrap_or_else(|| panic!("no floor at the end: {text}"));
        beside.floor(&shown, "the end");
    }
    answers
}

/// The floor that a text ends with; the last one before it where it says that it is the same.
fn last_floor(text: &str) -> Option<Floor> {
    const TITLES: [&str; 3] = ["the floor:", "the log begins on this floor:", "the floor at the end:"];
    let lines: Vec<&str> = text.lines().collect();
    let same = lines.contains(&"the floor at the end: the same");
    let at = lines.iter().rposition(|line| TITLES.contains(&line.trim())).filter(|&at| same || lines[at] == TITLES[2])?;
    let deep = lines[at].len() - lines[at].trim_start().len();
    let inner: Vec<String> = lines[at..].iter().map(|line| line.get(deep..).unwrap_or_default().to_string()).collect();
    floor(&inner, lines[at].trim())
}
