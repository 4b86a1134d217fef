//! A garage that a drive-in locks: `locked PROGRAM`. From its start the program is filled by sets of one instruction and by drive-ins, and
//! accepts all of them. Then it accepts no instruction but lift runs to another height, at whichever height the lift is. Once the car that
//! came in last has driven out, another can be fetched.

use shared::child;
use shared::sound_records::every_five;

/// Instructions, five bytes each, and drive-ins, in order.
const FILLED: &str = "
0200020001 0200040100 0200020100 0201020001 0201040100 0201020100 in 0402000000 0101060001 0400000000 0101020001
0101020001 0101020001 0101030001 0101030000 0200010001 0102030101 0200060000 0102030001 0200020001 0103030101
0103020101 in 0402000000 0101060001 0400000000 0101020001 0101020001 0101020001 0101030001 0101030000 0200010001
0102030101 0200060000 0102030001 0200020001 in 0402000000 01010C0101 0400000000 0101080101 0101180101 0101180100
0201010001 0102060001 0201060000 0102060101 0201020001 0103060001 in 0402000000 0101060001 0400000000 0101020001
0101020001 0101020001 0101030001 0101030000 0200010001 0102030101 0200020000 0102020101 in 0402000000 01010C0101
0400000000 0101080101 0101180101 0101180100 0201010001 0102060001 0201060000 0102060101 0201020001 in 0402000000
0101060001 0400000000 0101020001 0101020001 0101020001 0101030001 0101030000 0200010001 0300010100 in 0402000000
01010C0101 0400000000 0101080101 0101180101 0101180100 0201010001 0102060001 0201020000 in 0402000000 01010C0101
0400000000 0101080101 0101180101 0101180100 0201010001 0301010100 in 0402000000 0101060001 0400000000 0101020001
0101020001 0101020001 0101030001 0101030000 in 0402000000 01010C0101 0400000000 0101080101 0101180101 0101180100 in
0402000000 0101060001 0400000000 0101020001 0101020001 0101020000 in 0402000000 01010C0101 0400000000 0101080100 in
0402000000 01010C0101 0400000000 in 0402000000 0101060001 0400000000 in";
const LOCKED: [u8; 8] = [0x0F, 0x66, 0x3F, 0xF0, 0xC0, 0x3F, 0x10, 0];
/// The lift down, the left belt and the lift's two half cells to the right, the lift up.
const FETCHED: [[u8; 5]; 3] = [[4, 2, 0, 0, 0], [1, 1, 6, 1, 1], [4, 0, 0, 0, 0]];

/// What is to be answered.
#[derive(Debug)]
enum Wanted {
    Taken {
        issue: u16,
    },
    /// Not allowed on the record, for whatever reason.
    NotAllowed,
    Shown([u8; 8]),
}

#[derive(Default)]
struct Session {
    sent: Vec<u8>,
    wanted: Vec<Wanted>,
    issue: u16,
}

impl Session {
    fn send(&mut self, message: &[u8], wanted: Wanted) {
        self.sent.extend(message);
        self.wanted.push(wanted);
    }

    fn request(&mut self, [op, a, b, c, d]: [u8; 5], wanted: Wanted) {
        self.send(&[8, 0, 1, 0, 1, op, a, b, c, d], wanted);
    }

    /// A set of one instruction, which is accepted, and its result.
    fn set(&mut self, five: [u8; 5], result: u8) {
        self.request(five, Wanted::Taken { issue: self.issue });
        let [low, high] = self.issue.to_le_bytes();
        self.send(&[6, 0, 3, 0, low, high, 0, result], Wanted::Taken { issue: 0 });
        self.issue += 1;
    }

    /// A drive that begins and is done.
    fn drive(&mut self, begin: u8) {
        for event in [begin, 3] {
            self.send(&[3, 0, 2, 0, event], Wanted::Taken { issue: 0 });
        }
    }

    /// Every instruction on the present record: lift runs to another height are accepted, and fail.
    fn only_lift(&mut self, height: u8) {
        for five in every_five() {
            if five[0] == 4 && five[1] != height {
                self.set(five, 0)
            } else {
                self.request(five, Wanted::NotAllowed)
            }
        }
    }
}

fn five(word: &str) -> [u8; 5] {
    let byte = |at: usize| u8::from_str_radix(&word[2 * at..2 * at + 2], 16).expect("a byte in hexadecimal");
    [byte(0), byte(1), byte(2), byte(3), byte(4)]
}

fn main() {
    let given: Vec<String> = std::env::args().collect();
    let [_, program] = &given[..] else { panic!("usage: locked PROGRAM") };
    let mut all = Session::default();
    for word in FILLED.split_whitespace() {
        if word == "in" {
            all.drive(1)
        } else {
            all.set(five(word), 1)
        }
    }
    let filled = all.issue;
    all.send(&[2, 0, 5, 0], Wanted::Shown(LOCKED));
    for [height, next] in [[0, 1], [1, 2], [2, 0]] {
        all.only_lift(height);
        all.set([4, next, 0, 0, 0], 1);
    }
    all.send(&[2, 0, 5, 0], Wanted::Shown(LOCKED));
    all.drive(2);
    for five in FETCHED {
        all.set(five, 1);
    }
    all.drive(2);

    let output = child::run_on(program, &all.sent).0;
    let mut rest = &output[..];
    for (wanted, at) in all.wanted.iter().zip(0..) {
        let answered = match (wanted, rest) {
            (Wanted::Taken { issue }, [6, 0, 128, 0, 0, 255, low, high, ..]) => [*low, *high] == issue.to_le_bytes(),
            (Wanted::NotAllowed, [6, 0, 128, 0, 20..=28, 0, 0, 0, ..]) => true,
            (Wanted::Shown(image), [18, 0, 129, 0, shown @ ..]) => shown.starts_with(image),
            _ => false,
        };
        assert!(answered, "answer {at} is not as wanted, {wanted:?}: {:02X?}", &rest[..rest.len().min(20)]);
        rest = &rest[if matches!(wanted, Wanted::Shown(_)) { 20 } else { 8 }..];
    }
    assert!(rest.is_empty(), "more is answered than was asked");
    println!("locked: filled by {filled} sets; then of {} instructions none but lift runs, at three heights", every_five().len());
}
