//! Drawings written out by hand, with what the papers say of them, so that the reference is held against them too: records and their
//! drawings, texts that are refused, and images in hex.

use reference::drawing::{NOT_A_DRAWING, UNSOUND};
use reference::{NO_PLACE, START};

/// Six lines, each without its line feed.
type Six = [&'static str; 6];

const NO_CARS: &str = "....................";
const FREE: &str = "..........";
const EMPTY: Six = [NO_CARS, FREE, FREE, "LLT", "LLT", "street"];

fn text(lines: Six) -> String {
    lines.map(|line| line.to_string() + "\n").concat()
}

/// Records and their drawings, both ways: the start and the examples of document 01 (P4 to P11), a car on the raised lift, drives under
/// way, a garage with 28 cars and one with 30.
pub fn drawn_ones() -> Vec<(u64, String)> {
    let all: [(u64, Six); 16] = [
        (START, EMPTY),
        (0x0049_1B00_0000_1800, ["...........##.......", FREE, FREE, "LLT", "LLT", "basement"]),
        (0x0049_1B00_0000_0C00, ["..........##........", FREE, FREE, "LLT", "LLT", "basement"]),
        (0x0049_1B00_0000_3C00, ["..........####......", FREE, FREE, "LLT", "LLT", "basement"]),
        (0x0009_1B00_0000_0003, ["##..................", FREE, FREE, "LLT", "LLT", "street"]),
        (0x0009_1E00_0010_0000, [NO_CARS, "#.........", FREE, "-LB", "LLT", "street"]),
        (0x0000_3F00_0000_0000, [NO_CARS, FREE, FREE, "LLL", "LLL", "street"]),
        (0x0008_1F00_0000_0000, [NO_CARS, FREE, FREE, "LLL", "LLT", "street"]),
        (0x0029_1B00_0000_00C0, ["......##............", FREE, FREE, "LLT", "LLT", "rotation"]),
        (0x0019_1B00_0000_0000, [NO_CARS, FREE, FREE, "LLT", "LLT", "street car"]),
        (0x0089_1B00_0000_0000, [NO_CARS, FREE, FREE, "LLT", "LLT", "street in"]),
        (0x0119_1B00_0000_0000, [NO_CARS, FREE, FREE, "LLT", "LLT", "street car out"]),
        (0x0039_1B00_0000_0000, [NO_CARS, FREE, FREE, "LLT", "LLT", "rotation car"]),
        (0x0009_1B22_0020_0000, [NO_CARS, ".#........", "...#...#..", "LLT", "LLT", "street"]),
        (0x0000_3FFF_FFFF_C3FF, ["##########....######", "##########", "##########", "LLL", "LLL", "street"]),
        (0x0040_3FFF_FFFF_FFFF, ["####################", "##########", "##########", "LLL", "LLL", "basement"]),
    ];
    all.map(|(image, lines)| (image, text(lines))).into()
}

/// The empty garage with another line.
fn with(at: usize, line: &'static str) -> String {
    let mut lines = EMPTY;
    lines[at] = line;
    text(lines)
}

/// Texts that are refused: what each is told, and the place.
pub fn refused_ones() -> Vec<(String, u8, u8)> {
    let whole = text(EMPTY);
    let bad: Vec<(u8, String)> = vec![
        (0, String::new()),
        (0, "\n".to_string()),
        (0, "drawing".to_string()),
        (0, with(0, "...................")),
        (0, with(0, ".....................")),
        (0, with(0, "................... ")),
        (0, with(0, "..........:.........")),
        (0, whole.replace('\n', "\r\n")),
        (0, whole.replace('\n', "")),
        (0, whole[21..].to_string()),
        (0, format!(" {whole}")),
        (1, with(1, NO_CARS)),
        (1, with(1, "..... .....")),
        (1, with(0, "....................\n")),
        (1, whole[..21].to_string()),
        (2, with(2, NO_CARS)),
        (2, whole.replacen("..........\nLLT", "LLT", 1)),
        (3, with(3, "LL")),
        (3, with(3, "LLLT")),
        (3, with(3, "llt")),
        (3, with(3, "L T")),
        (3, with(3, "L.T")),
        (3, whole.replacen("LLT\nLLT", "LLTLLT", 1)),
        (4, with(4, "LLt")),
        (4, with(4, "LLT\t")),
        (4, whole.replacen("LLT\n", "", 1)),
        (5, with(5, "street in car")),
        (5, with(5, "street out car")),
        (5, with(5, "street in out")),
        (5, with(5, "Street")),
        (5, with(5, "street ")),
        (5, with(5, "street  car")),
        (5, with(5, "ground")),
        (5, with(5, "")),
        (5, whole[..whole.len() - 1].to_string()),
        (5, whole.replace("street\n", "street\r\n")),
        (5, whole.replace("street\n", "")),
        (6, format!("{whole}\n")),
        (6, format!("{whole} ")),
        (6, format!("{whole}\0")),
        (6, format!("{whole}{whole}")),
        // a line that is bad is told before one that is bad too, and before what can't be
        (2, [NO_CARS, FREE, "..", "LL", "LLT", "streets\n"].join("\n")),
        (5, [NO_CARS, "#.........", FREE, "LTT", "LLT", "basement car in out\n"].join("\n")),
        (6, with(5, "basement car\n")),
    ];
    let unsound = [
        with(5, "basement car"),
        with(5, "street car in"),
        with(5, "street out"),
        with(5, "rotation in"),
        with(5, "rotation car out"),
        with(5, "basement out"),
        // P7, half a car; cars on the lift's cells though it is up, and on a tilted shuttle; two shuttles, four, and two tilted
        with(0, "#..................."),
        with(0, "...........##......."),
        with(2, "#........."),
        with(3, "LL-"),
        with(3, "LLB"),
        with(4, "LTT"),
        with(4, "---"),
    ];
    let told = bad.into_iter().map(|(place, text)| (text, NOT_A_DRAWING, place));
    told.chain(unsound.map(|text| (text, UNSOUND, NO_PLACE))).collect()
}

/// Images in hex as people may write them, and what they are; none where the text is no image.
pub fn spelled_ones() -> Vec<(String, Option<u64>)> {
    let (car, plain) = (0x0019_1B00_0000_6000, "00 60 00 00 00 1B 19 00");
    let close = plain.replace(' ', "");
    let apart: String = close.chars().map(|digit| format!("{digit} ")).collect();
    let images = [
        plain.to_string(),
        format!("{plain}\n"),
        plain.to_lowercase(),
        plain.replace("1B", "1b"),
        close.clone(),
        format!("{close}\r\n"),
        plain.replace(' ', "\n"),
        plain.replace(' ', "\t\r "),
        format!("\n \t{plain}"),
        apart.clone(),
        format!("{plain}{}", " ".repeat(4000)),
        format!("{}{apart}", "\r\n".repeat(2000)),
    ];
    let none = [
        "\n".to_string(),
        "0".to_string(),
        close[..15].to_string(),
        format!("{close}0"),
        format!("{plain} 00"),
        plain.replace("1B", "1G"),
        plain.replace("1B", "0x1B"),
        plain.replace(' ', ","),
        format!("{plain}\0"),
        format!("{plain}\x0B"),
        plain.replace("00 60", "+0 60"),
        format!("\n{}", text(EMPTY)),
        "B".to_string() + &text(EMPTY),
    ];
    let unsound =
        [("01 00 00 00 00 1B 09 00", START | 1), ("FFFFFFFFffffffff", u64::MAX)].map(|(text, image)| (text.to_string(), Some(image)));
    images.map(|text| (text, Some(car))).into_iter().chain(unsound).chain(none.map(|text| (text, None))).collect()
}
