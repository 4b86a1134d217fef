//! Why an image is no possible garage, in words: a hint for whoever mends it. That it is none is the station's word (15); the list goes
//! through what PROTOCOL.md calls sound.

const STREET: u64 = 0;
const BASEMENT: u64 = 2;
const SIDES: [&str; 2] = ["left", "right"];
/// The cells of the shuttles' positions: of the left side in rows 1, 2 and 3, then of the right side.
const POSITIONS: [u64; 6] = [3, 1 << 20, 1 << 30, 3 << 18, 1 << 29, 1 << 39];
const LIFT_CELLS: u64 = 3 << 11;

fn has(image: u64, bit: usize) -> bool {
    image >> bit & 1 == 1
}

/// Row 1's cells that stand side by side and are an odd number: a car has two.
fn halves(image: u64) -> Vec<String> {
    let occupied: Vec<usize> = (0..20).filter(|&cell| has(image, cell)).collect();
    let odd = |run: &&[usize]| run.len() % 2 == 1;
    let words = |run: &[usize]| match run {
        [one] => format!("cell {one} of row 1 is half a car: neither neighbour is occupied"),
        run => format!("cells {} to {} of row 1 are an odd number side by side, and a car has two", run[0], run[run.len() - 1]),
    };
    occupied.chunk_by(|one, next| one + 1 == *next).filter(odd).map(words).collect()
}

fn shuttles(image: u64) -> Vec<String> {
    let mut found = Vec::new();
    for (at, cells) in POSITIONS.iter().enumerate().filter(|(at, cells)| image & *cells != 0 && !has(image, 40 + at)) {
        let cells = if cells.count_ones() == 1 { "cell" } else { "cells" };
        found.push(format!("the {} shuttle's {cells} in row {}: occupied, and no lowered shuttle is there", SIDES[at / 3], 1 + at % 3));
    }
    for (side, name) in SIDES.iter().enumerate() {
        let count = |from: usize| (image >> (from + 3 * side) & 7).count_ones();
        let (lowered, tilted) = (count(40), count(46));
        if lowered + tilted != 3 {
            found.push(format!("the {name} side has {} shuttles, and should have 3", lowered + tilted));
        }
        if tilted > 1 {
            found.push(format!("the {name} side has {tilted} tilted shuttles, and at most 1 may be"));
        }
    }
    found
}

/// What is not sound in an image; nothing where it is sound.
pub fn hints(image: u64) -> Vec<String> {
    let (height, raised, coming, going) = (image >> 53 & 3, has(image, 52), has(image, 55), has(image, 56));
    let mut found = [halves(image), shuttles(image)].concat();
    let mut hint = |amiss: bool, words: &str| {
        if amiss {
            found.push(words.to_string());
        }
    };
    hint(height == 3, "the lift's height is 3, and there are 0 to 2");
    hint(image & LIFT_CELLS != 0 && height != BASEMENT, "cells 11 and 12 are the lift's: occupied, and the lift is not in the basement");
    hint(raised && height == BASEMENT, "bit 52, a car on the raised lift, and the lift is in the basement");
    hint(coming && going, "bits 55 and 56: a drive-in and a drive-out at once");
    hint((coming || going) && height != STREET, "a drive is under way, and the lift is not at street");
    hint(coming && raised, "bit 55, a drive-in under way, and a car is on the lift");
    hint(going && !raised, "bit 56, a drive-out under way, and no car is on the lift");
    hint(image >> 57 != 0, "bits 57 to 63 are not all 0");
    found
}
