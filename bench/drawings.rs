//! How many drawings are written and read in a second, by the station's entries and by the reference, in turns: `drawings`. The records are
//! sound ones of every sort, so that every drawing is written and every text is taken. Prints the best of seven rounds of each.

use entries::drawer::{Drawer, ENTRIES, REFERENCE};
use shared::drawing_traffic::sound_record;
use shared::traffic::Numbers;
use std::hint::black_box;
use std::time::Instant;

const RECORDS: usize = 4096;
const AGAIN: usize = 40;

/// A record and its drawing.
type Drawn = (u64, Vec<u8>);

fn written(drawer: &Drawer, image: u64) -> Vec<u8> {
    let mut text = vec![0; 66];
    let said = (drawer.write)(image, &mut text);
    text.truncate((said >> 16) as usize);
    text
}

fn read(drawer: &Drawer, text: &[u8]) -> u64 {
    let mut image = [0; 8];
    (drawer.read)(text, &mut image);
    u64::from_le_bytes(image)
}

/// Seconds for doing something with each of them.
fn timed(all: &[Drawn], one: impl Fn(&Drawn)) -> f64 {
    let begun = Instant::now();
    for _ in 0..AGAIN {
        all.iter().for_each(|drawn| one(black_box(drawn)));
    }
    begun.elapsed().as_secs_f64()
}

fn writes(drawer: &Drawer, all: &[Drawn]) -> f64 {
    timed(all, |(image, _)| {
        let mut text = [0; 66];
        black_box((drawer.write)(*image, &mut text));
        black_box(text);
    })
}

fn reads(drawer: &Drawer, all: &[Drawn]) -> f64 {
    timed(all, |(_, text)| {
        black_box(read(drawer, text));
    })
}

fn main() {
    let mut numbers = Numbers(5);
    let images: Vec<u64> = (0..RECORDS).map(|_| sound_record(&mut numbers)).collect();
    let all: Vec<Drawn> = images.into_iter().map(|image| (image, written(&REFERENCE, image))).collect();
    let same =
        |(image, text): &Drawn| written(&ENTRIES, *image) == *text && read(&ENTRIES, text) == *image && read(&REFERENCE, text) == *image;
    assert!(all.iter().all(same), "the drawings and the records are the same");
    for (what, timed) in [("written", writes as fn(&Drawer, &[Drawn]) -> f64), ("read", reads)] {
        let [mut ours, mut theirs] = [f64::INFINITY; 2];
        for _ in 0..7 {
            theirs = theirs.min(timed(&REFERENCE, &all));
            ours = ours.min(timed(&ENTRIES, &all));
        }
        let each = (RECORDS * AGAIN) as f64;
        println!(
            "drawings {what}: reference {:.0} a second, station {:.0}, {:.2} times its time",
            each / theirs,
            each / ours,
            ours / theirs
        );
    }
}
