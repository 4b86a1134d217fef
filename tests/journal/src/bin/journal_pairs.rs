//! Every change of two bytes of a journal, without a program: `journal_pairs`. A checksum is linear, so a change of two bytes under it is missed
//! exactly if each of them alone changes the checksum alike. So of each part that has a checksum all changes of one byte are listed by what they
//! do to it; where no two are alike, no change of two bytes is missed, whatever the other bytes are. That the form's own reader
//! (journal_form.rs) sees it so is tried at every pair of bytes of a small journal. Two bytes that stand under different checksums are each
//! found alone.

use shared::journal_form::{over, read, Written, CUT_SHORT, HEAD, MESSAGES, MOST};
use shared::journals::{ASK, GARAGE};
use shared::reference::Station;
use std::collections::HashMap;

/// How many bytes before a stored checksum, of which these bits count, can be taken under it, up to `most`, until two changes of one byte are
/// alike: then their places, counted from the checksum on, and the changes.
fn apart(bits: u32, most: usize) -> (usize, Option<[(usize, u8); 2]>) {
    let mut seen = HashMap::new();
    // the bytes of the checksum itself
    for (at, byte) in (0..4).flat_map(|at| (1..=255u8).map(move |byte| (at, byte))) {
        seen.insert(u32::from(byte) << (8 * at) & bits, (0, byte));
    }
    let mut effects: Vec<u32> = (1..=255u8).map(|byte| over(0, &[byte]) ^ over(0, &[0])).collect();
    for place in 1..=most {
        for (effect, byte) in effects.iter().zip(1..=255u8) {
            assert!(*effect != 0, "a change of one byte is missed");
            if let Some(other) = seen.insert(*effect & bits, (place, byte)) {
                return (place - 1, Some([other, (place, byte)]));
            }
        }
        // one byte further on
        effects.iter_mut().for_each(|effect| *effect = over(*effect, &[0]) ^ over(0, &[0]));
    }
    (most, None)
}

/// Every pair of bytes of a small journal, changed in some ways: none of them starts.
fn tried() -> usize {
    let journal = Written::begun(GARAGE.as_bytes(), &Station::start()).with(MESSAGES, &ASK).with(CUT_SHORT, &[6, 0, 3]).bytes;
    assert!(read(&journal).is_ok_and(|says| says.starts() && says.appends.len() == 2), "a journal");
    let mut files = 0;
    for first in 0..journal.len() {
        for second in first + 1..journal.len() {
            for change in [[1, 1], [1, 128], [255, 255], [85, 170]] {
                let mut bytes = journal.clone();
                bytes[first] ^= change[0];
                bytes[second] ^= change[1];
                assert!(!read(&bytes).is_ok_and(|says| says.starts()), "bytes {first} and {second} are changed, and it starts");
                files += 1;
            }
        }
    }
    files
}

fn main() {
    let files = tried();
    // the head's 124 bytes, the four bytes of a title, and what an append carries
    let (head, _) = apart(u32::MAX, HEAD - 4);
    assert_eq!(head, HEAD - 4, "a change of two bytes of a head is missed");
    let (most, alike) = apart(u32::MAX, MOST);
    assert!(most >= 4, "a change of two bytes of a title is missed");
    // where two are alike, changing both is missed indeed
    if let Some([(near, a), (far, b)]) = alike {
        let (was, mut now) = (vec![7; far], vec![7; far]);
        now[0] ^= b;
        if near > 0 {
            now[far - near] ^= a;
            assert_eq!(over(9, &was), over(9, &now), "two changes that are alike");
        }
    }
    // a checksum of 16 bits is found out
    let (short, _) = apart(0xFFFF, HEAD - 4);
    assert!(short < HEAD - 4, "a shorter checksum would do");
    println!("journal_pairs: {files} files of two changed bytes, none starts");
    println!("journal_pairs: every change of two bytes is found in a head, and in an append that carries up to {most} bytes");
}
