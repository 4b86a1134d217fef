//! Runs the worked examples of a page on the desk's entries: `desk_examples PAGE`. In each block marked `desk` a line with `>` is a call on
//! one desk, and the next line, with `<`, what it must answer; names in both are those of the headers.

use station::raw::desk as desk_raw;
use std::collections::HashMap;
use std::process::exit;

const DESK: usize = 228;

/// The numbers that the headers give names to.
fn header_names() -> HashMap<String, u64> {
    let text = [include_str!("../../../include/station.h"), include_str!("../../../include/desk.h")].concat();
    let apart = |letter: char| !(letter.is_alphanumeric() || letter == '_' || letter == '=');
    let words: Vec<&str> = text.split(apart).filter(|word| !word.is_empty()).collect();
    let named = words.windows(3).filter(|three| three[1] == "=");
    named.filter_map(|three| Some((three[0].to_string(), three[2].parse().ok()?))).collect()
}

/// A word as a number, if it is one.
fn value(names: &HashMap<String, u64>, word: &str) -> Option<u64> {
    let hexadecimal = word.strip_prefix("0x").and_then(|digits| u64::from_str_radix(digits, 16).ok());
    hexadecimal.or_else(|| word.parse().ok()).or_else(|| names.get(word).copied())
}

/// What an answer says: its number; of a set that was opened its issue, of a refusal the instruction at fault.
fn told(answer: u32, opens: bool) -> String {
    let [number, place, low, high] = answer.to_le_bytes();
    match (number, place) {
        (0, _) if opens => format!("0 set {}", u16::from_le_bytes([low, high])),
        (_, 255) => number.to_string(),
        _ => format!("{number} at {place}"),
    }
}

/// Makes a call on the desk and tells what it answers.
fn call(room: &mut [u8; DESK], entry: &str, given: &[u64]) -> String {
    let (lent, length) = (room.as_mut_ptr(), DESK);
    // each run is lent with its own length, and none overlaps another
    unsafe {
        match (entry, given) {
            ("desk_start", []) => told(desk_raw::desk_start(lent, length), false),
            ("desk_request", fields) => {
                let set: Vec<u8> = fields.iter().map(|&field| field as u8).collect();
                told(desk_raw::desk_request(lent, length, (set.len() / 5) as u8, set.as_ptr(), set.len()), true)
            }
            ("desk_event", &[way, card]) => told(desk_raw::desk_event(lent, length, way as u8, card as u32), false),
            ("desk_result", &[issue, number, ending]) => {
                told(desk_raw::desk_result(lent, length, issue as u16, number as u8, ending as u8), false)
            }
            ("desk_image", &[image, apart, ref cards @ ..]) => {
                let bytes: Vec<u8> = cards.iter().flat_map(|&card| (card as u32).to_le_bytes()).collect();
                told(desk_raw::desk_image(lent, length, image, apart, cards.len() as u8, bytes.as_ptr(), bytes.len()), false)
            }
            ("desk_ask", []) => {
                let mut both = [0; 16];
                let answer = told(desk_raw::desk_ask(lent, length, both.as_mut_ptr(), both.len()), false);
                let both = u128::from_le_bytes(both);
                format!("{answer} image {} apart {}", both as u64, (both >> 64) as u64)
            }
            ("desk_where", &[card]) => {
                let [number, place, flag, to] = desk_raw::desk_where(lent, length, card as u32).to_le_bytes();
                match flag {
                    1 => format!("{number} at {place} last known"),
                    2 => format!("{number} at {place} moving to {to}"),
                    _ => format!("{number} at {place}"),
                }
            }
            ("desk_leaving", []) => {
                let mut card = [0; 4];
                let answer = told(desk_raw::desk_leaving(lent, length, card.as_mut_ptr(), card.len()), false);
                format!("{answer} card {}", u32::from_le_bytes(card))
            }
            _ => panic!("{entry} with {given:?} is no call"),
        }
    }
}

pub fn main(words: &[String]) {
    let [_, page] = words else { panic!("usage: desk_examples PAGE") };
    let text = std::fs::read_to_string(page).expect("the page is there");
    let names = header_names();
    let (mut inside, mut room, mut answer, mut blocks, mut calls, mut failed) = (false, [0; DESK], None::<String>, 0, 0, 0);
    for (at, line) in text.lines().enumerate() {
        match line {
            "```desk" => (inside, room, answer, blocks) = (true, [0; DESK], None, blocks + 1),
            "```" if inside => {
                assert!(answer.is_none(), "{page}:{}: a call has no answer", at + 1);
                inside = false;
            }
            _ if !inside => {}
            _ if line.starts_with('>') => {
                assert!(answer.is_none(), "{page}:{at}: a call has no answer");
                let words: Vec<&str> = line[1..].split([' ', ',']).filter(|word| !word.is_empty()).collect();
                let number = |word: &&str| value(&names, word).unwrap_or_else(|| panic!("{page}:{}: {word} is no number", at + 1));
                answer = Some(call(&mut room, words[0], &words[1..].iter().map(number).collect::<Vec<u64>>()));
                calls += 1;
            }
            _ => {
                let in_numbers = |word: &str| value(&names, word).map_or(word.to_string(), |number| number.to_string());
                let said: Vec<String> = line[1..].split_whitespace().map(in_numbers).collect();
                let got = answer.take().expect("an answer follows a call");
                if said.join(" ") != got {
                    failed += 1;
                    eprintln!("{page}:{}: {line}, but the desk says {got}", at + 1);
                }
            }
        }
    }
    println!("examples: {blocks} of {page}, {calls} calls, {failed} wrong");
    if calls == 0 || failed > 0 {
        exit(1);
    }
}
