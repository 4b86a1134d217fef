//! Where a text stands in a source, however the source's lines are broken: blanks count for nothing, and neither does a comma before a
//! closing bracket, which stands there where a list is broken into lines.

use std::ops::Range;

/// The letters that count, each with its place in the text.
fn letters(text: &str) -> Vec<(usize, char)> {
    let all: Vec<(usize, char)> = text.char_indices().filter(|(_, letter)| !letter.is_whitespace()).collect();
    let last = |at: usize| matches!(all.get(at + 1), Some((_, ')' | ']' | '}')));
    all.iter().enumerate().filter(|&(at, (_, letter))| !(*letter == ',' && last(at))).map(|(_, &one)| one).collect()
}

/// The one place of a text in a source.
pub fn place(source: &str, old: &str) -> Result<Range<usize>, String> {
    // a comma at the end is part of what is replaced, whether or not it is a list's last
    let (bare, comma) = old.strip_suffix(',').map_or((old, false), |bare| (bare, true));
    let (within, wanted) = (letters(source), letters(bare));
    let same = |at: &usize| within[*at..].iter().zip(&wanted).filter(|(one, other)| one.1 == other.1).count() == wanted.len();
    let places: Vec<usize> = (0..=within.len().saturating_sub(wanted.len())).filter(same).collect();
    let [at] = places[..] else { return Err(format!("{} places have `{old}`", places.len())) };
    let (last, letter) = within[at + wanted.len() - 1];
    let end = last + letter.len_utf8();
    let behind = source[end..].trim_start();
    let more = if comma && behind.starts_with(',') { source[end..].len() - behind.len() + 1 } else { 0 };
    Ok(within[at].0..end + more)
}

/// A source with another text at a place.
pub fn replaced(source: &str, at: Range<usize>, new: &str) -> String {
    format!("{}{new}{}", &source[..at.start], &source[at.end..])
}
