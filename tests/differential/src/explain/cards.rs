//! Cards that a log gives: where the explainer shows each beside a reference desk. Cars whose card the log does not give have numbers here
//! that no log has, and must not be shown.

use super::shown::paragraphs;
use super::text;
use reference::desk::{layout, Desk};
use reference::{bit, cars, read_call, Call, BEGIN_IN, DRIVE_IN};
use shared::traffic::{framed_message, Numbers};

/// Numbers from here on are of cars whose card is not known.
const UNKNOWN: u32 = 1 << 31;

/// A card that no car has; of one in four it is not known.
fn some_card(numbers: &mut Numbers, desk: &Desk, taken: &[u32]) -> u32 {
    loop {
        let card = match numbers.below(8) {
            0 | 1 => UNKNOWN + numbers.below(1 << 30) as u32,
            2..=5 => 1 + numbers.below(999) as u32,
            _ => 1 + numbers.below((UNKNOWN - 1).into()) as u32,
        };
        if !desk.knows(card) && !taken.contains(&card) {
            return card;
        }
    }
}

/// A card with its place, whether that is the last known one, and the place that a car in motion would get.
type Shown = (u32, u8, bool, Option<u8>);

/// The cards that a desk's text must show.
fn known(desk: &Desk) -> Vec<Shown> {
    let cards = desk.cars.iter().map(|car| car.card).filter(|&card| card < UNKNOWN);
    let one = |card| desk.whereabouts(card).map(|(stand, last)| (card, stand.told(), last, desk.moving(card).map(|to| to.told())));
    let mut all: Vec<_> = cards.filter_map(one).collect();
    all.sort_by_key(|one| one.1);
    all
}

/// The same, read from the line of the cars.
fn shown(line: &str) -> Vec<Shown> {
    let one = |words: &str| {
        let (words, last) = words.strip_suffix(", its last known place").map_or((words, false), |words| (words, true));
        let (words, to) = words.split_once(", in motion to ").map_or((words, None), |(words, to)| (words, Some(to)));
        let (card, at) = words.strip_prefix("card ")?.split_once(' ')?;
        let cell = |cells: &str| cells.split(',').next()?.parse().ok();
        let place = |words: &str| match words {
            "the raised lift" => Some(52),
            _ => words.strip_prefix("cells ").or(words.strip_prefix("cell ")).and_then(cell),
        };
        let to = to.map(|words| place(words).unwrap_or_else(|| panic!("`{words}`")));
        Some((card.parse().ok()?, place(at.split_once(' ')?.1)?, last, to))
    };
    line.split("; ").skip(1).map(|words| one(words).unwrap_or_else(|| panic!("`{words}`"))).collect()
}

/// The card numbers that stand in the view's rows, in the order of the cells.
fn in_view(lines: &[String]) -> Vec<u32> {
    let rows = lines.iter().filter_map(|line| line.trim().strip_prefix("row ")?.get(2..));
    rows.flat_map(|row| row.split(|letter: char| !letter.is_ascii_digit()).filter_map(|card| card.parse().ok())).collect()
}

/// Those that must: a car over a shuttle's border has room for a fifth digit, and none is in a row on the raised lift.
fn fit_in_view(cards: &[Shown]) -> Vec<u32> {
    let fits = |one: &&Shown| one.1 < 40 && one.0 < if matches!(one.1, 1 | 17) { 100_000 } else { 10_000 };
    cards.iter().filter(fits).map(|one| one.0).collect()
}

/// A message with its card lines, which the desk takes too.
fn line(numbers: &mut Numbers, desk: &mut Desk) -> String {
    let message = framed_message(numbers, &desk.station);
    let mut lines = String::new();
    match read_call(&message) {
        Ok((Call::Event(BEGIN_IN), _)) => {
            let card = some_card(numbers, desk, &[]);
            if card < UNKNOWN {
                lines += &format!("card {card}\n");
            }
            desk.event(BEGIN_IN, card);
        }
        Ok((Call::Event(way), _)) => {
            desk.event(way, 0);
        }
        Ok((Call::Image { image, apart }, _)) => {
            let listed = cars(image).is_some() && !numbers.one_in(4);
            let count = if cars(image).is_some() { layout(image).len() + usize::from(bit(image, DRIVE_IN)) } else { 0 };
            let mut cards: Vec<u32> = Vec::new();
            for at in 0..count {
                let card = some_card(numbers, desk, &cards);
                cards.push(if listed { card } else { UNKNOWN + at as u32 });
            }
            let word = |card: &u32| if *card < UNKNOWN { format!(" {card}") } else { " -".to_string() };
            if listed {
                lines += &format!("cards{}\n", cards.iter().map(word).collect::<String>());
            }
            desk.image(image, apart, count as u8, &cards);
        }
        Ok((Call::Request { count, bytes }, _)) => {
            desk.request(count, bytes);
        }
        Ok((Call::Result { issue, number, outcome }, _)) => {
            desk.result(issue, number, outcome);
        }
        Ok((Call::Ask, _)) | Err(_) => {}
    }
    lines + &format!("> {}\n", message.iter().map(|byte| format!("{byte:02X}")).collect::<String>())
}

/// So many logs of so many messages.
pub fn followed(explain: &str, logs: u64, messages: usize) {
    let (mut seen, mut last_known, mut moving, mut coming) = (0, 0, 0, 0);
    for seed in 0..logs {
        let (mut numbers, mut desk, mut log, mut desks) = (Numbers(seed), Desk::start(), String::new(), Vec::new());
        for _ in 0..messages {
            log += &line(&mut numbers, &mut desk);
            desks.push((known(&desk), desk.coming.filter(|&card| card < UNKNOWN)));
        }
        let (said, told, well) = text(&format!("{explain} --hex --floor"), log.as_bytes());
        assert_eq!((told.as_str(), well), ("", true));
        let found = paragraphs(&said);
        assert_eq!(found.len(), messages);
        for (told, (cards, waits)) in found.iter().zip(&desks) {
            let Some(line) = told.lines.iter().find_map(|line| line.trim().strip_prefix("cars: ")) else { continue };
            assert_eq!(&shown(line), cards, "seed {seed}: message {}", told.number);
            assert_eq!(in_view(&told.lines), fit_in_view(cards), "seed {seed}: message {}", told.number);
            let drive = told.lines.iter().find_map(|line| line.trim().strip_prefix("a drive-in is under way"));
            assert_eq!(drive.map(str::to_string), drive.map(|_| waits.map_or(String::new(), |card| format!(", card {card}"))));
            seen += cards.len();
            last_known += cards.iter().filter(|one| one.2).count();
            moving += cards.iter().filter(|one| one.3.is_some()).count();
            coming += usize::from(waits.is_some());
        }
    }
    let told = format!("{last_known} at their last known place, {moving} in motion, {coming} coming");
    assert!(last_known > 0 && moving > 0 && coming > 0, "{told}");
    println!("explain: {seen} cards where the reference desk has them, {told}");
}
