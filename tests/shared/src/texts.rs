//! Instructions in words, as the page of plans has them, and lists of numbers.

fn name(names: &[&'static str], at: u8) -> &'static str {
    names[usize::from(at)]
}

/// The names whose bits a mask has.
fn named(names: &[&str], mask: u8) -> String {
    names.iter().enumerate().filter(|(at, _)| mask >> at & 1 == 1).map(|(_, name)| format!("{name} ")).collect()
}

/// An instruction in words; of five bytes that are none nothing.
pub fn words([op, a, b, c, d]: [u8; 5]) -> Option<String> {
    let (ways, orientations) = (["lower", "higher"], ["lowered", "tilted"]);
    Some(match (op, a, b, c, d) {
        (1, 1, 0..=31, 0..=1, 0..=1) => {
            let belts = named(&["left-shuttle", "left", "lift", "right", "right-shuttle"], b);
            format!("belts row 1 {belts}{} {}", name(&ways, c), name(&["half", "full"], d))
        }
        (1, 2 | 3, 0..=7, 0..=1, 0..=1) => {
            let belts = named(&["left-shuttle", "middle", "right-shuttle"], b);
            format!("belts row {a} {belts}{} {}", name(&ways, c), name(&["half", "full"], d))
        }
        (2, 0..=1, 0..=7, 0..=1, 0..=1) => {
            let (side, rows) = (name(&["left", "right"], a), named(&["1", "2", "3"], b));
            format!("shuttles {side} rows {rows}{} {}", name(&orientations, c), name(&ways, d))
        }
        (3, 0..=1, 1..=3, 0..=1, 0) => format!("tilt {} row {b} {}", name(&["left", "right"], a), name(&orientations, c)),
        (4, 0..=2, 0, 0, 0) => format!("lift {}", name(&["street", "rotation", "basement"], a)),
        (5, 0, 0, 0, 0) => "rotate".to_string(),
        _ => return None,
    })
}

/// The numbers that a list such as `2 to 10, 13` names.
pub fn listed(list: &str) -> Option<Vec<u32>> {
    let one = |item: &str| match item.split_once(" to ") {
        Some((first, last)) => Some((first.parse().ok()?..=last.parse().ok()?).collect()),
        None => Some(vec![item.parse().ok()?]),
    };
    list.split(", ").map(one).collect::<Option<Vec<Vec<u32>>>>().map(|all| all.concat())
}
