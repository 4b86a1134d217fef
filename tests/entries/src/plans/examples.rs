//! Plans with what the papers say of them, and the ways in which a plan can be told something, so that a run can see that all came.

use reference::plan::{Plan, Verdict, BAD_FIELD, CUT_SHORT, MOST_SETS, NO_SET, TOO_MANY_SETS, UNSOUND, WISH_NOT_MET};
use reference::{sound, START};
use shared::plan_traffic::{after_all, Draft};

const WITHOUT: u8 = 0;
const WITH: u8 = 1;
/// A car on the raised lift; a drive in, and out, under way; half a car.
const CAR: u64 = START | 1 << 52;
const COMING: u64 = START | 1 << 55;
const LEAVING: u64 = CAR | 1 << 56;
const TORN: u64 = START | 1;

/// How long a plan can be that has a form: 255 sets of 255 instructions.
const LONGEST: usize = 18 + 255 * (1 + 5 * 255);

type Five = [u8; 5];
const DOWN: Five = [4, 2, 0, 0, 0];
const UP: Five = [4, 0, 0, 0, 0];
const BELT: Five = [1, 2, 2, 1, 1];
const OFF_LEFT: Five = [1, 1, 6, 0, 0];
const LOWER_LEFT: Five = [3, 0, 3, 1, 0];
const LOWER_RIGHT: Five = [3, 1, 3, 1, 0];
const EIGHT: [Five; 8] =
    [[1, 1, 1, 0, 1], [1, 1, 2, 0, 1], [1, 1, 8, 0, 1], [1, 1, 16, 0, 1], [1, 2, 1, 0, 1], BELT, [1, 2, 4, 0, 1], [1, 3, 2, 0, 1]];
const NO_OP: Five = [6, 0, 0, 0, 0];

fn plan(image: u64, wish: u8, sets: &[&[Five]]) -> Draft {
    Draft { image, apart: 0, wish, sets: sets.iter().map(|set| set.concat()).collect() }
}

/// The same set, so many times.
fn again(image: u64, wish: u8, times: usize, set: &[Five]) -> Draft {
    plan(image, wish, &vec![set; times])
}

fn told(number: u8) -> Verdict {
    Verdict { number, set: NO_SET }
}
fn refused(number: u8, set: u8) -> Verdict {
    Verdict { number, set }
}

/// Bytes behind a plan's.
fn and(draft: Draft, more: &[u8]) -> Vec<u8> {
    [&draft.bytes(), more].concat()
}

/// By their names, plans and what each is told.
pub fn examples() -> Vec<(&'static str, Vec<u8>, Verdict)> {
    let longest = || again(START, WITHOUT, 255, &[BELT; 255]);
    let drafts: Vec<(&'static str, Draft, Verdict)> = vec![
        ("no sets", plan(START, WITHOUT, &[]), told(0)),
        ("no sets, and a car is wished for", plan(START, WITH, &[]), told(WISH_NOT_MET)),
        ("no sets, and a car", plan(CAR, WITH, &[]), told(0)),
        ("no sets, and a car too many", plan(CAR, WITHOUT, &[]), told(WISH_NOT_MET)),
        ("down and up with a car", plan(CAR, WITH, &[&[DOWN], &[UP]]), told(0)),
        ("down", plan(START, WITHOUT, &[&[DOWN]]), told(WISH_NOT_MET)),
        ("the car stays below", plan(CAR, WITHOUT, &[&[DOWN], &[OFF_LEFT], &[OFF_LEFT], &[UP]]), told(0)),
        // P5: half off the lift, which can't go up
        ("half off the lift", plan(CAR, WITHOUT, &[&[DOWN], &[OFF_LEFT], &[UP]]), refused(24, 2)),
        // P10 and P12
        ("both tilts in one set", plan(START, WITHOUT, &[&[LOWER_LEFT, LOWER_RIGHT]]), told(0)),
        ("one tilt twice in a set", plan(START, WITHOUT, &[&[LOWER_LEFT, LOWER_LEFT]]), refused(8, 0)),
        ("one tilt twice, in two sets", plan(START, WITHOUT, &[&[LOWER_LEFT], &[LOWER_LEFT]]), refused(22, 1)),
        // P7; and an image that sets something apart
        ("half a car", plan(TORN, WITHOUT, &[]), told(UNSOUND)),
        ("a part set apart", Draft { apart: 1 << 52, ..plan(START, WITHOUT, &[]) }, told(UNSOUND)),
        ("a bit above the parts", Draft { apart: 1 << 63, ..plan(START, WITHOUT, &[]) }, told(UNSOUND)),
        // a drive-in under way is "without", a drive-out "with"
        ("a driver is coming", plan(COMING, WITHOUT, &[&[BELT]]), told(0)),
        ("a driver is coming, and a car is wished for", plan(COMING, WITH, &[&[BELT]]), told(WISH_NOT_MET)),
        ("a driver is leaving", plan(LEAVING, WITH, &[&[BELT]]), told(0)),
        ("the lift under a driver", plan(COMING, WITHOUT, &[&[BELT], &[BELT, DOWN], &[UP]]), refused(31, 1)),
        ("the lift under a driver, twice in one set", plan(LEAVING, WITH, &[&[DOWN, DOWN]]), refused(31, 0)),
        // sets of no instruction, of nine, of what is none, and in the station's order
        ("an empty set", plan(START, WITHOUT, &[&[BELT], &[]]), refused(7, 1)),
        ("nine", plan(START, WITHOUT, &[&[BELT; 9]]), refused(5, 0)),
        ("255, none of them an instruction", plan(START, WITHOUT, &[&[BELT], &[NO_OP; 255]]), refused(5, 1)),
        ("no instruction", plan(START, WITHOUT, &[&[BELT], &[BELT, NO_OP]]), refused(4, 1)),
        ("nothing named", plan(START, WITHOUT, &[&[[1, 1, 0, 0, 1]]]), refused(20, 0)),
        ("the first of two that are refused", plan(START, WITH, &[&[BELT], &[UP], &[]]), refused(26, 1)),
        // up to 64 sets; more are told before any is looked at, and behind the image
        ("64 sets", again(START, WITHOUT, MOST_SETS, &[BELT]), told(0)),
        ("64 sets of eight", again(START, WITHOUT, MOST_SETS, &EIGHT), told(0)),
        ("the last of 64", plan(START, WITHOUT, &[vec![&[BELT][..]; MOST_SETS - 1], vec![&[UP]]].concat()), refused(26, 63)),
        ("64 sets, and the wish", again(START, WITH, MOST_SETS, &[BELT]), told(WISH_NOT_MET)),
        ("65 sets", again(START, WITHOUT, 65, &[BELT]), told(TOO_MANY_SETS)),
        ("255 sets", again(START, WITHOUT, 255, &[BELT]), told(TOO_MANY_SETS)),
        ("65 sets, all empty", again(START, WITHOUT, 65, &[]), told(TOO_MANY_SETS)),
        ("65 sets, and half a car", again(TORN, WITHOUT, 65, &[BELT]), told(UNSOUND)),
        ("the longest plan that has a form", longest(), told(TOO_MANY_SETS)),
        // a wish that is neither, before all else that is whole
        ("a wish of 2", plan(START, 2, &[&[DOWN]]), told(BAD_FIELD)),
        ("a wish of 255, half a car and 65 empty sets", again(TORN, 255, 65, &[]), told(BAD_FIELD)),
    ];
    let mut all: Vec<_> = drafts.into_iter().map(|(name, draft, verdict)| (name, draft.bytes(), verdict)).collect();
    all.extend([
        ("a byte left over", and(plan(START, WITHOUT, &[&[BELT]]), &[0]), told(BAD_FIELD)),
        ("a byte left over, and half a car", and(plan(TORN, WITHOUT, &[]), &[0]), told(BAD_FIELD)),
        ("a byte behind the longest", and(longest(), &[0]), told(BAD_FIELD)),
        ("many behind the longest", and(longest(), &[0; 70_000]), told(BAD_FIELD)),
        ("many behind one without sets", and(plan(TORN, 2, &[]), &[1; 70_000]), told(BAD_FIELD)),
        ("the longest without its last byte", longest().bytes()[..LONGEST - 1].to_vec(), told(CUT_SHORT)),
    ]);
    // cut anywhere, also with all else wrong that there is
    let (whole, wrong) = (plan(START, WITHOUT, &[&[BELT], &[LOWER_LEFT, LOWER_RIGHT]]), plan(TORN, 9, &[&[], &[NO_OP; 2]]));
    for (name, bytes) in [("cut", whole.bytes()), ("cut, and wrong", wrong.bytes())] {
        all.extend((0..bytes.len()).map(|end| (name, bytes[..end].to_vec(), told(CUT_SHORT))));
    }
    all
}

/// The ways that a run must have come by, with those that the numbers alone don't tell apart.
pub const WAYS: [&str; 25] = [
    "accepted without sets",
    "accepted with 64 sets of eight",
    "accepted while a driver comes",
    "accepted while a driver goes",
    "cut in the head",
    "cut at a count",
    "cut in a set",
    "a wish that is neither",
    "bytes left over",
    "both of these",
    "an image that isn't sound",
    "a part set apart",
    "65 sets",
    "255 sets",
    "refused at the first set",
    "refused at the last of 64",
    "refused in between",
    "refused with another refused behind it",
    "a field in a set",
    "the lift under a driver behind a set that passes",
    "more than eight with bytes for all",
    "the lift below",
    "the lift at rotation",
    "a car is missing",
    "a car is there",
];

/// In which of them a plan was told something.
pub fn ways(bytes: &[u8], verdict: Verdict) -> Vec<&'static str> {
    let mut ways = Vec::new();
    let mut way = |came: bool, name| {
        if came {
            ways.push(name)
        }
    };
    let (image, sets) = (bytes.first_chunk().map_or(0, |eight| u64::from_le_bytes(*eight)), bytes.get(17).copied().unwrap_or(0));
    match (verdict.number, verdict.set) {
        (0, _) => {
            way(sets == 0, "accepted without sets");
            way(bytes.len() == 18 + MOST_SETS * 41, "accepted with 64 sets of eight");
            way(image >> 55 & 1 == 1, "accepted while a driver comes");
            way(image >> 56 & 1 == 1, "accepted while a driver goes");
        }
        (CUT_SHORT, _) => {
            let mut at = 18;
            while let Some(count) = bytes.get(at) {
                at += 1 + 5 * usize::from(*count);
            }
            way(bytes.len() < 18, "cut in the head");
            way(bytes.len() == at, "cut at a count");
            way(bytes.len() < at && at > 18, "cut in a set");
        }
        (BAD_FIELD, NO_SET) => {
            let other_wish = [&bytes[..16], &[0], &bytes[17..]].concat();
            let over = matches!(Plan::read(&other_wish), Err(BAD_FIELD));
            way(bytes[16] > 1 && !over, "a wish that is neither");
            way(bytes[16] <= 1, "bytes left over");
            way(bytes[16] > 1 && over, "both of these");
        }
        (UNSOUND, _) => {
            let apart = bytes[8..16].iter().any(|&byte| byte != 0);
            way(!apart, "an image that isn't sound");
            way(apart && sound(image), "a part set apart");
        }
        (TOO_MANY_SETS, _) => {
            way(sets == 65, "65 sets");
            way(sets == 255, "255 sets");
        }
        (WISH_NOT_MET, _) => {
            let last = Plan::read(bytes).map_or(0, |plan| after_all(image, plan.sets.iter().map(|set| set.1)));
            let (height, car) = (last >> 53 & 3, last >> 52 & 1);
            way(height == 2, "the lift below");
            way(height == 1, "the lift at rotation");
            way(height == 0 && car == 0, "a car is missing");
            way(height == 0 && car == 1, "a car is there");
        }
        (number, set) => {
            way(set == 0, "refused at the first set");
            way(set > 0 && set < 63, "refused in between");
            way(set == 63, "refused at the last of 64");
            let behind = Plan::read(bytes).map_or(Vec::new(), |plan| plan.sets[usize::from(set) + 1..].to_vec());
            way(behind.iter().any(|&(count, _)| count == 0 || count > 8), "refused with another refused behind it");
            way(number == BAD_FIELD, "a field in a set");
            way(number == 31 && set > 0, "the lift under a driver behind a set that passes");
            way(number == 5, "more than eight with bytes for all");
        }
    }
    ways
}
