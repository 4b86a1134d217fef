//! The desk, plans, drawings, messages and the report, on examples worked by hand from their pages.

use reference::desk::Desk;
use reference::desk_lists::Line;
use reference::drawing::{drawn, hex_line, image_in, record_in};
use reference::plan::judge;
use reference::week::{Total, Week};
use reference::{serve, BEGIN_IN, DONE, END_DONE, START, STUCK};

#[test]
fn messages_are_answered_one_by_one() {
    // an ask is answered with the record, an event with a number, a kind that is none with 3
    let input = [&[2, 0, 5, 0][..], &[3, 0, 2, 0, 1], &[2, 0, 9, 0]].concat();
    let shown = [&[18, 0, 129, 0][..], &START.to_le_bytes(), &[0; 8]].concat();
    let answers = [&shown[..], &[6, 0, 128, 0, 0, 255, 0, 0], &[6, 0, 128, 0, 3, 255, 0, 0]].concat();
    assert_eq!(serve(&input), answers);
    assert_eq!(serve(&[1, 0, 5, 0, 2, 0, 5, 0]), [6, 0, 128, 0, 2, 255, 0, 0], "behind a length out of range nothing is read");
    assert_eq!(serve(&[2, 0, 5]), [6, 0, 128, 0, 1, 255, 0, 0], "cut short");
}

#[test]
fn a_card_goes_where_its_car_does() {
    let mut desk = Desk::start();
    assert_eq!(desk.event(BEGIN_IN, 0).number, 37);
    assert_eq!(desk.event(BEGIN_IN, 7).number, 0);
    assert_eq!(desk.event(END_DONE, 0).number, 0);
    assert_eq!(desk.whereabouts(7).map(|(stand, last_known)| (stand.told(), last_known)), Some((52, false)));
    desk.request(1, &[4, 2, 0, 0, 0]);
    assert_eq!(desk.result(0, 0, DONE).number, 0);
    assert_eq!(desk.whereabouts(7).map(|(stand, _)| stand.told()), Some(11));
    assert!(desk.whereabouts(8).is_none());
}

#[test]
fn all_cards_what_is_outstanding_and_what_an_image_would_change() {
    let lines = |lines: Vec<Line>| -> Vec<_> { lines.iter().map(|line| (line.card, line.place, line.flag, line.next)).collect() };
    let mut desk = Desk::start();
    assert_eq!((desk.list(), &desk.outstanding()[..4]), (vec![], &[255, 255, 0, 0][..]), "before the first set");
    // two cars in row 1, one in row 2, and a card that waits
    let image = START | 0b1111 << 6 | 1 << 24 | 1 << 55;
    assert_eq!(desk.compare(image, 0, 3, &[1, 2, 3]).0.number, 39);
    let (told, changes) = desk.compare(image, 0, 4, &[1, 2, 3, 4]);
    assert_eq!((told.number, lines(changes)), (0, vec![(1, 255, 0, 6), (2, 255, 0, 8), (3, 255, 0, 24), (4, 255, 0, 55)]));
    assert_eq!((desk.clone(), desk.image(image, 0, 4, &[1, 2, 3, 4]).number), (Desk::start(), 0));
    assert_eq!(lines(desk.list()), [(1, 6, 0, 0), (2, 8, 0, 0), (3, 24, 0, 0), (4, 55, 0, 0)]);
    // the belts of row 1 get stuck with two cars, and the middle belt of row 2 waits
    let (row_1, row_2) = ([1, 1, 2, 0, 1], [1, 2, 2, 1, 1]);
    assert_eq!(desk.request(2, &[row_1, row_2].concat()).number, 0);
    assert_eq!(lines(desk.list()), [(1, 6, 2, 4), (2, 8, 2, 6), (3, 24, 2, 25), (4, 55, 0, 0)]);
    assert_eq!((desk.result(0, 0, STUCK).number, desk.compare(image, 0, 4, &[1, 2, 3, 4]).0.number), (0, 6));
    assert_eq!(lines(desk.list()), [(1, 6, 1, 0), (2, 8, 1, 0), (3, 24, 2, 25), (4, 55, 0, 0)]);
    assert_eq!(desk.outstanding()[..14], [&[0, 0, 2, 1][..], &row_1, &row_2].concat());
    assert_eq!((desk.result(0, 1, DONE).number, &desk.outstanding()[..]), (0, &[0; 44][..]));
    // two exchanged, one that leaves, one that appears
    let (told, changes) = desk.compare(START | 0b1111 << 6 | 1 << 25, 0, 3, &[2, 1, 9]);
    assert_eq!(told.number, 0);
    assert_eq!(lines(changes), [(1, 6, 1, 8), (2, 8, 1, 6), (3, 25, 0, 255), (4, 55, 0, 255), (9, 255, 0, 25)]);
}

#[test]
fn a_drawing_is_six_lines() {
    let text = "....................\n..........\n..........\nLLT\nLLT\nstreet\n";
    assert_eq!((drawn(START).as_str(), record_in(text.as_bytes()).ok()), (text, Some(START)));
    assert_eq!(record_in(b"...").expect_err("it is cut short").number, 41);
    assert_eq!((hex_line(START).as_str(), image_in(b"00000000001b0900")), ("00 00 00 00 00 1B 09 00\n", Some((START, None))));
}

#[test]
fn a_plan_is_judged_to_its_wish() {
    let plan = |wish: u8, sets: &[[u8; 5]]| {
        let sets: Vec<u8> = sets.iter().flat_map(|five| [&[1][..], five].concat()).collect();
        let told = judge(&[&START.to_le_bytes()[..], &[0; 8], &[wish, (sets.len() / 6) as u8], &sets].concat());
        (told.number, told.set)
    };
    assert_eq!(plan(0, &[[4, 2, 0, 0, 0], [4, 0, 0, 0, 0]]), (0, 255));
    assert_eq!(plan(0, &[[4, 2, 0, 0, 0], [5, 0, 0, 0, 0]]), (27, 1), "the set at fault, from 0");
    assert_eq!(plan(1, &[[4, 2, 0, 0, 0], [4, 0, 0, 0, 0]]), (36, 255), "no car comes of it");
}

#[test]
fn a_report_counts_messages_answers_and_cars() {
    let input = [[3, 0, 2, 0, 1], [3, 0, 2, 0, 3], [3, 0, 2, 0, 1]].concat();
    let week = Week::of(&input);
    let got = [Total::Kind(2), Total::Answer(0), Total::Answer(10), Total::CarsIn, Total::MostCars].map(|total| week.get(total));
    assert_eq!(got, [3, 2, 1, 1, 1]);
}
