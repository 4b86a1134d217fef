// The table of the numbers that the entries answer with, and the numbers that messages have, by their names.

/** What is answered, by its number: a name and its words. */
const TABLE = [
  [0, 'Taken', 'taken'],
  [1, 'TooFewBytes', 'fewer bytes than it says'],
  [2, 'BadLength', "a length that its kind doesn't have"],
  [3, 'UnknownKind', 'unknown kind'],
  [4, 'BadField', 'a field out of range'],
  [5, 'TooMany', 'more than eight instructions'],
  [6, 'SetOutstanding', 'a set is outstanding'],
  [7, 'EmptySet', 'empty set'],
  [8, 'Overlap', 'overlap'],
  [10, 'EventImpossible', 'event impossible'],
  [11, 'NoSet', 'no set is outstanding'],
  [12, 'NotInSet', 'not in the set'],
  [13, 'AlreadyAnswered', 'already answered'],
  [15, 'Unsound', 'image not sound'],
  [16, 'Unfit', 'station unfit'],
  [17, 'NoRoom', 'room too small'],
  [20, 'NothingNamed', 'nothing named'],
  [21, 'Gap', 'a gap between those named'],
  [22, 'NotAvailable', 'not available'],
  [23, 'NotFree', 'no free place to move to'],
  [24, 'OddCount', 'odd count: a car would be torn'],
  [25, 'HalfMove', 'half move in row 2 or 3'],
  [26, 'SameHeight', 'already at that height'],
  [27, 'NotAtRotation', 'not at rotation height'],
  [28, 'CellsNotFree', 'cells not free for the tilt or the rotation'],
  [29, 'Late', 'late: of a set before the present one'],
  [30, 'NotIssued', 'of a set that was not issued'],
  [31, 'OutOfTurn', 'out of turn'],
  [32, 'SetApart', 'a part is set apart'],
  [33, 'KeptOpen', 'places are kept open'],
  [35, 'TooManySets', 'more than 64 sets'],
  [36, 'WishNotMet', 'wish not met'],
  [37, 'ZeroNumber', 'number zero'],
  [38, 'KnownNumber', 'number already in the garage, or given twice'],
  [39, 'WrongCount', 'not that many numbers'],
  [40, 'Full', 'a total is full'],
  [41, 'BadLine', 'not a drawing'],
];

const WORDS = new Map(TABLE.map(([number, , words]) => [number, words]));

/** The numbers of the table by their names. */
export const Numbers = Object.freeze(Object.fromEntries(TABLE.map(([number, name]) => [name, number])));

/** What a number says. */
export const wordsOf = (number) => WORDS.get(number) ?? 'not a number of the table';

export const Kind = Object.freeze({ Request: 1, Event: 2, Result: 3, Image: 4, Ask: 5, Answer: 128, Held: 129 });
export const Event = Object.freeze({ BeginIn: 1, BeginOut: 2, EndDone: 3, EndNotDone: 4 });
export const Outcome = Object.freeze({ Failed: 0, Done: 1, Stuck: 2 });
export const Op = Object.freeze({ Belts: 1, Shuttles: 2, Tilt: 3, Lift: 4, Rotate: 5 });
export const Height = Object.freeze({ Street: 0, Rotation: 1, Basement: 2 });

/** Sizes in bytes, and places that are no cells, as the headers have them. */
export const Size = Object.freeze({
  STATION_SIZE: 60, STATION_SHOWN_SIZE: 16, STATION_REPLY_MOST: 20, STATION_CODE_SIZE: 5, STATION_MOST: 8, STATION_MESSAGE_MOST: 45,
  STATION_IMAGE_SIZE: 8, STATION_NOWHERE: 255, DESK_SIZE: 228, DESK_CARD_SIZE: 4, DESK_PLACES: 42, DESK_AT_LIFT: 40, DESK_AT_DRIVE: 41,
  DESK_LINE_SIZE: 8, DESK_LIST_SIZE: 248, DESK_OPEN_SIZE: 44, DESK_CHANGES_SIZE: 496, DESK_WAITS: 55,
  DESK_RAISED: 52, DESK_NOT_HERE: 255, PANEL_CONDITION_SIZE: 11, PANEL_CARS_SIZE: 31, PANEL_RAISED: 52, PANEL_LIFT: 52, DRAWING_MOST: 66,
  DRAWING_APART_MOST: 56, DRAWING_IMAGE_SIZE: 8, REPORT_TOTALS: 208, REPORT_TEXT_MOST: 1092, REPORT_PLACES: 52, REPORT_NONE: 255,
  PLAN_NO_SET: 255, PLAN_SETS_MOST: 64, PLAN_NO_INSTRUCTION: 255, PLAN_GROUNDS: 18, PLAN_PARTS: 8, PLAN_PLACE: 16, PLAN_EARLIER: 17,
});

/** The record that a station starts with. */
export const START = 0x00091b0000000000n;

/** An answer as an entry gives it: a number of the table, a place or nothing, and the issue of the set where a request was taken. */
export class Answer {
  constructor(number, place, issue) {
    this.number = number;
    this.place = place === Size.STATION_NOWHERE ? null : place;
    this.issue = issue;
  }

  static of(said) {
    return new Answer(said & 255, (said >>> 8) & 255, said >>> 16);
  }

  get taken() {
    return this.number === Numbers.Taken;
  }

  get words() {
    return wordsOf(this.number);
  }

  toString() {
    return `${this.number} (${this.words})${this.place === null ? '' : ` at ${this.place}`}`;
  }
}
