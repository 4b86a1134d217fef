// A message and its answer in words: what it says, what the station told, why, and what to do, as docs/EXPLAIN.md has it.

import { hexOf } from '../bytes.js';
import { Event, Numbers, wordsOf } from '../numbers.js';
import { readMessage } from '../messages.js';
import { HEIGHTS, lineOf } from '../words.js';
import { explained } from './conditions.js';
import { some } from './dom.js';
import { causes } from './jams.js';
import { heightOf, hints, partsIn } from './record-words.js';

const EVENTS = { 1: 'a drive-in begins', 2: 'a drive-out begins', 3: 'the drive has ended, and is done', 4: 'the drive has ended, not done' };
export const OUTCOMES = ['failed', 'done', 'stuck'];
const LIFT = 52n; // its bit among the parts

/** What a message says: a line, and lines below it. */
export function says(bytes) {
  const message = readMessage(bytes);
  switch (message.says) {
    case 'request':
      return {
        title: `Request of ${some(message.fives.length, 'instruction')}`,
        lines: message.fives.map((five, at) => `${at}: ${lineOf(five)}`),
      };
    case 'event':
      return { title: `Event ${message.way}: ${EVENTS[message.way] ?? 'no event'}`, lines: [] };
    case 'result':
      return { title: `Result of set ${message.issue}, instruction ${message.number}: ${OUTCOMES[message.outcome] ?? 'no outcome'}`, lines: [] };
    case 'image':
      return { title: 'Image to take', lines: [`record ${hexOf(bytes.slice(4, 12))}`, `set apart: ${partsIn(message.apart)}`] };
    case 'ask':
      return { title: 'Ask for the image', lines: [] };
    case 'answer':
      return { title: `Answer ${message.answer}`, lines: [] };
    case 'held':
      return { title: `Image ${hexOf(bytes.slice(4, 12))}`, lines: [`set apart: ${partsIn(message.apart)}`] };
    default:
      return { title: `A message of kind ${message.kind}, which has another form`, lines: [] };
  }
}

/** An answer in one line. */
export function told(answer, fives = []) {
  const at = answer.place === null ? '' : `, at instruction ${answer.place}${fives[answer.place] ? ` (${lineOf(fives[answer.place])})` : ''}`;
  return `${answer.number}: ${wordsOf(answer.number)}${at}`;
}

/** What stands against a message that was refused, on the station as it is; `stuck` are the results that have set apart what is. */
export function against(library, station, bytes, answer, stuck = []) {
  const message = readMessage(bytes), { record, apart } = station, five = message.fives?.[answer.place];
  const waits = ({ answered }) => (answered ? 'answered' : 'waits for its result');
  const set = () => station.set.map((held, at) => `set ${station.issue}, ${at}: ${lineOf(held.five)}: ${waits(held)}`);
  switch (answer.number) {
    case Numbers.SetOutstanding:
    case Numbers.NotInSet:
    case Numbers.AlreadyAnswered:
    case Numbers.NotIssued:
    case Numbers.Late:
      return set();
    case Numbers.Overlap: {
      const area = library.area(five), others = message.fives.slice(0, answer.place);
      return others.map((other, at) => [library.area(other) & area, at, other]).filter(([both]) => both)
        .map(([both, at, other]) => `it overlaps ${at}: ${lineOf(other)}: both have ${partsIn(both)}`);
    }
    case Numbers.EventImpossible:
      return [`lift at ${HEIGHTS[heightOf(record)]}, ${(record >> 52n) & 1n ? 'a car' : 'no car'} on it`,
        message.way === Event.BeginIn ? 'a drive-in begins at street, with the lift empty'
          : 'a drive-out begins at street, with a car on the lift'];
    case Numbers.OutOfTurn:
      return [(record >> 55n) & 1n ? 'a drive-in is under way' : (record >> 56n) & 1n ? 'a drive-out is under way' : 'no drive is under way'];
    case Numbers.SetApart: {
      const touched = five ? library.area(five) & apart : 1n << LIFT;
      return [`set apart: ${partsIn(apart)}`, ...(five ? [`of that it touches: ${partsIn(touched)}`] : []), ...causes(library, stuck, touched)];
    }
    case Numbers.KeptOpen:
      return [`the record has ${library.cars(record)} cars, and a drive-in begins with fewer than 27`];
    case Numbers.Unsound:
      return [...(message.apart ? ['its second number is not 0: an image sets nothing apart'] : []),
        ...hints(message.record).map(({ words }) => words)];
    default:
      if (!five || answer.number < Numbers.NothingNamed || answer.number > Numbers.CellsNotFree) return [];
      return explained(library, record, five).filter(({ holds }) => !holds)
        .flatMap(({ number, words, lines }) => [`${number}: ${words}`, ...lines.map((line) => `  ${line.words}`)]);
  }
}

const TO_DO = {
  1: 'send the whole message', 2: 'mend the length', 3: 'mend the kind', 4: 'mend the field', 5: 'split the set', 6: 'report its results first',
  7: 'leave it out', 8: 'put it into a later set', 10: 'let no driver in; bring the lift to street by sets, empty or with the car',
  11: 'the set is closed already: drop it', 12: 'mend the number', 13: 'it is taken already: drop it',
  15: 'mend the image; where something is stuck, have somebody look, and send what is there', 20: 'name a belt or a row, or leave the instruction out',
  21: 'name the one between too, or make two instructions of it', 25: 'send size full', 26: 'leave the instruction out',
  27: 'send the lift to rotation in an earlier set', 29: 'drop it', 30: "mend the issue: it is the one in the answer to the set's request",
  33: 'let no driver in; fetch a car and let it drive out, then send the begin again', 37: 'give the card a number', 38: 'look which car has that card',
  39: 'give a card for each car of the image',
};

/** What to do about a refusal. */
export function toDo(bytes, answer) {
  const { says: kind, fives, way } = readMessage(bytes), op = fives?.[answer.place]?.[0], tilted = fives?.[answer.place]?.[3] === 1;
  const begins = way === Event.BeginIn || way === Event.BeginOut;
  const byOp = {
    22: ['bring the shuttle or the lift there in an earlier set, or leave that belt out', 'name only rows that have one',
      tilted ? 'mend the row or the orientation' : "lower the side's tilted shuttle in an earlier set"],
    23: ['name the next belt too, or clear that end in an earlier set', 'mend the rows or the direction, or move the shuttle in the way first',
      'move one of the two to another row in an earlier set'],
    24: ['a car stands half in the span: name the belt with its other half too', 'a car stands half on the shuttle: run it on or off first', '',
      'a car stands half on the lift: run it on or off by belts of row 1 first'],
    28: ['', '', 'run the car off the shuttle in an earlier set', '', 'run the cars beside the lift away from it in an earlier set'],
  };
  if (byOp[answer.number]) return byOp[answer.number][op - 1] ?? '';
  if (answer.number === Numbers.OutOfTurn) {
    if (kind === 'request') return 'send it again when the drive has ended, or now without what has the lift';
    return begins ? 'report how the drive that was begun ended, then begin again' : 'drop it; if a car did come or go, look at the sensors';
  }
  if (answer.number === Numbers.SetApart) return 'have the place looked at and send an image, or leave out what touches it';
  return TO_DO[answer.number] ?? '';
}
