// A garage drawn: by clicks, as the six lines of text, or as eight bytes; all three say the same. Whether it can be is the station's word.

import { bytesIn, bytesOf, hasBit, hexOf, numberAt } from '../bytes.js';
import { imageOf } from '../messages.js';
import { Numbers, START } from '../numbers.js';
import { HEIGHTS } from '../words.js';
import { byId, choice, copyText, fill, html } from './dom.js';
import { drawFloor } from './floor.js';
import { garageLink } from './link.js';
import { heightOf, hints, summary } from './record-words.js';

const LETTERS = ['-', 'L', 'T', 'B']; // by a bit for a lowered shuttle and a bit for a tilted one
const CYCLE = [1, 2, 3, 0];
const LIFT_WORDS = { car: 52, in: 55, out: 56 }; // by their bits
const ROW_CELLS = [[0, 20], [20, 10], [30, 10]];

/** The six lines of any record, sound or not; of a sound one they are the station's own. */
export function linesOf(record) {
  const rows = ROW_CELLS.map(([first, count]) => Array.from({ length: count }, (_, at) => (hasBit(record, first + at) ? '#' : '.')).join(''));
  const letter = (slot) => LETTERS[Number(hasBit(record, slot)) + 2 * Number(hasBit(record, slot + 6))];
  const side = (first) => [0, 1, 2].map((row) => letter(first + row)).join('');
  const words = Object.entries(LIFT_WORDS).filter(([, bit]) => hasBit(record, bit)).map(([word]) => ` ${word}`);
  const lift = `${HEIGHTS[heightOf(record)] ?? 'street'}${words.join('')}`;
  return [...rows, side(40), side(43), lift].map((line) => `${line}\n`).join('');
}

/** The record of six lines of the right form, sound or not. */
export function recordOf(text) {
  const lines = text.split('\n'), bit = (at) => 1n << BigInt(at);
  let record = 0n;
  ROW_CELLS.forEach(([first], row) => [...lines[row]].forEach((mark, at) => { if (mark === '#') record |= bit(first + at); }));
  [0, 3].forEach((from, side) => [...lines[3 + side]].forEach((letter, row) => {
    const held = LETTERS.indexOf(letter);
    if (held & 1) record |= bit(40 + from + row);
    if (held & 2) record |= bit(46 + from + row);
  }));
  const [height, ...words] = lines[5].split(' ');
  record |= BigInt(HEIGHTS.indexOf(height)) << 53n;
  words.forEach((word) => { record |= bit(LIFT_WORDS[word]); });
  return record;
}

export class Garage {
  constructor(library, { sendImage, planFrom }) {
    Object.assign(this, { library, record: START, wrong: '' });
    byId('drawing').addEventListener('input', (event) => this.typed(event.target.value));
    byId('image').addEventListener('input', (event) => this.digits(event.target.value));
    byId('send-image').addEventListener('click', () => sendImage(this.record));
    byId('plan-from').addEventListener('click', () => planFrom(this.record));
    byId('clear-garage').addEventListener('click', () => this.put(START));
    byId('copy-link').addEventListener('click', () => copyText(location.href, 'The link is copied.', byId('copied')));
    byId('copy-message').addEventListener('click', () => copyText(hexOf(imageOf(this.record)), 'The message is copied.', byId('copied')));
  }

  put(record) {
    this.record = record;
    this.wrong = '';
    this.show();
  }

  typed(text) {
    const { answer, record } = this.library.drawn(text);
    const bad = answer.place > 5 ? 'Text follows the sixth line.' : `Line ${answer.place + 1} is not of its form.`;
    this.wrong = answer.number === Numbers.BadLine ? bad : '';
    if (answer.taken) this.record = record;
    else if (answer.number === Numbers.Unsound) this.record = recordOf(text);
    this.show('drawing');
  }

  digits(text) {
    const bytes = bytesIn(text);
    this.wrong = bytes?.length === 8 ? '' : 'A record has sixteen hexadecimal digits.';
    if (!this.wrong) this.record = numberAt(bytes);
    this.show('image');
  }

  /** A part was picked: a car comes or goes, a shuttle stands otherwise, the lift goes there. */
  pick(part) {
    const [what, one] = part.split('-'), at = Number(one), bit = (place) => 1n << BigInt(place);
    let { record } = this;
    if (what === 'cell') {
      const there = hasBit(record, at), first = at < 20 && there ? this.pairOf(at) : at;
      // in row 1 a car comes onto two free half cells, or goes from both that it has
      const both = first < 19 && at < 20 && hasBit(record, first + 1) === there;
      record ^= bit(first) | (both ? bit(first + 1) : 0n);
    } else if (what === 'slot') {
      const next = CYCLE[Number(hasBit(record, at)) + 2 * Number(hasBit(record, at + 6))];
      record = (record & ~(bit(at) | bit(at + 6))) | (next & 1 ? bit(at) : 0n) | (next & 2 ? bit(at + 6) : 0n);
    } else {
      record = this.lifted(at);
    }
    this.put(record);
  }

  /** Where the car of an occupied half cell begins. */
  pairOf(cell) {
    let first = cell;
    while (first > 0 && hasBit(this.record, first - 1)) first -= 1;
    return cell - ((cell - first) % 2);
  }

  /** The record with the lift at another height, and its car with it. */
  lifted(height) {
    const { record } = this, low = 3n << 11n, car = hasBit(record, 52) || (record & low) === low;
    let next = (record & ~(7n << 52n)) | (BigInt(height) << 53n);
    if (heightOf(record) === 2 && car) next &= ~low;
    if (car) next |= height === 2 ? low : 1n << 52n;
    return height === 0 ? next : next & ~(3n << 55n);
  }

  showLift() {
    const { record } = this, node = byId('lift-controls'), held = node.contains(document.activeElement) ? document.activeElement.name : null;
    const drive = (way) => this.put((record & ~(3n << 55n)) | (BigInt(way) << 55n));
    fill(node,
      choice('lift-height', 'Lift', HEIGHTS.map((name, at) => [at, name]), heightOf(record), (height) => this.put(this.lifted(height))),
      choice('lift-car', 'On the raised lift', [[0, 'no car'], [1, 'a car']], Number(hasBit(record, 52)), () => this.put(record ^ (1n << 52n))),
      choice('lift-drive', 'Drive', [[0, 'none'], [1, 'in'], [2, 'out']], Number((record >> 55n) & 3n), drive));
    if (held) node.querySelector(`input[name="${held}"]:checked`)?.focus();
  }

  show(typing = null) {
    const { library, record } = this, sound = library.sound(record), found = sound ? [] : hints(record), verdict = byId('garage-verdict');
    const faults = found.reduce((all, { parts }) => all | parts, 0n);
    const floor = { library, record, mode: 'cells', faults, onpick: (part) => this.pick(part) };
    drawFloor(byId('garage-floor'), { ...floor, label: `The garage as drawn: ${summary(floor)}` });
    if (typing !== 'drawing') byId('drawing').value = sound ? library.drawing(record).text : linesOf(record);
    if (typing !== 'image') byId('image').value = hexOf(bytesOf(record));
    verdict.className = `told ${sound && !this.wrong ? 'yes' : 'no'}`;
    fill(verdict, this.wrong ? this.wrong : sound ? `Sound: ${summary(floor)}.` : '15: no garage can stand so.');
    fill(byId('garage-hints'), this.wrong ? [] : found.map(({ words }) => html('li', {}, words)));
    this.showLift();
    for (const id of ['send-image', 'plan-from', 'copy-message']) byId(id).disabled = !sound;
    if (!this.wrong) history.replaceState(null, '', garageLink(record));
  }
}
