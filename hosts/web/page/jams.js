// Which stuck results have set apart what is: those since the last image that was accepted, each with its instruction. A log notes them as it
// is answered, so that any of its messages is explained at once.

import { readMessage } from '../messages.js';
import { Kind, Outcome } from '../numbers.js';
import { lineOf } from '../words.js';
import { partsIn } from './record-words.js';

const KIND_AT = 2; // the kind's place in a message; a result's outcome is its last byte

export class Jams {
  /** From the set that is outstanding before the first message. */
  constructor(set) {
    Object.assign(this, { set, request: -1, marks: [] });
  }

  /** Notes a message that was accepted: the bytes from one place to another. */
  note(at, bytes, from = 0, to = bytes.length) {
    const kind = bytes[from + KIND_AT];
    if (kind === Kind.Request) this.request = at;
    if (kind === Kind.Image) this.marks.push({ at, image: true });
    if (kind === Kind.Result && bytes[to - 1] === Outcome.Stuck) this.marks.push({ at, request: this.request });
  }

  /** The stuck results before a message, back to the last image; `message` gives the bytes of one. */
  before(at, message) {
    const { marks } = this, found = [];
    let low = 0, high = marks.length;
    while (low < high) {
      const half = (low + high) >> 1;
      if (marks[half].at < at) low = half + 1;
      else high = half;
    }
    while (--low >= 0 && !marks[low].image) {
      const { issue, number } = readMessage(message(marks[low].at)), { request } = marks[low];
      const five = request < 0 ? this.set[number].five : readMessage(message(request)).fives[number];
      found.unshift({ at: marks[low].at, issue, number, five });
    }
    return found;
  }
}

/** What has set some parts apart, as bin/explain tells it. */
export function causes(library, stuck, parts) {
  const known = stuck.reduce((all, { five }) => all | library.area(five), 0n), older = parts & ~known;
  const by = ({ at, issue, number, five }) => `set apart by message ${at + 1}: instruction ${number} of set ${issue}, ${lineOf(five)}, was stuck`;
  return [...(older ? [`set apart before the first message: ${partsIn(older)}`] : []),
    ...stuck.filter(({ five }) => library.area(five) & parts).map(by)];
}
