// Instructions in the words of plans and of the panel (docs/PLANS.md), read and written.

import { Op } from './numbers.js';

// Numbers as the messages have them, by the places of their words.
export const ROWS = ['1', '2', '3'];
export const WAYS = ['lower', 'higher'];
export const SIZES = ['half', 'full'];
export const SIDES = ['left', 'right'];
export const ORIENTATIONS = ['lowered', 'tilted'];
export const HEIGHTS = ['street', 'rotation', 'basement'];
const BELTS_OF_ROW_1 = ['left-shuttle', 'left', 'lift', 'right', 'right-shuttle'];
const BELTS = ['left-shuttle', 'middle', 'right-shuttle'];
const INSTRUCTIONS = ['belts', 'shuttles', 'tilt', 'lift', 'rotate'];

/** The belts of a row, by their bits in a mask. */
export const beltsOf = (row) => (row === 1 ? BELTS_OF_ROW_1 : BELTS);

/** The names whose bits a mask has. */
export const namedIn = (names, mask) => names.filter((_, at) => (mask >> at) & 1);

function listed(names) {
  const quoted = names.map((name) => `\`${name}\``);
  return quoted.length === 1 ? quoted[0] : `${quoted.slice(0, -1).join(', ')} or ${quoted.at(-1)}`;
}

/** A line that says nothing. */
export class WrongLine extends Error {}

/** The words of a line that are still to be read; commas stand between words as spaces do. */
export class Words {
  constructor(line) {
    this.left = line.split(/[\s,]+/).filter((word) => word !== '');
  }

  wrong(expected) {
    return new WrongLine(`expected ${expected}, ${this.left.length ? `found \`${this.left[0]}\`` : 'and the line ends'}`);
  }

  /** The place of the next word among some, or -1. */
  among(names) {
    const at = this.left.length ? names.indexOf(this.left[0]) : -1;
    if (at >= 0) this.left.shift();
    return at;
  }

  oneOf(names) {
    const at = this.among(names);
    if (at < 0) throw this.wrong(listed(names));
    return at;
  }

  /** Of all that come next, a bit for each name; one of the words that may follow them has to. */
  allOf(names, then) {
    let mask = 0;
    for (let at = this.among(names); at >= 0; at = this.among(names)) {
      if ((mask >> at) & 1) throw new WrongLine(`\`${names[at]}\` stands twice`);
      mask |= 1 << at;
    }
    if (!then.includes(this.left[0])) throw this.wrong(listed([...names, ...then]));
    return mask;
  }

  rest() {
    return this.left.splice(0).join('');
  }

  end() {
    if (this.left.length) throw new WrongLine(`\`${this.left[0]}\` and what follows it is more than the line can say`);
  }
}

/** An instruction's five bytes from its words. */
export function instructionIn(words) {
  const op = 1 + words.oneOf(INSTRUCTIONS);
  if (op === Op.Belts) {
    words.oneOf(['row']);
    const row = 1 + words.oneOf(ROWS);
    const mask = words.allOf(beltsOf(row), WAYS);
    return Uint8Array.of(op, row, mask, words.oneOf(WAYS), words.oneOf(SIZES));
  }
  if (op === Op.Shuttles) {
    const side = words.oneOf(SIDES);
    words.oneOf(['rows', 'row']);
    const mask = words.allOf(ROWS, ORIENTATIONS);
    return Uint8Array.of(op, side, mask, words.oneOf(ORIENTATIONS), words.oneOf(WAYS));
  }
  if (op === Op.Tilt) {
    const side = words.oneOf(SIDES);
    words.oneOf(['row']);
    return Uint8Array.of(op, side, 1 + words.oneOf(ROWS), words.oneOf(ORIENTATIONS), 0);
  }
  return Uint8Array.of(op, op === Op.Lift ? words.oneOf(HEIGHTS) : 0, 0, 0, 0);
}

/** The five bytes of a line that says one instruction. */
export function instruction(line) {
  const words = new Words(line), five = instructionIn(words);
  words.end();
  return five;
}

/** The line of an instruction; of five bytes that are none, that they are none. */
export function lineOf(five) {
  const [op, a, b, c, d] = five;
  const word = (names, at) => names[at] ?? '?';
  const listing = (names) => namedIn(names, b).map((name) => ` ${name}`).join('');
  switch (op) {
    case Op.Belts:
      return `belts row ${a}${listing(beltsOf(a))}, ${word(WAYS, c)}, ${word(SIZES, d)}`;
    case Op.Shuttles:
      return `shuttles ${word(SIDES, a)} ${namedIn(ROWS, b).length === 1 ? 'row' : 'rows'}${listing(ROWS)} ${word(ORIENTATIONS, c)} ${word(WAYS, d)}`;
    case Op.Tilt:
      return `tilt ${word(SIDES, a)} row ${b} ${word(ORIENTATIONS, c)}`;
    case Op.Lift:
      return `lift ${word(HEIGHTS, a)}`;
    case Op.Rotate:
      return 'rotate';
    default:
      return 'no instruction';
  }
}
