// The conditions of an instruction in words, as docs/PANEL.md has them: what each asks, and what decides it. Whether one holds, its number
// and the parts that decide it are the panel's.

import { bitsOf, hasBit } from '../bytes.js';
import { Op } from '../numbers.js';
import { beltsOf, HEIGHTS, namedIn, ORIENTATIONS, ROWS, SIDES, SIZES, WAYS } from '../words.js';
import { slotOf } from './geometry.js';
import { heightOf, numbersIn, runsOf } from './record-words.js';

// What a condition asks of the parts that decide it.
const THERE = 'there', FREE = 'free', EVEN = 'even', HEIGHT = 'height', WHOLE = 'whole';

const asked = (words, asks, alone = '') => ({ words, asks, alone });

function allNamed(names, mask) {
  const all = namedIn(names, mask);
  return all.length ? `named: ${all.join(', ')}` : 'none is named';
}

function withGaps(names, mask) {
  const gaps = names.filter((_, at) => !((mask >> at) & 1) && mask & ((1 << at) - 1) && mask >> at);
  return gaps.length ? `${allNamed(names, mask)}; between them: ${gaps.join(', ')}` : allNamed(names, mask);
}

/** The conditions of an instruction, in the paper's order. */
function conditionsOf([op, a, b, c, d]) {
  if (op === Op.Belts) {
    const long = a === 1 && d === 1 ? 'two cells' : 'one cell';
    return [
      asked('rows 2 and 3 move full only', THERE, `row ${a}, ${SIZES[d]}`),
      asked('at least one belt', THERE, allNamed(beltsOf(a), b)),
      asked('the belts border each other without a gap', THERE, withGaps(beltsOf(a), b)),
      asked('each is available: a shuttle belt needs its lowered shuttle, the lift belt basement height', THERE,
        'no shuttle belt and no lift belt is named'),
      asked(`the end of the span toward ${WAYS[c]} is free: ${long}`, FREE, 'no belt is named'),
      asked('in row 1 the number of occupied cells in the span is even', EVEN, a === 1 ? 'no belt is named' : `row ${a}: not asked`),
    ];
  }
  if (op === Op.Shuttles) {
    const edge = b === 0 ? 'no row is named' : `there is no row ${WAYS[d]} than row ${d ? 3 : 1}`;
    return [
      asked('at least one row', THERE, allNamed(ROWS, b)),
      asked('no gap', THERE, withGaps(ROWS, b)),
      asked(`each has a shuttle that is ${ORIENTATIONS[c]}`, THERE, 'no row is named'),
      asked(`if lowered and row 1 is named, an even number of the ${SIDES[a]} shuttle's two cells there is occupied`, EVEN,
        c ? 'tilted: not asked' : 'row 1 is not named: not asked'),
      asked(`a next row toward ${WAYS[d]} exists and has no shuttle that is ${ORIENTATIONS[c]}`, FREE, edge),
    ];
  }
  if (op === Op.Tilt && c === 0) return [asked(`all three of the ${SIDES[a]} side are lowered`, THERE), asked("the position's cells are free", FREE)];
  if (op === Op.Tilt) return [asked('a tilted one is there', THERE), asked('no lowered one is there', FREE)];
  if (op === Op.Lift) {
    return [asked('the height differs', HEIGHT),
      asked('leaving the basement, cells 11 and 12 are free, or cells 0 to 10 and cells 13 to 19 each hold an even number of occupied cells', WHOLE)];
  }
  return [asked('at rotation height', HEIGHT), asked('cells 8, 9, 10, 13, 14, 15 are free', FREE)];
}

/** Cells in groups: those that follow each other; of a lift that leaves the basement its own two and those on either side. */
function groupsOf(cells, asks) {
  if (asks === WHOLE) return [[11, 12], [0, 10], [13, 19]].map(([first, last]) => cells.filter((cell) => cell >= first && cell <= last));
  if (asks === EVEN) return cells.length ? [cells] : [];
  return runsOf(cells);
}

const maskOf = (bits) => bits.reduce((all, bit) => all | (1n << BigInt(bit)), 0n);

/** What decides a condition on a record: lines with the parts that are amiss. */
function decided({ asks, alone }, { parts, holds }, record) {
  const lines = [];
  const line = (words, amiss, at) => lines.push(amiss && !holds ? { words: `${words}, at fault`, faults: at } : { words, faults: 0n });
  if (parts === 0n) {
    line(alone, true, 0n);
    return lines;
  }
  if (hasBit(parts, 52)) line(`lift at ${HEIGHTS[heightOf(record)]}`, asks === THERE ? heightOf(record) !== 2 : asks === HEIGHT, 1n << 52n);
  for (const bit of bitsOf(parts).filter((one) => one >= 40 && one < 52)) {
    const { side, row, tilted } = slotOf(bit), there = hasBit(record, bit);
    line(`${SIDES[side]} row ${row + 1}: ${there ? 'a' : 'no'} ${ORIENTATIONS[Number(tilted)]} shuttle`, there !== (asks === THERE), 1n << BigInt(bit));
  }
  groupsOf(bitsOf(parts).filter((bit) => bit < 40), asks).forEach((cells, at) => {
    const name = `${cells.length === 1 ? 'cell' : 'cells'} ${numbersIn(cells)}`, occupied = cells.filter((cell) => hasBit(record, cell));
    const even = asks === WHOLE ? at > 0 : asks === EVEN, odd = occupied.length % 2 === 1;
    if (!occupied.length) line(`${name}: free`, false, 0n);
    else if (even) line(`${name}: ${occupied.length} occupied (${numbersIn(occupied)}), ${odd ? 'odd' : 'even'}`, odd, maskOf(occupied));
    else line(`${name}: ${cells.length === 1 ? 'occupied' : `${numbersIn(occupied)} occupied`}`, true, maskOf(occupied));
  });
  return lines;
}

/** The conditions of an instruction on a sound record: number, whether each holds, words, and the lines of what decides it. */
export function explained(library, record, five) {
  const words = conditionsOf(five);
  return library.conditions(record, five).map((condition, at) => ({
    number: condition.number, holds: condition.holds, words: words[at].words, lines: decided(words[at], condition, record),
  }));
}

/** The parts at fault in the first condition that fails. */
export const faultsOf = (conditions) => conditions.find(({ holds }) => !holds)?.lines.reduce((all, { faults }) => all | faults, 0n) ?? 0n;
