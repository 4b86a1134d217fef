// Where each part of the garage is drawn: a cut through it, the street above and the three rows below. On a narrow screen all of it is
// turned, so that the rows stand beside each other; these numbers are of the wide one.

import { Size } from '../numbers.js';

const HALF = 46; // the width of a half cell
const DEEP = 60; // the height of a row, and of the lift
const GAP = 10; // between a shuttle and its row
const SIDE = 74; // beside the rows, where tilted shuttles are
const ROW_AT = [256, 358, 460];
const LIFT_AT = [40, 148, 256];

export const STREET_AT = LIFT_AT[0] + DEEP;
export const WIDE = 2 * SIDE + 20 * HALF + 2 * GAP;
export const HIGH = ROW_AT[2] + DEEP + 34;
const LIFT_CELL = 11;

/** The cells of each belt, by rows: the first and the last. */
export const BELT_CELLS = [
  [[0, 1], [2, 10], [11, 12], [13, 17], [18, 19]],
  [[20, 20], [21, 28], [29, 29]],
  [[30, 30], [31, 38], [39, 39]],
];

/** Where a half cell of row 1 begins. */
const across = (half) => SIDE + half * HALF + (half >= 2 ? GAP : 0) + (half >= 18 ? GAP : 0);

const rowOf = (cell) => (cell < 20 ? 0 : cell < 30 ? 1 : 2);

export function cellBox(cell) {
  const row = rowOf(cell);
  if (row === 0) return { x: across(cell), y: ROW_AT[0], w: HALF, h: DEEP };
  return { x: across(2 * (cell % 10)), y: ROW_AT[row], w: 2 * HALF, h: DEEP };
}

/** The box around some cells of a row. */
export function spanBox(first, last) {
  const from = cellBox(first), to = cellBox(last);
  return { x: from.x, y: from.y, w: to.x + to.w - from.x, h: DEEP };
}

export const beltBox = (row, belt) => spanBox(...BELT_CELLS[row][belt]);

export const liftBox = (height) => ({ x: across(LIFT_CELL), y: LIFT_AT[Math.min(height, 2)], w: 2 * HALF, h: DEEP });

/** A slot of a shuttle, bit 40 to 51: its side, its row from 0, and whether it is for a tilted one. */
export const slotOf = (bit) => ({ side: Math.floor((bit - 40) / 3) % 2, row: (bit - 40) % 3, tilted: bit >= 46 });

export function slotBox(bit) {
  const { side, row, tilted } = slotOf(bit), y = ROW_AT[row];
  if (!tilted) return { x: across(side ? 18 : 0), y, w: 2 * HALF, h: DEEP };
  return { x: side ? WIDE - SIDE + 12 : 18, y, w: SIDE - 30, h: DEEP };
}

/** Where a car is drawn, by the cell where it begins or as on the raised lift. */
export function carBox(place, height) {
  if (place === Size.DESK_RAISED) return liftBox(height);
  return place < 20 ? spanBox(place, Math.min(place + 1, 19)) : cellBox(place);
}

/** The box of a part by its bit: a cell, a slot, or the lift at its height. */
export const partBox = (bit, height) => (bit < 40 ? cellBox(bit) : bit < 52 ? slotBox(bit) : liftBox(height));

export const inset = ({ x, y, w, h }, by) => ({ x: x + by, y: y + by, w: w - 2 * by, h: h - 2 * by });
export const middle = ({ x, y, w, h }) => ({ x: x + w / 2, y: y + h / 2 });
