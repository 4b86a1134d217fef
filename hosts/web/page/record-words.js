// A record in words: its parts, its cars, and what breaks the rules for a garage that can be (docs/PROTOCOL.md, The record image).

import { bitsOf, hasBit } from '../bytes.js';
import { Size } from '../numbers.js';
import { HEIGHTS, ORIENTATIONS, SIDES } from '../words.js';
import { slotOf } from './geometry.js';

export const heightOf = (record) => Number((record >> 53n) & 3n);

/** Numbers in groups of those that follow each other. */
export function runsOf(numbers) {
  const runs = [];
  for (const one of numbers) {
    if (runs.at(-1)?.at(-1) === one - 1) runs.at(-1).push(one);
    else runs.push([one]);
  }
  return runs;
}

/** Numbers in words, from three that follow each other on as a range. */
export const numbersIn = (all) => runsOf(all).map((run) => (run.length > 2 ? `${run[0]} to ${run.at(-1)}` : run.join(', '))).join(', ');

const cellsIn = (cells) => `${cells.length === 1 ? 'cell' : 'cells'} ${numbersIn(cells)}`;

/** The cars of a floor: where each begins, its card where it is known, and whether that place is only the last known one: by the desk's
 * word, or where there is no desk by what is set apart. Of an unsound record halves that stand alone. */
export function carsOf({ library, record, cards, apart = 0n, lastKnown }) {
  const card = (place) => cards?.get(place === Size.DESK_RAISED ? Size.DESK_AT_LIFT : place) ?? null;
  const unsure = (place) => lastKnown?.has(place) ?? (hasBit(apart, place) || (place < 19 && hasBit(apart, place + 1)));
  if (library.sound(record)) return library.places(record).map((place) => ({ place, card: card(place), half: false, lastKnown: unsure(place) }));
  const found = [];
  for (let cell = 0; cell < 40; cell++) {
    if (!hasBit(record, cell)) continue;
    const whole = cell >= 20 || (cell < 19 && hasBit(record, cell + 1));
    found.push({ place: cell, card: null, half: !whole });
    if (cell < 20 && whole) cell++;
  }
  if (hasBit(record, 52)) found.push({ place: Size.DESK_RAISED, card: null, half: false });
  return found;
}

/** Parts in words, as of an area or of what is set apart. */
export function partsIn(parts) {
  const bits = bitsOf(parts), cells = bits.filter((bit) => bit < 40), words = [];
  if (cells.length) words.push(cellsIn(cells));
  for (const bit of bits.filter((one) => one >= 40 && one < 52)) {
    const { side, row, tilted } = slotOf(bit);
    words.push(`the ${ORIENTATIONS[Number(tilted)]} slot ${SIDES[side]} in row ${row + 1}`);
  }
  if (bits.some((bit) => bit >= 52 && bit < 55)) words.push('the lift');
  return words.length ? words.join('; ') : 'nothing';
}

/** One part of a floor, for those who hear it. */
export function partWords({ record, apart = 0n }, bit) {
  const aside = hasBit(apart, bit) ? ', set apart' : '';
  if (bit < 40) return `cell ${bit}: ${hasBit(record, bit) ? 'occupied' : 'free'}${aside}`;
  const { side, row, tilted } = slotOf(bit);
  return `${SIDES[side]} row ${row + 1}: ${hasBit(record, bit) ? 'a' : 'no'} ${ORIENTATIONS[Number(tilted)]} shuttle${aside}`;
}

/** A car of a floor: its card where it is known, its place, and whether that is only the last known one. */
function carWords({ place, card, lastKnown }) {
  const where = place === Size.DESK_RAISED ? 'on the lift' : place < 20 ? `at cells ${place} and ${place + 1}` : `at cell ${place}`;
  return `${card ? `card ${card}` : 'a car'} ${where}${lastKnown ? ', its last known place' : ''}`;
}

/** What stands on the cells of a belt. */
export function floorWords(floor, [first, last]) {
  const { record, apart = 0n } = floor;
  const cars = carsOf(floor).filter(({ place }) => place <= last && place + (place < 20 ? 1 : 0) >= first), words = cars.map(carWords);
  const aside = bitsOf(apart).some((bit) => bit >= first && bit <= last);
  const slot = first === 0 || first === 20 || first === 30 ? 40 : last === 19 || last === 29 || last === 39 ? 43 : null;
  if (slot !== null && !hasBit(record, slot + (first < 20 ? 0 : first < 30 ? 1 : 2))) words.push('no lowered shuttle');
  return `${words.length ? words.join(', ') : 'free'}${aside ? ', set apart' : ''}`;
}

/** The cars whose cards are known, in words: those in the garage, and one that is driving in. */
export function knownCars(floor) {
  const coming = floor.cards?.get(Size.DESK_AT_DRIVE);
  return [...carsOf(floor).filter(({ card }) => card).map(carWords), ...(coming ? [`card ${coming} is driving in`] : [])].join('; ');
}

/** A floor in one sentence or a few. */
export function summary(floor) {
  const { library, record, apart = 0n } = floor, cars = carsOf(floor);
  const drive = hasBit(record, 55) ? 'a drive-in is under way' : hasBit(record, 56) ? 'a drive-out is under way' : 'no drive';
  const on = hasBit(record, 52) ? ' with a car' : '';
  const count = library.sound(record) ? library.cars(record) : cars.length;
  const aside = apart ? `; set apart: ${partsIn(apart)}` : '';
  return `${count} ${count === 1 ? 'car' : 'cars'}, lift at ${HEIGHTS[heightOf(record)] ?? 'no height'}${on}, ${drive}${aside}`;
}

/** What is not sound in a record: the rule in words, and the parts where it fails; nothing where it is sound. */
export function hints(record) {
  const found = [], mask = (bits) => bits.reduce((all, bit) => all | (1n << BigInt(bit)), 0n);
  const hint = (amiss, words, parts = 0n) => { if (amiss) found.push({ words, parts }); };
  const height = heightOf(record), raised = hasBit(record, 52), coming = hasBit(record, 55), going = hasBit(record, 56), lift = 1n << 52n;
  for (let cell = 0; cell < 20; cell++) {
    if (!hasBit(record, cell) || (cell > 0 && hasBit(record, cell - 1))) continue;
    const run = [];
    for (let at = cell; at < 20 && hasBit(record, at); at++) run.push(at);
    hint(run.length === 1, `cell ${cell} of row 1 is half a car: neither neighbour is occupied`, mask(run));
    const odd = run.length > 1 && run.length % 2 === 1;
    hint(odd, `cells ${cell} to ${run.at(-1)} of row 1 are an odd number side by side, and a car has two`, mask(run));
  }
  const positions = [3n, 1n << 20n, 1n << 30n, 3n << 18n, 1n << 29n, 1n << 39n];
  positions.forEach((cells, at) => {
    const where = `the ${SIDES[Math.floor(at / 3)]} shuttle's ${at % 3 ? 'cell' : 'cells'} in row ${1 + (at % 3)}`;
    hint((record & cells) !== 0n && !hasBit(record, 40 + at), `${where}: occupied, and no lowered shuttle is there`, cells);
  });
  SIDES.forEach((name, side) => {
    const count = (from) => [0, 1, 2].filter((row) => hasBit(record, from + 3 * side + row)).length, lowered = count(40), tilted = count(46);
    const slots = mask([40, 41, 42, 46, 47, 48].map((bit) => bit + 3 * side));
    hint(lowered + tilted !== 3, `the ${name} side has ${lowered + tilted} shuttles, and should have 3`, slots);
    hint(tilted > 1, `the ${name} side has ${tilted} tilted shuttles, and at most 1 may be`, slots);
  });
  hint(height === 3, "the lift's height is 3, and there are 0 to 2", lift);
  const lifted = (record & (3n << 11n)) !== 0n && height !== 2;
  hint(lifted, "cells 11 and 12 are the lift's: occupied, and the lift is not in the basement", 3n << 11n);
  hint(raised && height === 2, 'bit 52, a car on the raised lift, and the lift is in the basement', lift);
  hint(coming && going, 'bits 55 and 56: a drive-in and a drive-out at once', lift);
  hint((coming || going) && height !== 0, 'a drive is under way, and the lift is not at street', lift);
  hint(coming && raised, 'bit 55, a drive-in under way, and a car is on the lift', lift);
  hint(going && !raised, 'bit 56, a drive-out under way, and no car is on the lift', lift);
  hint(record >> 57n !== 0n, 'bits 57 to 63 are not all 0');
  return found;
}
