// Seeded messages as a planner, its motors and its drivers send them, and damaged ones: for tests, benchmarks and a first look.

import { Event, Op, Outcome } from './numbers.js';
import { askOf, eventOf, imageOf, requestOf, resultOf } from './messages.js';

/** A seeded generator of numbers (mulberry32). */
export class Seeded {
  constructor(seed) {
    this.state = seed >>> 0;
  }

  next() {
    this.state = (this.state + 0x6d2b79f5) >>> 0;
    let z = this.state;
    z = Math.imul(z ^ (z >>> 15), z | 1);
    z ^= z + Math.imul(z ^ (z >>> 7), z | 61);
    return (z ^ (z >>> 14)) >>> 0;
  }

  below(n) {
    return this.next() % n;
  }

  oneIn(n) {
    return this.below(n) === 0;
  }

  /** Some things in another order. */
  shuffled(things) {
    const all = [...things];
    for (let at = all.length - 1; at > 0; at--) {
      const other = this.below(at + 1);
      [all[at], all[other]] = [all[other], all[at]];
    }
    return all;
  }
}

/** Five bytes of a well-formed instruction. */
export function anyFive(seeded) {
  const pick = (n) => seeded.below(n);
  switch (pick(8)) {
    case 0:
    case 1:
      return Uint8Array.of(Op.Belts, 1, pick(32), pick(2), pick(2));
    case 2:
      return Uint8Array.of(Op.Belts, 2 + pick(2), pick(8), pick(2), 1);
    case 3:
    case 4:
      return Uint8Array.of(Op.Shuttles, pick(2), pick(8), pick(2), pick(2));
    case 5:
      return Uint8Array.of(Op.Tilt, pick(2), 1 + pick(3), pick(2), 0);
    case 6:
      return Uint8Array.of(Op.Lift, pick(3), 0, 0, 0);
    default:
      return Uint8Array.of(Op.Rotate, 0, 0, 0, 0);
  }
}

/** Instructions that a record allows and that overlap neither each other nor what is set apart, as many as some tries find. */
export function allowedSet(seeded, library, record, apart, wanted) {
  const found = [];
  let taken = apart;
  for (let tries = 40 * wanted; tries > 0 && found.length < wanted; tries--) {
    const five = anyFive(seeded), area = library.area(five);
    if ((area & taken) === 0n && library.allowed(record, five).taken) {
      taken |= area;
      found.push(five);
    }
  }
  return found;
}

/** The next message of some traffic to a station, which is then given it. */
function nextMessage(seeded, library, station) {
  const waiting = station.set.map((held, at) => ({ ...held, at })).filter((held) => !held.answered);
  if (seeded.oneIn(25)) return damaged(seeded, station);
  if (waiting.length) {
    const { at } = waiting[seeded.below(waiting.length)];
    const outcome = seeded.oneIn(60) ? Outcome.Stuck : seeded.oneIn(12) ? Outcome.Failed : Outcome.Done;
    return resultOf(station.issue, at, outcome);
  }
  if (station.apart !== 0n && seeded.oneIn(3)) return imageOf(station.record);
  if (seeded.oneIn(6)) return eventOf(Event.BeginIn + seeded.below(4));
  if (seeded.oneIn(40)) return askOf();
  const fives = allowedSet(seeded, library, station.record, station.apart, 1 + seeded.below(3));
  return requestOf(fives.length ? fives : [anyFive(seeded)]);
}

/** A message that should be refused, or may be. */
function damaged(seeded, station) {
  switch (seeded.below(6)) {
    case 0:
      return requestOf(Array.from({ length: seeded.below(9) }, () => anyFive(seeded)));
    case 1:
      return resultOf(seeded.below(65536), seeded.below(9), seeded.below(4));
    case 2:
      return imageOf(station.record ^ (1n << BigInt(seeded.below(57))), BigInt(seeded.below(2)));
    case 3:
      return eventOf(seeded.below(6));
    case 4:
      return Uint8Array.of(2, 0, seeded.below(256), seeded.below(2));
    default:
      return requestOf([Uint8Array.from({ length: 5 }, () => seeded.below(6))]);
  }
}

/** So many messages from a seed, as a station from the start would be sent them. */
export function* traffic(library, seed, count) {
  const seeded = new Seeded(seed), station = library.station();
  for (let made = 0; made < count; made++) {
    const message = nextMessage(seeded, library, station);
    station.message(message);
    yield message;
  }
}
