// Motors played by the page: in which order an outstanding set's results come, and how each ends, from a seed.

import { Outcome } from '../numbers.js';
import { Seeded } from '../traffic.js';

const PAUSE = 900; // milliseconds between two results, more or less

/** The instructions of a set that wait for their result. */
export const waitingIn = (set) => set.filter(({ answered }) => !answered).map(({ five }) => five);

/** The results of what waits in a set, in an order and with endings from a seed: pairs of a number and an outcome. */
export function played(set, seed, faults) {
  const seeded = new Seeded(seed);
  const waiting = set.map((held, at) => ({ ...held, at })).filter(({ answered }) => !answered).map(({ at }) => at);
  const ending = () => (faults && seeded.oneIn(6) ? Outcome.Stuck : faults && seeded.oneIn(4) ? Outcome.Failed : Outcome.Done);
  const endings = new Map(waiting.map((at) => [at, ending()]));
  return seeded.shuffled(waiting).map((at) => ({ at, outcome: endings.get(at), after: PAUSE / 2 + seeded.below(PAUSE) }));
}

/** Two orders of the same results: as they come, and another. */
export function twoOrders(set, seed, faults) {
  const first = played(set, seed, faults);
  let second = first;
  for (let other = 1; first.length > 1 && second.every(({ at }, place) => at === first[place].at); other++) {
    second = new Seeded(seed + other).shuffled(first);
  }
  return [first, second];
}

/** Something that is done again and again, with pauses, until it says that it has ended or is stopped. */
export class Ticker {
  constructor(step, changed) {
    Object.assign(this, { step, changed, timer: null });
  }

  get runs() {
    return this.timer !== null;
  }

  start() {
    if (!this.runs) this.next(0);
  }

  next(after) {
    this.timer = setTimeout(() => {
      const pause = this.step();
      if (this.timer === null) return;
      if (pause === null) this.stop();
      else this.next(pause);
    }, after);
    this.changed();
  }

  stop() {
    clearTimeout(this.timer);
    this.timer = null;
    this.changed();
  }

  toggle() {
    if (this.runs) this.stop();
    else this.start();
  }
}
