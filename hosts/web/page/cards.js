// Cards of a log's cars. Messages carry none, so each car is followed by a number of its own on a desk, as bin/explain does it; some cards
// are told, in the file or by hand, and these are shown where the desk has the car.

import { lengthOf } from '../entries.js';
import { numberAt } from '../bytes.js';
import { lengthAt } from '../messages.js';
import { Event, Kind, Numbers, Size } from '../numbers.js';

const EACH = 32; // numbers for the cars that one message brings: an image has at most 31
export const FOLLOWED_MOST = 2 ** 32 / EACH - 2; // messages, so that a number has 32 bits

/** Cards that can't be read, with why. */
export class WrongCards extends Error {}

/** The cards of a list, `-` for one that is not known; or the one of a begin in. */
export function cardsIn(said, one) {
  const card = (word) => {
    if (word === '-' && !one) return null;
    if (/^[0-9]{1,10}$/.test(word) && Number(word) > 0 && Number(word) < 2 ** 32) return Number(word);
    throw new WrongCards(`a card's number from 1 to 4294967295${one ? '' : ', or `-`,'} is expected, and “${word}” stands there`);
  };
  const all = said.split(/[\s,]+/).filter((word) => word !== '').map(card), twice = all.find((own, at) => own !== null && all.indexOf(own) < at);
  if (one && all.length !== 1) throw new WrongCards(`one card's number is expected, and ${all.length} stand there`);
  if (twice !== undefined) throw new WrongCards(`card ${twice} stands twice`);
  return all;
}

export const cardsText = (all) => all.map((card) => card ?? '-').join(' ');

/** The numbers of the cars that a message brings; those of the station that a log begins with are message -1's. */
const numberOf = (at, car) => EACH * (at + 1) + car + 1;

/** The card that was told for a number, by messages; nothing where none was. */
export function cardOf(cards, number) {
  return cards.get(Math.floor((number - 1) / EACH) - 1)?.[(number - 1) % EACH] ?? null;
}

/** What a floor shows of a desk's cars: their cards by place, and the places that the desk says are only the last known ones. */
export function whereabouts(desk, card = (number) => number) {
  const cards = new Map(), lastKnown = new Set();
  for (const [place, number] of desk.cards) {
    const own = card(number);
    if (own) cards.set(place, own);
    if (place !== Size.DESK_AT_DRIVE && desk.where(number).lastKnown) lastKnown.add(place === Size.DESK_AT_LIFT ? Size.DESK_RAISED : place);
  }
  return { cards, lastKnown };
}

/** A desk beside a run of messages: what the station has accepted is given to it, where it stands in the module's memory. */
export class DeskRun {
  constructor(run) {
    this.run = run;
    this.room = run.entries.take(Size.DESK_SIZE);
    this.numbers = run.entries.take(Size.DESK_CARD_SIZE * EACH);
  }

  desk() {
    return this.run.entries.view(this.room, Size.DESK_SIZE);
  }

  /** The desk of a station and its cars, each with its number. */
  begin(library, station) {
    const places = library.cardPlaces(numberAt(station));
    this.desk().set(library.deskWith(station, places.map((_, car) => numberOf(-1, car))).bytes);
  }

  /** Gives the desk an accepted message, which is lent to the run at a place and begins at a byte of the file's. */
  take(at, place, bytes, start) {
    const { entries, messages } = this.run, calls = entries.exports, size = lengthOf(Size.DESK_SIZE);
    switch (bytes[start + 2]) {
      case Kind.Request:
        return calls.desk_request(this.room, size, bytes[start + 4], messages + place + 5, lengthOf(5 * bytes[start + 4]));
      case Kind.Event:
        return calls.desk_event(this.room, size, bytes[start + 4], bytes[start + 4] === Event.BeginIn ? numberOf(at, 0) : 0);
      case Kind.Result:
        return calls.desk_result(this.room, size, lengthAt(bytes, start + 4), bytes[start + 6], bytes[start + 7]);
      case Kind.Image: {
        const record = numberAt(bytes, start + 4), cars = calls.garage_cars(record) + Number((record >> 55n) & 1n);
        const numbers = new DataView(entries.memory.buffer, this.numbers, Size.DESK_CARD_SIZE * EACH);
        for (let car = 0; car < cars; car++) numbers.setUint32(Size.DESK_CARD_SIZE * car, numberOf(at, car), true);
        return calls.desk_image(this.room, size, record, numberAt(bytes, start + 12), cars, this.numbers, lengthOf(Size.DESK_CARD_SIZE * cars));
      }
      default:
        return Numbers.Taken;
    }
  }
}
