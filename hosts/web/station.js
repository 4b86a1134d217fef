// A station, and a desk that knows its cars by their cards: calls on lent bytes, which these classes hold.

import { joined, numberAt } from './bytes.js';
import { Answer, Size } from './numbers.js';

/** What stands in a station's 60 bytes beside its record. */
class Held {
  /** Of the bytes that one was, or else as the entry `start` begins it in so many bytes. */
  constructor(entries, bytes, size, start) {
    this.entries = entries;
    this.bytes = bytes ? Uint8Array.from(bytes) : new Uint8Array(size);
    if (!bytes) this.called(start);
  }

  copy() {
    return new this.constructor(this.entries, this.bytes);
  }

  /** The record, as the bytes have it. */
  get record() {
    return numberAt(this.bytes, 0);
  }

  /** What is set apart: bits 0 to 51 as in the record, 52 the lift. */
  get apart() {
    return numberAt(this.bytes, 52);
  }

  /** The instructions of the outstanding set, with whether each is answered; none where no set is outstanding. */
  get set() {
    const [count, answered] = [this.bytes[8], this.bytes[9]];
    const held = (_, at) => ({ five: this.bytes.slice(10 + 5 * at, 15 + 5 * at), answered: Boolean((answered >> at) & 1) });
    return Array.from({ length: count }, held);
  }

  /** The issue of the outstanding set, or of the last one. */
  get issue() {
    return ((this.bytes[50] | (this.bytes[51] << 8)) - 1) & 0xffff;
  }

  called(name, ...values) {
    return Answer.of(this.entries.call(name, this.bytes, ...values));
  }

  /** The record and what is set apart, as the station tells them on an ask. */
  shown(name) {
    const room = new Uint8Array(Size.STATION_SHOWN_SIZE), answer = this.called(name, room);
    return { answer, record: numberAt(room, 0), apart: numberAt(room, 8) };
  }
}

/** The station of one garage. Each call gives the Answer; one that isn't taken leaves the station as it was. */
export class Station extends Held {
  constructor(entries, bytes) {
    super(entries, bytes, Size.STATION_SIZE, 'station_start');
  }

  request(fives) {
    return this.called('station_request', Math.min(fives.length, 255), joined(...fives));
  }

  event(way) {
    return this.called('station_event', way);
  }

  result(issue, number, outcome) {
    return this.called('station_result', issue, number, outcome);
  }

  image(record, apart = 0n) {
    return this.called('station_image', record, apart);
  }

  ask() {
    return this.shown('station_ask');
  }

  /** Answers a message as the program does: the message that answers, and the Answer in it. */
  message(bytes) {
    const room = new Uint8Array(Size.STATION_REPLY_MOST), answer = this.called('station_message', bytes, room);
    return { answer, reply: room.slice(0, 2 + room[0]) };
  }
}

/** The numbers of cards in bytes. */
function cardBytes(cards) {
  const bytes = new Uint8Array(Size.DESK_CARD_SIZE * cards.length), view = new DataView(bytes.buffer);
  cards.forEach((card, at) => view.setUint32(Size.DESK_CARD_SIZE * at, card, true));
  return bytes;
}

/** The lines that an answer counts: a card, its place, a flag (0 sure, 1 last known, 2 in motion), and the place that it would get. */
function linesIn(answer, room) {
  const view = new DataView(room.buffer), count = answer.taken ? answer.place : 0;
  const line = (_, at) => {
    const from = Size.DESK_LINE_SIZE * at;
    return { card: view.getUint32(from, true), place: room[from + 4], flag: room[from + 5], next: room[from + 6] };
  };
  return { answer, lines: Array.from({ length: count }, line) };
}

/** A station whose cars have card numbers of 32 bits. */
export class Desk extends Held {
  constructor(entries, bytes) {
    super(entries, bytes, Size.DESK_SIZE, 'desk_start');
  }

  /** The station inside, as a copy: for questions, and for the bytes of its answers. */
  station() {
    return new Station(this.entries, this.bytes.slice(0, Size.STATION_SIZE));
  }

  /** The cards by their places: cells 0 to 39, DESK_AT_LIFT and DESK_AT_DRIVE. */
  get cards() {
    const view = new DataView(this.bytes.buffer, Size.STATION_SIZE), found = new Map();
    for (let place = 0; place < Size.DESK_PLACES; place++) {
      const card = view.getUint32(Size.DESK_CARD_SIZE * place, true);
      if (card) found.set(place, card);
    }
    return found;
  }

  request(fives) {
    return this.called('desk_request', Math.min(fives.length, 255), joined(...fives));
  }

  /** A drive begins or ends; a begin in brings its card. */
  event(way, card = 0) {
    return this.called('desk_event', way, card);
  }

  result(issue, number, outcome) {
    return this.called('desk_result', issue, number, outcome);
  }

  /** Takes an image with the cards of its cars, in the order of the cells. */
  image(record, cards, apart = 0n) {
    return this.called('desk_image', record, apart, Math.min(cards.length, 255), cardBytes(cards));
  }

  /** What such an image would change: each card with its place now and its place then. The desk stays as it is. */
  compare(record, cards, apart = 0n) {
    const room = new Uint8Array(Size.DESK_CHANGES_SIZE);
    return linesIn(this.called('desk_compare', record, apart, Math.min(cards.length, 255), cardBytes(cards), room), room);
  }

  /** Every car, in the order of an image's cards; the card of a drive-in under way is last, at DESK_WAITS. */
  list() {
    const room = new Uint8Array(Size.DESK_LIST_SIZE);
    return linesIn(this.called('desk_list', room), room);
  }

  /** The issue of the last set that was accepted, and the instructions that are outstanding, with whether each is answered. */
  outstanding() {
    const room = new Uint8Array(Size.DESK_OPEN_SIZE), answer = this.called('desk_outstanding', room);
    const of = (_, at) => ({ five: room.slice(4 + 5 * at, 9 + 5 * at), answered: Boolean((room[3] >> at) & 1) });
    return { answer, issue: room[0] | (room[1] << 8), set: Array.from({ length: room[2] }, of) };
  }

  ask() {
    return this.shown('desk_ask');
  }

  /** Where the car with a card is: its place, or null where no car has it; and whether that is only the last known one. */
  where(card) {
    const said = this.entries.call('desk_where', this.bytes, card), place = (said >>> 8) & 255;
    const answer = new Answer(said & 255, Size.STATION_NOWHERE, 0);
    return { answer, place: place === Size.DESK_NOT_HERE ? null : place, lastKnown: Boolean((said >>> 16) & 1) };
  }

  /** The card that is leaving, or 0. */
  leaving() {
    const room = new Uint8Array(Size.DESK_CARD_SIZE), answer = this.called('desk_leaving', room);
    return { answer, card: new DataView(room.buffer).getUint32(0, true) };
  }
}
