// The library: stations and desks, and the questions on a record, a drawing, a plan and the totals, over one module.

import { bytesOf, hasBit, numberAt } from './bytes.js';
import { entriesOf } from './entries.js';
import { Answer, Size } from './numbers.js';
import { Desk, Station } from './station.js';
import { Totals } from './totals.js';

const DRIVE_IN = 55; // the record's bit

export class Library {
  constructor(entries) {
    this.entries = entries;
  }

  get version() {
    const number = this.entries.call('station_version');
    return [number >> 16, (number >> 8) & 255, number & 255];
  }

  /** A station: that of the start, or of the 60 bytes that one was. */
  station(bytes) {
    return new Station(this.entries, bytes);
  }

  /** A desk: that of the start, or of the 228 bytes that one was. */
  desk(bytes) {
    return new Desk(this.entries, bytes);
  }

  /** A desk of a station's 60 bytes and the cards of its cars, in the order of the cells; nothing where these don't fit. */
  deskWith(station, cards) {
    const bytes = new Uint8Array(Size.DESK_SIZE), numbers = new DataView(bytes.buffer, Size.STATION_SIZE);
    bytes.set(station.subarray(0, Size.STATION_SIZE));
    const places = this.cardPlaces(numberAt(bytes));
    places.forEach((place, at) => numbers.setUint32(Size.DESK_CARD_SIZE * place, cards[at] ?? 0, true));
    const desk = this.desk(bytes);
    return places.length === cards.length && desk.ask().answer.taken ? desk : null;
  }

  totals() {
    return new Totals(this.entries);
  }

  sound(record) {
    return this.entries.call('garage_sound', record) === 1;
  }

  /** The number of cars of a sound record. */
  cars(record) {
    return this.entries.call('garage_cars', record);
  }

  /** The places of a sound record's cars: the cell where each begins, and DESK_RAISED. */
  places(record) {
    const room = new Uint8Array(Size.PANEL_CARS_SIZE), answer = Answer.of(this.entries.call('panel_cars', record, room));
    return Array.from(room.slice(0, answer.taken ? answer.issue : 0));
  }

  /** Where a desk has the cards of a sound record's cars, in the order of the cells: the last is that of a drive-in under way. */
  cardPlaces(record) {
    const places = this.places(record).map((place) => (place === Size.DESK_RAISED ? Size.DESK_AT_LIFT : place));
    return hasBit(record, DRIVE_IN) ? [...places, Size.DESK_AT_DRIVE] : places;
  }

  /** What a request of one instruction would be told on a record. */
  allowed(record, five) {
    return Answer.of(this.entries.call('garage_allowed', record, five));
  }

  /** The record after an instruction, where it is allowed. */
  next(record, five) {
    const room = new Uint8Array(Size.STATION_IMAGE_SIZE), answer = Answer.of(this.entries.call('garage_next', record, five, room));
    return { answer, record: answer.taken ? numberAt(room) : record };
  }

  /** An instruction's area, in the record's bits: the lift is bits 52 to 54. */
  area(five) {
    const room = new Uint8Array(8);
    this.entries.call('garage_area', five, room);
    return numberAt(room);
  }

  /** Whether two instructions may not stand in one set. */
  overlap(one, other) {
    return Answer.of(this.entries.call('garage_overlap', one, other));
  }

  /** The conditions of an instruction on a sound record, in the paper's order. */
  conditions(record, five) {
    const found = [], room = new Uint8Array(Size.PANEL_CONDITION_SIZE);
    for (let c = 0; Answer.of(this.entries.call('panel_condition', record, five, c, room)).taken && room[0]; c++) {
      found.push({ holds: room[1] === 1, number: room[2], parts: numberAt(room, 3) });
    }
    return found;
  }

  /** The drawing of a sound record. */
  drawing(record) {
    const room = new Uint8Array(Size.DRAWING_MOST), answer = Answer.of(this.entries.call('drawing_write', record, room));
    return { answer, text: answer.taken ? new TextDecoder().decode(room.slice(0, answer.issue)) : '' };
  }

  /** The record of a drawing; its place is the first bad line. */
  drawn(text) {
    const room = new Uint8Array(Size.DRAWING_IMAGE_SIZE), bytes = new TextEncoder().encode(text);
    const answer = Answer.of(this.entries.call('drawing_read', bytes, room));
    return { answer, record: answer.taken ? numberAt(room) : null };
  }

  /** The drawing of what is set apart. */
  drawingApart(apart) {
    const room = new Uint8Array(Size.DRAWING_APART_MOST), answer = Answer.of(this.entries.call('drawing_write_apart', apart, room));
    return { answer, text: answer.taken ? new TextDecoder().decode(room.slice(0, answer.issue)) : '' };
  }

  /** What a drawing shows as set apart; its place is the first bad line. */
  drawnApart(text) {
    const room = new Uint8Array(Size.DRAWING_IMAGE_SIZE), bytes = new TextEncoder().encode(text);
    const answer = Answer.of(this.entries.call('drawing_read_apart', bytes, room));
    return { answer, apart: answer.taken ? numberAt(room) : null };
  }

  /** What a plan's bytes are told; its place is the first set that is refused. */
  judge(plan) {
    return Answer.of(this.entries.call('plan_judge', plan) & 0xffff);
  }

  /** The same, and on what grounds: the instruction at fault and the first earlier one that it overlaps, the parts of both, the record. */
  explain(plan) {
    const room = new Uint8Array(Size.PLAN_GROUNDS), answer = Answer.of(this.entries.call('plan_explain', plan, room) & 0xffff);
    const at = (byte) => (byte === Size.PLAN_NO_INSTRUCTION ? null : byte);
    const [place, earlier] = [at(room[Size.PLAN_PLACE]), at(room[Size.PLAN_EARLIER])];
    return { answer, place, earlier, parts: numberAt(room, Size.PLAN_PARTS), record: numberAt(room) || null };
  }

  /** The eight bytes of a record. */
  bytes(record) {
    return bytesOf(record);
  }
}

/** The library over the module's bytes, as tools/wasm writes them. */
export async function load(wasm) {
  return new Library(await entriesOf(wasm));
}
