// The week in numbers: totals beside a station, and runs of messages answered and counted at the module's own speed.

import { lengthOf } from './entries.js';
import { Answer, Size } from './numbers.js';

/** The report's totals (docs/REPORT.md). */
export class Totals {
  constructor(entries) {
    this.entries = entries;
    this.bytes = new Uint8Array(Size.REPORT_TOTALS);
    this.full = Size.REPORT_NONE;
    entries.call('report_start', this.bytes);
  }

  /** Counts a message, by what it does on a station, which is left as it is. */
  count(station, message) {
    const answer = Answer.of(this.entries.call('report_message', this.bytes, station.bytes, message));
    if (!answer.taken && answer.place !== null) this.full = answer.place;
    return answer;
  }

  /** The lines of the report: pairs of a name and a value. */
  lines() {
    const room = new Uint8Array(Size.REPORT_TEXT_MOST), answer = Answer.of(this.entries.call('report_lines', this.bytes, this.full, room));
    const text = new TextDecoder().decode(room.slice(0, answer.issue));
    return text.trimEnd().split('\n').map((line) => line.split(' ')).map(([name, value]) => [name, Number(value)]);
  }
}

/** Many messages on one station: they and the station stand in the module's memory, so that nothing is copied between them. */
export class Run {
  /** `most` is how many bytes of messages are given at a time. */
  constructor(entries, most) {
    this.entries = entries;
    this.most = most;
    this.room = entries.take(Size.STATION_SIZE);
    this.reply = entries.take(Size.STATION_REPLY_MOST);
    this.totals = entries.take(Size.REPORT_TOTALS);
    this.rest = entries.take(Size.STATION_MESSAGE_MOST);
    this.messages = entries.take(most);
    this.begin();
  }

  /** Begins anew: the start station, and no totals. */
  begin() {
    this.entries.exports.station_start(this.room, lengthOf(Size.STATION_SIZE));
    this.entries.exports.report_start(this.totals, lengthOf(Size.REPORT_TOTALS));
  }

  /** Lends the next messages. */
  lend(bytes) {
    this.entries.view(this.messages, this.most).set(bytes);
  }

  /** Answers the message at a place of what is lent, and gives the answer as one number. */
  answer(at, length) {
    return this.entries.exports.station_message(
      this.room, lengthOf(Size.STATION_SIZE), this.messages + at, lengthOf(length), this.reply, lengthOf(Size.STATION_REPLY_MOST)) >>> 0;
  }

  /** Counts the message at a place, on the station as it is. */
  count(at, length) {
    return this.entries.exports.report_message(
      this.totals, lengthOf(Size.REPORT_TOTALS), this.room, lengthOf(Size.STATION_SIZE), this.messages + at, lengthOf(length)) >>> 0;
  }

  /** Counts bytes that are no whole message: what ended a session. */
  countRest(bytes) {
    this.entries.view(this.rest, bytes.length).set(bytes);
    return this.entries.exports.report_message(
      this.totals, lengthOf(Size.REPORT_TOTALS), this.room, lengthOf(Size.STATION_SIZE), this.rest, lengthOf(bytes.length)) >>> 0;
  }

  /** The station's bytes, copied. */
  station() {
    return this.entries.view(this.room, Size.STATION_SIZE).slice();
  }

  /** Puts a station's bytes there. */
  restore(bytes) {
    this.entries.view(this.room, Size.STATION_SIZE).set(bytes);
  }

  /** The totals so far. */
  counted() {
    const totals = new Totals(this.entries);
    totals.bytes.set(this.entries.view(this.totals, Size.REPORT_TOTALS));
    return totals;
  }
}
