// A log that the station has answered: every answer's number, and the station every few hundred messages, so that any place of it is shown
// at once. Where cards are known, a desk beside it follows the cars.

import { hexOf } from '../bytes.js';
import { Numbers, Size } from '../numbers.js';
import { imageOf, readMessage, resultOf } from '../messages.js';
import { Run } from '../totals.js';
import { cardOf, cardsText, DeskRun, FOLLOWED_MOST, whereabouts } from './cards.js';
import { Jams } from './jams.js';

const EVERY = 256; // messages between two stations that are kept
const LENT = 1 << 22; // bytes of messages that are lent at a time
const BREATH = 1 << 17; // messages between two breaths, so that the page goes on

// one run for all that goes over a whole log, and one for steps, which may come meanwhile: what they take of the module's memory is taken once
let whole = null, stepwise = null;

export class Log {
  constructor(library, file) {
    whole ??= new Run(library.entries, LENT);
    stepwise ??= new Run(library.entries, EVERY * Size.STATION_MESSAGE_MOST);
    Object.assign(this, { library, file, desks: null, numbers: new Uint8Array(file.count), refused: [], differ: [], twice: [] });
    this.start = file.start ?? library.station().bytes;
    this.kept = this.room(this.start);
    this.jams = new Jams(library.station(this.start).set);
  }

  /** Room for what is kept every so many messages, with the first in it. */
  room(first) {
    const room = new Uint8Array(first.length * Math.max(1, Math.ceil(this.count / EVERY)));
    room.set(first);
    return room;
  }

  get count() {
    return this.file.count;
  }

  message(at) {
    return this.file.bytes.subarray(this.file.starts[at], this.file.starts[at + 1]);
  }

  /** Goes over all messages from the start on: each is lent, and `each` is given its number, its place there and its length. Gives whether
   * it came to the end: another that began meanwhile takes its place. */
  async over(breathe, each) {
    const { starts, bytes } = this.file, job = {};
    whole.begin();
    whole.restore(this.start);
    whole.job = job;
    for (let first = 0, last = 0; first < this.count; first = last) {
      last = Math.min(first + EVERY, this.count);
      while (last < this.count && starts[Math.min(last + EVERY, this.count)] - starts[first] <= LENT) last = Math.min(last + EVERY, this.count);
      whole.lend(bytes.subarray(starts[first], starts[last]));
      for (let at = first; at < last; at++) {
        each(at, starts[at] - starts[first], starts[at + 1] - starts[at]);
        if ((at + 1) % BREATH === 0) {
          await breathe(at + 1);
          if (whole.job !== job) return false;
        }
      }
    }
    return true;
  }

  /** Answers all messages; `breathe` is called with how many are answered. */
  async answer(breathe) {
    const { numbers, refused, kept, jams } = this, { starts, bytes } = this.file;
    const ended = await this.over(breathe, (at, place, length) => {
      if (at % EVERY === 0) kept.set(whole.station(), (Size.STATION_SIZE * at) / EVERY);
      const number = whole.answer(place, length) & 255;
      numbers[at] = number;
      if (number !== Numbers.Taken) refused.push(at);
      else jams.note(at, bytes, starts[at], starts[at + 1]);
    });
    if (!ended || (this.file.cards.size && !(await this.follow(breathe)))) return false;
    this.compare();
    return true;
  }

  /** The report's totals of all messages, and of what ended sessions; nothing where something else took its place. */
  async totals(breathe) {
    const ended = [...this.file.ended], rests = (before) => {
      while (ended.length && ended[0].after <= before) whole.countRest(ended.shift().bytes);
    };
    const counted = await this.over(breathe, (at, place, length) => {
      rests(at);
      whole.count(place, length);
      whole.answer(place, length);
    });
    if (!counted) return null;
    rests(this.count);
    return whole.counted();
  }

  /** Lets a desk follow the cars through all messages. */
  async follow(breathe) {
    if (this.desks) return true;
    if (this.count > FOLLOWED_MOST) return false;
    whole.beside ??= new DeskRun(whole);
    whole.beside.begin(this.library, this.start);
    const { numbers, file } = this, desks = this.room(whole.beside.desk());
    const ended = await this.over(breathe, (at, place) => {
      if (at % EVERY === 0) desks.set(whole.beside.desk(), (Size.DESK_SIZE * at) / EVERY);
      if (file.cards.has(at) && this.inside(at, file.cards.get(at), this.library.desk(whole.beside.desk()))) {
        this.twice.push({ at, card: file.cards.get(at)[0] });
        file.cards.delete(at);
      }
      if (numbers[at] === Numbers.Taken) whole.beside.take(at, place, file.bytes, file.starts[at]);
    });
    if (ended) this.desks = desks;
    return ended;
  }

  /** Whether the card of a begin in is in the garage already, as a desk has it before: that desk would reject it with 38. */
  inside(at, cards, desk) {
    const known = () => [...whereabouts(desk, (number) => cardOf(this.file.cards, number)).cards.values()];
    return at >= 0 && readMessage(this.message(at)).says === 'event' && known().includes(cards[0]);
  }

  /** Where the log's own answers are not the station's. */
  compare() {
    const { old } = this.file;
    if (!old) return;
    old.slice(0, this.count).forEach((reply, at) => { if (hexOf(reply) !== hexOf(this.replyTo(at))) this.differ.push(at); });
  }

  /** Lends the messages from the last kept place on, up to a place; gives that one. */
  lendTo(count) {
    const { starts, bytes } = this.file, from = EVERY * Math.max(0, Math.min(Math.floor(count / EVERY), Math.ceil(this.count / EVERY) - 1));
    stepwise.lend(bytes.subarray(starts[from], starts[count]));
    return from;
  }

  /** The station after the first so many messages. */
  stationAt(count) {
    const from = this.lendTo(count), { starts } = this.file, kept = (Size.STATION_SIZE * from) / EVERY;
    stepwise.restore(this.kept.subarray(kept, kept + Size.STATION_SIZE));
    for (let at = from; at < count; at++) stepwise.answer(starts[at] - starts[from], starts[at + 1] - starts[at]);
    return this.library.station(stepwise.station());
  }

  /** The desk after the first so many messages, where cars are followed. */
  deskAt(count) {
    const from = this.lendTo(count), { starts, bytes } = this.file, kept = (Size.DESK_SIZE * from) / EVERY;
    stepwise.beside ??= new DeskRun(stepwise);
    stepwise.beside.desk().set(this.desks.subarray(kept, kept + Size.DESK_SIZE));
    for (let at = from; at < count; at++) {
      if (this.numbers[at] === Numbers.Taken) stepwise.beside.take(at, starts[at] - starts[from], bytes, starts[at]);
    }
    return this.library.desk(stepwise.beside.desk());
  }

  /** The cards that are known after the first so many messages, and the places that are only the last known ones; nothing where no car is
   * followed. */
  cardsAt(count) {
    return this.desks ? whereabouts(this.deskAt(count), (number) => cardOf(this.file.cards, number)) : {};
  }

  /** Tells the cards of the cars that a message brings (-1: of those at the start); an empty list takes them back. Gives whether they are
   * shown: not if the card is in the garage already. */
  async tell(at, cards, breathe) {
    if (!(await this.follow(breathe))) return false;
    this.file.cards.delete(at);
    if (cards.length && this.inside(at, cards, this.deskAt(Math.max(0, at)))) return false;
    if (cards.length) this.file.cards.set(at, cards);
    return true;
  }

  /** The stuck results that had set something apart before a message. */
  stuckBefore(at) {
    return this.jams.before(at, (one) => this.message(one));
  }

  replyTo(at) {
    return this.stationAt(at).message(this.message(at)).reply;
  }

  /** The next refused message from a place on, or before it; -1 where there is none. */
  nextRefused(at, back = false) {
    const { refused } = this;
    let low = 0, high = refused.length;
    while (low < high) {
      const half = (low + high) >> 1;
      if (refused[half] < at + (back ? 0 : 1)) low = half + 1;
      else high = half;
    }
    return refused[back ? low - 1 : low] ?? -1;
  }

  /** The line of the cards that a message brings, as a log in hexadecimal has it. */
  cardsLine(at) {
    const cards = this.file.cards.get(at);
    return cards ? [`${readMessage(this.message(at)).says === 'event' ? 'card' : 'cards'} ${cardsText(cards)}`] : [];
  }

  /** Messages from one to another with the station's answers, as lines of hexadecimal. */
  hexadecimal(from, to) {
    const station = this.stationAt(from), lines = [];
    for (let at = from; at < to; at++) {
      lines.push(...this.cardsLine(at), `> ${hexOf(this.message(at))}`, `< ${hexOf(station.message(this.message(at)).reply)}`);
    }
    return `${lines.join('\n')}\n`;
  }

  /** The same as a worked example, which begins with an image: from the last place before where no set is outstanding and nothing is set
   * apart, or the first behind it, with the sets counted from 0. */
  example(from, to) {
    let first = from, start = this.stationAt(first);
    const open = () => start.set.length || start.apart;
    while (first > 0 && open()) start = this.stationAt(--first);
    while (first < to && open()) start = this.stationAt(++first); // a log may begin within a set
    const station = this.library.station(), passed = (start.issue + 1) & 0xffff, lines = [];
    const put = (bytes) => lines.push(`> ${hexOf(bytes)}`, `< ${hexOf(station.message(bytes).reply)}`);
    if (first > 0 || this.file.start) put(imageOf(start.record));
    for (let at = first; at < to; at++) {
      const bytes = this.message(at), message = readMessage(bytes);
      put(message.says === 'result' ? resultOf((message.issue - passed) & 0xffff, message.number, message.outcome) : bytes);
    }
    return `\`\`\`session\n${lines.join('\n')}\n\`\`\`\n`;
  }
}
