// Files of messages: a journal, a recording, which has whole messages one after the other, and a log in hexadecimal text. What is read is all
// messages that were sent, where each begins, the station that they begin with where the file has it, the cards that it names, and what it
// says was answered.

import { bytesIn, bytesOf, joined, numberAt } from '../bytes.js';
import { isJournal, journalIn, NoJournal } from '../journals.js';
import { endOf, lengthAt, readMessage } from '../messages.js';
import { Event, Kind } from '../numbers.js';
import { cardsIn, WrongCards } from './cards.js';
import { some } from './dom.js';
import { hints } from './record-words.js';

/** A file that can't be shown, with why in one sentence. */
export class BadFile extends Error {}

const APART_AT = 52, ISSUE_AT = 50; // in a station's bytes
const APART_BITS = 53n;

const isAnswer = (bytes, at) => bytes[at + 3] === 0 && (bytes[at + 2] === Kind.Answer || bytes[at + 2] === Kind.Held);

const badLength = (bytes, at) => `a length of ${lengthAt(bytes, at)}, and a message has 2 to 43; what follows is left out`;

/** Whether some bytes are text: no byte of the first few thousand is a control character but blanks and line ends. */
function isText(bytes) {
  return bytes.subarray(0, 4096).every((byte) => (byte >= 32 && byte < 127) || byte === 9 || byte === 10 || byte === 13 || byte >= 194);
}

/** The messages of a journal, from the station in its head on. */
function journal(library, name, bytes) {
  const { name: garage, station, messages, starts, count, ended, closed, torn, damage } = journalOrWhy(library, name, bytes), notes = [];
  if (ended.length) notes.push(`${some(ended.length, 'session')} ended inside a message or by a bad length`);
  if (closed && !damage) notes.push('it is closed: another journal follows it');
  if (torn) notes.push(`${some(torn.bytes, 'byte')} behind byte ${torn.at} were never answered, and are left out`);
  if (damage) notes.push(`it is damaged at byte ${damage.at}, behind ${some(damage.append, 'append')} and ${some(damage.messages, 'message')}; what follows is left out`);
  return {
    name, kind: 'journal', garage, bytes: messages, starts, count, old: null, start: station, ended, cards: new Map(), note: notes.join('; '), wrong: Boolean(torn || damage),
  };
}

function journalOrWhy(library, name, bytes) {
  try {
    return journalIn(library, bytes);
  } catch (why) {
    if (why instanceof NoJournal) throw new BadFile(`${name} ${why.message}.`);
    throw why;
  }
}

/** The messages of a recording: where each begins, and at last where they end. */
function recording(name, bytes) {
  let starts = new Uint32Array(1 + Math.ceil(bytes.length / 4)), count = 0, at = 0, note = '';
  while (at < bytes.length) {
    const end = endOf(bytes, at);
    if (end <= 0) {
      note = end === 0 ? `it ends inside a message, at byte ${at}; that rest is left out`
        : `at byte ${at} it is damaged: ${badLength(bytes, at)}`;
      break;
    }
    starts[count++] = at;
    at = end;
  }
  if (!count) throw new BadFile(`${name} is neither a journal nor a log in hexadecimal: ${note}.`);
  if (isAnswer(bytes, 0)) throw new BadFile(`${name} is a recording of what a station answered; open what it was sent.`);
  starts = starts.slice(0, count + 1);
  starts[count] = at;
  return { name, kind: 'recording', bytes: bytes.subarray(0, at), starts, count, old: null, start: null, ended: [], cards: new Map(), note, wrong: note !== '' };
}

/** How many cards a message brings: that of a begin in, those of an image's cars. */
export function carsBrought(library, bytes) {
  const { says, way, record } = readMessage(bytes);
  if (says === 'event') return way === Event.BeginIn ? 1 : 0;
  return says === 'image' && library.sound(record) ? library.cardPlaces(record).length : 0;
}

/** The messages of a log in hexadecimal (docs/EXPLAIN.md). */
class Hexadecimal {
  constructor(library, name) {
    Object.assign(this, { library, name, sent: [], old: [], cards: new Map(), given: null, notes: [], waiting: new Uint8Array(0), to: null });
  }

  bad(line, words) {
    return new BadFile(`${this.name}, line ${line}: ${words}.`);
  }

  /** Cards for the next message, as bin/explain takes them: `card` before a begin in, `cards` before an image. */
  takeCards(line, word, said) {
    this.leaveCards();
    try {
      this.given = { line, begin: word === 'card', all: cardsIn(said, word === 'card') };
    } catch (why) {
      if (!(why instanceof WrongCards)) throw why;
      throw this.bad(line, why.message);
    }
  }

  /** Cards that no message takes are told, and left out. */
  leaveCards() {
    if (this.given) this.notes.push(`line ${this.given.line}: ${this.given.begin ? 'a begin in' : 'an image'} is expected behind it; its cards are left out`);
    this.given = null;
  }

  putSent(message) {
    const { given, library, sent } = this;
    if (given) {
      const fits = readMessage(message).says === (given.begin ? 'event' : 'image'), cars = carsBrought(library, message);
      if (fits && given.all.length === cars) {
        this.cards.set(sent.length, given.all);
        this.given = null;
      } else if (fits && cars) {
        this.notes.push(`line ${given.line}: ${some(cars, 'card')} are expected, as many as the image has cars; they are left out`);
        this.given = null;
      }
      this.leaveCards();
    }
    sent.push(message);
  }

  /** Takes the whole messages of what waits; gives whether none has a bad length. */
  takeWhole() {
    for (let end = endOf(this.waiting, 0); end !== 0; end = endOf(this.waiting, 0)) {
      if (end < 0) return false;
      const message = this.waiting.slice(0, end);
      if (this.to === '<' || (this.to === null && isAnswer(message, 0))) this.old.push(message);
      else this.putSent(message);
      this.waiting = this.waiting.slice(end);
    }
    return true;
  }

  /** Takes a line; gives whether the next may follow. */
  line(number, whole) {
    const line = whole.split('#')[0].trim(), [, word] = line.match(/^(cards?|!|[<>])?/);
    if (line === '') return true;
    if (word && this.waiting.length) throw this.bad(number, 'the message before it is cut short');
    if (line === '!') return true;
    if (word === 'card' || word === 'cards') {
      this.takeCards(number, word, line.slice(word.length));
      return true;
    }
    const rest = word ? line.slice(1) : line, bytes = bytesIn(rest);
    if (!bytes) throw this.bad(number, `two hexadecimal digits for each byte are expected, and “${rest.trim().slice(0, 30)}” stands there`);
    this.to = word || (this.waiting.length ? this.to : null);
    this.waiting = joined(this.waiting, bytes);
    if (this.takeWhole()) return true;
    this.notes.push(`line ${number} is damaged: ${badLength(this.waiting, 0)}`);
    this.waiting = new Uint8Array(0);
    return false;
  }

  file(text) {
    const lines = text.split(/\r?\n/), { name, sent, old, cards, notes } = this;
    for (let at = 0; at < lines.length && this.line(at + 1, lines[at]); at++);
    this.leaveCards();
    if (this.waiting.length) notes.push('it ends inside a message; that rest is left out');
    const note = notes.join('; ');
    if (!sent.length) throw new BadFile(`${name} has no message that was sent to a station${note ? `: ${note}` : ''}.`);
    const starts = new Uint32Array(sent.length + 1);
    sent.forEach((message, at) => { starts[at + 1] = starts[at] + message.length; });
    const answers = old.length ? old : null;
    return { name, kind: 'hexadecimal', bytes: joined(...sent), starts, count: sent.length, old: answers, start: null, ended: [], cards, note, wrong: note !== '' };
  }
}

/** The messages of a file. */
export function readFile(library, name, bytes) {
  if (!bytes.length) throw new BadFile(`${name} is empty.`);
  if (isJournal(bytes)) return journal(library, name, bytes);
  return isText(bytes) ? new Hexadecimal(library, name).file(new TextDecoder().decode(bytes)) : recording(name, bytes);
}

/** Where a log begins that has no head: a station's bytes and cards of its cars, from an image in digits, the issue of the next set, and a
 * list of cards; nothing where no image is given. */
export function startIn(library, image, issue, cards) {
  if (image.trim() === '') return null;
  const bytes = bytesIn(image), next = Number(issue || '0'), bad = (words) => new BadFile(`The image to begin on ${words}.`);
  if (!bytes || (bytes.length !== 8 && bytes.length !== 16)) throw bad('has 16 hexadecimal digits, or 32 with what is set apart');
  const record = numberAt(bytes), apart = bytes.length === 16 ? numberAt(bytes, 8) : 0n;
  if (!library.sound(record)) throw bad(`is not sound: ${hints(record).map(({ words }) => words).join('; ')}`);
  if (apart >> APART_BITS) throw bad('sets a part apart that there is not');
  if (!Number.isInteger(next) || next < 0 || next > 0xffff) throw bad('goes with an issue from 0 to 65535');
  const station = library.station();
  station.image(record);
  station.bytes.set(bytesOf(apart), APART_AT);
  station.bytes.set([next & 255, next >> 8], ISSUE_AT);
  return { station: station.bytes, cards: cards.trim() === '' ? null : startCards(library, record, cards) };
}

function startCards(library, record, said) {
  const cars = library.cardPlaces(record).length;
  try {
    const all = cardsIn(said, false);
    if (all.length !== cars) throw new WrongCards(`${some(cars, 'card')} are expected, as many as it has cars`);
    return all;
  } catch (why) {
    if (!(why instanceof WrongCards)) throw why;
    throw new BadFile(`The image to begin on: ${why.message}.`);
  }
}
