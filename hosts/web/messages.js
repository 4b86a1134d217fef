// The messages of docs/PROTOCOL.md: written, and read in words.

import { bytesOf, joined, numberAt } from './bytes.js';
import { Answer, Kind, Size } from './numbers.js';

const LENGTH_LEAST = 2;
const LENGTH_MOST = Size.STATION_MESSAGE_MOST - 2;

const message = (kind, body) => joined(Uint8Array.of(2 + body.length, 0, kind, 0), body);

/** A request of some instructions, each five bytes. */
export const requestOf = (fives) => message(Kind.Request, joined(Uint8Array.of(fives.length), ...fives));
export const eventOf = (way) => message(Kind.Event, Uint8Array.of(way));
export const resultOf = (issue, number, outcome) => message(Kind.Result, Uint8Array.of(issue & 255, issue >> 8, number, outcome));
export const imageOf = (record, apart = 0n) => message(Kind.Image, joined(bytesOf(record), bytesOf(apart)));
export const askOf = () => message(Kind.Ask, new Uint8Array(0));

export const lengthAt = (bytes, at) => bytes[at] | (bytes[at + 1] << 8);

/** Where the message at a place ends, of bytes up to some end; 0 where these end inside it, -1 where its length is out of range. */
export function endOf(bytes, at, end = bytes.length) {
  if (end - at < 2) return 0;
  const length = lengthAt(bytes, at);
  if (length < LENGTH_LEAST || length > LENGTH_MOST) return -1;
  return at + 2 + length <= end ? at + 2 + length : 0;
}

const FIXED = { [Kind.Event]: 3, [Kind.Result]: 6, [Kind.Image]: 18, [Kind.Ask]: 2, [Kind.Answer]: 6, [Kind.Held]: 18 };

/** What a message says: its kind by name and its fields; `unread` where its bytes have another form. */
export function readMessage(bytes) {
  const kind = lengthAt(bytes, 2), length = lengthAt(bytes, 0);
  const fits = bytes.length === length + 2 && (kind === Kind.Request ? length === 3 + 5 * bytes[4] : FIXED[kind] === length);
  if (!fits) return { says: 'unread', kind };
  switch (kind) {
    case Kind.Request:
      return { says: 'request', fives: Array.from({ length: bytes[4] }, (_, at) => bytes.slice(5 + 5 * at, 10 + 5 * at)) };
    case Kind.Event:
      return { says: 'event', way: bytes[4] };
    case Kind.Result:
      return { says: 'result', issue: lengthAt(bytes, 4), number: bytes[6], outcome: bytes[7] };
    case Kind.Answer:
      return { says: 'answer', answer: new Answer(bytes[4], bytes[5], lengthAt(bytes, 6)) };
    case Kind.Ask:
      return { says: 'ask' };
    default:
      return { says: kind === Kind.Held ? 'held' : 'image', record: numberAt(bytes, 4), apart: numberAt(bytes, 12) };
  }
}
