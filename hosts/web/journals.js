// A journal's file, as crates/journal_file/specs define it: a head with the garage's name and the station to begin with, then appends. Each
// append is held by a CRC-32C that goes on from the one before. Reading changes nothing: what a lost power supply has left is only told.

import { hexOf, joined } from './bytes.js';
import { endOf } from './messages.js';
import { Numbers, Size } from './numbers.js';

const MAGIC = new TextEncoder().encode('Vargsnida, journal.\n');
const FORMAT = 2;
const FORMAT_AT = 20, VERSION_AT = 21, NAME_AT = 24, STATION_AT = 64, SUM_AT = 124, HEAD = 128;
const OPENING = 8; // of an append: its kind, how many bytes it carries in three, and a checksum over these in four
const CLOSING = 5; // the checksum that goes on over what it carries, and a mark
const END_MARK = 10;
const CARRIED_MOST = 65536;
const REST_MOST = Size.STATION_MESSAGE_MOST - 1; // what is left of a message that isn't whole
const SECTOR = 512;
const CARD_NUMBERS = 168; // 42 numbers of four bytes, before the messages of an append with cards

/** What an append has: messages, what ended a session (answer 1 or 2), that another journal follows, or a desk's cards and messages. */
export const Append = Object.freeze({ Messages: 1, CutShort: 2, BadLength: 3, Closed: 4, Cards: 5 });

/** A file that is no journal, or none that can be read, with why: a phrase that goes on from the file's name. */
export class NoJournal extends Error {}

// ---- the checksum

const POLYNOMIAL = 0x82f63b78;
const SLICES = slices();

/** Four tables of 256: the checksum of each byte, and with one to three zeros behind it. */
function slices() {
  const tables = new Int32Array(1024);
  for (let byte = 0; byte < 256; byte++) {
    let state = byte;
    for (let bit = 0; bit < 8; bit++) state = (state >>> 1) ^ (state & 1 ? POLYNOMIAL : 0);
    tables[byte] = state;
  }
  for (let at = 256; at < 1024; at++) tables[at] = (tables[at - 256] >>> 8) ^ tables[tables[at - 256] & 255];
  return tables;
}

/** The CRC-32C of some bytes behind others whose checksum is given. */
export function checksum(sum, bytes, from = 0, to = bytes.length) {
  let state = ~sum, at = from;
  for (; at + 4 <= to; at += 4) {
    state ^= bytes[at] | (bytes[at + 1] << 8) | (bytes[at + 2] << 16) | (bytes[at + 3] << 24);
    state = SLICES[768 | (state & 255)] ^ SLICES[512 | ((state >>> 8) & 255)] ^ SLICES[256 | ((state >>> 16) & 255)] ^ SLICES[state >>> 24];
  }
  for (; at < to; at++) state = SLICES[(state ^ bytes[at]) & 255] ^ (state >>> 8);
  return ~state >>> 0;
}

const fourAt = (bytes, at) => (bytes[at] | (bytes[at + 1] << 8) | (bytes[at + 2] << 16) | (bytes[at + 3] << 24)) >>> 0;
const carriedAt = (bytes, at) => bytes[at + 1] | (bytes[at + 2] << 8) | (bytes[at + 3] << 16);

// ---- written

const littleEndian = (number, count) => Uint8Array.from({ length: count }, (_, at) => (number >>> (8 * at)) & 255);

/** The bytes of a journal that grows by appends. */
export class JournalBytes {
  /** Of a garage by its name, from a station's 60 bytes. */
  constructor(name, version, station) {
    const named = new Uint8Array(STATION_AT - NAME_AT), own = new TextEncoder().encode(name);
    const letters = own.every((byte) => (byte >= 33 && byte <= 126) || byte >= 128);
    if (!own.length || own.length > named.length || !letters) throw new RangeError(`a garage's name has 1 to ${named.length} bytes, and no space`);
    named.set(own);
    const head = joined(MAGIC, Uint8Array.of(FORMAT), littleEndian((version[0] << 16) | (version[1] << 8) | version[2], 3), named, station);
    this.sum = checksum(0, head);
    this.room = new Uint8Array(4096);
    this.length = 0;
    this.put(head);
    this.put(littleEndian(this.sum, 4));
  }

  put(bytes) {
    if (this.length + bytes.length > this.room.length) {
      const wider = new Uint8Array(2 * this.room.length + bytes.length);
      wider.set(this.room);
      this.room = wider;
    }
    this.room.set(bytes, this.length);
    this.length += bytes.length;
  }

  append(kind, bytes = new Uint8Array(0)) {
    const title = Uint8Array.of(kind, bytes.length & 255, (bytes.length >> 8) & 255, bytes.length >> 16);
    this.sum = checksum(this.sum, title);
    this.put(title);
    this.put(littleEndian(this.sum, 4));
    this.put(bytes);
    this.sum = checksum(this.sum, bytes);
    this.put(littleEndian(this.sum, 4));
    this.put(Uint8Array.of(END_MARK));
  }

  bytes() {
    return this.room.slice(0, this.length);
  }
}

// ---- read

/** Whether some bytes begin as a journal does. */
export const isJournal = (bytes) => MAGIC.every((byte, at) => bytes[at] === byte);

/** The head of a journal: the garage's name, the version that made it, and the station to begin with. */
function headOf(library, bytes) {
  if (!isJournal(bytes)) throw new NoJournal('is no journal of a station: it does not begin as one');
  if (bytes.length < HEAD) throw new NoJournal(`ends inside its head, at byte ${bytes.length}: a journal's head has ${HEAD} bytes`);
  if (bytes[FORMAT_AT] !== FORMAT) throw new NoJournal(`is a journal of format ${bytes[FORMAT_AT]} (byte ${FORMAT_AT}), and format ${FORMAT} is read here`);
  const sum = fourAt(bytes, SUM_AT);
  if (sum !== checksum(0, bytes, 0, SUM_AT)) {
    throw new NoJournal(`is a journal whose head is damaged: the checksum at byte ${SUM_AT} is not that of the bytes before it`);
  }
  const station = bytes.slice(STATION_AT, SUM_AT);
  if (library.station(station).ask().answer.number === Numbers.Unfit) {
    throw new NoJournal(`is a journal that begins with a station which can't be (byte ${STATION_AT}: ${hexOf(station.slice(0, 8))})`);
  }
  const named = bytes.subarray(NAME_AT, STATION_AT), end = named.indexOf(0);
  const name = new TextDecoder().decode(end < 0 ? named : named.subarray(0, end));
  return { name, version: [bytes[VERSION_AT + 2], bytes[VERSION_AT + 1], bytes[VERSION_AT]], station, sum };
}

/** Whether what stands from a place to the file's end is an append of which a sector, or all, did not come to the disk. */
function zeroed(bytes, at, titled) {
  const length = bytes.length - at;
  if (length > CARRIED_MOST + OPENING + CLOSING) return false;
  let written = length;
  while (written > 0 && bytes[at + written - 1] === 0) written--;
  const lost = written === 0 ? 0 : written + ((SECTOR - ((at + written) % SECTOR)) % SECTOR);
  if (length <= lost) return false;
  return lost < OPENING || (titled && length === carriedAt(bytes, at) + OPENING + CLOSING);
}

/** Reads a journal's file: its head, the messages that it holds, what ended sessions, and how it ends. Throws NoJournal for its head. */
export function journalIn(library, bytes) {
  const { name, version, station, sum: first } = headOf(library, bytes), messages = new Uint8Array(bytes.length - HEAD), ended = [];
  let starts = new Uint32Array(1 + Math.floor(messages.length / 4)), count = 0, size = 0, at = HEAD, sum = first, appends = 0, closed = false,
    numbers = null;
  // takes what an append carries; gives whether it may stand there
  const take = (kind, from, to) => {
    if (closed) return false;
    if (kind === Append.Messages || kind === Append.Cards) {
      const before = [count, size], lead = kind === Append.Cards ? CARD_NUMBERS : 0;
      if (to - from < lead) return false;
      let place = from + lead;
      while (place < to) {
        const end = endOf(bytes, place, to);
        if (end <= 0) {
          [count, size] = before;
          return false;
        }
        starts[count++] = size;
        for (; place < end; place++) messages[size++] = bytes[place];
      }
      if (lead) numbers = bytes.slice(from, from + lead);
      return to > from;
    }
    if (kind === Append.CutShort || kind === Append.BadLength) {
      if (to - from > REST_MOST) return false;
      ended.push({ after: count, answer: kind - 1, bytes: bytes.slice(from, to) });
      return true;
    }
    closed = kind === Append.Closed && to === from;
    return closed;
  };
  let torn = null, damage = null;
  while (at < bytes.length && !torn && !damage) {
    const left = bytes.length - at, carries = left < OPENING ? 0 : carriedAt(bytes, at), end = at + OPENING + carries + CLOSING;
    const opened = left < OPENING ? 0 : checksum(sum, bytes, at, at + 4);
    const titled = left >= OPENING && fourAt(bytes, at + 4) === opened && carries <= CARRIED_MOST;
    const short = left < OPENING || (titled && left < end - at);
    const next = titled && !short ? checksum(opened, bytes, at + OPENING, end - CLOSING) : 0;
    const whole = titled && !short && fourAt(bytes, end - CLOSING) === next && bytes[end - 1] === END_MARK;
    if (whole && take(bytes[at], at + OPENING, end - CLOSING)) {
      sum = next;
      at = end;
      appends++;
    } else if (short || (!whole && zeroed(bytes, at, titled))) {
      torn = { at, bytes: left };
    } else {
      damage = { at, append: appends, messages: count };
    }
  }
  starts = starts.slice(0, count + 1);
  starts[count] = size;
  return { name, version, station, messages: messages.subarray(0, size), starts, count, appends, ended, closed, numbers, torn, damage };
}
