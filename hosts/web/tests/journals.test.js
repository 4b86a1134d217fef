// Journals in the form of crates/journal_file/specs: read back, torn, damaged and closed, beside a second reading of these definitions that
// goes bit by bit.
import assert from 'node:assert/strict';
import { test } from 'node:test';
import { Append, askOf, checksum, Event, hexOf, imageOf, isJournal, JournalBytes, journalIn, NoJournal } from '../index.js';
import { Seeded, traffic } from '../traffic.js';
import { garage } from './tree.js';

const NAME = 'north', HEAD = 128;

/** The checksum bit by bit, as crates/checksum/specs/Checksum.antt has it. */
function slowly(sum, bytes) {
  let state = (sum ^ 0xffffffff) >>> 0;
  for (const byte of bytes) {
    for (let bit = 0; bit < 8; bit++) state = ((state >>> 1) ^ (((state + (byte >> bit)) % 2) * 0x82f63b78)) >>> 0;
  }
  return (state ^ 0xffffffff) >>> 0;
}

const four = (number) => [number & 255, (number >>> 8) & 255, (number >>> 16) & 255, number >>> 24];

/** The bytes of an append behind a checksum, and the next checksum. */
function appendOf(sum, kind, carried) {
  const title = [kind, ...four(carried.length).slice(0, 3)], opened = slowly(sum, title), closed = slowly(opened, carried);
  return { bytes: [...title, ...four(opened), ...carried, ...four(closed), 10], sum: closed };
}

/** A head of this name, filled up, with a station. */
function headOf(station, name = NAME) {
  const named = [...new TextEncoder().encode(name)], head = [...new TextEncoder().encode('Vargsnida, journal.\n'), 2, 0, 0, 1, ...named, ...Array(40 - named.length).fill(0), ...station];
  return [...head, ...four(slowly(0, head))];
}

/** Reads of one to five messages of some traffic. */
function reads(seed, count) {
  const seeded = new Seeded(seed), messages = [...traffic(garage, seed, count)], found = [];
  while (messages.length) found.push(Buffer.concat(messages.splice(0, 1 + seeded.below(5))));
  return found;
}

/** A journal with these reads, a session that was cut short and one that ended by a bad length. */
function journal(all) {
  const made = new JournalBytes(NAME, garage.version, garage.station().bytes);
  all.forEach((read, at) => {
    made.append(Append.Messages, read);
    if (at === 3) made.append(Append.CutShort, Uint8Array.of(3, 0, 2));
    if (at === 5) made.append(Append.BadLength, Uint8Array.of(255, 255));
  });
  return made.bytes();
}

/** The places where appends begin, and the end. */
function placesOf(bytes) {
  const found = [HEAD];
  while (found.at(-1) < bytes.length) found.push(found.at(-1) + 13 + (bytes[found.at(-1) + 1] | (bytes[found.at(-1) + 2] << 8)));
  return found;
}

test('the checksum is the published one, goes on, and is that of each bit', () => {
  assert.equal(checksum(0, new TextEncoder().encode('123456789')), 0xe3069283);
  const seeded = new Seeded(1);
  for (let tries = 0; tries < 200; tries++) {
    const bytes = Uint8Array.from({ length: seeded.below(60) }, () => seeded.below(256)), cut = seeded.below(bytes.length + 1), sum = seeded.next();
    assert.equal(checksum(sum, bytes), slowly(sum, bytes));
    assert.equal(checksum(checksum(sum, bytes, 0, cut), bytes, cut), checksum(sum, bytes));
  }
});

test('a journal has the bytes of its definition, and reads back', () => {
  const station = garage.station(imageStation()), all = reads(2, 40), wanted = headOf(station.bytes);
  let sum = slowly(0, wanted.slice(0, 124));
  const made = new JournalBytes(NAME, [1, 0, 0], station.bytes);
  for (const read of all) {
    const { bytes, sum: next } = appendOf(sum, 1, [...read]);
    wanted.push(...bytes);
    sum = next;
    made.append(Append.Messages, read);
  }
  assert.equal(hexOf(made.bytes()), hexOf(wanted));
  const read = journalIn(garage, made.bytes());
  assert.deepEqual([read.name, read.version, hexOf(read.station), read.count, read.appends], [NAME, [1, 0, 0], hexOf(station.bytes), 40, all.length]);
  assert.equal(hexOf(read.messages), hexOf(Buffer.concat(all)));
  assert.deepEqual([read.torn, read.damage, read.closed, read.ended], [null, null, false, []]);
  assert.equal(read.starts.length, 41);
  assert.equal(read.starts[40], read.messages.length);
});

/** A station that is not at its start: an image, a set in motion. */
function imageStation() {
  const station = garage.station();
  assert.ok(station.message(imageOf(0x0049330020201803n)).answer.taken);
  assert.ok(station.request([Uint8Array.of(2, 1, 2, 0, 0)]).taken);
  return station.bytes;
}

test('what ended sessions, and what follows a journal', () => {
  const all = reads(4, 60), bytes = journal(all), before = (count) => all.slice(0, count).reduce((sum, read) => sum + journalIn(garage, oneRead(read)).count, 0);
  const read = journalIn(garage, bytes);
  assert.deepEqual(read.ended.map(({ after, answer, bytes: rest }) => [after, answer, hexOf(rest)]), [[before(4), 1, '03 00 02'], [before(6), 2, 'FF FF']]);
  assert.equal(read.count, 60);
  const closing = new JournalBytes(NAME, garage.version, garage.station().bytes);
  closing.append(Append.Messages, askOf());
  closing.append(Append.Closed);
  assert.ok(journalIn(garage, closing.bytes()).closed);
  closing.append(Append.Messages, askOf());
  const past = journalIn(garage, closing.bytes());
  assert.deepEqual([past.count, past.closed, past.damage], [1, true, { at: 128 + 17 + 13, append: 2, messages: 1 }]);
});

test('the numbers of cards stand before the messages, and the last say them', () => {
  const made = new JournalBytes(NAME, garage.version, garage.station().bytes), numbers = Uint8Array.from({ length: 168 }, (_, at) => at);
  assert.equal(journalIn(garage, made.bytes()).numbers, null);
  made.append(Append.Cards, new Uint8Array(168));
  made.append(Append.Cards, Uint8Array.from([...numbers, ...askOf()]));
  made.append(Append.Messages, askOf());
  const read = journalIn(garage, made.bytes());
  assert.deepEqual([read.count, read.appends, read.damage, [...read.numbers]], [2, 3, null, [...numbers]]);
  assert.deepEqual([...read.messages], [...askOf(), ...askOf()]);
});

function oneRead(read) {
  const made = new JournalBytes(NAME, garage.version, garage.station().bytes);
  made.append(Append.Messages, read);
  return made.bytes();
}

test('appends that a station would not take are damage', () => {
  for (const [kind, carried] of [[Append.Messages, []], [Append.Messages, [2, 0, 5]], [Append.Messages, [2, 0, 5, 0, 2]], [Append.Messages, [255, 255, 0, 0]],
    [Append.CutShort, Array(45).fill(1)], [Append.BadLength, Array(45).fill(1)], [Append.Closed, [1]], [Append.Cards, Array(167).fill(1)],
    [Append.Cards, [...Array(168).fill(1), 2, 0, 5]], [0, []], [6, []]]) {
    const made = new JournalBytes(NAME, garage.version, garage.station().bytes);
    made.append(Append.Messages, askOf());
    made.append(kind, Uint8Array.from(carried));
    made.append(Append.Messages, askOf());
    const { count, damage, messages, torn } = journalIn(garage, made.bytes());
    assert.deepEqual([count, damage, messages.length, torn], [1, { at: 145, append: 1, messages: 1 }, 4, null], `${kind}: ${carried}`);
  }
  const longest = new JournalBytes(NAME, garage.version, garage.station().bytes);
  longest.append(Append.CutShort, new Uint8Array(44));
  assert.equal(journalIn(garage, longest.bytes()).damage, null);
});

test('a journal cut at any byte is torn there, and nothing before it is lost', () => {
  const bytes = journal(reads(6, 12)), places = placesOf(bytes);
  for (let end = HEAD; end <= bytes.length; end++) {
    const { torn, damage, appends } = journalIn(garage, bytes.slice(0, end)), whole = places.filter((place) => place <= end).at(-1);
    assert.equal(damage, null);
    assert.deepEqual(torn, whole === end ? null : { at: whole, bytes: end - whole });
    assert.equal(appends, places.indexOf(whole));
  }
});

test('a last append of which a sector is missing is torn, and zeros within one are damage', () => {
  const made = new JournalBytes(NAME, garage.version, garage.station().bytes);
  made.append(Append.Messages, Buffer.concat(Array(40).fill(askOf())));
  const at = made.length;
  made.append(Append.Messages, Buffer.concat(Array(400).fill(askOf())));
  const whole = made.bytes();
  for (let from = at; from < whole.length; from++) {
    const lost = whole.slice().fill(0, from), { torn, damage } = journalIn(garage, lost), sector = from === at || from % 512 === 0;
    if (sector) assert.deepEqual([torn, damage], [{ at, bytes: whole.length - at }, null], `from ${from}`);
    else assert.equal(torn === null, damage !== null);
  }
  const inside = whole.slice();
  inside.fill(0, 1024, 1536);
  assert.deepEqual(journalIn(garage, inside).damage, { at, append: 1, messages: 40 });
});

test('every changed bit is found, with the byte of its append; in the head there is no journal', () => {
  const bytes = journal(reads(8, 14)), places = placesOf(bytes);
  for (let bit = 0; bit < 8 * bytes.length; bit++) {
    const changed = bytes.slice();
    changed[bit >> 3] ^= 1 << (bit & 7);
    if (bit < 8 * HEAD) {
      assert.throws(() => journalIn(garage, changed), NoJournal, `bit ${bit}`);
      continue;
    }
    const at = places.filter((place) => place <= bit >> 3).at(-1), { damage, torn, appends } = journalIn(garage, changed);
    assert.equal(torn, null, `bit ${bit}`);
    assert.equal(damage.at, at, `bit ${bit}`);
    assert.equal(appends, places.indexOf(at));
  }
});

test('appends that are missing, repeated or out of place are found', () => {
  const bytes = journal(reads(9, 30)), places = placesOf(bytes), part = (from, to) => bytes.slice(places[from], places[to]);
  const at = (...parts) => journalIn(garage, Buffer.concat([bytes.slice(0, HEAD), ...parts])).damage?.append;
  assert.equal(at(part(0, 2), part(3, places.length - 1)), 2);
  assert.equal(at(part(0, 2), part(1, places.length - 1)), 2);
  assert.equal(at(part(1, 2), part(0, 1)), 0);
  assert.equal(at(part(0, places.length - 1)), undefined);
});

test('heads that are none are told apart', () => {
  const good = journal([askOf()]), of = (change) => {
    const bytes = good.slice();
    change(bytes);
    bytes.set(four(slowly(0, bytes.slice(0, 124))), 124);
    return bytes;
  };
  const told = (bytes) => {
    try {
      return journalIn(garage, bytes).name;
    } catch (why) {
      assert.ok(why instanceof NoJournal);
      return why.message;
    }
  };
  assert.equal(told(good), NAME);
  assert.match(told(askOf()), /^is no journal/);
  assert.match(told(good.slice(0, 127)), /^ends inside its head, at byte 127/);
  assert.match(told(of((bytes) => { bytes[20] = 3; })), /^is a journal of format 3/);
  assert.match(told(of((bytes) => { bytes[64] = 1; })), /^is a journal that begins with a station which can't be/);
  assert.match(told(Uint8Array.from(good, (byte, at) => (at === 30 ? byte ^ 1 : byte))), /^is a journal whose head is damaged: the checksum at byte 124/);
  assert.ok(isJournal(good) && !isJournal(askOf()) && !isJournal(new Uint8Array(0)));
  for (const name of ['', 'x'.repeat(41), 'two words']) assert.throws(() => new JournalBytes(name, [1, 0, 0], garage.station().bytes), RangeError);
  assert.equal(told(Uint8Array.from(headOf(garage.station().bytes, 'x'.repeat(40)))), 'x'.repeat(40));
});

test('a desk of a station and its cards', () => {
  const desk = garage.desk();
  assert.ok(desk.image(0x0049330020201803n, [11, 12, 13, 14]).taken);
  assert.ok(desk.request([Uint8Array.of(2, 1, 2, 0, 0)]).taken);
  const again = garage.deskWith(desk.station().bytes, [11, 12, 13, 14]);
  assert.equal(hexOf(again.bytes), hexOf(desk.bytes));
  for (const cards of [[11, 12, 13], [11, 12, 13, 13], [11, 12, 13, 0], [11, 12, 13, 14, 15]]) {
    assert.ok(garage.deskWith(desk.station().bytes, cards) === null, String(cards));
  }
  const coming = garage.desk(), seeded = new Seeded(3);
  assert.ok(coming.event(Event.BeginIn, 77).taken);
  assert.deepEqual(garage.deskWith(coming.station().bytes, [77]).bytes, coming.bytes);
  assert.ok(garage.deskWith(Uint8Array.from(coming.station().bytes, () => seeded.below(256)), []) === null);
});
