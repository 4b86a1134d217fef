// Logs that begin anywhere, their cards, and links: beside desks that are followed slowly, message by message.
import assert from 'node:assert/strict';
import { test } from 'node:test';
import { Append, bytesOf, Event, eventOf, hexOf, imageOf, instruction, JournalBytes, Outcome, readMessage, requestOf, resultOf, Size, START } from '../index.js';
import { cardsIn, cardsText, WrongCards } from '../page/cards.js';
import { BadFile, carsBrought, readFile, startIn } from '../page/files.js';
import { against } from '../page/explain.js';
import { cardsOf, garageLink, linkedIn, stationLink } from '../page/link.js';
import { Log } from '../page/log.js';
import { allowedSet, Seeded, traffic } from '../traffic.js';
import { garage, wrote } from './tree.js';

const IN_USE = 0x0049330020201803n, still = async () => {};

/** Traffic in which cars come, move and go. */
function busy(seed, count) {
  const seeded = new Seeded(seed), station = garage.station(), found = [];
  const send = (message) => {
    station.message(message);
    found.push(message);
  };
  send(imageOf(IN_USE));
  while (found.length < count) {
    const { set, issue, record, apart } = station, waiting = set.map((held, at) => ({ ...held, at })).filter(({ answered }) => !answered);
    if (waiting.length) send(resultOf(issue, waiting[0].at, seeded.oneIn(30) ? Outcome.Stuck : seeded.oneIn(8) ? Outcome.Failed : Outcome.Done));
    else if ((apart && seeded.oneIn(12)) || ((record >> 55n) & 1n && seeded.oneIn(4))) send(imageOf(record));
    else if ((record >> 55n) & 3n) send(eventOf(seeded.oneIn(5) ? Event.EndNotDone : Event.EndDone));
    else if (seeded.oneIn(3)) send(eventOf(seeded.oneIn(2) ? Event.BeginIn : Event.BeginOut));
    else send(requestOf(allowedSet(seeded, garage, record, apart, 1 + seeded.below(2))));
  }
  return found;
}

/** Cards for the cars of all messages, some not known; no card comes twice. */
function cardsFor(messages, seed) {
  const seeded = new Seeded(seed), cards = new Map();
  let next = 9000;
  messages.forEach((message, at) => {
    const cars = carsBrought(garage, message);
    if (cars) cards.set(at, Array.from({ length: cars }, () => (seeded.oneIn(4) && cars > 1 ? null : next++)));
  });
  return cards;
}

/** The log's text in hexadecimal, with its cards. */
const written = (messages, cards) => messages.map((message, at) => {
  const own = cards.get(at);
  return `${own ? `${message[2] === 2 ? 'card' : 'cards'} ${cardsText(own)}\n` : ''}> ${hexOf(message)}\n`;
}).join('');

test('cards go with their cars as on a desk that is told every message', async () => {
  const messages = busy(5, 3000), cards = cardsFor(messages, 6), text = written(messages, cards);
  const log = new Log(garage, readFile(garage, 'log', new TextEncoder().encode(text)));
  assert.ok(await log.answer(still));
  assert.deepEqual([log.file.note, log.twice, log.file.cards.size], ['', [], cards.size]);
  const desk = garage.desk(), names = new Map(), seen = { known: 0, lastKnown: 0, away: 0 };
  let fresh = 1;
  const named = (card) => {
    names.set(fresh, card);
    return fresh++;
  };
  messages.forEach((message, at) => {
    const { says, fives, way, issue, number, outcome, record } = readMessage(message), own = cards.get(at) ?? [];
    if (garage.station(desk.station().bytes).message(message).answer.taken) {
      if (says === 'request') desk.request(fives);
      if (says === 'event') desk.event(way, way === Event.BeginIn ? named(own[0]) : 0);
      if (says === 'result') desk.result(issue, number, outcome);
      if (says === 'image') desk.image(record, own.map(named));
    }
    if (at % 7 && at < 2900) return;
    const shown = log.cardsAt(at + 1), wanted = new Map([...desk.cards].map(([place, inner]) => [place, names.get(inner)]).filter(([, card]) => card));
    assert.deepEqual(shown.cards, wanted, `after ${at + 1}`);
    const unsure = [...desk.cards.values()].map((inner) => desk.where(inner)).filter(({ lastKnown }) => lastKnown).map(({ place }) => place);
    assert.deepEqual([...shown.lastKnown].sort(), unsure.sort(), `after ${at + 1}`);
    assert.equal(hexOf(log.deskAt(at + 1).station().bytes), hexOf(log.stationAt(at + 1).bytes));
    seen.known += wanted.size;
    seen.lastKnown += unsure.length;
    seen.away += Number(wanted.has(Size.DESK_AT_DRIVE));
  });
  assert.ok(seen.known > 1000 && seen.lastKnown > 50 && seen.away > 3, JSON.stringify(seen));
  assert.equal(log.hexadecimal(0, 3000).split('\n').filter((line) => !line.startsWith('<')).join('\n'), text);
});

test('cards are told by hand, and one that is inside already is not taken', async () => {
  const messages = [eventOf(Event.BeginIn), eventOf(Event.EndDone), imageOf(IN_USE), eventOf(Event.BeginIn)];
  const log = new Log(garage, readFile(garage, 'log', Buffer.concat(messages)));
  await log.answer(still);
  assert.deepEqual(log.cardsAt(4), {});
  assert.ok(await log.tell(2, [5, null, 7, 8], still));
  assert.deepEqual([...log.cardsAt(3).cards.values()], [5, 7, 8]);
  assert.ok(await log.tell(0, [5], still));
  assert.deepEqual([...log.cardsAt(2).cards], [[Size.DESK_AT_LIFT, 5]]);
  const text = 'cards 5 7 8\n> 12 00 04 00 03 00 20 20 00 33 09 00 00 00 00 00 00 00 00 00\ncard 7\n> 03 00 02 00 01\n';
  const twice = new Log(garage, readFile(garage, 'log', new TextEncoder().encode(text)));
  assert.ok(await twice.answer(still));
  assert.deepEqual(twice.twice, [{ at: 1, card: 7 }]);
  assert.equal(await twice.tell(1, [8], still), false);
  assert.ok(await twice.tell(1, [9], still));
  assert.equal(twice.cardsAt(2).cards.get(Size.DESK_AT_DRIVE), 9);
  assert.ok(await twice.tell(1, [], still));
  assert.equal(twice.cardsAt(2).cards.get(Size.DESK_AT_DRIVE), undefined);
});

test('lists of cards are read, or told why not', () => {
  assert.deepEqual(cardsIn(' 7001, - 12', false), [7001, null, 12]);
  assert.deepEqual(cardsIn('4294967295', true), [4294967295]);
  for (const [said, one] of [['0', true], ['-', true], ['1 2', true], ['', true], ['4294967296', false], ['7 7', false], ['x', false], ['1.5', false]]) {
    assert.throws(() => cardsIn(said, one), WrongCards, said);
  }
  const lines = (text) => readFile(garage, 'log', new TextEncoder().encode(text));
  assert.match(lines('card 7\ncard 8\n> 03 00 02 00 01\n').note, /^line 1: a begin in is expected behind it/);
  assert.match(lines('> 03 00 02 00 01\ncards 7\n').note, /^line 2: an image is expected behind it/);
  assert.match(lines('cards 7\n> 12 00 04 00 03 18 20 20 00 33 49 00 00 00 00 00 00 00 00 00\n').note, /^line 1: 4 cards are expected/);
  assert.throws(() => lines('> 03 00\ncard 7\n02 00 01\n'), (why) => why instanceof BadFile && /^log, line 2: the message before it is cut short\.$/.test(why.message));
});

test('a log begins with the station of its head, or on an image', async () => {
  const messages = [...traffic(garage, 21, 2000)], first = garage.station();
  while (messages.length > 1000 || !first.set.length) first.message(messages.shift()); // within a set
  const made = new JournalBytes('south', garage.version, first.bytes);
  for (const message of messages) made.append(Append.Messages, message);
  const log = new Log(garage, readFile(garage, 'journal', made.bytes())), station = first.copy();
  assert.ok(await log.answer(still));
  messages.forEach((message, at) => assert.equal(station.message(message).answer.number, log.numbers[at]));
  assert.equal(hexOf(log.stationAt(0).bytes), hexOf(first.bytes));
  assert.equal(hexOf(log.stationAt(log.count).bytes), hexOf(station.bytes));
  // an example begins with an image all the same, and bin/station answers it so
  const lines = log.example(0, 60).split('\n').filter((line) => /^[<>]/.test(line)), of = (mark) => lines.filter((line) => line[0] === mark).map((line) => line.slice(2)).join(' ');
  assert.equal(hexOf(wrote('bin/station', Uint8Array.from(of('>').split(' '), (two) => parseInt(two, 16)))), of('<'));
  assert.ok(lines[0].startsWith('> 12 00 04 00'));
  const told = lines.filter((line) => line[0] === '<').slice(1).map((line) => line.slice(2, 7) === '06 00' && line.slice(14, 16) !== '00');
  assert.ok(told.length > 30);
  told.forEach((rejected, at) => assert.equal(rejected, log.numbers[60 - told.length + at] !== 0, `message ${60 - told.length + at}`));
  const empty = new Log(garage, readFile(garage, 'journal', new JournalBytes('south', garage.version, first.bytes).bytes()));
  assert.ok(await empty.answer(still));
  assert.equal(hexOf(empty.stationAt(0).bytes), hexOf(first.bytes));
});

test('an image to begin on', () => {
  const digits = (record, apart) => hexOf(bytesOf(record)) + (apart === undefined ? '' : hexOf(bytesOf(apart)));
  assert.equal(startIn(garage, ' ', '7', ''), null);
  const { station, cards } = startIn(garage, digits(IN_USE, 1n << 52n), '300', '1 - 3 4'), held = garage.station(station);
  assert.deepEqual([held.record, held.apart, held.issue, cards], [IN_USE, 1n << 52n, 299, [1, null, 3, 4]]);
  assert.equal(startIn(garage, digits(START), '', '').cards, null);
  for (const wrong of [['12'], [digits(1n)], [digits(START, 1n << 53n)], [digits(START), '70000'], [digits(START), '0', '5'], [digits(IN_USE), '0', '1 2 3 x']]) {
    assert.throws(() => startIn(garage, wrong[0], wrong[1] ?? '0', wrong[2] ?? ''), (why) => why instanceof BadFile && /^The image to begin on.*\.$/.test(why.message));
  }
});

test('links hold stations with their sets and cards, and a changed one is none', () => {
  let longest = 0;
  const desk = garage.desk(), seeded = new Seeded(8);
  desk.image(IN_USE, [4294967295, 2, 3, 4]);
  for (let step = 0; step < 200; step++) {
    const link = stationLink(garage, desk), again = linkedIn(garage, link).desk;
    assert.equal(hexOf(again.bytes), hexOf(desk.bytes));
    longest = Math.max(longest, link.length);
    const waiting = desk.set.findIndex(({ answered }) => !answered), fives = allowedSet(seeded, garage, desk.record, desk.apart, 3);
    if (waiting >= 0) desk.result(desk.issue, waiting, seeded.oneIn(20) ? Outcome.Stuck : Outcome.Done);
    else desk.request(fives);
  }
  assert.ok(longest < 500);
  const link = stationLink(garage, desk), cards = cardsOf(garage, desk);
  assert.equal(cards.length, 4);
  for (const wrong of [link.slice(0, -1 - String(cards[3]).length), link.replace('=', '=0'), link.replace(/,\d+$/, ',0'), link.replace(/,\d+$/, ',4294967301'), link.replace(/,\d+$/, `,${cards[0]}`), '#station=', link.replace('#station=0', '#station=1').replace('#station=3', '#station=1')]) {
    assert.ok(linkedIn(garage, wrong).desk === null, wrong);
  }
  assert.deepEqual(linkedIn(garage, garageLink(IN_USE)), { garage: IN_USE });
  for (const other of ['', '#main', '#garage=12', '#stations=00']) assert.deepEqual(linkedIn(garage, other), {});
});

test('under a 32 each stuck result is named that set apart what is touched', async () => {
  const request = (...lines) => requestOf(lines.map(instruction)), low = 'belts row 1 left lift, lower, full', lowers = 'tilt right row 3 tilted';
  const messages = [
    eventOf(Event.BeginIn), eventOf(Event.EndDone), request('lift basement'), resultOf(0, 0, Outcome.Done),
    request(low, lowers), resultOf(1, 1, Outcome.Stuck), resultOf(1, 0, Outcome.Stuck),
    request('tilt left row 3 tilted', low), eventOf(Event.BeginIn), request(lowers),
    imageOf(0x00491B0000001800n), request(low), resultOf(2, 0, Outcome.Stuck), request('lift street'),
  ];
  const why = async (all, from = 0) => {
    const start = garage.station();
    all.slice(0, from).forEach((message) => start.message(message));
    const journal = new JournalBytes('jam', garage.version, start.bytes);
    for (const message of all.slice(from)) journal.append(Append.Messages, message);
    const log = new Log(garage, readFile(garage, 'jam.journal', journal.bytes()));
    await log.answer(still);
    return log.refused.map((at) => {
      const before = log.stationAt(at), bytes = log.message(at), { answer } = before.copy().message(bytes);
      assert.equal(answer.number, 32);
      return against(garage, before, bytes, answer, log.stuckBefore(at)).filter((line) => line.startsWith('set apart b'));
    });
  };
  const by = (at, number, set, line) => `set apart by message ${at}: instruction ${number} of set ${set}, ${line}, was stuck`;
  assert.deepEqual(await why(messages), [[by(7, 0, 1, low)], [by(7, 0, 1, low)], [by(6, 1, 1, lowers)], [by(13, 0, 2, low)]]);
  // a log that begins with the set outstanding, and one that begins after the jam
  assert.deepEqual((await why(messages, 5))[0], [by(2, 0, 1, low)]);
  assert.deepEqual((await why(messages, 7))[2], 
    ['set apart before the first message: cell 39; the lowered slot right in row 3; the tilted slot right in row 3']);
});
