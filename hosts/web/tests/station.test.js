// The calls: a first session, a jam, cards, areas, conditions and drawings.
import assert from 'node:assert/strict';
import { test } from 'node:test';
import { bytesIn, Event, eventOf, hexOf, imageOf, instruction, lineOf, Numbers, numberAt, Op, Outcome, readMessage, requestOf, resultOf, Size, START, WrongLine } from '../index.js';
import { anyFive, Seeded } from '../traffic.js';
import { blocks, garage } from './tree.js';

test('the first session of the README', () => {
  const station = garage.station();
  assert.equal(hexOf(station.message(eventOf(Event.BeginIn)).reply), '06 00 80 00 00 FF 00 00');
  assert.equal(hexOf(station.message(Uint8Array.of(2, 0, 5, 0)).reply), '12 00 81 00 00 00 00 00 00 1B 89 00 00 00 00 00 00 00 00 00');
  const refused = station.request([instruction('lift basement')]);
  assert.equal(String(refused), '31 (out of turn)');
});

test('the sessions of EXAMPLES.md and of the test of pages', () => {
  let sessions = 0;
  const all = ['docs/EXAMPLES.md', 'tests/pages/sessions.md'].flatMap(blocks);
  for (const { text } of all.filter(({ word }) => word === 'session')) {
    const station = garage.station(), replies = [];
    let ended = false;
    for (const line of text.trim().split('\n').map((one) => one.split('#')[0].trim()).filter((one) => one !== '')) {
      const bytes = bytesIn(line.slice(1));
      if (line[0] === '!') ended = true;
      if (ended || bytes === null || (line[0] === '>' && bytes.length !== bytes[0] + 2)) break; // a restart, or a message that is cut
      if (line[0] === '>') replies.push(hexOf(station.message(bytes).reply));
      else assert.equal(hexOf(bytes), replies.shift());
    }
    sessions++;
  }
  assert.ok(sessions > 20);
});

test('a car by its card, a jam, and the image that clears it', () => {
  const desk = garage.desk();
  assert.ok(desk.event(Event.BeginIn, 7001).taken);
  assert.equal(desk.where(7001).place, null);
  assert.ok(desk.event(Event.EndDone).taken);
  assert.deepEqual(desk.where(7001), { answer: desk.where(7001).answer, place: Size.DESK_RAISED, lastKnown: false });
  assert.equal(desk.request([instruction('lift basement')]).issue, 0);
  assert.equal(desk.set.length, 1);
  assert.deepEqual(desk.list().lines, [{ card: 7001, place: Size.DESK_RAISED, flag: 2, next: 11 }]);
  assert.deepEqual(desk.outstanding(), { answer: desk.outstanding().answer, issue: 0, set: desk.set });
  assert.ok(desk.result(desk.issue, 0, Outcome.Stuck).taken);
  assert.deepEqual(desk.outstanding().set, []);
  assert.deepEqual(desk.list().lines, [{ card: 7001, place: Size.DESK_RAISED, flag: 1, next: 0 }]);
  assert.equal(desk.set.length, 0);
  assert.equal(desk.apart, (1n << 52n) | (3n << 11n));
  assert.ok(desk.where(7001).lastKnown);
  assert.equal(desk.event(Event.BeginOut).number, Numbers.SetApart);
  assert.equal(desk.image(START | (1n << 52n), [0]).number, Numbers.ZeroNumber);
  assert.deepEqual(desk.compare(START | (1n << 52n), [0]).lines, []);
  assert.equal(desk.compare(START | (1n << 52n), [0]).answer.number, Numbers.ZeroNumber);
  const changes = [{ card: 7001, place: Size.DESK_RAISED, flag: 1, next: 255 }, { card: 12, place: 255, flag: 0, next: Size.DESK_RAISED }];
  assert.deepEqual(desk.compare(START | (1n << 52n), [12]).lines, changes);
  assert.ok(desk.image(START | (1n << 52n), [12]).taken);
  assert.deepEqual([...desk.cards], [[Size.DESK_AT_LIFT, 12]]);
  assert.ok(desk.event(Event.BeginOut).taken);
  assert.equal(desk.leaving().card, 12);
  assert.deepEqual(desk.ask().record, desk.record);
  assert.deepEqual(desk.station().ask().record, desk.record);
});

test('every instruction has its words, and reads back', () => {
  const seeded = new Seeded(7);
  for (let tries = 0; tries < 3000; tries++) {
    const five = anyFive(seeded);
    assert.deepEqual(instruction(lineOf(five)), five, lineOf(five));
  }
  assert.throws(() => instruction('lift cellar'), (why) => why instanceof WrongLine && why.message === 'expected `street`, `rotation` or `basement`, found `cellar`');
  assert.throws(() => instruction('rotate twice'), WrongLine);
});

test('areas, overlaps, verdicts and conditions hang together', () => {
  const seeded = new Seeded(11), station = garage.station();
  let allowed = 0;
  for (let tries = 0; tries < 2000; tries++) {
    const one = anyFive(seeded), other = anyFive(seeded);
    assert.equal(garage.overlap(one, other).number === Numbers.Overlap, (garage.area(one) & garage.area(other)) !== 0n);
    const verdict = garage.allowed(station.record, one), failed = garage.conditions(station.record, one).find(({ holds }) => !holds);
    assert.equal(failed ? failed.number : 0, verdict.number);
    const next = garage.next(station.record, one);
    assert.equal(next.answer.number, verdict.number);
    if (!verdict.taken) continue;
    allowed++;
    assert.ok(station.request([one]).taken && station.result(station.issue, 0, Outcome.Done).taken);
    assert.equal(station.record, next.record);
    assert.equal(garage.places(station.record).length, garage.cars(station.record));
  }
  assert.ok(allowed > 200);
});

test('drawings are read and written', () => {
  let both = 0;
  const all = blocks('docs/DRAWING.md').filter(({ word }) => word === 'drawing' || word === 'image');
  for (const { word, text } of all) {
    if (word !== 'drawing') continue;
    const { answer, record } = garage.drawn(text);
    if (answer.taken) {
      assert.equal(garage.drawing(record).text, text);
      both++;
    } else assert.ok([Numbers.BadLine, Numbers.Unsound].includes(answer.number));
  }
  assert.ok(both >= 3);
  assert.equal(garage.drawn('....\n').answer.place, 0);
  assert.equal(garage.drawing(1n).answer.number, Numbers.Unsound);
  const second = '..xxxxxxxxxxx.......\n..........\n..........\n---\n---\nlift\n', apart = 0x10000000001FFCn;
  assert.equal(garage.drawingApart(apart).text, second);
  assert.equal(garage.drawnApart(second).apart, apart);
  assert.equal(garage.drawn(second).answer.place, 0);
  assert.equal(garage.drawingApart(1n << 53n).answer.number, Numbers.Unsound);
});

test('messages read back', () => {
  const five = Uint8Array.of(Op.Lift, 2, 0, 0, 0);
  assert.deepEqual(readMessage(requestOf([five, five])), { says: 'request', fives: [five, five] });
  assert.deepEqual(readMessage(resultOf(513, 3, 2)), { says: 'result', issue: 513, number: 3, outcome: 2 });
  assert.deepEqual(readMessage(imageOf(START)), { says: 'image', record: START, apart: 0n });
  assert.deepEqual(readMessage(Uint8Array.of(2, 0, 9, 1)), { says: 'unread', kind: 265 });
  assert.equal(numberAt(garage.bytes(START)), START);
});

test('values that can not cross are refused', () => {
  const station = garage.station();
  assert.throws(() => station.event(256), RangeError);
  assert.throws(() => station.image(-1n), RangeError);
  assert.throws(() => garage.entries.call('station_start'), TypeError);
  assert.throws(() => garage.entries.call('station_start', [1]), TypeError);
  assert.deepEqual(station.bytes, garage.station().bytes);
});
