// The page's words beside the pages of docs/ and the station's own word: conditions, hints, drawings, files, logs and orders of results.
import assert from 'node:assert/strict';
import { test } from 'node:test';
import { bytesOf, endOf, hexOf, instruction, lineOf, numberAt, Outcome, START } from '../index.js';
import { Composer } from '../page/compose.js';
import { explained, faultsOf } from '../page/conditions.js';
import { BadFile, readFile } from '../page/files.js';
import { linesOf, recordOf } from '../page/garage.js';
import { Log } from '../page/log.js';
import { played, twoOrders } from '../page/motors.js';
import { hints } from '../page/record-words.js';
import { allowedSet, anyFive, Seeded, traffic } from '../traffic.js';
import { blocks, garage, wrote } from './tree.js';

/** A floor as the panel's pages have it, a drawing or an image, and the lines behind it; undefined where it has more than a record. */
function floorAndLines(text) {
  const lines = text.trimEnd().split('\n').filter((line) => line !== '');
  if (/^[0-9A-Fa-f]/.test(lines[0]) && lines[0].length > 23) return undefined;
  if (/^[0-9A-Fa-f ]+$/.test(lines[0])) return [numberAt(Uint8Array.from(lines[0].split(' '), (two) => parseInt(two, 16))), lines.slice(1)];
  return [garage.drawn(`${lines.slice(0, 6).join('\n')}\n`).record, lines.slice(6)];
}

test('conditions are told as the panel tells them', () => {
  const panel = ['docs/PANEL.md', 'tests/entries/panel_numbers.md'].flatMap(blocks);
  let conditions = 0;
  panel.forEach(({ word, text }, at) => {
    if (word !== 'panel' || floorAndLines(text) === undefined) return;
    const shown = panel.slice(at).find((block) => block.word === 'shown').text;
    let [record, lines] = floorAndLines(text), from = 0;
    for (const line of lines) {
      let five;
      try {
        five = instruction(line);
      } catch {
        continue; // a line that says nothing
      }
      const wanted = explained(garage, record, five).flatMap(({ number, holds, words, lines: below }) => [`  ${number} ${holds ? 'yes' : 'no '}  ${words}`, ...below.map((one) => `          ${one.words}`)]);
      const whole = `${lineOf(five)}\n${wanted.join('\n')}\nverdict ${garage.allowed(record, five).number}`;
      assert.ok(shown.indexOf(whole, from) >= 0, `${whole}\nis not in\n${shown}`);
      from = shown.indexOf(whole, from) + 1;
      conditions += wanted.length;
      record = garage.next(record, five).record;
    }
  });
  assert.ok(conditions > 100);
});

test('a condition that fails names parts of the floor, unless the words alone decide it', () => {
  const seeded = new Seeded(3), station = garage.station();
  for (let tries = 0; tries < 2000; tries++) {
    const five = anyFive(seeded), failed = explained(garage, station.record, five).find(({ holds }) => !holds);
    if (failed && ![20, 21, 25].includes(failed.number) && !failed.lines.some(({ words }) => /^there is no row/.test(words))) {
      assert.notEqual(faultsOf(explained(garage, station.record, five)), 0n, lineOf(five));
    }
    const [next] = allowedSet(seeded, garage, station.record, 0n, 1);
    if (next && station.request([next]).taken) station.result(station.issue, 0, Outcome.Done);
  }
});

test('a record has a hint exactly if it is not sound', () => {
  const seeded = new Seeded(17), counts = [0, 0];
  let record = START;
  for (let tries = 0; tries < 30000; tries++) {
    const [next] = allowedSet(seeded, garage, record, 0n, 1);
    if (next && tries % 3 === 0) record = garage.next(record, next).record;
    let near = record;
    for (let flips = seeded.below(4); flips > 0; flips--) near ^= 1n << BigInt(seeded.oneIn(3) ? 40 + seeded.below(18) : seeded.below(40));
    if (seeded.oneIn(3)) near ^= 3n << BigInt(seeded.below(19));
    const sound = garage.sound(near);
    assert.equal(hints(near).length === 0, sound, `${hexOf(bytesOf(near))}: ${hints(near).map(({ words }) => words)}`);
    counts[Number(sound)] += 1;
    if (sound && seeded.oneIn(8)) record = near;
  }
  assert.ok(counts.every((count) => count > 2000), counts);
});

test('the drawing of any record is that of the entries where it is sound, and reads back', () => {
  const seeded = new Seeded(23), station = garage.station(), seen = new Set();
  for (const message of traffic(garage, 4, 3000)) {
    station.message(message);
    seen.add(station.record);
  }
  assert.ok(seen.size > 200);
  for (const record of seen) assert.equal(linesOf(record), garage.drawing(record).text);
  for (let tries = 0; tries < 500; tries++) {
    const record = START ^ (1n << BigInt(seeded.below(52))) ^ (1n << BigInt(seeded.below(53)));
    assert.equal(recordOf(linesOf(record)), record);
  }
});

test('files are read, or refused in one sentence', () => {
  const bytes = (digits) => Uint8Array.from(digits.match(/../g), (two) => parseInt(two, 16)), text = (words) => new TextEncoder().encode(words);
  const log = readFile(garage, 'log', text('> 03 00 02\n00 01 02000500 # both\n< 06 00 80 00 00 FF 00 00\n!\n02 00 05 00\n'));
  assert.deepEqual([log.count, log.old.length, log.note, hexOf(log.bytes)], [3, 1, '', '03 00 02 00 01 02 00 05 00 02 00 05 00']);
  assert.equal(readFile(garage, 'journal', bytes('0200050003000200010200')).note, 'it ends inside a message, at byte 9; that rest is left out');
  for (const wrong of [new Uint8Array(0), text('hello'), bytes('ffff0000'), bytes('0600800000FF0000'), text('> 02 00\n> 02 00 05 00')]) {
    assert.throws(() => readFile(garage, 'it', wrong), (why) => why instanceof BadFile && /^it.*\.$/.test(why.message) && !why.message.includes('\n'));
  }
});

test('a log is answered as bin/station answers it, and any place of it is found again', async () => {
  const all = Buffer.concat([...traffic(garage, 9, 9000)]), log = new Log(garage, readFile(garage, 'journal', new Uint8Array(all)));
  await log.answer(async () => {});
  const station = garage.station(), answers = wrote('bin/station', all), states = [station.bytes.slice()];
  let reply = 0;
  for (let at = 0; at < log.count; at++) {
    station.message(log.message(at));
    states.push(station.bytes.slice());
    assert.equal(log.numbers[at], answers[reply + 2] === 128 ? answers[reply + 4] : 0);
    reply += endOf(answers.subarray(reply), 0);
  }
  for (const at of [0, 1, 4095, 4096, 4097, 8191, 8192, 8999, 9000, 17]) assert.deepEqual(log.stationAt(at).bytes, states[at]);
  const refused = [...log.numbers.keys()].filter((at) => log.numbers[at]);
  assert.deepEqual(log.refused, refused);
  assert.equal(log.nextRefused(refused[3]), refused[4]);
  assert.equal(log.nextRefused(refused[3], true), refused[2]);
  assert.equal(log.nextRefused(9000), -1);
  for (const [from, to] of [[0, 40], [300, 340], [5000, 5030]]) {
    const lines = log.example(from, to).split('\n').filter((line) => /^[<>]/.test(line)), of = (mark) => lines.filter((line) => line[0] === mark).map((line) => line.slice(2)).join(' ');
    assert.equal(hexOf(wrote('bin/station', Uint8Array.from(of('>').split(' '), (two) => parseInt(two, 16)))), of('<'));
    // what the log accepts the example accepts; behind its image, if it begins with one
    const told = lines.filter((line) => line[0] === '<').map((line) => line.slice(2).split(' ')).map((bytes) => (bytes[2] === '80' ? parseInt(bytes[4], 16) : 0));
    const own = told.length === to ? told : told.slice(1), first = to - own.length;
    own.forEach((number, at) => assert.equal(number === 0, log.numbers[first + at] === 0, `${from}, ${at}`));
    assert.equal(log.hexadecimal(from, to).trim().split('\n').length, 2 * (to - from));
  }
});

test('motors that are played answer each instruction once, and two orders end in one record', () => {
  const seeded = new Seeded(31);
  let compared = 0;
  for (let seed = 0; seed < 300; seed++) {
    const desk = garage.desk();
    desk.image(0x0049330020201803n, [1, 2, 3, 4]);
    const fives = allowedSet(seeded, garage, desk.record, 0n, 4);
    assert.ok(desk.request(fives).taken);
    const [one, other] = twoOrders(desk.set, seed, true), ends = [one, other].map((order) => {
      const own = desk.copy();
      for (const { at, outcome } of order) assert.ok(own.result(own.issue, at, outcome).taken);
      return own;
    });
    assert.deepEqual(played(desk.set, seed, true), one);
    assert.equal(ends[0].set.length, 0);
    assert.deepEqual(ends[0].bytes, ends[1].bytes);
    if (fives.length > 1) {
      assert.notDeepEqual(one.map(({ at }) => at), other.map(({ at }) => at));
      compared += 1;
    }
  }
  assert.ok(compared > 200);
});

test('what is told before a set is sent is what the station then answers', () => {
  const seeded = new Seeded(41), station = garage.station(), composer = new Composer(garage, () => {}), came = new Set();
  for (const message of traffic(garage, 12, 6000)) {
    station.message(message);
    const chosen = seeded.oneIn(2) ? allowedSet(seeded, garage, station.record, station.apart, 1) : [];
    Object.assign(composer, { chosen, draft: anyFive(seeded), touched: true });
    const { number } = composer.judged(station), answer = station.copy().request([...chosen, composer.draft]);
    assert.equal(number, answer.number, `${[...chosen, composer.draft].map(lineOf)} on ${hexOf(station.bytes)}`);
    came.add(number);
  }
  for (const number of [0, 6, 8, 20, 21, 22, 23, 24, 26, 27, 28, 31, 32]) assert.ok(came.has(number), `${number} never came`);
});
