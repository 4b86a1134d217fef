// The module beside the programs: the same answers to the same messages, the same report, verdicts and drawings.
import assert from 'node:assert/strict';
import { test } from 'node:test';
import { endOf, hexOf, planBytes, planIn, Run } from '../index.js';
import { traffic } from '../traffic.js';
import { blocks, garage, text, wrote } from './tree.js';

const COUNT = 5000;

function sent(seed) {
  return [...traffic(garage, seed, COUNT)];
}

test('5,000 random messages are answered as bin/station answers them, and counted as bin/report counts them', () => {
  for (const seed of [1, 2026]) {
    const messages = sent(seed), station = garage.station(), totals = garage.totals();
    const all = Buffer.concat(messages), wanted = wrote('bin/station', all);
    let at = 0;
    const numbers = new Set();
    for (const message of messages) {
      totals.count(station, message);
      const { answer, reply } = station.message(message);
      numbers.add(answer.number);
      assert.equal(hexOf(reply), hexOf(wanted.slice(at, at + reply.length)), `seed ${seed}, at ${at}`);
      at += reply.length;
    }
    assert.equal(at, wanted.length);
    assert.ok(numbers.size > 12, `only ${numbers.size} numbers came`);
    const report = new TextDecoder().decode(wrote('bin/report', all));
    assert.equal(totals.lines().map(([name, value]) => `${name} ${value}\n`).join(''), report);
  }
});

test('a run in the module answers the same, and can be put back', () => {
  const all = Buffer.concat(sent(3)), run = new Run(garage.entries, all.length), station = garage.station();
  run.lend(all);
  let kept = null;
  for (let at = 0, count = 0; at < all.length; count++) {
    const end = endOf(all, at);
    run.count(at, end - at);
    const { answer } = station.message(all.subarray(at, end));
    assert.equal(run.answer(at, end - at) & 255, answer.number);
    if (count === COUNT / 2) kept = { bytes: run.station(), at: end };
    at = end;
  }
  assert.deepEqual(run.station(), station.bytes);
  run.restore(kept.bytes);
  assert.deepEqual(run.station(), kept.bytes);
  for (let at = kept.at; at < all.length; at = endOf(all, at)) run.answer(at, endOf(all, at) - at);
  assert.deepEqual(run.station(), station.bytes);
  const report = new TextDecoder().decode(wrote('bin/report', all));
  assert.equal(run.counted().lines().map(([name, value]) => `${name} ${value}\n`).join(''), report);
});

test('the plans of the pages have the same bytes and verdicts', () => {
  const plans = [text('docs/plans/park-and-fetch.plan'), text('docs/plans/row-three.plan')];
  let last = null, verdicts = 0, whys = 0, wrong = 0;
  for (const block of blocks('docs/PLANS.md')) {
    if (block.word === 'plan') plans.push((last = block.text));
    if (block.word === 'bytes') assert.equal(hexOf(planBytes(planIn(last))), block.text.trim().split(/\s+/).join(' '));
    if (block.word === 'wrong') {
      assert.equal(planIn(last).wrong.map(({ line, why }) => `plan-text: line ${line}: ${why}\n`).join(''), block.text);
      wrong++;
    }
    if (block.word === 'verdict') {
      const answer = garage.judge(planBytes(planIn(last))), [number] = block.text.split(' ');
      assert.equal(answer.taken ? 'accepted\n' : number, answer.taken ? block.text : String(answer.number));
      if (answer.place !== null) assert.ok(block.text.endsWith(`, set ${answer.place}\n`), block.text);
      verdicts++;
    }
    if (block.word === 'why') {
      const { answer, place, earlier, record } = garage.explain(planBytes(planIn(last))), hex = hexOf(garage.bytes(record));
      assert.deepEqual(answer, garage.judge(planBytes(planIn(last))));
      assert.ok(block.text.includes(`${answer.place === null ? 'at the end' : `before set ${answer.place}`}: image ${hex}\n`), block.text);
      assert.equal(place === null, !block.text.includes(`\ninstruction ${place}: `), block.text);
      assert.equal(earlier === null, !block.text.includes(`\n  it overlaps ${earlier}: `), block.text);
      whys++;
    }
  }
  assert.ok(verdicts > 4 && whys > 2 && wrong > 0);
  for (const plan of plans.filter((one) => planIn(one).wrong.length === 0)) {
    const bytes = planBytes(planIn(plan)), told = new TextDecoder().decode(wrote('bin/plan', bytes));
    assert.equal(garage.judge(bytes).taken, told === 'accepted\n');
    assert.deepEqual(bytes, wrote('tools/plan-text', plan));
  }
});
