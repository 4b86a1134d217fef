// A plan: its text, the verdict, and its sets step by step on the floor.

import { bytesOf, hexOf, numberAt } from '../bytes.js';
import { Outcome } from '../numbers.js';
import { planBytes, planIn } from '../plans.js';
import { lineOf } from '../words.js';
import { button, byId, fill, html, some } from './dom.js';
import { told } from './explain.js';
import { drawFloor } from './floor.js';
import { Ticker } from './motors.js';
import { summary } from './record-words.js';

const FIRST = `image 00 00 00 00 00 1B 19 00
wish without a car

# the car on the lift goes down, and onto the left belt
lift basement

belts row 1 left lift, lower, full

# the lift is free for the next driver, beside a belt of row 2
lift street
belts row 2 middle, lower, full
`;

export class PlanView {
  constructor(library) {
    Object.assign(this, { library, at: 0, steps: [] });
    this.ticker = new Ticker(() => (this.at >= this.steps.length - 1 ? null : (this.go(this.at + 1), 1200)), () => this.showSteps());
    byId('plan').addEventListener('input', () => this.judge());
    this.put(FIRST);
  }

  put(text) {
    byId('plan').value = text;
    this.judge();
  }

  /** A plan that begins with a record. */
  from(record) {
    this.put(`image ${hexOf(bytesOf(record))}\nwish without a car\n`);
  }

  judge() {
    this.ticker.stop();
    const { library } = this, plan = planIn(byId('plan').value), verdict = byId('plan-verdict');
    this.steps = [];
    fill(byId('plan-wrong'), plan.wrong.map(({ line, why }) => html('li', {}, `line ${line}: ${why}`)));
    if (plan.wrong.length) {
      verdict.className = 'told no';
      verdict.textContent = `${some(plan.wrong.length, 'line')} can't be read.`;
      fill(byId('plan-steps'));
      return;
    }
    const answer = library.judge(planBytes(plan)), fault = answer.place;
    verdict.className = `told ${answer.taken ? 'yes' : 'no'}`;
    const where = fault === null ? '' : `, set ${fault} (line ${plan.sets[fault].line})`;
    verdict.textContent = answer.taken ? `Accepted: ${some(plan.sets.length, 'set')}.` : `${answer.number}: ${answer.words}${where}.`;
    this.play(plan, fault);
    this.go(fault === null ? this.steps.length - 1 : fault);
  }

  /** The stations from set to set, all instructions done, up to the first set that is refused. */
  play(plan, fault) {
    const station = this.library.station();
    if (!station.image(numberAt(plan.image)).taken) {
      this.steps = [{ record: numberAt(plan.image), fives: [], words: 'the starting record, which no garage can have', refused: null }];
      return;
    }
    for (const [at, { fives }] of plan.sets.entries()) {
      const before = station.record, answer = station.request(fives);
      this.steps.push({ record: before, fives, words: fives.map(lineOf).join('; '), refused: answer.taken ? null : told(answer, fives) });
      if (at === fault || !answer.taken) return;
      fives.forEach((_, number) => station.result(answer.issue, number, Outcome.Done));
    }
    this.steps.push({ record: station.record, fives: [], words: 'the end', refused: null });
  }

  go(at) {
    this.at = Math.max(0, Math.min(at, this.steps.length - 1));
    this.showSteps();
  }

  showSteps() {
    const { steps, at, library } = this, step = steps[at];
    if (!step) return;
    const { record, fives, refused } = step, floor = { library, record, mode: 'still', [refused ? 'chosen' : 'motion']: fives };
    drawFloor(byId('plan-floor'), { ...floor, label: `The floor of the plan: ${summary(floor)}` });
    byId('plan-summary').textContent = `${summary(floor)}.`;
    const held = byId('plan-steps').contains(document.activeElement) ? document.activeElement.id : null;
    const control = (id, words, enabled, onclick) => button(words, onclick, { id, disabled: !enabled });
    const play = () => {
      if (this.at >= steps.length - 1) this.at = 0;
      this.ticker.toggle();
    };
    const line = ({ words, refused: why }, place) => html('li', { class: why ? 'no' : '', 'aria-current': place === at ? 'step' : null },
      button(words, () => this.go(place), { class: 'quiet' }), why ? html('p', { class: 'told no' }, why) : null);
    fill(byId('plan-steps'),
      html('div', { class: 'row' }, control('plan-back', '← Set', at > 0, () => this.go(at - 1)),
        control('plan-play', this.ticker.runs ? 'Stop' : 'Play', steps.length > 1, play),
        control('plan-next', 'Set →', at < steps.length - 1, () => this.go(at + 1))),
      html('ol', { start: 0, class: 'sets' }, steps.map(line)));
    if (held) byId(held)?.focus();
  }
}
