// The station: sets are built and sent, results are reported by hand or played, drivers come and go. The desk that is called here is the
// proved one; the bytes of its answers are those of the station inside it.

import { hexOf } from '../bytes.js';
import { Append, JournalBytes } from '../journals.js';
import { Event, Outcome, Size } from '../numbers.js';
import { askOf, eventOf, imageOf, requestOf, resultOf } from '../messages.js';
import { lineOf } from '../words.js';
import { answerNodes, messageNodes } from './answer.js';
import { whereabouts } from './cards.js';
import { Composer } from './compose.js';
import { button, byId, copyText, download, fill, html } from './dom.js';
import { OUTCOMES, says } from './explain.js';
import { Jams } from './jams.js';
import { drawFloor } from './floor.js';
import { cardsOf, stationLink } from './link.js';
import { played, Ticker, twoOrders, waitingIn } from './motors.js';
import { summary } from './record-words.js';

const FIRST_CARD = 7001;
const IN_USE = 0x0049330020201803n; // the garage of README's first drawing
const SHOWN_MOST = 200;

export class Live {
  constructor(library, { openLog }) {
    Object.assign(this, { library, openLog, history: [], card: FIRST_CARD, seed: 1, faults: false, last: null, note: '' });
    this.desk = library.desk();
    this.begun = this.desk.copy();
    this.composer = new Composer(library, () => this.show());
    this.motors = new Ticker(() => this.motor(), () => this.show());
    this.comparison = null;
    this.comparing = new Ticker(() => this.compareStep(), () => this.show());
  }

  /** Begins with another desk. */
  begin(desk) {
    this.motors.stop();
    Object.assign(this, { desk, begun: desk.copy(), history: [], last: null, comparison: null, note: '' });
    Object.assign(this.composer, { chosen: [], touched: false });
    this.show();
  }

  /** Begins with the desk of a link, which is nothing where the link's is none. */
  linked(desk) {
    this.begin(desk ?? this.library.desk());
    this.card = Math.max(FIRST_CARD, ...[...this.desk.cards.values()].map((card) => (card + 1) % 2 ** 32));
    this.note = desk ? '' : 'The link holds no station that can be: part of it is missing or changed.';
    this.show();
  }

  /** Sends a message: the desk is called, and the answer's bytes are those of the station inside. It may bring cards. */
  send(bytes, call, cards = []) {
    const inside = this.desk.station(), before = inside.copy(), { reply } = inside.message(bytes), answer = call(this.desk);
    const own = answer.number >= 37 && answer.number <= 39; // the desk's alone: the station was not sent it
    this.last = { bytes, reply: own ? null : reply, answer, before, cards };
    this.note = '';
    if (!own) this.history.push(this.last);
    return answer;
  }

  request() {
    const fives = this.composer.chosen;
    if (this.send(requestOf(fives), (desk) => desk.request(fives)).taken) this.composer.chosen = [];
    this.show();
  }

  event(way) {
    const brings = way === Event.BeginIn ? [this.card] : [];
    const answer = this.send(eventOf(way), (desk) => desk.event(way, brings[0] ?? 0), brings);
    if (answer.taken && way === Event.BeginIn) this.card += 1;
    this.show();
  }

  result(at, outcome) {
    const { issue } = this.desk;
    this.send(resultOf(issue, at, outcome), (desk) => desk.result(issue, at, outcome));
    this.show();
  }

  ask() {
    this.send(askOf(), (desk) => desk.ask().answer);
    this.show();
  }

  /** Sends an image, with the cards that its cars have where they stand, and new ones for the others. */
  image(record) {
    const known = this.desk.cards, used = new Set();
    const card = (place) => {
      const own = known.get(place === Size.DESK_RAISED ? Size.DESK_AT_LIFT : place), found = own && !used.has(own) ? own : this.card++;
      used.add(found);
      return found;
    };
    const places = this.library.sound(record) ? this.library.places(record) : [];
    const cards = [...places.map(card), ...((record >> 55n) & 1n ? [card(Size.DESK_AT_DRIVE)] : [])];
    this.send(imageOf(record), (desk) => desk.image(record, cards), cards);
    this.show();
  }

  /** One result of the motors that the page plays. */
  motor() {
    const [next] = played(this.desk.set, this.seed * 65536 + this.desk.issue, this.faults);
    if (!next) return null;
    this.result(next.at, next.outcome);
    return this.desk.set.length ? next.after : null;
  }

  /** The outstanding set in two orders, beside each other. */
  compare() {
    const orders = twoOrders(this.desk.set, this.seed * 65536 + this.desk.issue, this.faults);
    this.comparison = { from: this.desk.copy(), step: 0, sides: orders.map((order) => ({ order, desk: this.desk.copy() })) };
    this.comparing.start();
  }

  compareStep() {
    const { sides, step } = this.comparison;
    if (step >= sides[0].order.length) return null;
    for (const { order, desk } of sides) desk.result(desk.issue, order[step].at, order[step].outcome);
    this.comparison.step += 1;
    this.show();
    return 1100;
  }

  floor() {
    const { library, desk, composer } = this, { record, apart } = desk;
    return { library, record, apart, ...whereabouts(desk), mode: 'belts', pressed: composer.pressed, onpick: (part) => composer.pick(part) };
  }

  show() {
    const { desk, composer } = this, open = desk.set.length === 0;
    const verdict = composer.show(byId('composer'), desk, () => this.request());
    const chosen = { chosen: composer.chosen, draft: open && composer.touched ? composer.draft : null, faults: open ? verdict.faults : 0n };
    const floor = { ...this.floor(), motion: waitingIn(desk.set), ...chosen };
    drawFloor(byId('live-floor'), { ...floor, label: `The floor: ${summary(floor)}` });
    byId('live-summary').textContent = `${summary(floor)}.`;
    this.showMotors();
    this.showDrivers();
    this.showAnswer();
    this.showHistory();
    this.showComparison();
  }

  showMotors() {
    const { set } = this.desk, outcomes = [[Outcome.Done, 'Done'], [Outcome.Failed, 'Failed'], [Outcome.Stuck, 'Stuck']];
    const results = (five, at) => html('span', { class: 'buttons', role: 'group', 'aria-label': `Result of ${lineOf(five)}` },
      outcomes.map(([outcome, words]) => button(words, () => this.result(at, outcome), { 'data-result': `${at}-${OUTCOMES[outcome]}` })));
    const row = ({ five, answered }, at) => html('li', {}, html('code', {}, lineOf(five)),
      answered ? html('span', { class: 'quiet' }, ' answered') : results(five, at));
    const seeded = ({ target }) => { this.seed = Number(target.value) & 65535; };
    const seed = html('input', { type: 'number', min: 0, max: 65535, value: String(this.seed), onchange: seeded });
    const faults = html('input', { type: 'checkbox', checked: this.faults, onchange: (event) => { this.faults = event.target.checked; } });
    const none = html('p', { class: 'quiet' }, 'No set is outstanding. An accepted set waits here for its results.');
    fill(byId('motors'), set.length ? html('ol', { start: 0 }, set.map(row)) : none,
      html('div', { class: 'row' },
        button(this.motors.runs ? 'Stop' : 'Play the motors', () => this.motors.toggle(), { id: 'play-motors', disabled: !set.length }),
        button('In two orders', () => this.compare(), { id: 'two-orders', disabled: waitingIn(set).length < 2 })),
      html('div', { class: 'row' }, html('label', {}, 'Seed ', seed), html('label', { class: 'check' }, faults, ' with failures and jams')));
  }

  showDrivers() {
    const event = (way, words) => button(words, () => this.event(way), { 'data-event': way });
    const carded = ({ target }) => { this.card = Number(target.value) >>> 0; };
    const card = html('input', { type: 'number', id: 'card', min: 0, max: 4294967295, value: String(this.card), onchange: carded });
    fill(byId('drivers'),
      html('div', { class: 'row' }, event(Event.BeginIn, 'Drive in'), html('label', {}, 'card ', card)),
      html('div', { class: 'row' }, event(Event.BeginOut, 'Drive out')),
      html('div', { class: 'row' }, event(Event.EndDone, 'Ended, done'), event(Event.EndNotDone, 'Ended, not done')));
  }

  /** The stuck results of what was sent that have set apart what is. */
  stuck() {
    const { history: sent, begun } = this, jams = new Jams(begun.set);
    sent.forEach(({ bytes, answer }, at) => { if (answer.taken) jams.note(at, bytes); });
    return jams.before(sent.length, (at) => sent[at].bytes);
  }

  showAnswer() {
    const { last, library, note } = this, node = byId('answer');
    if (note) return fill(node, html('p', { class: 'told no' }, note));
    if (!last) return fill(node, html('p', { class: 'quiet' }, 'Nothing was sent yet.'));
    return fill(node, html('p', { class: 'sent' }, says(last.bytes).title), messageNodes(last.bytes),
      answerNodes(library, last.before, last.bytes, last.answer, last.reply, this.stuck()));
  }

  /** All messages that were sent, as a journal: from the station that the session began with. */
  journal() {
    const { library, begun, history: sent } = this, made = new JournalBytes('page', library.version, begun.station().bytes);
    for (const { bytes } of sent) made.append(Append.Messages, bytes);
    return made.bytes();
  }

  /** The cards that its messages brought, and those of the cars that it began with. */
  brought() {
    const cards = new Map([[-1, cardsOf(this.library, this.begun)], ...this.history.map(({ cards: own }, at) => [at, own])]);
    return new Map([...cards].filter(([, all]) => all.length));
  }

  link() {
    history.replaceState(null, '', stationLink(this.library, this.desk));
    copyText(location.href, 'The link is copied. It holds the station, its set and its cards.', byId('link-copied'));
  }

  showHistory() {
    const { library, history: sent } = this, any = { disabled: !sent.length };
    const inUse = () => {
      this.begin(library.desk());
      this.image(IN_USE);
    };
    const anew = () => {
      this.card = FIRST_CARD;
      this.begin(library.desk());
    };
    const line = ({ bytes, answer }) => html('li', { class: answer.taken ? '' : 'no' }, says(bytes).title,
      html('span', {}, answer.taken ? ' taken' : ` ${answer.number} ${answer.words}`));
    fill(byId('history'),
      html('div', { class: 'row' },
        button('Open in the log', () => this.openLog('This session', this.journal(), this.brought()), { id: 'open-session', ...any }),
        button('Save as a journal', () => download('session.journal', this.journal(), 'application/octet-stream'), any),
        button('Copy a link', () => this.link(), { id: 'station-link' }),
        button('Ask for the image', () => this.ask()), button('A garage in use', inUse, { id: 'in-use' }),
        button('Start anew', anew, { id: 'anew' })),
      html('p', { class: 'quiet', role: 'status', id: 'link-copied' }),
      html('ol', { class: 'messages', reversed: true }, sent.slice(-SHOWN_MOST).reverse().map(line)));
  }

  showComparison() {
    const node = byId('comparison'), { comparison } = this;
    node.hidden = !comparison;
    if (!comparison) return;
    const { sides, step } = comparison, all = sides[0].order.length, ended = step >= all;
    const same = sides.every(({ desk }) => hexOf(desk.bytes) === hexOf(sides[0].desk.bytes));
    const verdict = same ? 'Both end in one record, with the same parts set apart.' : 'They differ.', kind = same ? 'yes' : 'no';
    const told = { class: `told ${ended ? kind : ''}`, id: 'one-record', 'aria-live': 'polite' };
    const close = () => {
      this.comparing.stop();
      this.comparison = null;
      this.show();
    };
    fill(node, html('h2', {}, 'The same set in two orders'),
      html('div', { class: 'two' }, this.sideNodes(sides[0], 'One order'), this.sideNodes(sides[1], 'Another order')),
      html('p', told, ended ? verdict : `${step} of ${all} results`),
      html('div', { class: 'row' }, button('Again', () => this.compare()), button('Close', close)));
  }

  /** One of the two orders: its floor, its results so far, and its record. */
  sideNodes({ desk, order }, title) {
    const { library, comparison } = this, { record, apart } = desk, host = html('div', { class: 'small-floor' });
    const floor = { library, record, apart, ...whereabouts(desk), mode: 'still', motion: waitingIn(desk.set) };
    drawFloor(host, { ...floor, label: `${title}: ${summary(floor)}` });
    const result = ({ at, outcome }, place) => html('li', { class: place < comparison.step ? 'past' : '' },
      `${lineOf(comparison.from.set[at].five)}: ${OUTCOMES[outcome]}`);
    return html('div', {}, html('h3', {}, title), host, html('ol', {}, order.map(result)),
      html('code', { class: 'bytes' }, hexOf(desk.bytes.slice(0, 8))));
  }
}
