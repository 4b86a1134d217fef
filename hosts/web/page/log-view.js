// The log on the screen: a file is opened, and every message of it can be looked at, with the floor after it.

import { bytesOf, hexOf } from '../bytes.js';
import { Numbers, wordsOf } from '../numbers.js';
import { answerNodes, messageNodes } from './answer.js';
import { cardsIn, cardsText, WrongCards } from './cards.js';
import { button, byId, download, fill, html, pause, some } from './dom.js';
import { says } from './explain.js';
import { BadFile, carsBrought, readFile, startIn } from './files.js';
import { drawFloor } from './floor.js';
import { Log } from './log.js';
import { Ticker, waitingIn } from './motors.js';
import { knownCars, summary } from './record-words.js';

const SPEEDS = [[1, 'one a second'], [10, 'ten a second'], [1000, 'a thousand a second']];
const BUSIEST = 30; // steps a second

export class LogView {
  constructor(library, { drawn }) {
    Object.assign(this, { library, log: null, at: 0, speed: 1, opened: null, wanted: null });
    this.ticker = new Ticker(() => this.tick(), () => this.showControls());
    const drop = byId('drop'), input = byId('file');
    input.addEventListener('change', () => input.files[0] && this.openFile(input.files[0]));
    drop.addEventListener('dragover', (event) => { event.preventDefault(); drop.classList.add('over'); });
    drop.addEventListener('dragleave', () => drop.classList.remove('over'));
    drop.addEventListener('drop', (event) => {
      event.preventDefault();
      drop.classList.remove('over');
      if (event.dataTransfer.files[0]) this.openFile(event.dataTransfer.files[0]);
    });
    byId('paste').addEventListener('submit', (event) => {
      event.preventDefault();
      this.open('The pasted log', new TextEncoder().encode(byId('pasted').value));
    });
    byId('start').addEventListener('submit', (event) => {
      event.preventDefault();
      if (this.opened) this.open(...this.opened);
    });
    byId('start-drawn').addEventListener('click', () => { byId('start-image').value = hexOf(bytesOf(drawn())); });
    byId('slider').addEventListener('input', (event) => this.goSoon(Number(event.target.value)));
  }

  /** Goes to a place with the next frame: a slider says more places than can be shown. */
  goSoon(count) {
    if (this.wanted === null) {
      requestAnimationFrame(() => {
        this.go(this.wanted);
        this.wanted = null;
      });
    }
    this.wanted = count;
  }

  async openFile(file) {
    await this.open(file.name, new Uint8Array(await file.arrayBuffer()));
  }

  /** Says how far a log is gone over, and lets the page go on. */
  async breathe(count, done) {
    byId('log-note').textContent = `${some(count, 'message')} ${done} …`;
    await pause();
  }

  /** The messages of a file, and where they begin if it does not say so itself. */
  read(name, bytes, cards) {
    const { library } = this, file = readFile(library, name, bytes);
    const given = file.start ? null : startIn(library, byId('start-image').value, byId('start-issue').value, byId('start-cards').value);
    if (given) file.start = given.station;
    if (given?.cards) file.cards.set(-1, given.cards);
    for (const [at, all] of cards) file.cards.set(at, all);
    return file;
  }

  /** Opens a file's bytes; what is wrong with it is told in one sentence. Cards may be known of its messages. */
  async open(name, bytes, cards = new Map()) {
    this.ticker.stop();
    this.opened = [name, bytes, cards];
    const note = byId('log-note');
    note.className = 'told';
    note.textContent = `Reading ${name} …`;
    try {
      const begun = performance.now(), log = new Log(this.library, this.read(name, bytes, cards));
      if (!(await log.answer((count) => this.breathe(count, 'answered')))) return;
      if (log.file.kind === 'journal') this.opened = null; // it says itself where it begins
      this.log = log;
      this.took = performance.now() - begun;
      note.className = `told ${log.file.wrong || log.differ.length || log.twice.length ? 'no' : 'yes'}`;
      note.textContent = this.headline();
      byId('log-body').hidden = false;
      this.showMarks();
      this.go(log.count);
    } catch (why) {
      if (!(why instanceof BadFile)) throw why;
      note.className = 'told no';
      note.textContent = why.message;
    }
  }

  headline() {
    const { file, refused, differ, twice } = this.log, begins = file.kind !== 'journal' && file.start ? ', from the image given on' : '';
    const parts = [`${file.name}: ${some(file.count, 'message')}, ${some(refused.length, 'rejection')}${begins}`];
    if (file.garage) parts.push(`journal of the garage ${file.garage}`);
    const agree = differ.length ? `${differ.length} of them not this station's` : "all of them this station's";
    if (file.old) parts.push(`${some(file.old.length, 'answer')} in the log, ${agree}`);
    if (file.note) parts.push(file.note);
    for (const { at, card } of twice) parts.push(`card ${card} of message ${at + 1} is in the garage already (a desk would tell 38), and is left out`);
    return `${parts.join('; ')}.`;
  }

  /** Where rejections are, along the slider: the more of some messages are rejected, the higher. */
  showMarks() {
    const { log } = this, canvas = byId('marks'), paint = canvas.getContext('2d');
    const columns = Math.min(600, log.count), rejected = new Uint32Array(columns);
    Object.assign(canvas, { width: columns, height: 24 });
    paint.fillStyle = getComputedStyle(canvas).color;
    for (const at of log.refused) rejected[Math.floor((at * columns) / log.count)] += 1;
    rejected.forEach((count, x) => {
      const high = count ? Math.max(3, Math.round((canvas.height * count * columns) / log.count)) : 0;
      paint.fillRect(x, canvas.height - high, 1, high);
    });
    canvas.setAttribute('aria-label', `${some(log.refused.length, 'rejection')} among ${some(log.count, 'message')}`);
  }

  tick() {
    if (this.at >= this.log.count) return null;
    this.go(Math.min(this.log.count, this.at + Math.max(1, Math.round(this.speed / BUSIEST))));
    return Math.max(1000 / BUSIEST, 1000 / this.speed);
  }

  /** Shows the log after its first so many messages. */
  go(count) {
    const { log, library } = this;
    this.at = count;
    const slider = byId('slider');
    slider.max = String(log.count);
    slider.value = String(count);
    slider.setAttribute('aria-valuetext', `message ${count} of ${log.count}`);
    const before = log.stationAt(Math.max(0, count - 1)), station = before.copy();
    const answered = count ? station.message(log.message(count - 1)) : null;
    const { record, apart, set } = station, floor = { library, record, apart, ...log.cardsAt(count), mode: 'still', motion: waitingIn(set) };
    const known = knownCars(floor), words = `${summary(floor)}${known && `. ${known[0].toUpperCase()}${known.slice(1)}`}`;
    drawFloor(byId('log-floor'), { ...floor, label: `The floor after message ${count}: ${words}` });
    byId('log-summary').textContent = `After message ${count.toLocaleString('en')} of ${log.count.toLocaleString('en')}: ${words}.`;
    this.showMessage(count - 1, before, answered);
    this.showControls();
  }

  /** The message at a place, with the station before it and what that answered. */
  showMessage(at, before, answered) {
    const { log, library } = this, node = byId('log-message');
    const ended = log.file.ended.filter(({ after }) => after === at + 1).map(({ answer, bytes }) => html('p', { class: 'told no ended' },
      `Then a session ended: ${answer} (${wordsOf(answer)})`, bytes.length ? `, with ${hexOf(bytes)} left.` : '.'));
    if (!answered) {
      const first = log.file.start ? 'The station that the log begins with, before the first message.' : 'The station at its start, before the first message.';
      return fill(node, html('p', { class: 'quiet' }, first), this.cardsNodes(at, library.cardPlaces(before.record).length), ended);
    }
    const bytes = log.message(at), { answer, reply } = answered, cars = log.numbers[at] === Numbers.Taken ? carsBrought(library, bytes) : 0;
    return fill(node, html('h3', {}, `Message ${(at + 1).toLocaleString('en')}: ${says(bytes).title}`), messageNodes(bytes),
      this.cardsNodes(at, cars), this.oldAnswer(at, reply), answerNodes(library, before, bytes, answer, reply, log.stuckBefore(at)), ended);
  }

  /** The cards of so many cars that a message brings: those that are known, to be told by hand. */
  cardsNodes(at, cars) {
    if (!cars) return null;
    const { log } = this, begin = at >= 0 && says(log.message(at)).title.startsWith('Event'), known = log.file.cards.get(at);
    const told = html('p', { class: 'told no', role: 'alert' });
    const take = async (event) => {
      event.preventDefault();
      try {
        const said = byId('cards').value, all = said.trim() ? cardsIn(said, begin) : [];
        if (all.length && all.length !== cars) throw new WrongCards(`${some(cars, 'card')} are expected, as many as there are cars`);
        if (!(await log.tell(at, all, (count) => this.breathe(count, 'followed')))) throw new WrongCards(`card ${all[0]} is in the garage already`);
        byId('log-note').textContent = this.headline();
        this.go(this.at);
      } catch (why) {
        if (!(why instanceof WrongCards)) throw why;
        told.textContent = `${why.message}.`;
      }
    };
    return html('form', { class: 'line', onsubmit: take },
      html('label', { for: 'cards' }, begin ? 'Card of this car' : `Cards of its ${some(cars, 'car')}, in the order of the cells`),
      html('input', { id: 'cards', autocomplete: 'off', spellcheck: 'false', value: known ? cardsText(known) : '', placeholder: begin ? 'not known' : '7001 - 12' }),
      html('button', { type: 'submit', id: 'tell-cards' }, 'Show'), told);
  }

  /** What the log says was answered, beside the station's answer. */
  oldAnswer(at, reply) {
    const old = this.log.file.old?.[at];
    if (!old) return null;
    if (hexOf(old) === hexOf(reply)) return html('p', { class: 'told yes' }, 'The log has the same answer.');
    return html('p', { class: 'told no' }, `The log has another answer: ${says(old).title} (${hexOf(old)}).`);
  }

  showControls() {
    const { log, at } = this;
    if (!log) return;
    const node = byId('log-controls'), running = this.ticker.runs, near = (back) => log.nextRefused(this.at - 1, back);
    const enabled = [near(true) >= 0, at > 0, running || at < log.count, at < log.count, near(false) >= 0], shown = [running, ...enabled].join(' ');
    if (node.dataset.shown === shown) return;
    node.dataset.shown = shown;
    const held = node.contains(document.activeElement) ? document.activeElement.id : null;
    const control = (id, words, place, onclick) => button(words, onclick, { id, disabled: !enabled[place] });
    const speeds = SPEEDS.map(([speed, words]) => html('option', { value: speed, selected: speed === this.speed }, words));
    fill(node,
      control('previous-refused', '← Rejection', 0, () => this.go(near(true) + 1)),
      control('step-back', '← Step', 1, () => this.go(this.at - 1)),
      control('play-log', running ? 'Stop' : 'Play', 2, () => this.ticker.toggle()),
      control('step', 'Step →', 3, () => this.go(this.at + 1)),
      control('next-refused', 'Rejection →', 4, () => this.go(near(false) + 1)),
      html('label', {}, 'Speed ', html('select', { id: 'speed', onchange: ({ target }) => { this.speed = Number(target.value); } }, speeds)));
    if (held) byId(held)?.focus();
  }

  /** Saves the messages that are asked for. */
  save(how) {
    const { log } = this, from = Math.max(1, Number(byId('from').value) || 1), to = Math.min(log.count, Number(byId('to').value) || log.count);
    if (how === 'example') download('example.md', log.example(from - 1, to), 'text/markdown');
    else download('part.log', log.hexadecimal(from - 1, to), 'text/plain');
  }
}
