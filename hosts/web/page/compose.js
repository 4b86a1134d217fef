// Building a set: an instruction is chosen on the floor, by controls or in words; it is judged before it is sent.

import { Numbers, Op } from '../numbers.js';
import { beltsOf, HEIGHTS, instruction, lineOf, ORIENTATIONS, ROWS, SIDES, SIZES, WrongLine } from '../words.js';
import { explained, faultsOf } from './conditions.js';
import { choice, choices, html, fill } from './dom.js';
import { partsIn } from './record-words.js';

const OPS = [[1, 'Belts'], [2, 'Shuttles'], [3, 'Tilt'], [4, 'Lift'], [5, 'Rotate']];
const FRESH = { 1: [1, 1, 0, 1, 1], 2: [2, 0, 0, 0, 1], 3: [3, 0, 3, 1, 0], 4: [4, 2, 0, 0, 0], 5: [5, 0, 0, 0, 0] };
const SET_MOST = 8;

/** The set that is being built; `changed` is called after each change. */
export class Composer {
  constructor(library, changed) {
    Object.assign(this, { library, changed, draft: Uint8Array.from(FRESH[Op.Lift]), touched: false, chosen: [], wrong: '', typing: null });
  }

  put(...bytes) {
    this.draft = Uint8Array.from(bytes);
    Object.assign(this, { touched: true, wrong: '', typing: null });
    this.changed();
  }

  /** A part of the floor was picked. */
  pick(part) {
    const [what, one, other] = part.split('-'), first = Number(one), second = Number(other), [op, a, b, c, d] = this.draft;
    if (what === 'lift' && first === 1 && op === Op.Lift && a === 1) return this.put(...FRESH[Op.Rotate]);
    if (what === 'lift') return this.put(Op.Lift, first, 0, 0, 0);
    const last = what === 'belt' ? beltsOf(first).length - 1 : 0, shuttle = what === 'slot' || second === 0 || second === last;
    if ((op === Op.Shuttles || op === Op.Tilt) && shuttle) {
      const tilted = Number(what === 'slot'), side = what === 'slot' ? Math.floor((first - 46) / 3) : Number(second !== 0);
      const row = what === 'slot' ? (first - 46) % 3 : first - 1;
      if (op === Op.Tilt) return this.put(op, side, row + 1, tilted, 0);
      return a === side && c === tilted ? this.put(op, a, b ^ (1 << row), c, d) : this.put(op, side, 1 << row, tilted, d);
    }
    if (what === 'slot') return this.put(Op.Tilt, Math.floor((first - 46) / 3), 1 + ((first - 46) % 3), 1, 0);
    if (op === Op.Belts && a === first) return this.put(op, a, b ^ (1 << second), c, d);
    return this.put(Op.Belts, first, 1 << second, op === Op.Belts ? c : 1, op === Op.Belts && first === 1 ? d : 1);
  }

  /** The parts of the floor that the draft names. */
  get pressed() {
    const [op, a, b, c] = this.draft, found = new Set();
    if (!this.touched) return found;
    if (op === Op.Belts) beltsOf(a).forEach((_, belt) => { if ((b >> belt) & 1) found.add(`belt-${a}-${belt}`); });
    const rows = op === Op.Shuttles ? [0, 1, 2].filter((row) => (b >> row) & 1) : op === Op.Tilt ? [b - 1] : [];
    for (const row of rows) found.add(c ? `slot-${46 + 3 * a + row}` : `belt-${row + 1}-${a ? beltsOf(row + 1).length - 1 : 0}`);
    if (op === Op.Lift) found.add(`lift-${a}`);
    return found;
  }

  /** What the station would tell of the draft here, so far as can be known before it is sent: a number, words, the conditions. */
  judged({ record, apart, set }) {
    const { library, draft } = this, area = library.area(draft), conditions = explained(library, record, draft), answer = library.allowed(record, draft);
    const with_ = (number, words) => ({ number, words, conditions, faults: 0n });
    if (!this.touched) return with_(null, this.chosen.length ? 'Choose another instruction, or send the set.' : 'Choose an instruction.');
    if (set.length) return with_(Numbers.SetOutstanding, 'a set is outstanding: report its results first');
    if (answer.number === Numbers.OutOfTurn) return with_(31, 'a drive is under way, and the lift is in its area');
    if (area & apart) return { ...with_(32, `it touches what is set apart: ${partsIn(area & apart)}`), faults: area & apart };
    const at = this.chosen.findIndex((five) => !library.overlap(five, draft).taken);
    if (at >= 0) {
      return with_(8, `it overlaps ${at}: ${lineOf(this.chosen[at])}: both have ${partsIn(library.area(this.chosen[at]) & area)}`);
    }
    return { number: answer.number, words: answer.taken ? 'allowed' : answer.words, conditions, faults: faultsOf(conditions) };
  }

  add() {
    if (this.chosen.length < SET_MOST) this.chosen.push(this.draft);
    Object.assign(this, { touched: false, typing: null });
    this.changed();
  }

  remove(at) {
    this.chosen.splice(at, 1);
    this.changed();
  }

  submitted(event) {
    event.preventDefault();
    if (!this.wrong) this.add();
  }

  /** A line is being typed: it stays as it is, and is the draft where it says an instruction. */
  typed(line) {
    this.typing = line;
    try {
      Object.assign(this, { draft: instruction(line), touched: true, wrong: '' });
    } catch (why) {
      if (!(why instanceof WrongLine)) throw why;
      this.wrong = why.message;
    }
    this.changed();
  }

  /** The controls of the draft. */
  controls() {
    const [op, a, b, c, d] = this.draft, put = (...bytes) => this.put(...bytes);
    const parts = [choice('op', 'Instruction', OPS, op, (next) => put(...FRESH[next]))];
    const ways = (words, value, onpick) => choice('toward', 'Toward', words, value, onpick);
    if (op === Op.Belts) {
      parts.push(choice('row', 'Row', ROWS.map((row) => [Number(row), row]), a, (row) => put(op, row, 0, c, row === 1 ? d : 1)),
        choices('belts', 'Belts', beltsOf(a), b, (mask) => put(op, a, mask, c, d)),
        ways([[0, '← lower'], [1, 'higher →']], c, (way) => put(op, a, b, way, d)),
        choice('size', 'How far', SIZES.map((size, at) => [at, size]), d, (size) => put(op, a, b, c, size)));
    }
    if (op === Op.Shuttles) {
      parts.push(choice('side', 'Side', SIDES.map((side, at) => [at, side]), a, (side) => put(op, side, b, c, d)),
        choices('rows', 'Rows', ROWS, b, (mask) => put(op, a, mask, c, d)),
        choice('stands', 'Those', ORIENTATIONS.map((one, at) => [at, one]), c, (one) => put(op, a, b, one, d)),
        ways([[0, '↑ lower'], [1, '↓ higher']], d, (way) => put(op, a, b, c, way)));
    }
    if (op === Op.Tilt) {
      parts.push(choice('side', 'Side', SIDES.map((side, at) => [at, side]), a, (side) => put(op, side, b, c, 0)),
        choice('row', 'Row', ROWS.map((row) => [Number(row), row]), b, (row) => put(op, a, row, c, 0)),
        choice('stands', 'It is now', ORIENTATIONS.map((one, at) => [at, one]), c, (one) => put(op, a, b, one, 0)));
    }
    if (op === Op.Lift) parts.push(choice('height', 'To', HEIGHTS.map((height, at) => [at, height]), a, (height) => put(op, height, 0, 0, 0)));
    return parts;
  }

  /** Shows the composer in a node. */
  show(node, station, send) {
    const verdict = this.judged(station), held = node.contains(document.activeElement) ? document.activeElement : null;
    fill(node,
      html('div', { class: 'controls' }, this.controls()),
      html('form', { class: 'line', onsubmit: (event) => this.submitted(event) },
        html('label', { for: 'words' }, 'In words'),
        html('input', {
          id: 'words', name: 'line', value: this.typing ?? lineOf(this.draft), autocomplete: 'off', spellcheck: 'false',
          oninput: (event) => this.typed(event.target.value),
        }),
        html('button', { id: 'add', type: 'submit', disabled: this.chosen.length >= SET_MOST }, 'Add to the set')),
      this.wrong ? html('p', { class: 'told no', role: 'alert' }, this.wrong) : verdictLine(verdict),
      html('details', { class: 'conditions', open: verdict.number >= 20 && verdict.number <= 28 },
        html('summary', {}, 'Conditions, in the order of the rules'),
        html('ol', {}, verdict.conditions.map(({ number, holds, words, lines }) => html('li', { class: holds ? 'yes' : 'no' },
          html('span', { class: 'mark' }, holds ? 'holds' : 'fails'), `${number} ${words}`,
          html('ul', {}, lines.map((line) => html('li', {}, line.words))))))),
      html('div', { class: 'set' }, html('h3', {}, `The set: ${this.chosen.length} of ${SET_MOST}`),
        html('ol', { start: 0 }, this.chosen.map((five, at) => html('li', {}, html('code', {}, lineOf(five)), ' ',
          html('button', { class: 'quiet', type: 'button', 'aria-label': `Remove ${lineOf(five)}`, onclick: () => this.remove(at) }, 'Remove')))),
        html('button', { id: 'send', class: 'main', type: 'button', disabled: !this.chosen.length, onclick: send }, 'Send the set')));
    if (held) focusAgain(node, held);
    return verdict;
  }
}

function verdictLine({ number, words }) {
  const kind = number === null ? '' : number ? 'no' : 'yes';
  return html('p', { class: `told ${kind}`, id: 'verdict', 'aria-live': 'polite' }, html('b', {}, number ? `${number} ` : ''), words);
}

/** Puts the focus, and the caret, to where it was before a node was filled anew. */
function focusAgain(node, held) {
  const same = (one) => one.id === held.id && (one.id || (one.name === held.name && one.value === held.value));
  const again = [...node.querySelectorAll('input, button')].find(same);
  again?.focus();
  if (held.id === 'words') again.setSelectionRange(held.selectionStart, held.selectionEnd);
}
