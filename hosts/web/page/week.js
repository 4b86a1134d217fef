// The week: the report's totals of the log that is open, as bars.

import { wordsOf } from '../numbers.js';
import { byId, fill, html, pause, some } from './dom.js';

const KINDS = ['', 'requests', 'events', 'results', 'images', 'asks'];
const MOVES = ['', 'belts', 'shuttles', 'tilts', 'lift runs', 'rotations'];
const PLAIN = { 'cars-in': 'cars driven in', 'cars-out': 'cars driven out', 'most-cars': 'the most cars at once' };

/** The groups of the report's lines: a title, and which lines. */
const GROUPS = [
  ['Messages', (name) => name.startsWith('kind-') || name === 'answer-0'],
  ['Instructions done', (name) => name.startsWith('done-')],
  ['Failed or stuck', (name) => name.startsWith('failed-')],
  ['Cars', (name) => name in PLAIN],
  ['Rejections', (name) => name.startsWith('answer-') && name !== 'answer-0'],
];

function labelOf(name) {
  const [what, number] = name.split('-');
  if (name in PLAIN) return PLAIN[name];
  if (what === 'kind') return KINDS[number];
  if (name === 'answer-0') return 'accepted, but for asks';
  if (what === 'answer') return `${number} ${wordsOf(Number(number))}`;
  return MOVES[number];
}

function bars(title, lines) {
  const most = Math.max(1, ...lines.map(([, value]) => value));
  return html('table', { class: lines.length > 6 ? 'bars wide' : 'bars' }, html('caption', {}, title),
    html('tbody', {}, lines.map(([name, value]) => {
      const bar = html('span', { class: 'bar' });
      bar.style.width = `${value ? Math.max(0.6, (100 * value) / most) : 0}%`;
      return html('tr', { 'data-total': name }, html('th', { scope: 'row' }, labelOf(name)),
        html('td', { class: 'count' }, value.toLocaleString('en')), html('td', { class: 'track', 'aria-hidden': 'true' }, bar));
    })));
}

/** Counts the log that is open and shows it. */
export async function showWeek(log) {
  const node = byId('week-bars'), note = byId('week-note');
  if (!log) {
    note.textContent = 'Open a log first: the week is counted from the messages that a station was sent.';
    fill(node);
    return;
  }
  const totals = await log.totals(async (count) => {
    note.textContent = `${some(count, 'message')} counted …`;
    await pause();
  });
  if (!totals) return;
  const lines = totals.lines();
  note.textContent = `${log.file.name}: ${some(log.count, 'message')}, counted by the report's own entries.`;
  fill(node, GROUPS.map(([title, belongs]) => {
    const own = lines.filter(([name, value]) => belongs(name) && (value > 0 || !name.startsWith('answer-') || name === 'answer-0'));
    return own.length ? bars(title, own) : null;
  }));
}
