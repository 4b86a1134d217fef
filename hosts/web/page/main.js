// The page: its views, and what goes from one to another. The module's bytes stand in the page.

import { joined } from '../bytes.js';
import { load } from '../library.js';
import { traffic } from '../traffic.js';
import { byId } from './dom.js';
import { Garage } from './garage.js';
import { linkedIn } from './link.js';
import { Live } from './live.js';
import { LogView } from './log-view.js';
import { PlanView } from './plan.js';
import { showWeek } from './week.js';

const VIEWS = ['station', 'log', 'garage', 'plan', 'week'];

function wasm() {
  const coded = atob(byId('engine').textContent.trim());
  return Uint8Array.from(coded, (letter) => letter.charCodeAt(0));
}

function themed() {
  const button = byId('theme'), root = document.documentElement, dark = window.matchMedia('(prefers-color-scheme: dark)');
  const now = () => root.dataset.theme ?? (dark.matches ? 'dark' : 'light');
  const say = () => { button.textContent = now() === 'dark' ? 'Light' : 'Dark'; };
  button.addEventListener('click', () => {
    root.dataset.theme = now() === 'dark' ? 'light' : 'dark';
    say();
  });
  dark.addEventListener('change', say);
  say();
}

async function begin() {
  const library = await load(wasm()), views = {};
  const show = (name) => {
    for (const view of VIEWS) {
      byId(`view-${view}`).hidden = view !== name;
      byId(`tab-${view}`).setAttribute('aria-selected', String(view === name));
      byId(`tab-${view}`).tabIndex = view === name ? 0 : -1;
    }
    if (name !== 'garage' && location.hash) history.replaceState(null, '', location.pathname + location.search);
    if (name === 'garage') views.garage.show();
    if (name === 'station') views.live.show();
    if (name === 'plan') views.plan.showSteps();
    if (name === 'log' && views.log.log) views.log.go(views.log.at);
    if (name === 'week') showWeek(views.log.log);
  };
  views.live = new Live(library, { openLog: (name, bytes, cards) => { show('log'); views.log.open(name, bytes, cards); } });
  views.log = new LogView(library, { drawn: () => views.garage.record });
  views.garage = new Garage(library, {
    sendImage: (record) => { views.live.image(record); show('station'); },
    planFrom: (record) => { views.plan.from(record); show('plan'); },
  });
  views.plan = new PlanView(library);
  byId('save-part').addEventListener('click', () => views.log.save('hexadecimal'));
  byId('save-example').addEventListener('click', () => views.log.save('example'));
  byId('sample').addEventListener('click', () => views.log.open('A sample from a seed', joined(...traffic(library, 2026, 3000))));
  for (const view of VIEWS) byId(`tab-${view}`).addEventListener('click', () => show(view));
  byId('tabs').addEventListener('keydown', (event) => {
    const way = { ArrowLeft: -1, ArrowRight: 1 }[event.key];
    if (!way) return;
    const at = VIEWS.findIndex((view) => byId(`tab-${view}`) === document.activeElement), next = VIEWS[(at + way + VIEWS.length) % VIEWS.length];
    show(next);
    byId(`tab-${next}`).focus();
  });
  window.matchMedia('(max-width: 640px)').addEventListener('change', () => show(VIEWS.find((view) => !byId(`view-${view}`).hidden)));
  themed();
  /** Takes what the page's address holds; gives the view that shows it. */
  const linked = () => {
    const { garage, desk } = linkedIn(library, location.hash);
    if (garage !== undefined) views.garage.record = garage;
    if (desk !== undefined) views.live.linked(desk);
    return garage !== undefined ? 'garage' : desk !== undefined ? 'station' : null;
  };
  window.addEventListener('hashchange', () => {
    const view = linked();
    if (view) show(view);
  });
  show(linked() ?? 'station');
  byId('version').textContent = `Station ${library.version.join('.')}`;
  document.documentElement.dataset.ready = 'yes';
  performance.mark('ready');
  return { library, views };
}

window.garage = begin(); // for the console, and for tests
