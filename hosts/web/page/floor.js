// The floor as a drawing: what the record says, what is set apart, what is in motion and where it goes, and what is chosen. Nothing in it
// is told by colour alone.

import { bitsOf, hasBit } from '../bytes.js';
import { Op, Size } from '../numbers.js';
import { beltsOf, HEIGHTS, SIDES } from '../words.js';
import { svg } from './dom.js';
import { BELT_CELLS, beltBox, carBox, cellBox, HIGH, inset, liftBox, middle, partBox } from './geometry.js';
import { slotBox, slotOf, spanBox, STREET_AT, WIDE } from './geometry.js';
import { Sketch } from './sketch.js';
import { carsOf, floorWords, heightOf, partWords, runsOf } from './record-words.js';

const LIFT_BITS = 7n << 52n;
const drawings = new WeakMap(); // by the node that each is in

/** The parts of an area as boxes: neighbouring cells of a belt as one. */
function areaBoxes(area, height, everySlot = false) {
  const boxes = [], cells = bitsOf(area & ((1n << 40n) - 1n));
  for (const spans of BELT_CELLS) {
    for (const [first, last] of spans) {
      const own = cells.filter((cell) => cell >= first && cell <= last);
      for (const run of runsOf(own)) boxes.push(spanBox(run[0], run.at(-1)));
    }
  }
  const slots = bitsOf(area).filter((bit) => bit >= 40 && bit < 52);
  boxes.push(...slots.filter((bit) => slotOf(bit).tilted || everySlot || !cells.length).map(slotBox));
  if (area & LIFT_BITS) boxes.push(liftBox(height));
  return boxes;
}

/** The garage without what moves: earth, rows with their cells, the shaft and the street. */
function building(sketch, floor) {
  const { record, mode } = floor, height = heightOf(record), parts = [];
  const shaft = { ...liftBox(0), h: cellBox(0).y - liftBox(0).y };
  parts.push(
    sketch.rect({ x: 0, y: STREET_AT, w: WIDE, h: HIGH - STREET_AT }, { class: 'earth' }),
    sketch.rect(inset({ ...shaft, h: shaft.h + 8 }, -6), { class: 'room' }),
    ...[0, 20, 30].map((cell) => sketch.rect(inset(spanBox(cell, cell === 0 ? 19 : cell + 9), -6), { class: 'room', rx: 10 })),
    sketch.line(0, STREET_AT, shaft.x - 6, STREET_AT, { class: 'street' }),
    sketch.line(shaft.x + shaft.w + 6, STREET_AT, WIDE, STREET_AT, { class: 'street' }),
    sketch.text(18, STREET_AT - 14, 'Street', { class: 'level', start: true, aside: [-42, 6] }),
  );
  for (const at of [0, 1]) {
    const box = liftBox(at);
    parts.push(sketch.rect(inset(box, 3), { class: 'stop', rx: 6 }));
    if (at === 1) parts.push(sketch.text(box.x + box.w + 16, middle(box).y + 4, 'Rotation', { class: 'level', start: true, aside: [0, 6] }));
  }
  BELT_CELLS.forEach((belts, row) => belts.forEach(([first, last], belt) => {
    const shuttle = belt === 0 || belt === belts.length - 1, slot = 40 + (belt === 0 ? 0 : 3) + row;
    const there = shuttle ? hasBit(record, slot) : row !== 0 || belt !== 2 || height === 2;
    parts.push(sketch.rect(inset(spanBox(first, last), 1), { class: there ? (shuttle ? 'belt tray' : 'belt') : 'pit', rx: 7 }));
    for (let cell = first; cell <= last; cell++) {
      const box = cellBox(cell);
      if (cell > first && there) parts.push(sketch.line(box.x, box.y + 8, box.x, box.y + box.h - 8, { class: 'joint' }));
      parts.push(sketch.text(middle(box).x, box.y + box.h + 19, String(cell), { class: 'number', below: true }));
    }
  }));
  for (let bit = 46; bit < 52; bit++) parts.push(tilted(sketch, bit, hasBit(record, bit), mode));
  BELT_CELLS.forEach(([[first]], row) => {
    parts.push(sketch.text(18, cellBox(first).y - 14, `Row ${row + 1}`, { class: 'level', start: true, aside: [30, -2] }));
  });
  return parts;
}

/** A tilted shuttle beside its row, or its empty slot. */
function tilted(sketch, bit, there, mode) {
  const box = slotBox(bit), { side } = slotOf(bit), lean = side ? 12 : -12, { x, y } = middle(box);
  const ends = [[x - lean, y + 24], [x + lean, y - 24]];
  if (!there) return mode === 'still' ? null : sketch.path([ends], { class: 'slot-empty' });
  const bars = ['tilt-bar', 'tilt-belt'].map((kind) => sketch.path([ends], { class: kind }));
  return svg('g', { class: 'tilted', 'data-tilted': bit }, bars);
}

/** The lift's cage at its height, and the street's door. */
function lift(sketch, floor) {
  const { record } = floor, height = heightOf(record), box = liftBox(height), door = liftBox(0);
  const coming = hasBit(record, 55), going = hasBit(record, 56), x = door.x - 12, parts = [];
  parts.push(sketch.rect(inset(box, 1), { class: 'cage', rx: 7 }));
  if (height !== 2) parts.push(sketch.line(middle(box).x, liftBox(2).y + 52, middle(box).x, box.y + box.h, { class: 'mast' }));
  if (coming || going) {
    parts.push(sketch.path([[[x, door.y - 4], [x - 46, door.y - 20]]], { class: 'door' }));
    const [from, to] = coming ? [x - 96, x - 22] : [x - 22, x - 96];
    parts.push(arrow(sketch, [from, door.y + 32], [to, door.y + 32], 'drive'));
    const card = coming ? floor.cards?.get(Size.DESK_AT_DRIVE) : floor.cards?.get(Size.DESK_AT_LIFT);
    const words = [coming ? 'driving in' : 'driving out', card ? `card ${card}` : ''].filter(Boolean);
    (sketch.upright ? words : [words.join(', ')]).forEach((line, at) => {
      parts.push(sketch.text(x - 108, door.y + 37, line, { class: 'level strong', end: true, aside: [-26, 20 * at - 34] }));
    });
  } else {
    parts.push(sketch.path([[[x, door.y - 4], [x, STREET_AT - 1]]], { class: 'door' }));
  }
  return parts;
}

function arrow(sketch, [x1, y1], [x2, y2], kind) {
  const length = Math.hypot(x2 - x1, y2 - y1) || 1, ux = (x2 - x1) / length, uy = (y2 - y1) / length;
  const head = [[x2 - 11 * ux - 8 * uy, y2 - 11 * uy + 8 * ux], [x2, y2], [x2 - 11 * ux + 8 * uy, y2 - 11 * uy - 8 * ux]];
  return sketch.path([[[x1, y1], [x2, y2]], head], { class: `arrow ${kind}` });
}

/** What an instruction moves and where to, as arrows. */
function moving(sketch, five, height) {
  const kind = 'move';
  const [op, a, b, c, d] = five;
  const rows = [0, 1, 2].filter((row) => (b >> row) & 1);
  if (op === Op.Belts) {
    const by = (c ? 1 : -1) * (a === 1 && d === 0 ? 24 : 34);
    return beltsOf(a).map((_, belt) => belt).filter((belt) => (b >> belt) & 1).map((belt) => {
      const { x } = middle(beltBox(a - 1, belt)), y = beltBox(a - 1, belt).y - 9;
      return arrow(sketch, [x - by, y], [x + by, y], kind);
    });
  }
  if (op === Op.Shuttles) {
    return rows.map((row) => {
      const box = slotBox(40 + 6 * c + 3 * a + row), { y } = middle(box), by = d ? 30 : -30;
      const x = c ? middle(box).x : a ? box.x - 4 : box.x + box.w + 4;
      return arrow(sketch, [x, y - by], [x, y + by], kind);
    });
  }
  if (op === Op.Tilt) {
    const low = middle(slotBox(40 + 3 * a + b - 1)), tilt = middle(slotBox(46 + 3 * a + b - 1)), y = low.y + 22;
    return [c ? arrow(sketch, [tilt.x, y], [low.x, y], kind) : arrow(sketch, [low.x, y], [tilt.x, y], kind)];
  }
  const box = liftBox(height), x = box.x + box.w - 12;
  if (op === Op.Lift) return [arrow(sketch, [x, middle(box).y], [x, middle(liftBox(a)).y], kind)];
  const { y } = middle(box), turn = [];
  for (let step = 0; step <= 20; step++) turn.push([middle(box).x + 34 * Math.cos(0.4 + step * 0.27), y + 22 * Math.sin(0.4 + step * 0.27)]);
  return [sketch.path([turn], { class: `arrow ${kind}` }), arrow(sketch, turn.at(-2), turn.at(-1), kind)];
}

/** Cars that would stand elsewhere once what is in motion, or chosen, is done: dotted where they go. */
function ghosts(sketch, floor) {
  const { library, record, motion = [], draft } = floor, fives = draft ? [...motion, draft] : motion, parts = [];
  if (!library.sound(record)) return parts;
  const now = new Set(library.places(record));
  let then = record;
  for (const five of fives) then = library.next(then, five).record;
  if (then === record) return parts;
  for (const place of library.places(then)) {
    if (!now.has(place)) parts.push(sketch.rect(inset(carBox(place, heightOf(then)), 7), { class: 'ghost', rx: 10 }));
  }
  if (heightOf(then) !== heightOf(record)) parts.push(sketch.rect(inset(liftBox(heightOf(then)), 4), { class: 'ghost', rx: 7 }));
  return parts;
}

function car(sketch, { place, card, half, lastKnown }, floor) {
  const box = half ? cellBox(place) : carBox(place, heightOf(floor.record)), inner = inset(box, 6), { x, y } = middle(inner);
  const label = half ? '½' : card ? String(card) : '';
  const end = inner.w / 2, pane = (side) => [[side * (end - 15), -15], [side * (end - 10), 0], [side * (end - 15), 15]];
  const moved = svg('g', { class: `car${half ? ' half' : ''}${lastKnown ? ' unsure' : ''}`, 'data-car': card ?? '', 'data-place': place },
    sketch.rect({ ...inner, x: inner.x - x, y: inner.y - y }, { class: 'body', rx: 11, fill: lastKnown ? sketch.hatchedCar : null }),
    half ? null : sketch.path([-1, 1].map(pane), { class: 'glass' }),
    svg('text', { class: label.length > 5 ? 'card small' : 'card', 'text-anchor': 'middle', 'dominant-baseline': 'central' }, label));
  const at = sketch.point(x, y);
  moved.style.transform = `translate(${at[0]}px, ${at[1]}px)`;
  moved.dataset.key = card ? `card ${card}` : `place ${place}`;
  return moved;
}

/** A mark on what is at fault. */
function fault(sketch, box) {
  const [x, y] = sketch.point(box.x + box.w - 4, box.y + 4);
  return svg('g', { class: 'fault' }, sketch.rect(inset(box, 2), { rx: 7 }), svg('circle', { cx: x, cy: y, r: 11 }),
    svg('text', { x, y: y + 5, 'text-anchor': 'middle' }, '!'));
}

/** The parts that can be picked, with their words. */
function picks(sketch, floor) {
  const { mode, record } = floor, height = heightOf(record), found = [];
  const put = (id, box, words, rx = 8) => found.push({ id, box, words, rx });
  if (mode === 'still') return [];
  const eachSlot = (pick) => [0, 1, 2, 3, 4, 5].forEach(pick);
  if (mode === 'cells') {
    for (let cell = 0; cell < 40; cell++) put(`cell-${cell}`, cellBox(cell), partWords(floor, cell), 5);
    eachSlot((at) => put(`slot-${40 + at}`, slotBox(46 + at), `shuttles ${SIDES[Math.floor(at / 3)]} row ${1 + (at % 3)}`));
  } else {
    BELT_CELLS.forEach((belts, row) => belts.forEach((cells, belt) => {
      put(`belt-${row + 1}-${belt}`, beltBox(row, belt), `row ${row + 1}, belt ${beltsOf(row + 1)[belt]}: ${floorWords(floor, cells)}`);
    }));
    eachSlot((at) => put(`slot-${46 + at}`, slotBox(46 + at), partWords(floor, 46 + at)));
  }
  // the stop in the basement is row 1's own lift belt: what is picked for it is above
  const stops = [liftBox(0), liftBox(1), { ...liftBox(2), y: liftBox(2).y - 40, h: 32 }];
  stops.forEach((box, at) => put(`lift-${at}`, box, `lift stop ${HEIGHTS[at]}${height === at ? ', the lift is here' : ''}`));
  return found.map(({ id, box, words, rx }) => svg('g', {
    class: 'pick', role: 'button', 'data-part': id, tabindex: '-1', 'aria-label': words, 'aria-pressed': String(floor.pressed?.has(id) ?? false),
  }, sketch.rect(inset(box, 0), { class: 'target', rx }), svg('title', {}, words)));
}

/** The drawing in a node, with the garage in it as it is without what moves: made anew only where that has changed. */
function drawingIn(host, floor) {
  const upright = floor.upright ?? window.matchMedia('(max-width: 640px)').matches, { record, mode } = floor;
  const key = [upright, mode === 'still', (record >> 40n) & 0xfffn, heightOf(record) === 2].join(' ');
  if (drawings.get(host)?.key === key) return drawings.get(host);
  const sketch = new Sketch(upright), rest = svg('g');
  const drawing = svg('svg', { viewBox: sketch.view(), class: 'floor', role: 'group' }, sketch.patterns(), svg('g', {}, building(sketch, floor)), rest);
  drawings.set(host, { key, sketch, drawing, rest });
  return drawings.get(host);
}

/** Draws a floor into a node, in place of what it had; cars that were there move to where they are. */
export function drawFloor(host, floor) {
  const { record, apart = 0n, library, motion = [], chosen = [], draft, faults = 0n } = floor;
  const { sketch, drawing, rest: last } = drawingIn(host, floor), height = heightOf(record);
  const framed = (box, kind) => sketch.rect(inset(box, 2), { class: `area ${kind}`, rx: 9 });
  const areas = (fives, kind) => fives.flatMap((five) => areaBoxes(library.area(five), height).map((box) => framed(box, kind)));
  const moves = [...motion, ...chosen, ...(draft ? [draft] : [])].flatMap((five) => moving(sketch, five, height));
  const held = host.querySelector('[data-part]:focus')?.dataset.part;
  const before = new Map([...host.querySelectorAll('.car')].map((node) => [node.dataset.key, node.style.transform]));
  const cars = carsOf(floor).map((one) => car(sketch, one, floor));
  const rest = svg('g', {}, lift(sketch, floor),
    areas(motion, 'motion'), areas(chosen, 'chosen'), draft ? areas([draft], 'draft') : [],
    bitsOf(apart).map((bit) => sketch.rect(inset(partBox(bit, height), 1), { class: 'apart', rx: 6, fill: sketch.hatch, 'data-apart': bit })),
    ghosts(sketch, floor), cars, moves, areaBoxes(faults, height, true).map((box) => fault(sketch, box)),
    picks(sketch, floor));
  last.replaceWith(rest);
  drawings.get(host).rest = rest;
  drawing.setAttribute('aria-label', floor.label ?? 'The floor');
  if (drawing.parentNode !== host) host.replaceChildren(drawing);
  glide(cars, before);
  reachable(rest, host, floor, held);
}

/** Lets cars go from where they were to where they are; the browser lays the page out once for all of them. */
function glide(cars, before) {
  const moved = cars.map((node) => ({ node, from: before.get(node.dataset.key), to: node.style.transform })).filter(({ from, to }) => from && from !== to);
  for (const { node, from } of moved) node.style.transform = from;
  moved[0]?.node.getBoundingClientRect();
  for (const { node, to } of moved) node.style.transform = to;
}

/** Clicks and keys: the floor is one stop of the tab key, arrows go to the next part, Enter or space picks. */
function reachable(drawing, host, floor, held) {
  const parts = [...drawing.querySelectorAll('.pick')];
  if (!parts.length) return;
  const first = parts.find((part) => part.dataset.part === (held ?? host.dataset.last)) ?? parts[0];
  first.setAttribute('tabindex', '0');
  if (held) first.focus();
  const to = (part) => {
    parts.forEach((one) => one.setAttribute('tabindex', one === part ? '0' : '-1'));
    part.focus();
  };
  drawing.addEventListener('click', (event) => {
    const part = event.target.closest('.pick');
    if (part) floor.onpick(part.dataset.part);
  });
  drawing.addEventListener('keydown', (event) => {
    const part = event.target.closest('.pick'), way = { ArrowLeft: [-1, 0], ArrowRight: [1, 0], ArrowUp: [0, -1], ArrowDown: [0, 1] }[event.key];
    if (!part) return;
    if (event.key === 'Enter' || event.key === ' ') floor.onpick(part.dataset.part);
    else if (way) to(nearest(part, parts, way));
    else return;
    event.preventDefault();
  });
  drawing.addEventListener('focusin', (event) => { host.dataset.last = event.target.dataset.part; });
}

/** The nearest part in a direction. */
function nearest(part, parts, [dx, dy]) {
  const at = (one) => {
    const { x, y, width, height } = one.getBBox();
    return middle({ x, y, w: width, h: height });
  };
  const here = at(part);
  let best = part, least = Infinity;
  for (const one of parts) {
    const x = at(one).x - here.x, y = at(one).y - here.y, along = x * dx + y * dy, aside = Math.abs(x * dy) + Math.abs(y * dx);
    if (along > 4 && along + 2.5 * aside < least) [best, least] = [one, along + 2.5 * aside];
  }
  return best;
}
