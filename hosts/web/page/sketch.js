// Shapes of the floor, as they lie on a wide screen or turned for a narrow one.

import { svg } from './dom.js';
import { HIGH, WIDE } from './geometry.js';

let patterns = 0;

export class Sketch {
  constructor(upright) {
    this.upright = upright;
    this.hatched = `hatch-${patterns++}`;
  }

  get hatch() {
    return `url(#${this.hatched})`;
  }

  get hatchedCar() {
    return `url(#${this.hatched}-car)`;
  }

  view() {
    return this.upright ? `0 0 ${HIGH} ${WIDE}` : `0 0 ${WIDE} ${HIGH}`;
  }

  point(x, y) {
    return this.upright ? [y, x] : [x, y];
  }

  rect({ x, y, w, h }, attributes) {
    const [left, top] = this.point(x, y), [width, height] = this.point(w, h);
    return svg('rect', { x: left, y: top, width, height, ...attributes });
  }

  line(x1, y1, x2, y2, attributes) {
    const [a, b] = this.point(x1, y1), [c, d] = this.point(x2, y2);
    return svg('line', { x1: a, y1: b, x2: c, y2: d, ...attributes });
  }

  /** Some lines, each through its points. */
  path(lines, attributes) {
    const through = (points) => points.map(([x, y], at) => `${at ? 'L' : 'M'}${this.point(x, y).map((one) => one.toFixed(1)).join(' ')}`).join('');
    return svg('path', { d: lines.map(through).join(''), ...attributes });
  }

  /** Words at a place: in the middle of it, or from it on (`start`), or up to it (`end`). Turned, all are in the middle, and `aside` moves
   * them. */
  text(x, y, words, { start, end, below, aside = [0, 0], ...attributes }) {
    let [left, top] = this.point(x, y), anchor = start ? 'start' : end ? 'end' : 'middle';
    if (this.upright) [left, top, anchor] = [left + aside[0] - (below ? 8 : 0), top + aside[1] + (below ? 4 : 0), 'middle'];
    return svg('text', { x: left, y: top, 'text-anchor': anchor, ...attributes }, words);
  }

  /** Two patterns of slanted lines: for parts that are set apart, and for cars on them. */
  patterns() {
    const hatch = (id, ground) => svg('pattern', { id, width: 9, height: 9, patternUnits: 'userSpaceOnUse', patternTransform: 'rotate(45)' },
      svg('rect', { width: 9, height: 9, class: ground }), svg('line', { x1: 0, y1: 0, x2: 0, y2: 9, class: 'hatch-line' }));
    return svg('defs', {}, hatch(this.hatched, 'hatch-ground'), hatch(`${this.hatched}-car`, 'hatch-car'));
  }
}
