// Plans as text and as bytes (docs/PLANS.md).

import { bytesIn, bytesOf, joined } from './bytes.js';
import { START } from './numbers.js';
import { instructionIn, Words, WrongLine } from './words.js';

const COUNT_MOST = 255;

function imageIn(words) {
  if (words.among(['start']) === 0) return bytesOf(START);
  const digits = words.rest();
  if (!/^[0-9a-fA-F]{16}$/.test(digits)) throw new WrongLine(`expected \`start\` or 16 digits in hexadecimal, found \`${digits}\``);
  return bytesIn(digits);
}

function wishIn(words) {
  const wish = words.oneOf(['without', 'with']);
  words.oneOf(['a']);
  words.oneOf(['car']);
  return wish;
}

/** A plan's text, read: its starting record, its wish, its sets with the line where each begins; and the lines that say nothing. */
export function planIn(text) {
  const plan = { image: null, wish: null, sets: [], wrong: [] };
  let open = false;
  const read = (words, line) => {
    if (plan.image === null) {
      plan.image = bytesOf(START); // said, if not rightly
      words.oneOf(['image']);
      plan.image = imageIn(words);
    } else if (plan.wish === null) {
      plan.wish = 0;
      words.oneOf(['wish']);
      plan.wish = wishIn(words);
    } else {
      const five = instructionIn(words);
      if (!open) plan.sets.push({ line, fives: [] });
      open = true;
      plan.sets.at(-1).fives.push(five);
      if (plan.sets.length > COUNT_MOST) throw new WrongLine("a plan's bytes can count 255 sets");
      if (plan.sets.at(-1).fives.length > COUNT_MOST) throw new WrongLine("a set's bytes can count 255 instructions");
    }
    words.end();
  };
  text.split('\n').forEach((whole, at) => {
    const said = whole.split('#')[0];
    if (said.trim() === '') {
      if (whole.trim() === '') open = false;
      return;
    }
    try {
      read(new Words(said), at + 1);
    } catch (why) {
      if (!(why instanceof WrongLine)) throw why;
      plan.wrong.push({ line: at + 1, why: why.message });
    }
  });
  const past = text.split('\n').length + (text === '' || text.endsWith('\n') ? 0 : 1);
  for (const name of ['image', 'wish']) {
    if (plan[name] === null) plan.wrong.push({ line: past, why: `the text ends before its \`${name}\`` });
  }
  return plan;
}

/** The bytes of a plan that was read without a wrong line. */
export function planBytes(plan) {
  const sets = plan.sets.map((set) => joined(Uint8Array.of(set.fives.length), ...set.fives));
  return joined(plan.image, new Uint8Array(8), Uint8Array.of(plan.wish, plan.sets.length), ...sets);
}
