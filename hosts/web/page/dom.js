// Small helpers for elements.

const SVG = 'http://www.w3.org/2000/svg';

/** Children in one list, without those that are none. */
const present = (children) => children.flat().filter((child) => child !== null && child !== undefined && child !== false);

function filled(node, attributes, children) {
  for (const [name, value] of Object.entries(attributes)) {
    if (value === null || value === undefined || value === false) continue;
    if (name.startsWith('on')) node.addEventListener(name.slice(2), value);
    else if (name in node && (name === 'value' || name === 'checked' || name === 'disabled')) node[name] = value;
    else node.setAttribute(name, value === true ? '' : value);
  }
  node.append(...present(children));
  return node;
}

/** An element with attributes (`onclick` and the like listen) and children. */
export const html = (tag, attributes = {}, ...children) => filled(document.createElement(tag), attributes, children);

export const svg = (tag, attributes = {}, ...children) => filled(document.createElementNS(SVG, tag), attributes, children);

export const byId = (id) => document.getElementById(id);

/** Replaces what is in a node. */
export const fill = (node, ...children) => node.replaceChildren(...present(children));

export const button = (words, onclick, attributes = {}) => html('button', { type: 'button', onclick, ...attributes }, words);

/** Lines as a list, or nothing where there are none. */
export const listOf = (lines, attributes = {}) => (lines.length ? html('ul', attributes, lines.map((line) => html('li', {}, line))) : null);

/** So many of something, in words. */
export const some = (count, name) => `${count.toLocaleString('en')} ${name}${count === 1 ? '' : 's'}`;

/** Lets the page go on in between. */
export const pause = () => new Promise((resolve) => { setTimeout(resolve); });

/** Copies some text, and says so in a node; where the browser does not let it, the node has the text. */
export async function copyText(text, said, note) {
  try {
    await navigator.clipboard.writeText(text);
    note.textContent = said;
  } catch {
    note.textContent = text;
  }
}

/** Offers some bytes or text as a file. */
export function download(name, content, type) {
  const url = URL.createObjectURL(new Blob([content], { type }));
  const link = html('a', { href: url, download: name });
  document.body.append(link);
  link.click();
  link.remove();
  setTimeout(() => URL.revokeObjectURL(url), 1000);
}

/** A row of radio buttons that looks like one control. */
export function choice(name, label, options, value, onpick) {
  return html('fieldset', { class: 'choice' },
    html('legend', {}, label),
    html('div', { class: 'segments' }, options.map(([key, words]) => html('label', {},
      html('input', { type: 'radio', name, value: String(key), checked: String(key) === String(value), onchange: () => onpick(key) }),
      html('span', {}, words)))));
}

/** The same of check boxes: several at a time, as the bits of a mask. */
export function choices(name, label, options, mask, onpick) {
  return html('fieldset', { class: 'choice' },
    html('legend', {}, label),
    html('div', { class: 'segments' }, options.map((words, at) => html('label', {},
      html('input', { type: 'checkbox', name, value: String(at), checked: Boolean((mask >> at) & 1), onchange: () => onpick(mask ^ (1 << at)) }),
      html('span', {}, words)))));
}
