// A message and its answer on the screen: in words and in bytes, with why and what to do.

import { hexOf } from '../bytes.js';
import { readMessage } from '../messages.js';
import { Kind } from '../numbers.js';
import { html, listOf } from './dom.js';
import { against, says, toDo, told } from './explain.js';

/** What a message says, below its title. */
export const messageNodes = (bytes) => [listOf(says(bytes).lines), html('code', { class: 'bytes' }, hexOf(bytes))];

/** What was answered to a message, on the station as it was before; `stuck` are the results that had set something apart there. */
export function answerNodes(library, before, bytes, answer, reply, stuck) {
  const { fives = [] } = readMessage(bytes), image = reply?.[2] === Kind.Held;
  const words = image ? says(reply).title : `${told(answer, fives)}${answer.taken && fives.length ? `, set ${answer.issue}` : ''}`;
  const nodes = [html('p', { class: `told ${answer.taken ? 'yes' : 'no'}` }, words)];
  if (reply) nodes.push(html('code', { class: 'bytes reply' }, hexOf(reply)));
  else nodes.push(html('p', { class: 'quiet' }, "The desk's own: the station was not sent it."));
  if (answer.taken) return nodes;
  const mend = toDo(bytes, answer);
  return [...nodes, listOf(against(library, before, bytes, answer, stuck), { class: 'why' }), mend ? html('p', {}, html('b', {}, 'To do: '), mend) : null];
}
