// What the tests share: the tree, the library, seeded numbers and traffic, and the programs of bin/.
import { spawnSync } from 'node:child_process';
import { readFileSync, readdirSync } from 'node:fs';
import { fileURLToPath } from 'node:url';
import { load } from '../index.js';

const ROOT = fileURLToPath(new URL('../../../', import.meta.url));
export const text = (path) => readFileSync(ROOT + path, 'utf8');
export const HEADERS = readdirSync(`${ROOT}include`).map((name) => text(`include/${name}`).replace(/\/\*[\s\S]*?\*\//g, ''));
export const garage = await load(readFileSync(process.env.STATION_WASM ?? `${ROOT}target/web/station.wasm`));

/** What a command writes to standard output. */
export function wrote(command, input, words = []) {
  const ran = spawnSync(ROOT + command, words, { input, maxBuffer: 1 << 28 });
  if (ran.status !== 0) throw new Error(`${command}: ${ran.stderr}`);
  return new Uint8Array(ran.stdout);
}

/** The examples of a page: the texts between its fences, by their words. */
export function blocks(page) {
  return [...text(page).matchAll(/^```(\w+)\n([\s\S]*?)^```$/gm)].map(([, word, inside]) => ({ word, text: inside }));
}
