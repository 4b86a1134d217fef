// Writes a recording as a journal with a head and checksums, each message as an append of its own: `journal.mjs RECORDING JOURNAL`.
import { readFileSync, writeFileSync } from 'node:fs';
import { Append, endOf, JournalBytes, load } from '../hosts/web/index.js';

const [from, to] = process.argv.slice(2), recorded = new Uint8Array(readFileSync(from));
const garage = await load(readFileSync(new URL('../target/web/station.wasm', import.meta.url)));
const journal = new JournalBytes('bench', garage.version, garage.station().bytes);
for (let at = 0; at < recorded.length; at = endOf(recorded, at)) journal.append(Append.Messages, recorded.subarray(at, endOf(recorded, at)));
writeFileSync(to, journal.bytes());
