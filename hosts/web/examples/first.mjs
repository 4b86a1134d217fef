// A first planner in JavaScript: a car drives in, the lift takes it down, and the floor is drawn. `node first.mjs [station.wasm]`.
import { readFile } from 'node:fs/promises';
import { Event, instruction, load, Outcome } from '../index.js';

const wasm = process.argv[2] ?? new URL('../station.wasm', import.meta.url);
const garage = await load(await readFile(wasm));
const desk = garage.desk();

desk.event(Event.BeginIn, 7001);
const down = instruction('lift basement');
console.log(`while the driver is in the lift: ${desk.request([down])}`);

desk.event(Event.EndDone);
const { issue } = desk.request([down]);
desk.result(issue, 0, Outcome.Done);
console.log(`card 7001 is at cell ${desk.where(7001).place}`);
console.log(garage.drawing(desk.record).text);
