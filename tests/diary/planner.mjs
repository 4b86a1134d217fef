// A planner in JavaScript, as docs/PAGE.md has it: a car drives in, is parked through a jam, and is fetched.
// `node planner.mjs FOLDER`: index.js and station.wasm are in the folder.
import { readFile } from 'node:fs/promises';
import { pathToFileURL } from 'node:url';

const folder = pathToFileURL(`${process.argv[2]}/`);
const { Event, instruction, load, Numbers, Outcome } = await import(new URL('index.js', folder));
const garage = await load(await readFile(new URL('station.wasm', folder)));
const station = garage.station();

function accepted(what, answer) {
  if (!answer.taken) throw new Error(`${what}: ${answer}`);
  return answer;
}

function show() {
  console.log(`cars: ${garage.cars(station.record)}`);
  process.stdout.write(garage.drawing(station.record).text);
}

// Somebody looks at what is set apart, and sends what is there: here nothing had moved.
function look() {
  process.stdout.write(garage.drawingApart(station.apart).text);
  accepted('image', station.image(station.record));
  console.log('image: accepted');
}

function drive(what, begins) {
  accepted(what, station.event(begins));
  accepted(what, station.event(Event.EndDone));
  console.log(`${what}: accepted`);
}

// The motor's report comes from the garage; here it is told beforehand.
function step(words, outcome, ended) {
  const set = [instruction(words)];
  let answer = station.request(set);
  if (answer.number === Numbers.SetApart) {
    console.log(`${words}: ${answer.number} (${answer.words})`);
    look();
    answer = station.request(set);
  }
  accepted(words, station.result(accepted(words, answer).issue, 0, outcome));
  console.log(`${words}: ${ended}`);
}

drive('in', Event.BeginIn);
step('lift basement', Outcome.Done, 'done');
step('belts row 1 left lift, lower, full', Outcome.Stuck, 'stuck');
step('belts row 1 left lift, lower, full', Outcome.Done, 'done');
show();
step('belts row 1 left lift, higher, full', Outcome.Done, 'done');
step('lift street', Outcome.Done, 'done');
drive('out', Event.BeginOut);
show();
