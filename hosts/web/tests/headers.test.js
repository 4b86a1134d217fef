// The declarations against include/*.h: entries, parameters and numbers, in the table of entries, in the TypeScript declarations and in
// the module itself; and wrong ones, which must be found out.
import assert from 'node:assert/strict';
import { test } from 'node:test';
import { ENTRIES, Event, Height, Kind, Numbers, Op, Outcome, Size, START } from '../index.js';
import { garage, HEADERS, text } from './tree.js';

const CROSSES = { uint8_t: 'u8', uint16_t: 'u16', uint32_t: 'u32', uint64_t: 'u64' };
const DECLARED = { u8: 'number', u16: 'number', u32: 'number', u64: 'bigint' };

/** The entries of the headers: name to parameters, each run of bytes as one. */
function inHeaders() {
  const found = {};
  for (const header of HEADERS) {
    for (const [, name, list] of header.matchAll(/^(?:uint32_t|bool) (\w+)\(([^)]*)\);/gm)) {
      const parameters = {};
      for (const part of list.split(',').map((one) => one.trim()).filter((one) => one !== 'void')) {
        const [, type, label] = part.match(/^((?:const )?\w+ ?\*?)\s*(\w+)$/).map((one) => one?.trim());
        if (type === 'size_t') assert.ok(label.slice(0, -'_length'.length) in parameters, `${name}: ${label}`);
        else parameters[label] = type === 'const uint8_t *' ? 'bytes' : type === 'uint8_t *' ? 'room' : CROSSES[type];
      }
      found[name] = parameters;
    }
  }
  return found;
}

/** The same of the TypeScript declarations: name to lists of a parameter and its type. */
function inDeclarations(declarations) {
  const raw = declarations.match(/export interface RawEntries \{([\s\S]*?)\n\}/)[1], found = {};
  for (const [, name, list] of raw.matchAll(/^ {2}(\w+)\((.*)\): number;$/gm)) {
    found[name] = list === '' ? [] : list.split(', ').map((one) => one.split(': '));
  }
  return found;
}

function crossing(parameters) {
  return Object.entries(parameters).flatMap(([label, kind]) =>
    DECLARED[kind] ? [[label, DECLARED[kind]]] : [[label, 'Address'], [`${label}_length`, 'bigint']]);
}

function differences(entries, declarations) {
  const headers = inHeaders(), declared = inDeclarations(declarations);
  const names = new Set([...Object.keys(headers), ...Object.keys(entries), ...Object.keys(declared)]);
  const same = (name) => headers[name] && entries[name] && declared[name]
    && JSON.stringify(Object.entries(headers[name])) === JSON.stringify(Object.entries(entries[name]))
    && JSON.stringify(crossing(headers[name])) === JSON.stringify(declared[name]);
  return [...names].filter((name) => !same(name)).sort();
}

const declarations = text('hosts/web/index.d.ts');

test('the entries are those of the headers', () => {
  assert.ok(Object.keys(inHeaders()).length >= 34);
  assert.deepEqual(differences(ENTRIES, declarations), []);
});

test('wrong declarations are found out', () => {
  let tried = 0;
  for (const [name, parameters] of Object.entries(ENTRIES)) {
    for (const label of Object.keys(parameters)) {
      for (const other of ['u8', 'u16', 'u32', 'u64', 'room', 'bytes'].filter((kind) => kind !== parameters[label])) {
        assert.deepEqual(differences({ ...ENTRIES, [name]: { ...parameters, [label]: other } }, declarations), [name]);
        tried++;
      }
    }
    assert.deepEqual(differences({ ...ENTRIES, [name]: { ...parameters, more: 'u8' } }, declarations), [name]);
    assert.deepEqual(differences(ENTRIES, declarations.replace(`  ${name}(`, `  ${name}(more: number, `)), [name]);
  }
  assert.ok(tried > 300);
});

test('the module has these entries, and each takes as many values', () => {
  for (const [name, parameters] of Object.entries(ENTRIES)) {
    assert.equal(garage.entries.exports[name].length, crossing(parameters).length, name);
  }
});

test('the numbers are those of the headers', () => {
  const constants = new Map(HEADERS.flatMap((header) => [...header.matchAll(/\b([A-Z]+(?:_[A-Z]+)+) = (\d+)/g)].map(([, name, value]) => [name, Number(value)])));
  const snake = (name) => name.replace(/(?<!^)([A-Z])/g, '_$1').toUpperCase();
  const wanted = (prefix, table) => Object.entries(table).map(([name, value]) => [prefix + snake(name), value]);
  for (const [name, value] of Object.entries(Size)) assert.equal(constants.get(name), value, name);
  for (const [name, value] of [...wanted('STATION_KIND_', Kind), ...wanted('STATION_', Event), ...wanted('STATION_', Outcome)]) {
    assert.equal(constants.get(name), value, name);
  }
  for (const [name, value] of [...wanted('GARAGE_', Op), ...wanted('GARAGE_', Height)]) assert.equal(constants.get(name), value, name);
  const prefixes = ['STATION_', 'DESK_', 'PLAN_', 'REPORT_', 'DRAWING_'];
  for (const [name, value] of Object.entries(Numbers)) {
    const found = prefixes.map((prefix) => constants.get(prefix + snake(name))).find((one) => one !== undefined);
    assert.equal(found, value, name);
  }
  const answers = [...HEADERS.join('').matchAll(/\bSTATION_([A-Z_]+) = (\d+),?\s/g)].filter(([, name]) => !/KIND|SIZE|MOST|BEGIN|END/.test(name));
  assert.ok(answers.length > 25);
  const stationNumbers = text('include/station.h').match(/enum \{\s+STATION_TAKEN = 0[\s\S]*?\};/)[0];
  for (const [, value] of stationNumbers.matchAll(/ = (\d+)/g)) assert.ok(Object.values(Numbers).includes(Number(value)), value);
  assert.ok(text('include/station.h').includes(`UINT64_C(0x${START.toString(16).padStart(16, '0').toUpperCase()})`));
  const version = ['FIRST', 'SECOND', 'THIRD'].map((part) => Number(text('include/station.h').match(new RegExp(`STATION_VERSION_${part} (\\d+)`))[1]));
  assert.deepEqual(garage.version, version);
});
