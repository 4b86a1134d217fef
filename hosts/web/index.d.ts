// The declarations of index.js. tests/headers.test.js holds the entries and the numbers against include/*.h.

/** The module's entries and its memory. Numbers cross as numbers, 64 bits as a bigint, bytes as a Uint8Array. */
export class Entries {
  readonly exports: RawEntries & { memory: WebAssembly.Memory };
  readonly memory: WebAssembly.Memory;
  take(size: number): number;
  view(at: number, size: number): Uint8Array;
  call(name: EntryName, ...values: (number | bigint | Uint8Array)[]): number;
}

/** How a parameter crosses. */
export type Crossing = 'u8' | 'u16' | 'u32' | 'u64' | 'room' | 'bytes';
export const ENTRIES: { readonly [name in EntryName]: { readonly [parameter: string]: Crossing } };
export type EntryName = Exclude<keyof RawEntries, never>;

/** An address in the module's memory. */
type Address = number;

/** The entries as the module has them: each run of bytes is an address and a length. */
export interface RawEntries {
  station_version(): number;
  station_start(room: Address, room_length: bigint): number;
  station_request(room: Address, room_length: bigint, count: number, set: Address, set_length: bigint): number;
  station_event(room: Address, room_length: bigint, way: number): number;
  station_result(room: Address, room_length: bigint, issue: number, number: number, ending: number): number;
  station_image(room: Address, room_length: bigint, image: bigint, apart: bigint): number;
  station_ask(room: Address, room_length: bigint, image: Address, image_length: bigint): number;
  station_message(room: Address, room_length: bigint, message: Address, message_length: bigint, reply: Address, reply_length: bigint): number;
  garage_sound(image: bigint): number;
  garage_cars(image: bigint): number;
  garage_allowed(image: bigint, five: Address, five_length: bigint): number;
  garage_next(image: bigint, five: Address, five_length: bigint, next: Address, next_length: bigint): number;
  garage_area(five: Address, five_length: bigint, area: Address, area_length: bigint): number;
  garage_overlap(one: Address, one_length: bigint, other: Address, other_length: bigint): number;
  desk_start(room: Address, room_length: bigint): number;
  desk_request(room: Address, room_length: bigint, count: number, set: Address, set_length: bigint): number;
  desk_event(room: Address, room_length: bigint, way: number, card: number): number;
  desk_result(room: Address, room_length: bigint, issue: number, number: number, ending: number): number;
  desk_image(room: Address, room_length: bigint, image: bigint, apart: bigint, count: number, cards: Address, cards_length: bigint): number;
  desk_ask(room: Address, room_length: bigint, image: Address, image_length: bigint): number;
  desk_where(room: Address, room_length: bigint, card: number): number;
  desk_leaving(room: Address, room_length: bigint, card: Address, card_length: bigint): number;
  desk_list(room: Address, room_length: bigint, lines: Address, lines_length: bigint): number;
  desk_outstanding(room: Address, room_length: bigint, set: Address, set_length: bigint): number;
  desk_compare(room: Address, room_length: bigint, image: bigint, apart: bigint, count: number, cards: Address, cards_length: bigint, lines: Address, lines_length: bigint): number;
  plan_judge(plan: Address, plan_length: bigint): number;
  plan_explain(plan: Address, plan_length: bigint, room: Address, room_length: bigint): number;
  drawing_write(image: bigint, text: Address, text_length: bigint): number;
  drawing_read(text: Address, text_length: bigint, room: Address, room_length: bigint): number;
  drawing_write_apart(apart: bigint, text: Address, text_length: bigint): number;
  drawing_read_apart(text: Address, text_length: bigint, room: Address, room_length: bigint): number;
  plain_request(room: Address, room_length: bigint, count: number, set: Address, set_length: bigint): number;
  plain_event(room: Address, room_length: bigint, way: number): number;
  plain_result(room: Address, room_length: bigint, issue: number, number: number, ending: number): number;
  panel_condition(image: bigint, five: Address, five_length: bigint, c: number, room: Address, room_length: bigint): number;
  panel_next(image: bigint, five: Address, five_length: bigint, next: Address, next_length: bigint): number;
  panel_cars(image: bigint, room: Address, room_length: bigint): number;
  report_start(totals: Address, totals_length: bigint): number;
  report_message(totals: Address, totals_length: bigint, station: Address, station_length: bigint, message: Address, message_length: bigint): number;
  report_lines(totals: Address, totals_length: bigint, full: number, out: Address, out_length: bigint): number;
}

/** The library over the module's bytes, as tools/wasm writes them. */
export function load(wasm: BufferSource): Promise<Library>;

/** An instruction's five bytes. */
export type Five = Uint8Array;

export class Library {
  readonly entries: Entries;
  readonly version: [number, number, number];
  /** A station: that of the start, or of the 60 bytes that one was. */
  station(bytes?: Uint8Array): Station;
  /** A desk: that of the start, or of the 228 bytes that one was. */
  desk(bytes?: Uint8Array): Desk;
  /** A desk of a station's 60 bytes and the cards of its cars, in the order of the cells; nothing where these don't fit. */
  deskWith(station: Uint8Array, cards: number[]): Desk | null;
  totals(): Totals;
  sound(record: bigint): boolean;
  cars(record: bigint): number;
  /** The places of a sound record's cars: the cell where each begins, and 52 for the raised lift. */
  places(record: bigint): number[];
  /** Where a desk has the cards of a sound record's cars, in the order of the cells. */
  cardPlaces(record: bigint): number[];
  allowed(record: bigint, five: Five): Answer;
  next(record: bigint, five: Five): { answer: Answer; record: bigint };
  area(five: Five): bigint;
  overlap(one: Five, other: Five): Answer;
  conditions(record: bigint, five: Five): Condition[];
  drawing(record: bigint): { answer: Answer; text: string };
  drawn(text: string): { answer: Answer; record: bigint | null };
  drawingApart(apart: bigint): { answer: Answer; text: string };
  drawnApart(text: string): { answer: Answer; apart: bigint | null };
  judge(plan: Uint8Array): Answer;
  explain(plan: Uint8Array): Grounds;
  bytes(record: bigint): Uint8Array;
}

/** On what grounds a plan is judged: in the set at fault the instruction's place and the first earlier one that it overlaps, the parts that
 * both have, and the record before that set, or the last one, or none where no set was tried. */
export interface Grounds {
  answer: Answer;
  place: number | null;
  earlier: number | null;
  parts: bigint;
  record: bigint | null;
}

/** A condition of an instruction: whether it holds, what is told where it is the first to fail, and the parts that decide it. */
export interface Condition {
  holds: boolean;
  number: number;
  parts: bigint;
}

/** An answer: a number of the table, a place or nothing, and the issue of the set where a request was taken. */
export class Answer {
  constructor(number: number, place: number, issue: number);
  static of(said: number): Answer;
  readonly number: number;
  readonly place: number | null;
  readonly issue: number;
  readonly taken: boolean;
  readonly words: string;
  toString(): string;
}

interface Shown {
  answer: Answer;
  record: bigint;
  apart: bigint;
}

declare class Held {
  readonly bytes: Uint8Array;
  readonly record: bigint;
  readonly apart: bigint;
  readonly set: { five: Five; answered: boolean }[];
  readonly issue: number;
  ask(): Shown;
  request(fives: Five[]): Answer;
  result(issue: number, number: number, outcome: number): Answer;
}

export class Station extends Held {
  constructor(entries: Entries, bytes?: Uint8Array);
  copy(): Station;
  event(way: number): Answer;
  image(record: bigint, apart?: bigint): Answer;
  message(bytes: Uint8Array): { answer: Answer; reply: Uint8Array };
}

export class Desk extends Held {
  constructor(entries: Entries, bytes?: Uint8Array);
  copy(): Desk;
  station(): Station;
  readonly cards: Map<number, number>;
  event(way: number, card?: number): Answer;
  image(record: bigint, cards: number[], apart?: bigint): Answer;
  where(card: number): { answer: Answer; place: number | null; lastKnown: boolean };
  leaving(): { answer: Answer; card: number };
  compare(record: bigint, cards: number[], apart?: bigint): { answer: Answer; lines: Line[] };
  list(): { answer: Answer; lines: Line[] };
  outstanding(): { answer: Answer; issue: number; set: { five: Five; answered: boolean }[] };
}

/** What is told of a card: its place, 0 sure, 1 last known or 2 in motion, and the place that it would get. */
export interface Line {
  card: number;
  place: number;
  flag: 0 | 1 | 2;
  next: number;
}

export class Totals {
  readonly bytes: Uint8Array;
  count(station: Station, message: Uint8Array): Answer;
  lines(): [string, number][];
}

/** Many messages on one station, at the module's own speed. */
export class Run {
  constructor(entries: Entries, most: number);
  begin(): void;
  lend(bytes: Uint8Array): void;
  answer(at: number, length: number): number;
  count(at: number, length: number): number;
  countRest(bytes: Uint8Array): number;
  station(): Uint8Array;
  restore(bytes: Uint8Array): void;
  counted(): Totals;
}

export type Message =
  | { says: 'request'; fives: Five[] }
  | { says: 'event'; way: number }
  | { says: 'result'; issue: number; number: number; outcome: number }
  | { says: 'image' | 'held'; record: bigint; apart: bigint }
  | { says: 'ask' }
  | { says: 'answer'; answer: Answer }
  | { says: 'unread'; kind: number };
export function readMessage(bytes: Uint8Array): Message;
export function requestOf(fives: Five[]): Uint8Array;
export function eventOf(way: number): Uint8Array;
export function resultOf(issue: number, number: number, outcome: number): Uint8Array;
export function imageOf(record: bigint, apart?: bigint): Uint8Array;
export function askOf(): Uint8Array;
/** Where the message at a place ends, of bytes up to some end; 0 where these end inside it, -1 where its length is out of range. */
export function endOf(bytes: Uint8Array, at: number, end?: number): number;

/** A journal's file, read. */
export interface Journal {
  /** The garage's name, and the version that made the file. */
  name: string;
  version: [number, number, number];
  /** The 60 bytes of the station that it begins with. */
  station: Uint8Array;
  /** The messages that it holds, whole, one after the other; where each begins, and at last where they end; and how many they are. */
  messages: Uint8Array;
  starts: Uint32Array;
  count: number;
  appends: number;
  /** Sessions that ended by answer 1 or 2: behind how many messages, and the bytes that were left. */
  ended: { after: number; answer: 1 | 2; bytes: Uint8Array }[];
  /** Whether another journal follows it. */
  closed: boolean;
  /** The 168 bytes of the numbers of a desk's cards, as the last append that has them says; null where none has. */
  numbers: Uint8Array | null;
  /** What a lost power supply has left: where it begins, and how many bytes it has. No answer was given for it. */
  torn: { at: number; bytes: number } | null;
  /** Where it is damaged: the byte, how many appends and how many messages stand before it. What follows is not read. */
  damage: { at: number; append: number; messages: number } | null;
}
/** Reads a journal's file; throws NoJournal for its head. */
export function journalIn(library: Library, bytes: Uint8Array): Journal;
/** Whether some bytes begin as a journal does. */
export function isJournal(bytes: Uint8Array): boolean;
export class NoJournal extends Error {}
/** What an append has. */
export const Append: { readonly Messages: 1; readonly CutShort: 2; readonly BadLength: 3; readonly Closed: 4; readonly Cards: 5 };
/** The bytes of a journal that grows by appends. */
export class JournalBytes {
  constructor(name: string, version: [number, number, number], station: Uint8Array);
  append(kind: number, bytes?: Uint8Array): void;
  bytes(): Uint8Array;
}
/** The CRC-32C of some bytes behind others whose checksum is given. */
export function checksum(sum: number, bytes: Uint8Array, from?: number, to?: number): number;

/** The five bytes of a line such as `lift basement`; throws WrongLine. */
export function instruction(line: string): Five;
export function lineOf(five: Five): string;
export class WrongLine extends Error {}

export interface Plan {
  image: Uint8Array | null;
  wish: number | null;
  sets: { line: number; fives: Five[] }[];
  wrong: { line: number; why: string }[];
}
export function planIn(text: string): Plan;
export function planBytes(plan: Plan): Uint8Array;

export function bytesIn(text: string): Uint8Array | null;
export function bytesOf(number: bigint): Uint8Array;
export function hexOf(bytes: Uint8Array): string;
export function numberAt(bytes: Uint8Array, at?: number): bigint;

export const START: bigint;
export function wordsOf(number: number): string;
export const Numbers: { readonly [name: string]: number };
export const Size: { readonly [name: string]: number };
export const Kind: { readonly Request: 1; readonly Event: 2; readonly Result: 3; readonly Image: 4; readonly Ask: 5; readonly Answer: 128; readonly Held: 129 };
export const Event: { readonly BeginIn: 1; readonly BeginOut: 2; readonly EndDone: 3; readonly EndNotDone: 4 };
export const Outcome: { readonly Failed: 0; readonly Done: 1; readonly Stuck: 2 };
export const Op: { readonly Belts: 1; readonly Shuttles: 2; readonly Tilt: 3; readonly Lift: 4; readonly Rotate: 5 };
export const Height: { readonly Street: 0; readonly Rotation: 1; readonly Basement: 2 };
