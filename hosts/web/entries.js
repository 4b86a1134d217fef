// The entries of include/*.h in a WebAssembly module (tools/wasm), and how values cross to them: each run of bytes is copied into the
// module's memory for the call, and back where it was lent for writing.

const U8 = 'u8', U16 = 'u16', U32 = 'u32', U64 = 'u64';
const ROOM = 'room'; // bytes lent for writing: a Uint8Array, with its length
const BYTES = 'bytes'; // bytes that are only read

/** The parameters of each entry by their names, as the headers have them. */
export const ENTRIES = {
  station_version: {},
  station_start: { room: ROOM },
  station_request: { room: ROOM, count: U8, set: BYTES },
  station_event: { room: ROOM, way: U8 },
  station_result: { room: ROOM, issue: U16, number: U8, ending: U8 },
  station_image: { room: ROOM, image: U64, apart: U64 },
  station_ask: { room: BYTES, image: ROOM },
  station_message: { room: ROOM, message: BYTES, reply: ROOM },
  garage_sound: { image: U64 },
  garage_cars: { image: U64 },
  garage_allowed: { image: U64, five: BYTES },
  garage_next: { image: U64, five: BYTES, next: ROOM },
  garage_area: { five: BYTES, area: ROOM },
  garage_overlap: { one: BYTES, other: BYTES },
  desk_start: { room: ROOM },
  desk_request: { room: ROOM, count: U8, set: BYTES },
  desk_event: { room: ROOM, way: U8, card: U32 },
  desk_result: { room: ROOM, issue: U16, number: U8, ending: U8 },
  desk_image: { room: ROOM, image: U64, apart: U64, count: U8, cards: BYTES },
  desk_ask: { room: BYTES, image: ROOM },
  desk_where: { room: BYTES, card: U32 },
  desk_leaving: { room: BYTES, card: ROOM },
  desk_list: { room: BYTES, lines: ROOM },
  desk_outstanding: { room: BYTES, set: ROOM },
  desk_compare: { room: BYTES, image: U64, apart: U64, count: U8, cards: BYTES, lines: ROOM },
  plan_judge: { plan: BYTES },
  plan_explain: { plan: BYTES, room: ROOM },
  drawing_write: { image: U64, text: ROOM },
  drawing_read: { text: BYTES, room: ROOM },
  drawing_write_apart: { apart: U64, text: ROOM },
  drawing_read_apart: { text: BYTES, room: ROOM },
  plain_request: { room: ROOM, count: U8, set: BYTES },
  plain_event: { room: ROOM, way: U8 },
  plain_result: { room: ROOM, issue: U16, number: U8, ending: U8 },
  panel_condition: { image: U64, five: BYTES, c: U8, room: ROOM },
  panel_next: { image: U64, five: BYTES, next: ROOM },
  panel_cars: { image: U64, room: ROOM },
  report_start: { totals: ROOM },
  report_message: { totals: ROOM, station: BYTES, message: BYTES },
  report_lines: { totals: BYTES, full: U8, out: ROOM },
};

const LARGEST = { u8: 0xff, u16: 0xffff, u32: 0xffffffff };
const PAGE = 65536;
const LENGTHS = Array.from({ length: 256 }, (_, length) => BigInt(length));

/** A length as it crosses. */
export const lengthOf = (length) => LENGTHS[length] ?? BigInt(length);

/** The module's entries and its memory. */
export class Entries {
  constructor(instance) {
    this.exports = instance.exports;
    this.memory = instance.exports.memory;
    this.free = Number(instance.exports.__heap_base.value);
    for (const name of Object.keys(ENTRIES)) {
      if (!(name in this.exports)) throw new Error(`the module has no entry ${name}: it is older than this library`);
    }
  }

  /** Takes some bytes of the module's memory for good, and gives their address. */
  take(size) {
    const at = this.free;
    this.free = (at + size + 15) & ~15;
    this.reach(this.free);
    return at;
  }

  /** Makes the memory reach to an address. */
  reach(end) {
    const missing = end - this.memory.buffer.byteLength;
    if (missing > 0) this.memory.grow(Math.ceil(missing / PAGE));
  }

  /** Some bytes of the memory, as they are now: a view for at most as long as nothing else is taken. */
  view(at, size) {
    return new Uint8Array(this.memory.buffer, at, size);
  }

  /** Calls an entry: numbers as they are (64 bits as a bigint), bytes as Uint8Arrays. */
  call(name, ...values) {
    const parameters = Object.entries(ENTRIES[name]);
    if (values.length !== parameters.length) throw new TypeError(`${name} takes ${parameters.length} values`);
    const crossed = [], lent = [];
    let at = this.free;
    parameters.forEach(([label, kind], index) => {
      const value = values[index];
      if (kind === ROOM || kind === BYTES) {
        if (!(value instanceof Uint8Array)) throw new TypeError(`${label} of ${name} is a Uint8Array`);
        this.reach(at + value.length);
        this.view(at, value.length).set(value);
        if (kind === ROOM) lent.push([at, value]);
        crossed.push(at, lengthOf(value.length));
        at = (at + value.length + 15) & ~15;
      } else if (kind === U64) {
        if (typeof value !== 'bigint' || BigInt.asUintN(64, value) !== value) throw new RangeError(`${label} of ${name} is a bigint of 64 bits`);
        crossed.push(value);
      } else {
        if (!Number.isInteger(value) || value < 0 || value > LARGEST[kind]) throw new RangeError(`${label} of ${name} goes from 0 to ${LARGEST[kind]}`);
        crossed.push(value);
      }
    });
    const answer = this.exports[name](...crossed) >>> 0;
    for (const [from, room] of lent) room.set(this.view(from, room.length));
    return answer;
  }
}

/** Compiles the module of some bytes. */
export async function entriesOf(wasm) {
  const { instance } = await WebAssembly.instantiate(wasm, {});
  return new Entries(instance);
}
