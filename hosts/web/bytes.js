// Bytes and numbers, the lowest byte first; bytes in hexadecimal.

/** A number of 64 bits in eight bytes. */
export function bytesOf(number) {
  const bytes = new Uint8Array(8);
  new DataView(bytes.buffer).setBigUint64(0, number, true);
  return bytes;
}

/** The number of 64 bits at a place of some bytes. */
export const numberAt = (bytes, at = 0) => new DataView(bytes.buffer, bytes.byteOffset).getBigUint64(at, true);

export const hexOf = (bytes) => Array.from(bytes, (byte) => byte.toString(16).padStart(2, '0').toUpperCase()).join(' ');

/** The bytes of some digits, blanks anywhere; nothing where they are none. */
export function bytesIn(text) {
  const digits = text.replace(/\s+/g, '');
  if (digits.length % 2 || /[^0-9a-f]/i.test(digits)) return null;
  return Uint8Array.from({ length: digits.length / 2 }, (_, at) => parseInt(digits.slice(2 * at, 2 * at + 2), 16));
}

export function joined(...parts) {
  const all = new Uint8Array(parts.reduce((length, part) => length + part.length, 0));
  let at = 0;
  for (const part of parts) {
    all.set(part, at);
    at += part.length;
  }
  return all;
}

export const hasBit = (number, bit) => ((number >> BigInt(bit)) & 1n) === 1n;

/** The bits of a number, from the lowest. */
export const bitsOf = (number) => Array.from({ length: 64 }, (_, bit) => bit).filter((bit) => hasBit(number, bit));
