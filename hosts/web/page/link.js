// Links that hold a state: a drawn garage, or a running station with the cards of its cars.

import { bytesIn, bytesOf, hexOf, numberAt } from '../bytes.js';
import { Size } from '../numbers.js';

const digits = (bytes) => hexOf(bytes).replaceAll(' ', '');

/** The cards of a desk's cars, in the order of the cells. */
export function cardsOf(library, desk) {
  const { cards } = desk;
  return library.cardPlaces(desk.record).map((place) => cards.get(place));
}

export const garageLink = (record) => `#garage=${digits(bytesOf(record))}`;

/** A desk as a link: the station's bytes, and the cards of its cars. */
export function stationLink(library, desk) {
  const cards = cardsOf(library, desk);
  return `#station=${digits(desk.bytes.subarray(0, Size.STATION_SIZE))}${cards.length ? `&cards=${cards.join(',')}` : ''}`;
}

/** What a link holds: a garage's record, or a desk, which is nothing where the link's is none; or neither. */
export function linkedIn(library, hash) {
  const [, record] = hash.match(/^#garage=([0-9a-fA-F]{16})$/) ?? [];
  if (record) return { garage: numberAt(bytesIn(record)) };
  const [, station, cards = ''] = hash.match(/^#station=([0-9a-fA-F]*)(?:&cards=([0-9,]*))?$/) ?? [];
  if (station === undefined) return {};
  const bytes = bytesIn(station), numbers = cards.split(',').filter(Boolean).map(Number);
  const fits = bytes?.length === Size.STATION_SIZE && numbers.every((card) => card < 2 ** 32);
  return { desk: fits ? library.deskWith(bytes, numbers) : null };
}
