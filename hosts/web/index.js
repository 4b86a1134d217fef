// A garage's station, proved, for JavaScript: the entries as WebAssembly, and a small layer over them. Start with `load`.

export { bytesIn, bytesOf, hexOf, numberAt } from './bytes.js';
export { ENTRIES, Entries } from './entries.js';
export { Append, checksum, isJournal, JournalBytes, journalIn, NoJournal } from './journals.js';
export { Library, load } from './library.js';
export { askOf, endOf, eventOf, imageOf, readMessage, requestOf, resultOf } from './messages.js';
export { Answer, Event, Height, Kind, Numbers, Op, Outcome, Size, START, wordsOf } from './numbers.js';
export { planBytes, planIn } from './plans.js';
export { Desk, Station } from './station.js';
export { Run, Totals } from './totals.js';
export { instruction, lineOf, WrongLine } from './words.js';
