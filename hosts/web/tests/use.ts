// A small planner in TypeScript: that it compiles shows that the declarations can be used; nothing runs it.
import { Answer, Event, instruction, Journal, journalIn, Library, load, Outcome, planBytes, planIn, readMessage, requestOf } from '../index.js';

export async function parked(wasm: ArrayBuffer): Promise<string> {
  const garage: Library = await load(wasm);
  const desk = garage.desk();
  const begun: Answer = desk.event(Event.BeginIn, 7001);
  if (!begun.taken) return String(begun);
  desk.event(Event.EndDone);
  const down = instruction('lift basement');
  const { issue } = desk.request([down]);
  desk.result(issue, 0, Outcome.Done);
  const { place, lastKnown } = desk.where(7001);
  const message = readMessage(requestOf([down]));
  const fives = message.says === 'request' ? message.fives.length : 0;
  const verdict = garage.judge(planBytes(planIn('image start\nwish without a car\n')));
  const next: bigint = garage.next(desk.record, down).record;
  return `${place ?? 'nowhere'} ${lastKnown} ${fives} ${verdict} ${next} ${garage.conditions(desk.record, down).length}`;
}

/** The station at the end of a journal, and what stands behind it. */
export function replayed(garage: Library, bytes: Uint8Array): string {
  const journal: Journal = journalIn(garage, bytes), station = garage.station(journal.station);
  for (let at = 0; at < journal.count; at++) station.message(journal.messages.subarray(journal.starts[at], journal.starts[at + 1]));
  const behind = journal.damage ? `damaged at byte ${journal.damage.at}` : journal.torn ? `torn at byte ${journal.torn.at}` : 'whole';
  return `${journal.name}: ${journal.count} messages, ${garage.cars(station.record)} cars, ${behind}`;
}
