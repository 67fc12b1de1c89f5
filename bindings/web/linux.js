// What the software mode of Linux does otherwise with schedule commands, as far as their lines say so: see "The software mode of Linux" in
// docs/compare.md. The program says it with check --explain.
import { gateListsIn } from "./gates.js";
import { asItStands } from "./pasted.js";
import { linesOf } from "./script.js";

const GREATEST_CYCLE = 2 ** 31 - 1; // nanoseconds: a number of 32 bits with a sign

// Whether a line leaves its list to the kernel: it has no `flags`, or says 0.
const isSoftware = (line) => /^0(?:x0+)?$/i.test(/(?:^|\s)flags\s+(\S+)/.exec(line)?.[1] ?? "0");

// What it does with one gate list; `earlier` is whether a schedule stands before it.
function notesOf({ number, cycle, sum }, line, earlier) {
  if (!isSoftware(line)) return [];
  const whole = cycle ?? sum;
  const found = [];
  if (whole > GREATEST_CYCLE) found.push(`refuses the cycle of line ${number}: its cycles are of ${GREATEST_CYCLE} ns at most`);
  else if (whole > sum) found.push(`begins the list of line ${number} again each ${sum} ns, and not each ${whole} ns`);
  if (/\scycle-time-extension\s+(?!0+(?:\s|$))\S/.test(line)) found.push(`holds no state for the cycle-time-extension of line ${number}`);
  if (earlier) found.push(`changes to line ${number} at the start or the end of an entry, where the schedule before it runs`);
  return found;
}

/**
 * What the software mode of Linux does otherwise with the commands of a text.
 *
 * @param {string} text schedules
 * @returns {string} sentences; empty where it does the same
 */
export function linuxSaid(text) {
  const lists = new Map(gateListsIn(asItStands(text)).map((it) => [it.number, it]));
  const found = [];
  let earlier = false;
  for (const { number, line } of linesOf(text)) {
    const list = lists.get(number);
    const isDeletion = /^\s*tc\s+qdisc\s+del/.test(line);
    if (list) found.push(...notesOf(list, line, earlier));
    if (isDeletion) found.push(`deletes at once by line ${number}, and throws the frames away that wait`);
    if (list || isDeletion) earlier = Boolean(list);
  }
  return found.length ? `The software mode of Linux ${found.join("; it ")}.` : "";
}
