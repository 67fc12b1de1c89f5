// Two schedules beside each other: an input under another schedule, and what differs between the two runs.
import { linesOf } from "./script.js";
import { count } from "./words.js";

const isCommand = (line) => /^[ \t\r]*tc(?:[ \t\r]|$)/.test(line);

/** The schedule commands of a text, each in one line. */
export const commandsIn = (text) => [...linesOf(text)].map(({ line }) => line).filter(isCommand);

/**
 * A text whose schedule commands are those of another schedule: the first in the place of the first, and so on. Those that the text has beyond them
 * are left away, and those that the schedule has beyond them stand behind the last, or before all where the text has none.
 *
 * @param {string} text a script, or schedules
 * @param {string} schedule
 */
export function withSchedule(text, schedule) {
  const given = commandsIn(schedule);
  const lines = [];
  let end = 0;
  for (const { line } of linesOf(text)) {
    if (!isCommand(line)) lines.push(line);
    else {
      lines.push(...given.splice(0, 1));
      end = lines.length;
    }
  }
  lines.splice(end, 0, ...given);
  return lines.join("\n");
}

/** The time to show of two runs: that of both, or null where one is shown from moment 0 on. */
export function windowOfBoth(one, other) {
  if (!one || !other) return null;
  return { from: one.from < other.from ? one.from : other.from, to: one.to > other.to ? one.to : other.to };
}

const OF_CLASS = [["sent", "Sent"], ["dropped", "Dropped"], ["left", "Waiting at the end"], ["least", "Least wait"], ["mean", "Mean wait"], ["greatest", "Greatest wait"]];
const OF_GATE = [["open", "Gate open at most"], ["closed", "Gate closed at most"], ["share", "Gate's share of time"]];
const OF_STREAM = [["least", "Least wait"], ["greatest", "Greatest wait"], ["last", "Latest end"], ["verdict", "Deadline"]];

const isNumber = (value) => ["number", "bigint"].includes(typeof value);
const isTold = (value) => value !== null && value !== "" && value !== 0;

// How much more the other value is, or for texts whether they are one; null where a run has none.
function differenceOf(one, other) {
  if (!isTold(one) && one !== 0 || !isTold(other) && other !== 0) return null;
  if (isNumber(one) && typeof one === typeof other) return other - one;
  return one === other ? "same" : "changed";
}

// The rows of one class or stream, without those that neither run tells anything of.
function rowsOf(name, measures, one, other) {
  const rows = measures.map(([field, what]) => ({ of: name, what, one: one?.[field] ?? null, other: other?.[field] ?? null }));
  return rows
    .filter((it) => isTold(it.one) || isTold(it.other))
    .map((it) => ({ ...it, difference: differenceOf(it.one, it.other) }))
    .map((it) => ({ ...it, tone: it.difference === "same" || it.difference === 0 || it.difference === 0n ? "same" : "" }));
}

const keysOf = (lists, key) => [...new Set(lists.flat().map((it) => it[key]))];
const byKey = (list, key, value) => list.find((it) => it[key] === value);

// The windows of a schedule; none where there are several.
const windowsOfOne = ({ windows }) => (keysOf([windows], "schedule").length === 1 ? windows : []);

/**
 * What differs by class: its frames and waits, and its gate where each run has one schedule.
 *
 * @param {{classes: object[], windows: object[]}} one
 * @param {{classes: object[], windows: object[]}} other
 * @returns {{of: string, what: string, one: any, other: any, difference: bigint | number | string | null, tone: string}[]} times are bigints; null where one has no value
 */
export function differencesByClass(one, other) {
  const both = [one, other].map(windowsOfOne);
  const gates = both.every((it) => it.length) ? both : [[], []];
  const kinds = keysOf([one.classes, other.classes], "class").sort((a, b) => b - a);
  return kinds.flatMap((kind) => {
    const classes = [one.classes, other.classes].map((it) => byKey(it, "class", kind));
    return [...rowsOf(`class ${kind}`, OF_CLASS, ...classes), ...rowsOf(`class ${kind}`, OF_GATE, ...gates.map((it) => byKey(it, "class", kind)))];
  });
}

const met = (streams) => ({ met: streams.filter((it) => it.verdict === "met").length });

/** What differs by stream in bounds, and how many deadlines are met, for ever. */
export function differencesByStream(one, other) {
  const due = one.filter((it) => it.deadline !== null).length;
  const all = rowsOf("all", [["met", `Deadlines met, of ${count(due, "stream")}`]], ...[one, other].map(met));
  return [...all, ...keysOf([one, other], "id").flatMap((id) => rowsOf(`stream ${id}`, OF_STREAM, ...[one, other].map((it) => byKey(it, "id", id))))];
}
