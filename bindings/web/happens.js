// Where in time the things of a run happen, and what to do where that is before its schedule comes into force.
import { GREATEST } from "./moments.js";
import { linesOf } from "./script.js";

const FAR = 1_000_000_000_000n; // a second, in picoseconds: what is as far before the frames is not told beside them

/** The last moment of a run: that of its last line, that to which it goes on, or the end of its last frame. */
export const endOfRun = ({ until, last, frames }) => frames.reduce((most, { end }) => (end !== null && end > most ? end : most), until !== null && until > last ? until : last);

/** The moment from which a run's frames are told, and how long they take; null where it has none. */
function spanOf({ frames }) {
  if (!frames.length) return null;
  const from = frames[0].arrival;
  const to = frames.reduce((most, it) => ((it.end ?? it.arrival) > most ? it.end ?? it.arrival : most), from);
  return { from, length: to - from };
}

/** Whether a schedule is so far before the frames that time is better counted from these. */
function isFar(change, { from, length }) {
  return from - change > FAR && from - change > 1000n * length;
}

/**
 * The moment from which time counts at first: that of the first change, unless the run ends before it or its frames come long after it.
 *
 * @param {{changes: {change: bigint}[], frames: object[], first: bigint, last: bigint, until: bigint | null}} run
 */
export function originOf(run) {
  const span = spanOf(run);
  const change = run.changes.find((it) => !span || !isFar(it.change, span))?.change;
  if (change !== undefined && (!span || change <= endOfRun(run))) return change;
  return span ? span.from : run.first;
}

// The time to show of a run without a frame: two cycles of the first schedule that comes into force, from then on; null where all is shown, since the run
// goes on under it and little lies before that.
function cyclesOf(run) {
  const { change, cycle } = run.changes.find((it, place) => it.cycle !== null && (run.history?.[place]?.inTime ?? true)) ?? {};
  if (change === undefined || change + 2n * cycle > GREATEST) return null;
  const end = endOfRun(run);
  const isNear = change < FAR || change < 10n * (end - change);
  return end > change && isNear ? null : { from: change, to: change + 2n * cycle };
}

/** The time to show of a run: null where it shows all from moment 0 on, since little lies before the frames. */
export function windowOf(run) {
  const span = spanOf(run);
  if (!span) return cyclesOf(run);
  const near = run.changes.map((it) => it.change).filter((it) => it <= span.from && !isFar(it, span));
  const from = near.length ? near[0] : span.from;
  const to = endOfRun(run);
  if (to <= from || from < FAR || from < 10n * (to - from)) return null;
  return { from: from - (to - from) / 20n, to };
}

/** The moment at which a run's schedule would come into force, where none was in force before its end; else null. */
export function notYet(run) {
  const end = endOfRun(run);
  return run.changes.length && run.changes.every((it) => it.change > end) ? run.changes.at(-1).change : null;
}

const FIRST_DATE = 1_000_000_000n * FAR; // in 2001; the greatest moment is in 2262

/** A moment as a date, where it is one of our days; else nothing. */
export function dateOf(moment) {
  if (moment < FIRST_DATE) return "";
  return new Date(Number(moment / 1_000_000_000n)).toISOString().replace(/\.000Z$/, "").replace("T", " ");
}

/**
 * A script whose clock is set to a moment behind its last schedule command: what comes after that is as much later as the clock is.
 *
 * @param {string} text
 * @param {bigint} moment
 * @returns {{text: string, shift: bigint}}
 */
export function setClock(text, moment, plain = text) {
  const lines = text.split("\n");
  const parts = [...linesOf(plain)].map((it, place, all) => ({ ...it, end: (all[place + 1]?.number ?? lines.length + 1) - 1 }));
  const wordsIn = (line) => line.split(/[ \t\r]+/).filter(Boolean);
  const command = parts.findLastIndex(({ line }) => wordsIn(line)[0] === "tc");
  const clockOf = ({ line }) => (/^[ \t]*clock[ \t]+\d+[ \t\r]*$/.test(line) ? BigInt(wordsIn(line)[1]) : null);
  const now = parts.slice(0, command).reduce((most, it) => clockOf(it) ?? most, 0n);
  const shift = moment - now;
  for (const it of parts.slice(command + 1)) {
    const at = clockOf(it);
    if (at !== null && at + shift <= GREATEST) lines[it.number - 1] = `clock ${at + shift}`;
  }
  lines.splice(parts[command]?.end ?? 0, 0, `clock ${moment}`);
  return { text: lines.join("\n"), shift };
}
