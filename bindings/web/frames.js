// What became of each frame of a run, by its script and its answers.
import { count } from "./words.js";

/**
 * The classes of the frames that were dropped, in their order, by the port's table of the frames: null where a frame has no class.
 *
 * @param {string} table the program's `frames`, comma-separated values below a line of names
 * @returns {(number | null)[]}
 */
export function droppedIn(table) {
  const [head, ...rows] = table.trimEnd().split("\n").map((it) => it.split(","));
  const [kind, fate] = [head.indexOf("class"), head.indexOf("fate")];
  return rows.filter((it) => !["sent", "left"].includes(it[fate])).map((it) => (it[kind] === "" ? null : Number(it[kind])));
}

/**
 * The frames of a run, in the order in which they came. Within a class the first that came starts first.
 *
 * @param {{id: string, length: string, moment: bigint}[]} arrivals
 * @param {string} answers
 * @param {(number | null)[]} dropped the classes of those that were dropped, in their order
 * @returns {{id: string, class: number | null, length: string, arrival: bigint, start: bigint | null, end: bigint | null,
 *   wait: bigint | null, fate: string, taken: number, told: number}[]} `fate` is `sent`, `left` or the name of a drop; `taken` and `told` are
 *   the numbers of the answers' lines that tell of its arrival, and last of it
 */
export function framesOf(arrivals, answers, dropped) {
  const found = [];
  let drops = 0;
  const waiting = Array.from({ length: 8 }, () => ({ frames: [], next: 0 }));
  const arrive = (told, kind, fate) => {
    const it = arrivals[found.length];
    if (!it) return;
    const frame = { id: it.id, class: kind, length: it.length, arrival: it.moment, start: null, end: null, wait: null, fate, taken: told, told };
    found.push(frame);
    if (fate === "left") waiting[kind].frames.push(frame);
  };
  let told = 0;
  for (const line of answers.split("\n")) {
    told += 1;
    const words = line.split(" ");
    if (words[0] === "queued") arrive(told, Number(words[3]), "left");
    else if (words[0] === "dropped") arrive(told, dropped[drops++] ?? null, words[2]);
    else if (words[0] === "start") {
      const queue = waiting[Number(words[3])];
      const frame = queue?.frames[queue.next++];
      if (!frame) continue;
      const [start, end] = [BigInt(words[5]), BigInt(words[7])];
      Object.assign(frame, { start, end, wait: start - frame.arrival, fate: "sent", told });
    }
  }
  return found;
}

const looked = new WeakMap(); // what was found out of frames that were looked through

/**
 * Frames by what became of them, in the order in which they came.
 *
 * @param {ReturnType<typeof framesOf>} frames
 * @returns {{queues: object[][], left: object[], dropped: object[], kinds: number[]}} `queues` are by class those that were sent or are left, of which the
 *   first that came starts first, and `kinds` the classes that frames are of
 */
export function sortedOf(frames) {
  if (looked.has(frames)) return looked.get(frames);
  const found = { queues: Array.from({ length: 8 }, () => []), left: [], dropped: [], kinds: [] };
  const used = [];
  for (const it of frames) {
    if (it.class !== null) used[it.class] = true;
    if (it.start !== null || it.fate === "left") found.queues[it.class].push(it);
    else found.dropped.push(it);
    if (it.fate === "left") found.left.push(it);
  }
  found.kinds = Object.keys(used).map(Number);
  looked.set(frames, found);
  return found;
}

const SUMMARY = /^summary class (\d) queued (\d+) sent (\d+) dropped (\d+) octets \d+ least (\d+|-) mean (\d+|-) greatest (\d+|-) most \d+$/gm;

/**
 * The numbers of each class, as the port sums them up.
 *
 * @param {string} answers with the lines of a summary
 */
export function byClass(answers) {
  const time = (word) => (word === "-" ? null : BigInt(word));
  const rows = [...answers.matchAll(SUMMARY)].map(([, kind, queued, sent, dropped, least, mean, greatest]) => ({
    class: Number(kind), queued: Number(queued), sent: Number(sent), dropped: Number(dropped), left: Number(queued) - Number(sent),
    least: time(least), mean: time(mean), greatest: time(greatest),
  }));
  return rows.reverse();
}

/**
 * A run in one sentence.
 *
 * @param {ReturnType<typeof framesOf>} frames
 * @param {(time: bigint) => string} write
 */
export function runVerdict(frames, write) {
  if (!frames.length) return "No frame comes.";
  const sent = frames.filter((it) => it.fate === "sent");
  const left = frames.filter((it) => it.fate === "left");
  const dropped = frames.length - sent.length - left.length;
  const parts = [sent.length === frames.length ? `${count(frames.length, "frame")} sent` : `${sent.length} of ${count(frames.length, "frame")} sent`];
  if (dropped) parts.push(`${dropped} dropped`);
  if (left.length) parts.push(`${left.length} still waiting at the end`);
  const longest = sent.reduce((most, it) => (most === null || it.wait > most.wait ? it : most), null);
  if (longest) parts.push(`longest wait ${write(longest.wait)} (frame ${longest.id}, class ${longest.class})`);
  return `${parts.join(", ")}.`;
}
