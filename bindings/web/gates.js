// The gate lists of tc lines: where their entries stand in the text, and what is changed of it where one is changed by hand.

const MOST_ENTRIES = 256; // of a gate list
const LONGEST = 2 ** 32 - 1; // nanoseconds of an interval
const GRID = 1000; // nanoseconds that an edge is moved by, unless it is moved finely

/** The logical lines of a text, each with its number and where it begins and ends: a backslash before the end of a line takes the next one into it. */
export function* placesOfLines(text) {
  let [begin, number, first, at] = [0, 1, 1, 0];
  while (at <= text.length) {
    const found = text.indexOf("\n", at);
    const end = found < 0 ? text.length : found;
    if (found < 0 || !/\\\r?$/.test(text.slice(at, end))) {
      yield { number: first, begin, end };
      [begin, first] = [end + 1, number + 1];
    }
    [at, number] = [end + 1, number + 1];
  }
}

/** The words of a logical line, each with where it stands in the text. */
export function wordsAt(text, { begin, end }) {
  const plain = text.slice(begin, end).replace(/\\\r?\n/g, (it) => " ".repeat(it.length));
  return [...plain.matchAll(/[^ \t\r\n]+/g)].map(([word], place, all) => ({ word, at: begin + all[place].index, end: begin + all[place].index + word.length }));
}

const VERBS = ["add", "replace", "change"];
const WITH_VALUE = ["dev", "parent", "handle"];

// The place behind the word taprio in the words of a command that sets a schedule, or null; and its device.
function headOf(words) {
  const is = (place, ...wanted) => wanted.includes(words[place]?.word);
  if (!is(0, "tc") || !is(1, "qdisc") || !is(2, ...VERBS)) return null;
  let [place, device] = [3, ""];
  while (is(place, "root", ...WITH_VALUE)) {
    if (is(place, "dev")) device = words[place + 1]?.word ?? "";
    place += is(place, "root") ? 1 : 2;
  }
  return is(place, "taprio") ? { behind: place + 1, device } : null;
}

// A number of a shape that is within limits, or null.
function numberOf(word, shape, base, least, most) {
  if (!shape.test(word ?? "")) return null;
  const value = parseInt(word, base);
  return value >= least && value <= most ? value : null;
}

// The entry whose word sched-entry stands at a place, or null where it can't be read.
function entryAt(words, place) {
  const [head, kind, mask, time] = words.slice(place, place + 4);
  const gates = numberOf(mask?.word, /^(?:0x)?[0-9a-fA-F]+$/, 16, 0, 255);
  const interval = numberOf(time?.word, /^[0-9]+$/, 10, 1, LONGEST);
  return kind?.word === "S" && gates !== null && interval !== null ? { gates, interval, head, mask, time, before: words[place - 1] } : null;
}

// The word behind an option, or null.
function optionOf(words, option) {
  const place = words.findIndex(({ word }) => word === option);
  return place < 0 ? null : words[place + 1]?.word ?? null;
}

// What can't be read of entries, or nothing.
function faultOf(entries) {
  const bad = entries.indexOf(null);
  if (bad >= 0) return `sched-entry ${bad + 1} can't be read: S, gates such as 01 and nanoseconds are expected.`;
  return entries.length > MOST_ENTRIES ? `It has ${entries.length} entries, and ${MOST_ENTRIES} is the most.` : "";
}

// A logical line of plain lines, and its words, where they stand in the text that these are of.
const placedIn = (back, { number, begin, end }) => ({ number, begin: begin && back(begin - 1) + 1, end: back(end) });
const placedWord = (back, { word, at, end }) => ({ word, at: back(at), end: back(end - 1) + 1 });

// The gate list of a command, or null where it is none: its entries begin and end at nanoseconds from the cycle's beginning.
function listOf({ text, back }, line) {
  const words = wordsAt(text, line).map((it) => placedWord(back, it));
  const head = headOf(words);
  if (!head) return null;
  const behind = words.slice(head.behind - 1);
  const heads = behind.flatMap(({ word }, place) => (word === "sched-entry" ? [place] : []));
  if (!heads.length) return null;
  const entries = heads.map((place) => entryAt(behind, place));
  let end = 0;
  for (const it of entries) if (it) [it.begin, it.end] = [end, (end += it.interval)];
  const cycle = optionOf(behind, "cycle-time");
  const kinds = numberOf(optionOf(behind, "num_tc"), /^[0-9]+$/, 10, 1, 8);
  return { ...placedIn(back, line), device: head.device, entries, sum: end, cycle: /^[0-9]+$/.test(cycle ?? "") && Number(cycle) > 0 ? Number(cycle) : null, kinds, fault: faultOf(entries) };
}

/**
 * The gate lists of a text, in their order.
 *
 * @param {{text: string, back: (place: number) => number}} plain the plain lines of a script or of schedules, and where their signs stand in it
 * @returns {{number: number, begin: number, end: number, device: string, entries: object[], sum: number, cycle: number | null, kinds: number | null, fault: string}[]}
 *   `number` is that of the command's first line, `begin` and `end` are where it stands in the text; times are nanoseconds, `cycle` is null where
 *   no cycle-time is given, `kinds` is the number of classes, and `fault` says what can't be read
 */
export const gateListsIn = (plain) => [...placesOfLines(plain.text)].map((it) => listOf(plain, it)).filter(Boolean);

const put = ({ at, end }, words) => ({ at, end, words: String(words) });

/** A text with parts of it changed, and where the first one of them stands then. */
export function patched(text, changes) {
  const sorted = [...changes].sort((one, other) => other.at - one.at);
  const first = sorted.at(-1);
  return { text: sorted.reduce((all, { at, end, words }) => all.slice(0, at) + words + all.slice(end), text), begin: first.at, end: first.at + first.words.length };
}

/** Between which moments an edge may lie: an interval is at least a nanosecond. */
export function limitsOf({ entries }, edge) {
  const [one, next] = [entries[edge], entries[edge + 1]];
  if (!next) return { least: one.begin + 1, most: one.begin + LONGEST };
  return { least: Math.max(one.begin + 1, next.end - LONGEST), most: Math.min(next.end - 1, one.begin + LONGEST) };
}

/** The moment nearest to another one that an edge can be moved to, in whole microseconds or finely; null where there is none. */
export function snapped(list, edge, moment, fine) {
  const { least, most } = limitsOf(list, edge);
  const step = fine ? 1 : GRID;
  const [low, high] = [Math.ceil(least / step) * step, Math.floor(most / step) * step];
  return low > high ? null : Math.min(high, Math.max(low, Math.round(moment / step) * step));
}

/** The next moment of an edge to one side; null where it can't go farther. */
export function stepOf(list, edge, side, fine) {
  const [{ end }, step] = [list.entries[edge], fine ? 1 : GRID];
  const next = (side > 0 ? Math.floor(end / step) + 1 : Math.ceil(end / step) - 1) * step;
  const found = snapped(list, edge, next, fine);
  return found !== null && (found - end) * side > 0 ? found : null;
}

/** What is changed of the text where an edge is moved: the end of an entry, and the beginning of the next one. */
export function movedEdge({ entries }, edge, moment) {
  const [one, next] = [entries[edge], entries[edge + 1]];
  return [put(one.time, moment - one.begin), ...(next ? [put(next.time, next.end - moment)] : [])];
}

// Gates as they are written, as wide as a word that they take the place of.
function gatesLike(word, gates) {
  const [, prefix, digits] = /^(0x)?(.*)$/.exec(word);
  return `${prefix ?? ""}${gates.toString(16).padStart(Math.min(2, digits.length), "0")}`;
}

/** What is changed where a gate of an entry is opened or closed. */
export function toggledGate({ entries }, place, kind) {
  const { gates, mask } = entries[place];
  return [put(mask, gatesLike(mask.word, gates ^ (1 << kind)))];
}

/** What is changed where an entry is split in its middle, or why it can't be: both have its gates, and the cycle stays. */
export function splitEntry(text, { entries }, place) {
  const it = entries[place];
  if (entries.length >= MOST_ENTRIES) return { refused: `A gate list has at most ${MOST_ENTRIES} entries.` };
  if (it.interval < 2) return { refused: "An entry of 1 ns can't be split." };
  const middle = it.begin + it.interval / 2;
  const round = Math.round(middle / GRID) * GRID;
  const at = round > it.begin && round < it.end ? round : Math.floor(middle);
  const between = text.slice(it.before.end, it.head.at);
  const words = `${at - it.begin}${between}sched-entry S ${it.mask.word} ${it.end - at}`;
  return { changes: [put(it.time, words)] };
}

/** What is changed where an entry is removed, or why it can't be: the one before it has its time, or the one behind the first. */
export function removedEntry({ entries }, place) {
  if (entries.length < 2) return { refused: "A gate list has at least one entry." };
  const [it, heir] = [entries[place], entries[place ? place - 1 : 1]];
  if (it.interval + heir.interval > LONGEST) return { refused: `An interval has at most ${LONGEST} ns.` };
  return { changes: [{ at: it.before.end, end: it.time.end, words: "" }, put(heir.time, it.interval + heir.interval)] };
}
