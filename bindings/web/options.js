// The options of the page, as the values that a job is given and as the words of a link.
import { wordOfMoment } from "./moments.js";

const NUMBERS = ["rate", "mtu", "room", "frames", "entries"];
const NANOSECONDS = { cycle: "cycle", least: "least-interval", base: "base-time" }; // the program's words for times that are whole nanoseconds
const MOMENTS = ["until", "from", "to", ...Object.keys(NANOSECONDS)];
const FLAGS = ["summary", "shares", "windows", "late", "slack", "why", "leftovers", "share", "exact"];
const SEED = "seed";
const SILENT = "silent";
const DEVICE = "device";
const TEXTS = [...NUMBERS, ...MOMENTS, SEED, SILENT, DEVICE]; // the options that are typed, or chosen of a list
const GREATEST_NUMBER = 2 ** 32 - 1;
const GREATEST_SEED = 2n ** 64n - 1n;
const USED = {
  script: ["rate", "mtu", "room", "until", "summary"],
  draw: ["rate", "mtu", "room", "from", "to"],
  replay: ["rate", "mtu", "room", "until", "summary"],
  bounds: ["rate", "mtu", "room", "frames", "slack", "why", "silent", "leftovers"],
  paths: ["rate", "mtu", "room", "frames", "silent", "leftovers"],
  plan: ["rate", "mtu", "room", "cycle", "entries", "least", "base", "share"],
  check: ["rate", "shares", "windows"],
  streams: ["late", "seed"],
};

/** A value that can't be read, or that lacks. */
export class BadOption extends Error {
  /**
   * @param {string} field the id of its input
   * @param {string} words what is said of it
   */
  constructor(field, words = `taprio_port: bad value of --${NANOSECONDS[field] ?? field}`) {
    super(words);
    this.field = field;
  }
}

const inputOf = (name) => document.getElementById(name);

function readNumber(name) {
  const words = inputOf(name).value.trim();
  if (!/^\d{1,10}$/.test(words) || Number(words) > GREATEST_NUMBER) throw new BadOption(name);
  return Number(words);
}

// What draws the frames of streams; null where nothing does. It doesn't stand beside frames that come late.
function readSeed() {
  const words = inputOf(SEED).value.trim();
  if (words === "") return null;
  if (!/^\d{1,20}$/.test(words) || BigInt(words) > GREATEST_SEED || inputOf("late").checked) throw new BadOption(SEED);
  return BigInt(words);
}

// The classes that send nothing, as the program reads them: each of 0 to 7 once, with commas between them; none where nothing stands there. They are told as
// a mask, whose bit N is class N, so that two runs' values are compared as numbers.
function readSilent() {
  const words = inputOf(SILENT).value.trim();
  if (words === "") return null;
  const classes = words.split(",").map((it) => it.trim());
  if (!classes.every((it) => /^[0-7]$/.test(it)) || new Set(classes).size < classes.length) throw new BadOption(SILENT);
  return classes.reduce((mask, it) => mask | (1 << Number(it)), 0);
}

/**
 * The moments that stand in fields, as the port reads them.
 *
 * @param {string[]} names the ids of their inputs
 * @param {(words: string[]) => Promise<(bigint | null)[]>} read the port's reader: null where a word is no moment
 * @returns {Promise<(bigint | null)[]>} null where a field is empty
 * @throws {BadOption} where one has something else than a moment
 */
export async function momentsIn(names, read) {
  const words = names.map((name) => wordOfMoment(inputOf(name).value));
  const found = words.some(Boolean) ? await read(words) : [];
  return names.map((name, place) => {
    if (words[place] === "") return null;
    if (found[place] === null) throw new BadOption(name);
    return found[place];
  });
}

// A time that stands in a field, in nanoseconds, or null; a cycle is longer than none.
function nanosecondsOf(name, time) {
  if (time !== null && (time % 1000n || (name === "cycle" && time === 0n))) throw new BadOption(name);
  return time === null ? null : time / 1000n;
}

// The values where nothing is said.
const standing = () => ({
  rate: 1000, mtu: 1500, room: 128, frames: 1000000, entries: 256, width: 1200, until: null, from: null, to: null, cycle: null, least: null, base: null,
  summary: false, shares: false, windows: false, late: false, slack: false, why: false, leftovers: false, share: false, seed: null, silent: null,
});

// What stands at first in a field with a text.
const textAtFirst = (name) => String(standing()[name] ?? "");

/**
 * The values of the options that a job has, as they stand now; the others are the program's where no words are given.
 *
 * @param {string} job
 * @param {(words: string[]) => Promise<(bigint | null)[]>} read the port's reader of moments
 * @throws {BadOption} where one is no number or no moment; whether a number is within its limits the port judges
 */
export async function valuesFor(job, read) {
  const values = standing();
  for (const name of USED[job]) {
    if (NUMBERS.includes(name)) values[name] = readNumber(name);
    else if (FLAGS.includes(name)) values[name] = inputOf(name).checked;
    else if (name === SEED) values[name] = readSeed();
    else if (name === SILENT) values[name] = readSilent();
  }
  const names = USED[job].filter((name) => MOMENTS.includes(name));
  const moments = await momentsIn(names, read);
  for (const [place, name] of names.entries()) values[name] = name in NANOSECONDS ? nanosecondsOf(name, moments[place]) : moments[place];
  return values;
}

/** How the tc lines of a text are read: as they stand, or as they are pasted; and of which device alone, or null. */
export const readingOfLines = () => ({ exact: inputOf("exact").checked, device: inputOf(DEVICE).value.trim() || null });

/** The options that are not as they stand at first, as words. */
export function wordsOfOptions() {
  const words = {};
  for (const name of TEXTS) {
    const input = inputOf(name);
    if (input.value !== textAtFirst(name)) words[name] = input.value;
  }
  for (const name of FLAGS) if (inputOf(name).checked) words[name] = "1";
  return words;
}

/** Sets all options by words; those without a word stand as at first. */
export function setOptions(words) {
  for (const name of TEXTS) inputOf(name).value = words[name] ?? textAtFirst(name);
  if (inputOf("rate").value === "") inputOf("rate").value = "1000";
  for (const name of FLAGS) inputOf(name).checked = words[name] === "1";
}
