// Which word of a line a fault is about, as the program marks it with --explain (crates/hints).
import { GREATEST } from "./moments.js";
import { placesOfLines, wordsAt } from "./gates.js";

// The option that a fault of a command is about.
const OPTION_OF = {
  BadClassCount: "num_tc", TooManyPriorities: "map", ClassOutOfRange: "map", QueueCount: "queues", EmptyQueue: "queues", QueueOverlap: "queues", ZeroInterval: "sched-entry",
  MapChanged: "num_tc", SduTooLarge: "max-sdu", CycleTooShort: "cycle-time", CycleTooLong: "cycle-time", ExtensionTooLong: "cycle-time-extension", BaseTooLate: "base-time",
};
const LACKING = ["NoEntries", "MapMissing", "MissingWord"]; // something lacks behind the line
const AT_PLACE = ["UnknownOption", "BadNumber"]; // the place of the word is told
const AT_FIRST = ["UnknownLine", "FrameInReplay"];
const ALL_VERBS = ["add", "replace", "change", "del"];

// Whether a word is a whole number up to a limit.
const whole = (most) => (word) => /^\d{1,40}$/.test(word) && BigInt(word) <= BigInt(most);
const DIGITS = { ps: 0, ns: 3, us: 6, ms: 9, s: 12 };

// Whether a word is a time with its unit, in whole picoseconds.
function isTime(word) {
  const [, number, rest = "", unit] = /^(\d{1,40})(?:\.(\d+))?(ps|ns|us|ms|s)$/.exec(word) ?? [];
  if (number === undefined || rest.length > DIGITS[unit]) return false;
  return BigInt(number + rest.padEnd(DIGITS[unit], "0")) <= GREATEST;
}

const ID_OF_FRAME = whole(2n ** 64n - 1n);
const OCTETS = whole(2 ** 32 - 1);
// What the words behind the first one are, in each line that has numbers.
const ROLES = {
  frame: [ID_OF_FRAME, whole(255), OCTETS],
  stream: [ID_OF_FRAME, whole(255), OCTETS, isTime, (word) => word === "any" || isTime(word), OCTETS],
  clock: [whole(2n ** 128n - 1n)],
  count: [whole(7)],
  clocks: [isTime],
};
const PARTS = { shortest: OCTETS, jitter: isTime, deadline: isTime }; // what may stand behind them in the line of a stream, each with a value

const rolesOf = (words) => ROLES[words[0].word] ?? [];

// The place of the first part that may stand behind the numbers of a line.
const behindRoles = (words) => {
  const place = rolesOf(words).length + 1;
  return words[place]?.word === "tagged" ? place + 1 : place;
};

// The first word that isn't what its place wants, or nothing.
function firstBad(words) {
  const bad = rolesOf(words).findIndex((fits, place) => words[place + 1] && !fits(words[place + 1].word));
  if (bad >= 0) return words[bad + 1];
  for (let place = behindRoles(words); PARTS[words[place]?.word] && words[place + 1]; place += 2) if (!PARTS[words[place].word](words[place + 1].word)) return words[place + 1];
  return null;
}

// The first word that a line has too much; nothing where one lacks.
function firstLeftOver(words) {
  let place = behindRoles(words);
  const seen = [];
  if (words[0].word === "stream") {
    for (; PARTS[words[place]?.word] && !seen.includes(words[place].word); place += 2) seen.push(words[place].word);
    if (words[place]?.word === "via") return null;
  }
  return words[place] ?? null;
}

const allOf = (words, wanted) => words.filter(({ word }) => word === wanted);

// The word that is no command for taprio.
function noCommand(words) {
  const place = ["tc", "qdisc"].findIndex((wanted, at) => words[at]?.word !== wanted);
  if (place >= 0) return words[place];
  return ALL_VERBS.includes(words[2]?.word) ? null : words[2];
}

// The word of a command that a fault is about, `behind` where one lacks, or nothing.
function wordOfCommand(words, name, value) {
  if (LACKING.includes(name)) return "behind";
  if (AT_PLACE.includes(name)) return words[Number(value)];
  if (name === "NotTaprio") return noCommand(words);
  if (name === "Repeated") return allOf(words, value)[1];
  if (name === "Unsupported") return allOf(words, value)[0];
  if (name === "IntervalTooShort") return allOf(words, "sched-entry")[Number(value)];
  return allOf(words, OPTION_OF[name])[0];
}

// The same of another line.
function wordOfLine(words, name) {
  if (AT_FIRST.includes(name)) return words[0];
  if (name === "ClockTooLate") return words[1];
  if (name === "BadNumber") return firstBad(words);
  if (name !== "WordCount" || ["port", "link"].includes(words[0].word)) return null;
  return firstLeftOver(words) ?? "behind";
}

/**
 * Where a text has what faults are about: a word, the end of a line where one lacks, or all of a line.
 *
 * @param {{text: string, back: (place: number) => number}} plain the plain lines of the text, and where their signs stand in it
 * @param {{line: number, said: string}[]} faults `said` is what is said of a line, such as `tc-fault UnknownOption 7` or `BadNumber`
 * @returns {{begin: number, end: number}[]} places in the text
 */
export function marksIn({ text, back }, faults) {
  const wanted = new Map(faults.map(({ line, said }) => [line, said]));
  const found = [];
  for (const line of wanted.size ? placesOfLines(text) : []) {
    if (!wanted.has(line.number)) continue;
    const words = wordsAt(text, line);
    if (!words.length) continue;
    const [head, ...rest] = wanted.get(line.number).replace(/[,.].*$/, "").split(" ");
    const end = words.at(-1).end;
    const word = ["tc-fault", "refused"].includes(head) ? wordOfCommand(words, ...rest) : wordOfLine(words, head);
    const [from, to] = word === "behind" ? [line.end, line.end + 1] : word ? [word.at, word.end] : [words[0].at, end];
    found.push({ begin: back(from), end: back(to - 1) + 1 });
  }
  return found;
}
