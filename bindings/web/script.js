// What stands in a script: its frames with the moments at which they come, and its schedule commands.
import { GREATEST } from "./moments.js";

/**
 * The lines of a text, those that a backslash joins as one, each with its number.
 *
 * @param {string} text
 * @returns {Generator<{number: number, line: string}>}
 */
export function* linesOf(text) {
  const lines = text.split("\n");
  for (let place = 0; place < lines.length; place += 1) {
    const number = place + 1;
    let line = lines[place];
    while (place + 1 < lines.length && (line.endsWith("\\") || line.endsWith("\\\r"))) {
      place += 1;
      line = `${line.replace(/\\\r?$/, " ")}${lines[place]}`;
    }
    yield { number, line };
  }
}

const BLANKS = /[ \t\r]+/;
const PLAIN = /^(?:frame|clock) \d+(?: \d+)*$/; // a line whose words stand one blank apart

/**
 * The frames of a script in their order, with the moment of each, and the first moment at which something happens.
 *
 * @param {string} text
 * @returns {{arrivals: {id: string, length: string, moment: bigint}[], commands: {line: number, words: string[], moment: bigint}[], first: bigint, last: bigint}}
 */
export function readScript(text) {
  const found = { arrivals: [], commands: [], first: null, last: 0n };
  let now = 0n;
  for (const { number, line } of linesOf(text)) {
    const words = PLAIN.test(line) ? line.split(" ") : line.split(BLANKS).filter(Boolean);
    if (!words.length || words[0].startsWith("#")) continue;
    if (words[0] === "clock" && /^\d+$/.test(words[1] ?? "")) {
      const moment = BigInt(words[1]);
      if (moment >= now && moment <= GREATEST) now = moment;
      continue;
    }
    found.first ??= now;
    if (words[0] === "frame") found.arrivals.push({ id: words[1], length: words[3], moment: now });
    else if (words[0] === "tc") found.commands.push({ line: number, words, moment: now });
  }
  found.last = now;
  found.first ??= 0n;
  return found;
}

/** The length of a command's cycle in picoseconds, or null where its words have none. */
export function cycleOf(words) {
  const after = (name) => (words.includes(name) ? words[words.indexOf(name) + 1] : undefined);
  const given = after("cycle-time");
  if (/^\d+$/.test(given ?? "") && BigInt(given) > 0n) return BigInt(given) * 1000n;
  let length = 0n;
  words.forEach((word, place) => {
    if (word === "sched-entry" && /^\d+$/.test(words[place + 3] ?? "")) length += BigInt(words[place + 3]);
  });
  return length > 0n ? length * 1000n : null;
}

/**
 * The number of classes of a run's map, which the first accepted command that has one gives; null where there is none.
 *
 * @param {{words: string[]}[]} commands those of the script
 * @param {string} answers
 */
export function kindsOf(commands, answers) {
  const told = answers.match(/^(?:installed|refused|tc-fault)\b.*$/gm) ?? [];
  const given = (words) => words[words.lastIndexOf("num_tc") + 1];
  const numbers = told.map((it, place) => (it.startsWith("installed") && commands[place]?.words.includes("num_tc") ? given(commands[place].words) : ""));
  const first = numbers.find((it) => /^\d+$/.test(it));
  return first === undefined ? null : Number(first);
}

/**
 * The schedules that come into force in a run, each with its change moment and its cycle.
 *
 * @param {{words: string[]}[]} commands those of the script
 * @param {string} answers
 * @returns {{change: bigint, cycle: bigint | null}[]}
 */
export function changesOf(commands, answers) {
  const told = answers.match(/^(?:installed|refused|tc-fault)\b.*$/gm) ?? [];
  return told.flatMap((answer, place) => {
    const found = /^installed change (\d+)$/.exec(answer);
    return found ? [{ change: BigInt(found[1]), cycle: cycleOf(commands[place]?.words ?? []) }] : [];
  });
}
