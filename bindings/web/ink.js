// The colours of a text's words: by what kind of line they stand in. Nothing is judged here.

const FIRST_WORDS = ["tc", "clock", "frame", "query", "count", "stream", "port", "link", "clocks"]; // the first words of lines
const OF_COMMANDS = [
  "qdisc", "add", "replace", "change", "del", "dev", "root", "parent", "handle", "taprio", "num_tc", "map", "queues", "base-time", "cycle-time", "cycle-time-extension", "sched-entry",
  "clockid", "flags", "txtime-delay", "max-sdu", "fp",
];
const OF_LINES = ["tagged", "shortest", "jitter", "deadline", "via", "any", "rate", "mtu", "room"];
const NUMBER_WORD = /^(?:\d[\d.]*(?:[pnuµμm]?s)?|\d+@\d+|0x[0-9a-fA-F]+)$/;
const MASK_WORD = /^(?:0x)?[0-9a-fA-F]{1,2}$/;

const isJoined = (line) => /\\\r?$/.test(line);

// The colour of a word, behind another one in a line that begins with a first word.
function colourOf(word, before, first) {
  if (before === "S" && first === "tc" && MASK_WORD.test(word)) return "number";
  if (NUMBER_WORD.test(word)) return "number";
  return (first === "tc" ? OF_COMMANDS : OF_LINES).includes(word) ? "option" : "";
}

const MOST_COLOURED = 4_000; // characters of a line whose words have colours: a browser takes long for very many

// The words of a physical line that have a colour; `of` is the first word of the line that it goes on, or null.
function colouredIn(line, of) {
  const words = [...line.slice(0, MOST_COLOURED).matchAll(/[^ \t\r]+/g)];
  let first = of;
  return words.flatMap(({ 0: word, index: from }, place) => {
    const isFirst = first === null;
    if (isFirst) first = word;
    if (isFirst && word.startsWith("#")) return [{ from, to: line.length, colour: "comment" }];
    if (first.startsWith("#")) return place ? [] : [{ from, to: line.length, colour: "comment" }];
    const colour = isFirst ? (FIRST_WORDS.includes(word) ? "key" : "") : colourOf(word, words[place - 1]?.[0], first);
    return colour ? [{ from, to: from + word.length, colour }] : [];
  });
}

const MOST_BACK = 300; // lines before those in sight that are looked at for the beginning of theirs

/**
 * The words with a colour in some lines of a text.
 *
 * @param {(number: number) => string} lineAt the lines, counted from 0
 * @param {number} first
 * @param {number} last behind the last one
 * @returns {{from: number, to: number, colour: string}[][]} those of each line
 */
export function coloursIn(lineAt, first, last) {
  let begin = first;
  while (begin > 0 && first - begin < MOST_BACK && isJoined(lineAt(begin - 1))) begin -= 1;
  const found = [];
  let of = null;
  for (let number = begin; number < last; number += 1) {
    const line = lineAt(number);
    if (number >= first) found.push(colouredIn(line, of));
    of = isJoined(line) ? of ?? /[^ \t\r\\]+/.exec(line)?.[0] ?? null : null;
  }
  return found;
}

/**
 * A line as parts that differ in their colour or in whether they are underlined.
 *
 * @param {string} line
 * @param {{from: number, to: number, colour: string}[]} words
 * @param {{from: number, to: number}[]} odd what is underlined; behind the line a blank stands for what is missing
 * @returns {{text: string, colour: string, isOdd: boolean}[]}
 */
export function segmentsOf(line, words, odd) {
  const end = Math.max(line.length, ...odd.map((it) => it.to));
  const text = line.padEnd(end);
  const cuts = [...new Set([0, end, ...[...words, ...odd].flatMap((it) => [it.from, it.to])])].sort((one, other) => one - other);
  const has = (list, from) => list.find((it) => it.from <= from && from < it.to);
  return cuts.slice(0, -1).map((from, place) => ({ text: text.slice(from, cuts[place + 1]), colour: has(words, from)?.colour ?? "", isOdd: Boolean(has(odd, from)) }));
}
