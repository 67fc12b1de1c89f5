// Lines of tc as they are pasted from a shell, and the plain ones that they mean: by the rule of crates/pasted/specs/Plain.antt, as --tolerant and
// --device of the program read them. tests/imports/pasted_lines.toml has the cases that both are tried on.
import { wordsAt } from "./gates.js";
import { count } from "./words.js";

const MOST_OCTETS = 65_536; // of a line that is read: a longer one stays as it is
const MOST_OF_NAME = 64; // characters of a device that are shown
const BYTE_ORDER_MARK = "\ufeff";

const PASSED_OVER = {
  byte_order: "a byte order mark", prompt: "the prompt of a shell", sudo: "sudo", path: "the path of tc", blanks: "blanks behind a backslash", quotes: "quotation marks",
  semicolon: "semicolons", fp: "fp (frame preemption)", txtime_delay: "txtime-delay", txtime_assist: "flags 0x1 (txtime assist)",
};

const isLong = (line) => line.length > MOST_OCTETS || (3 * line.length > MOST_OCTETS && new TextEncoder().encode(line).length > MOST_OCTETS);
const joinsNext = (line) => line.endsWith("\\") || line.endsWith("\\\r");

// 1. Words

const isBlankSign = (sign) => sign === " " || sign === "\t" || sign === "\r";
const isEndSign = (sign) => isBlankSign(sign) || sign === ";";

// How many signs of a line stand before those of a kind at its end.
function lengthBefore(line, isOfKind) {
  let end = line.length;
  while (end > 0 && isOfKind(line[end - 1])) end -= 1;
  return end;
}

// The next word of a line, up to its end: where it begins and ends, and where the blanks before it begin.
function nextWord(line, from, end) {
  let begin = from;
  while (begin < end && isBlankSign(line[begin])) begin += 1;
  let behind = begin;
  while (behind < end && !isBlankSign(line[behind])) behind += 1;
  return { from, begin, end: behind, word: line.slice(begin, behind) };
}

// All words from a place on.
function wordsFrom(line, from, end) {
  const found = [];
  for (let it = nextWord(line, from, end); it.begin < it.end; it = nextWord(line, it.end, end)) found.push(it);
  return found;
}

// 2. What stands before a command

const tellsHost = (word) => !word.startsWith("#") && /[@:]/.test(word);
const isPrompt = (word) => /^[0-9]+$/.test(word) || (/[$#%]$/.test(word) && (word.length === 1 || tellsHost(word)));
const isLongPrompt = (first, second) => (first.startsWith("[") && /\][#$]$/.test(second)) || (tellsHost(first) && /^[$#%]$/.test(second));
const OPTIONS_OF_SUDO = ["-E", "-n", "-H"];

// Where the word tc of a command stands in a line up to its end, and what was passed over before it; null where none begins there.
function commandIn(line, end) {
  const kinds = [];
  let it = nextWord(line, 0, end);
  const second = nextWord(line, it.end, end);
  if (isPrompt(it.word)) [it, kinds[0]] = [second, "prompt"];
  else if (isLongPrompt(it.word, second.word)) [it, kinds[0]] = [nextWord(line, second.end, end), "prompt"];
  if (it.word === "sudo") {
    kinds.push("sudo");
    it = nextWord(line, it.end, end);
    for (let more = 0; more < 3 && OPTIONS_OF_SUDO.includes(it.word); more += 1) it = nextWord(line, it.end, end);
  }
  const isTc = it.word === "tc" || it.word.endsWith("/tc");
  return isTc && nextWord(line, it.end, end).word === "qdisc" ? { ...it, kinds } : null;
}

// 3. The words of a command

const isQuotedWord = (word) => word.length > 1 && (word[0] === '"' || word[0] === "'") && word.endsWith(word[0]);
const unquotedWord = (word) => (isQuotedWord(word) ? word.slice(1, -1) : word);

const isKindOfClass = (word) => word === "E" || word === "P";
// The options that change no gate, by their words: what is noted of each, and with which word behind it it is left out.
const LEFT_OUT = {
  fp: { kind: "fp", takes: isKindOfClass },
  "txtime-delay": { kind: "txtime_delay", takes: (word) => /^[0-9]+$/.test(word) },
  flags: { kind: "txtime_assist", takes: (word) => /^(?:0x)?0*1$/.test(word) },
};

// What is left out at each word: the kind of an option, "value" for a word of one, or "" where it stays.
function leftOutOf(words) {
  let before = "";
  return words.map((it, place) => {
    const option = Object.hasOwn(LEFT_OUT, it) ? LEFT_OUT[it] : null;
    const begun = option?.takes(words[place + 1] ?? "") ? option.kind : "";
    if (before === "fp" && isKindOfClass(it)) return before;
    before = before === "txtime_delay" || before === "txtime_assist" ? "value" : begun;
    return before;
  });
}

// What is taken out of the words of a line from a place on, and what is noted of it.
function cutsOfWords(line, from, end) {
  const words = wordsFrom(line, from, end);
  const left = leftOutOf(words.map((it) => unquotedWord(it.word)));
  const [cuts, kinds] = [[], []];
  words.forEach(({ from: front, begin, end: behind, word }, place) => {
    const isQuoted = isQuotedWord(word);
    if (isQuoted) kinds.push("quotes");
    if (left[place]) {
      kinds.push(left[place]);
      cuts.push([front, behind]);
    } else if (isQuoted) cuts.push([begin, begin + 1], [behind - 1, behind]);
  });
  return { cuts, kinds };
}

// 4. Lines

// The end of a line: where what stands before it ends, whether it joins the next one, and what is taken out of it.
function endOfLine(line) {
  const end = lengthBefore(line, isBlankSign);
  if (line[end - 1] === "\\") {
    const behind = line.endsWith("\r") ? line.length - 1 : line.length;
    return { end: end - 1, joined: true, cuts: behind > end ? [[end, behind]] : [], kinds: behind > end ? ["blanks"] : [] };
  }
  const body = lengthBefore(line, isEndSign);
  const cuts = [...line.slice(body)].flatMap((sign, place) => (sign === ";" ? [[body + place, body + place + 1]] : []));
  return { end: body, joined: false, cuts, kinds: cuts.length ? ["semicolon"] : [] };
}

// What is taken out of a line that begins a command, or null where none begins there.
function beginOfCommand(line) {
  const last = endOfLine(line);
  const found = commandIn(line, last.end);
  if (!found) return null;
  const words = cutsOfWords(line, found.end, last.end);
  const isPath = found.word !== "tc";
  // (where nothing stands before the command, its line stays indented)
  const front = found.kinds.length ? [[0, found.end - 2]] : isPath ? [[found.begin, found.end - 2]] : [];
  return { joined: last.joined, cuts: [...front, ...words.cuts, ...last.cuts], kinds: [...found.kinds, ...(isPath ? ["path"] : []), ...words.kinds, ...last.kinds] };
}

// What is taken out of a line that is joined to one.
function moreOfCommand(line) {
  if (isLong(line)) return { joined: joinsNext(line), cuts: [], kinds: [] };
  const last = endOfLine(line);
  const first = nextWord(line, 0, last.end);
  const hasPrompt = first.word === ">";
  const from = hasPrompt ? nextWord(line, first.end, last.end).begin : 0;
  const words = cutsOfWords(line, from, last.end);
  return { joined: last.joined, cuts: [...(hasPrompt ? [[0, from]] : []), ...words.cuts, ...last.cuts], kinds: [...(hasPrompt ? ["prompt"] : []), ...words.kinds, ...last.kinds] };
}

const lineEndFrom = (text, from) => {
  const found = text.indexOf("\n", from);
  return found < 0 ? text.length : found;
};

// The lines of a text that have commands, or a byte order mark: where each begins, and what is taken out of it. (Texts are long, and these are rare.)
function* linesOfCommands(text) {
  const mark = text.startsWith(BYTE_ORDER_MARK) && !isLong(text.slice(0, lineEndFrom(text, 0))) ? 1 : 0;
  if (mark) yield { begin: 0, cuts: [[0, 1]], kinds: ["byte_order"] };
  let [at, next] = [0, 0];
  while ((at = text.indexOf("qdisc", next)) >= 0) {
    let begin = Math.max(text.lastIndexOf("\n", at) + 1, mark);
    next = lineEndFrom(text, at);
    const line = text.slice(begin, next);
    const isJoined = begin > mark && joinsNext(text.slice(Math.max(0, text.lastIndexOf("\n", begin - 2) + 1, begin - 3), begin - 1));
    let found = isJoined || isLong(line) ? null : beginOfCommand(line);
    while (found) {
      yield { begin, ...found };
      if (!found.joined || next >= text.length) break;
      begin = next + 1;
      next = lineEndFrom(text, begin);
      found = moreOfCommand(text.slice(begin, next));
    }
  }
}

// The numbers of the lines in which a place of a text stands; places come in rising order.
function counterOf(text) {
  let [number, counted] = [1, 0];
  return (place) => {
    for (let at = text.indexOf("\n", counted); at >= 0 && at < place; at = text.indexOf("\n", at + 1)) [number, counted] = [number + 1, at + 1];
    return number;
  };
}

// A text without its cuts, and the places in it as places of the text itself.
function withoutCuts(text, cuts) {
  if (!cuts.length) return { text, back: (place) => place };
  let [end, kept] = [0, ""];
  for (const [from, to] of cuts) [kept, end] = [kept + text.slice(end, from), to];
  const back = (place) => {
    let found = place;
    for (const [from, to] of cuts) {
      if (from > found) break;
      found += to - from;
    }
    return found;
  };
  return { text: kept + text.slice(end), back };
}

/**
 * The plain lines that the lines of a text mean: a line each, so that their numbers stay.
 *
 * @param {string} text
 * @returns {{text: string, back: (place: number) => number, passed: {kind: string, lines: number, first: number}[]}} `back` says where a sign of the plain
 *   lines stands in the text, and `passed` in how many physical lines each kind was passed over, and the number of the first one
 */
export function plainOf(text) {
  const [cuts, passed, numberOfLine] = [[], new Map(), counterOf(text)];
  for (const { begin, cuts: its, kinds } of linesOfCommands(text)) {
    for (const [from, to] of its) cuts.push([begin + from, begin + to]);
    for (const kind of new Set(kinds.filter((it) => it !== "value"))) {
      const noted = passed.get(kind) ?? { kind, lines: 0, first: numberOfLine(begin) };
      passed.set(kind, { ...noted, lines: noted.lines + 1 });
    }
  }
  return { ...withoutCuts(text, cuts), passed: Object.keys(PASSED_OVER).flatMap((kind) => passed.get(kind) ?? []) };
}

/** A text as it stands, in the same form. */
export const asItStands = (text) => ({ ...withoutCuts(text, []), passed: [] });

// 5. Devices

// The device that the words of a command name, or null.
function deviceIn(words) {
  for (let place = 3; place + 1 < words.length; place += 1) {
    if (words[place] === "dev") return words[place + 1];
    if (words[place] === "parent" || words[place] === "handle") place += 1;
  }
  return null;
}

// The commands of a text with a device: where each begins and ends with all lines that it joins.
function* commandsWithDevice(text) {
  let [at, next] = [0, 0];
  while ((at = text.indexOf("qdisc", next)) >= 0) {
    let begin = text.lastIndexOf("\n", at) + 1;
    while (begin > 0 && joinsNext(text.slice(Math.max(0, begin - 3), begin - 1).replace(/^[^]*\n/, ""))) begin = text.lastIndexOf("\n", begin - 2) + 1;
    let end = lineEndFrom(text, at);
    while (end < text.length && joinsNext(text.slice(Math.max(begin, end - 2), end).replace(/^[^]*\n/, ""))) end = lineEndFrom(text, end + 1);
    next = end;
    if (isLong(text.slice(begin, end))) continue;
    const words = wordsAt(text, { begin, end }).map((it) => it.word);
    const device = words[0] === "tc" && words[1] === "qdisc" ? deviceIn(words) : null;
    if (device !== null) yield { begin, end, device };
  }
}

/**
 * The lines of a text, of which the commands of other devices are empty.
 *
 * @param {string} text plain lines
 * @param {string} name
 * @returns {{text: string, others: {lines: number, first: number, device: string} | null}} how many there are, and the number and device of the first one
 */
export function linesOfDevice(text, name) {
  const numberOfLine = counterOf(text);
  let [kept, end, others] = ["", 0, null];
  for (const { begin, end: behind, device } of commandsWithDevice(text)) {
    if (device === name) continue;
    kept += text.slice(end, begin) + text.slice(begin, behind).replace(/[^\n]/g, "");
    end = behind;
    others ??= { lines: 0, first: numberOfLine(begin), device: device.slice(0, MOST_OF_NAME) };
    others.lines += 1;
  }
  return { text: kept + text.slice(end), others };
}

/** The first commands of two devices in a text, where it has some of more than one. */
export function twoDevices(text) {
  const numberOfLine = counterOf(text);
  let first = null;
  for (const { begin, device } of commandsWithDevice(text)) {
    const its = { number: numberOfLine(begin), device: device.slice(0, MOST_OF_NAME) };
    first ??= its;
    if (first.device !== its.device) return [first, its];
  }
  return null;
}

/** What was passed over, in a sentence; empty where nothing was. */
export function passedSaid(passed, others) {
  const parts = passed.map(({ kind, lines, first }) => `${PASSED_OVER[kind]} (${count(lines, "line")}, the first: ${first})`);
  if (others) parts.push(`tc lines of other devices, such as ${others.device} (${count(others.lines, "line")}, the first: ${others.first})`);
  return parts.length ? `Passed over: ${parts.join(", ")}.` : "";
}
