// Schedules of tc qdisc show, tc -j qdisc show and IEEE Std 802.1Qcw as tc lines, by the rules of bindings/python/taprio/schedules: tests/imports has
// the cases that both are tried on.
import { BadSchedule, documentIn, localName, quoted, spelled } from "./documents.js";

const BYTE = 255;
const WORD = 65535;
const DOUBLE_WORD = 2 ** 32 - 1;
const GREATEST_TIME = 2n ** 64n - 1n;
const ONE_SECOND = 1_000_000_000n;
const CLOCKS = ["REALTIME", "MONOTONIC", "BOOTTIME", "TAI"];
const MOST_IN_LIST = 256;
const PRIORITIES = 16;
const SIDES = ["oper", "admin"];

const NAMES_OF_FORMS = { show: "the output of tc qdisc show", json: "the output of tc -j qdisc show", qcw: "a schedule of IEEE 802.1Qcw as JSON", xml: "XML" };

// The form of a text by its first word, or null.
function formByWord(word) {
  if (["qdisc", "added", "deleted", "replaced"].includes(word)) return "show";
  return { "[": "json", "{": "qcw", "<": "xml" }[word[0]] ?? null;
}

const MARKS = { show: /qdisc/, json: /"kind"\s*:/, qcw: /gate-parameter-table|control-list/, xml: /gate-parameter-table|control-list/ };

/** What a text of a form is, in words. */
export const nameOfForm = (text, form) => (form === "qcw" && !MARKS.qcw.test(text) ? "JSON" : NAMES_OF_FORMS[form]);

/**
 * Which form a text has whose schedules can be read, by its content; null where it has none.
 *
 * @param {string} text
 * @param {boolean} isWhole whether it is all of a file: else it has to name what these forms have
 * @returns {"show" | "json" | "qcw" | "xml" | null}
 */
export function formOf(text, isWhole) {
  // (the first word of a line that is no comment)
  const [, first] = /^[^\S\n]*([^\s#]\S*)/m.exec(text) ?? [];
  const form = first ? formByWord(first) : null;
  return form && (isWhole || MARKS[form].test(text)) ? form : null;
}

/**
 * The tc lines of the schedules of a text: of each device that in force, and else that which is set.
 *
 * @param {string} text
 * @param {"show" | "json" | "qcw" | "xml"} form
 * @returns {{lines: string[], notes: string[]}} what is left out is said in notes
 * @throws {BadSchedule} where it can't be read
 */
export function importedFrom(text, form) {
  const notes = [];
  const plain = text.replace(/^\ufeff/, "");
  const found = READERS[form](plain, (place, words) => notes.push(`${place}: ${words}`));
  const lines = chosenOf(found, notes).map(({ device, schedule }) => {
    const word = wordOfDevice(device);
    if (device && word !== device) notes.push(`${device}: its blanks are left out, and it is called ${word}`);
    return lineOf(schedule, word);
  });
  return { lines, notes };
}

// Of each device the schedule in force, where there is one. Where it differs from one that is set, a note says so.
function chosenOf(found, notes) {
  const inForce = new Map(found.filter((it) => it.side === "oper").map((it) => [it.device, lineOf(it.schedule, "")]));
  return found.filter((it) => {
    if (it.side !== "admin" || !inForce.has(it.device)) return true;
    if (lineOf(it.schedule, "") !== inForce.get(it.device)) notes.push(`${it.place}: the admin schedule is left out (--side admin, --side both)`);
    return false;
  });
}

// 1. A schedule

const wordOfDevice = (device) => (device ? device.replace(/\s/g, "_") : "eth0");

function refuse(place, expected, found) {
  throw new BadSchedule(place, expected, String(found));
}

function within(value, place, least, most, unit = "") {
  if (value < least || value > most) refuse(place, `a whole number from ${least} to ${most}${unit}`, value);
}

function checkMap(place, map, classes) {
  if (map.length < 1 || map.length > PRIORITIES) refuse(`${place}: map`, `1 to ${PRIORITIES} classes`, map.length);
  within(classes, `${place}: classes`, 1n, 8n);
  map.forEach((it, at) => within(it, `${place}: map of priority ${at}`, 0n, classes - 1n));
}

function checkQueues(place, queues, classes) {
  queues.forEach(([count, offset], number) => {
    within(count, `${place}: queues of class ${number}`, 1n, BigInt(WORD));
    within(offset, `${place}: queues of class ${number}`, 0n, BigInt(WORD));
  });
  if (BigInt(queues.length) !== classes) refuse(`${place}: queues`, `a range for each of ${classes} classes`, queues.length);
  queues.forEach(([count, offset], number) => {
    const meets = ([other, its]) => offset < its + other && its < offset + count;
    if (queues.slice(0, number).some(meets)) refuse(`${place}: queues of class ${number}`, "queues that no other class has", `${count}@${offset}`);
  });
}

// Sizes without those that say nothing behind the last one.
function sizesOf(place, sizes) {
  if (sizes.length > PRIORITIES) refuse(`${place}: max_sdu`, `1 to ${PRIORITIES} numbers of octets`, sizes.length);
  const kept = sizes.slice(0, 8);
  while (kept.length > 1 && !kept.at(-1)) kept.pop();
  return kept;
}

// A schedule of what was read at a place, where a tc line can say it.
function scheduleOf(place, given) {
  const { entries, map, classes, queues, sizes } = given;
  entries.forEach(([, interval], number) => within(interval, `${place}: interval of entry ${number}`, 1n, BigInt(DOUBLE_WORD), " nanoseconds"));
  if (!entries.length || entries.length > MOST_IN_LIST) refuse(`${place}: entries`, `1 to ${MOST_IN_LIST} entries`, entries.length);
  if (map) checkMap(place, map, classes);
  if (queues) checkQueues(place, queues, classes);
  const padded = map && [...map, ...Array(PRIORITIES).fill(0n)].slice(0, PRIORITIES);
  return { ...given, map: padded, sizes: sizes && sizesOf(place, sizes) };
}

const pad = (gates) => gates.toString(16).padStart(2, "0");

// A schedule as one tc line.
function lineOf({ entries, base, cycle, extension, map, classes, queues, sizes, clock, flags }, device) {
  const words = ["tc qdisc replace dev", device, "root taprio"];
  if (map) words.push("num_tc", classes, "map", ...(map.slice(8).some(Boolean) ? map : map.slice(0, 8)));
  if (queues) words.push("queues", ...queues.map(([count, offset]) => `${count}@${offset}`));
  words.push("base-time", base);
  if (cycle) words.push("cycle-time", cycle);
  if (extension) words.push("cycle-time-extension", extension);
  for (const [gates, interval] of entries) words.push("sched-entry S", pad(gates), interval);
  if (sizes) words.push("max-sdu", ...sizes);
  if (clock) words.push("clockid", `CLOCK_${clock}`);
  if (flags) words.push("flags", `0x${flags.toString(16)}`);
  return words.join(" ");
}

// 2. What tc qdisc show prints

// What is said of a qdisc, before it becomes schedules: the first one is in force, and a second one comes.
const newQdisc = (device) => ({ device, classes: 0n, map: [], queues: [], clock: null, flags: 0n, sizes: null, sides: [] });

function schedulesOf({ device, sides, classes, map, queues, sizes, clock, flags }) {
  const has = classes > 0n;
  return sides.flatMap(({ place, base, cycle, extension, entries }, at) => {
    if (!entries.length) return [];
    const given = { entries, base, cycle, extension, map: has ? map : null, classes: has ? classes : null, queues: has && queues.length ? queues : null, sizes, clock, flags };
    return [{ schedule: scheduleOf(place, given), device, side: SIDES[at], place }];
  });
}

// The clock of a word; others are left out.
function clockOf(word, leave) {
  if (![...CLOCKS, "invalid"].includes(word)) leave();
  return CLOCKS.includes(word) ? word : null;
}

// The flags that a schedule has; others are left out.
function flagsOf(flags, place, note) {
  const others = flags & ~2n;
  if (others) note(place, `flags 0x${others.toString(16)}${flags & 1n ? " (txtime assist)" : ""} is left out`);
  return flags & 2n;
}

/** The words of a qdisc's lines, each with the number of its line. */
class Words {
  #at = 0;

  constructor(words, last) {
    Object.assign(this, { words, last });
  }

  get place() {
    return `line ${this.words[this.#at]?.[0] ?? this.last}`;
  }

  peek() {
    return this.words[this.#at]?.[1] ?? null;
  }

  wrong(expected) {
    const word = this.peek();
    throw new BadSchedule(this.place, expected, word === null ? "the end" : quoted(word));
  }

  take(expected) {
    const word = this.peek();
    if (word === null) this.wrong(expected);
    this.#at += 1;
    return word;
  }

  keyword(wanted) {
    if (this.peek() !== wanted) this.wrong(wanted);
    this.#at += 1;
  }

  // A number of a shape, at most a limit.
  #number(shape, most, base, expected) {
    const word = this.peek() ?? "";
    const value = shape.test(word) ? BigInt(base === 16 ? `0x${word.replace(/^0x/, "")}` : word) : -1n;
    if (value < 0n || value > BigInt(most)) this.wrong(expected);
    this.#at += 1;
    return value;
  }

  whole(what, most) {
    return this.#number(/^[0-9]{1,20}$/, most, 10, `${what}, a whole number from 0 to ${most}`);
  }

  hexadecimal(what, most) {
    return this.#number(/^(?:0x)?[0-9a-f]{1,8}$/, most, 16, `${what}, a mask such as 0x1, at most 0x${most.toString(16)}`);
  }

  /** The numbers that follow, at most so many. */
  numbers(what, most, count) {
    const found = [];
    while (found.length < count && /^[0-9]+$/.test(this.peek() ?? "")) found.push(this.whole(what, most));
    return found;
  }
}

const QDISC = /^(?:(?:added|deleted|replaced) )?qdisc (\S+) (\S+)(?: (.*))?$/s;
const STATISTICS = /^\s+(?:Sent|backlog|rate|requeues|window_drops|tx_overruns)\b/;
const wordsIn = (line) => line.split(/\s+/).filter(Boolean);

// What there is instead of a schedule.
const insteadOf = (kinds, nothing) => (kinds.includes("taprio") ? "one without a schedule" : kinds.join(", ") || nothing);

// The schedules in the text of tc qdisc show. With -oneline, tc writes a backslash for each end of a line.
function readShow(text, note) {
  const lines = text.replaceAll("\\", "\n").split("\n");
  const heads = lines.map((it) => QDISC.exec(it.replace(/[\r ]+$/, "")));
  const starts = [...heads.keys()].filter((it) => heads[it]);
  const filled = lines.findIndex((it) => it.trim());
  if (!starts.length || filled < starts[0]) refuse(`line ${Math.max(0, filled) + 1}`, "a line that begins with qdisc", filled < 0 ? "nothing" : quoted(lines[filled].slice(0, 40)));
  const found = starts.flatMap((start, place) => {
    const end = starts[place + 1] ?? lines.length;
    if (heads[start][1] !== "taprio") return [];
    const words = wordsIn(heads[start][3] ?? "").map((it) => [start + 1, it]);
    for (let number = start + 1; number < end; number += 1) if (!STATISTICS.test(lines[number])) words.push(...wordsIn(lines[number]).map((it) => [number + 1, it]));
    return ofText(new Words(words, end), note);
  });
  if (!found.length) refuse(`line ${starts[0] + 1}`, "a qdisc of the kind taprio with a schedule", insteadOf(starts.map((it) => heads[it][1])));
  return found;
}

function ofText(words, note) {
  const qdisc = newQdisc(null);
  while (![null, "tc"].includes(words.peek())) if (words.take("tc") === "dev") qdisc.device = words.take("a device");
  words.keyword("tc");
  qdisc.classes = words.whole("the number of classes", 8);
  words.keyword("map");
  qdisc.map = words.numbers("a class", BYTE, PRIORITIES);
  words.keyword("queues");
  while (words.peek() === "offset") {
    words.keyword("offset");
    const offset = words.whole("an offset", WORD);
    words.keyword("count");
    qdisc.queues.push([words.whole("a count", WORD), offset]);
  }
  while (words.peek() !== null) optionOfText(words, qdisc, note);
  return schedulesOf(qdisc);
}

// What is read behind each word of the options behind the queues.
const OPTIONS_OF_TEXT = {
  clockid(words, qdisc, place, note) {
    const clock = words.take("a clock");
    qdisc.clock = clockOf(clock, () => note(place, `clockid ${clock} is left out`));
  },
  flags(words, qdisc, place, note) {
    qdisc.flags = flagsOf(words.hexadecimal("flags", DOUBLE_WORD), place, note);
  },
  txtime(words, qdisc, place, note) {
    words.keyword("delay");
    note(place, `txtime delay ${words.whole("a delay", DOUBLE_WORD)} is left out`);
  },
  "base-time"(words, qdisc, place) {
    const side = { place, base: words.whole("a base time", GREATEST_TIME), cycle: 0n, extension: 0n, entries: [] };
    qdisc.sides.push(side);
    words.keyword("cycle-time");
    side.cycle = words.whole("a cycle time", GREATEST_TIME);
    words.keyword("cycle-time-extension");
    side.extension = words.whole("an extension", GREATEST_TIME);
  },
  index: (words, qdisc) => entryOfText(words, qdisc.sides.at(-1).entries),
  "max-sdu"(words, qdisc) {
    const sizes = words.numbers("a size", DOUBLE_WORD, PRIORITIES);
    qdisc.sizes = sizes.length ? sizes : null;
  },
  fp(words, qdisc, place, note) {
    const kinds = [];
    while (["E", "P", "?"].includes(words.peek())) kinds.push(words.take("E or P"));
    if (kinds.includes("P")) note(place, `fp ${kinds.join(" ")} (frame preemption) is left out`);
  },
};

function optionOfText(words, qdisc, note) {
  const [place, word] = [words.place, words.peek()];
  const may = { "base-time": qdisc.sides.length < 2, index: qdisc.sides.length > 0 }[word] ?? Object.hasOwn(OPTIONS_OF_TEXT, word);
  if (!may) words.wrong("an option of taprio");
  words.take(word);
  OPTIONS_OF_TEXT[word](words, qdisc, place, note);
}

function entryOfText(words, entries) {
  const ahead = words.peek();
  if (/^[0-9]{1,20}$/.test(ahead ?? "") && BigInt(ahead) <= DOUBLE_WORD && Number(ahead) !== entries.length) words.wrong(`the index ${entries.length}`);
  words.whole("an index", DOUBLE_WORD);
  words.keyword("cmd");
  if (words.peek() !== "S") words.wrong("the command S (preemption is not modelled)");
  words.keyword("S");
  words.keyword("gatemask");
  const gates = words.hexadecimal("gates", BYTE);
  words.keyword("interval");
  entries.push([gates, words.whole("an interval", DOUBLE_WORD)]);
}

// 3. What tc -j qdisc show prints

// What tc -j of iproute2 6.1 writes between two schedules: the second has no name, and the text is no JSON.
const NAMELESS = /(?<=[\]0-9])\s*,\s*(?=\{\s*"base_time")/g;

function documentOfShow(text) {
  try {
    return documentIn(text);
  } catch (fault) {
    const named = text.replace(NAMELESS, ', "admin": ');
    if (!(fault instanceof BadSchedule) || named === text) throw fault;
    return documentIn(named);
  }
}

function readShowJson(text, note) {
  const kinds = [];
  const found = documentOfShow(text).items().flatMap((qdisc) => {
    kinds.push(qdisc.need("kind").text());
    return kinds.at(-1) === "taprio" ? ofJson(qdisc, note) : [];
  });
  if (!found.length) refuse("/", "a qdisc of the kind taprio with a schedule", insteadOf(kinds, "none"));
  return found;
}

const READ_OF_JSON = ["tc", "map", "queues", "base_time", "cycle_time", "cycle_time_extension", "schedule"];

function ofJson(part, note) {
  const given = part.need("options");
  const qdisc = newQdisc(part.get("dev")?.text() ?? null);
  qdisc.classes = given.need("tc").whole(0, 8);
  qdisc.map = given.need("map").items().map((it) => it.whole(0, BYTE));
  qdisc.queues = given.need("queues").items().map((it) => [it.need("count").whole(0, WORD), it.need("offset").whole(0, WORD)]);
  qdisc.sides = [sideOfJson(given)];
  for (const [name, it] of given.members()) optionOfJson(name, it, qdisc, note);
  return schedulesOf(qdisc);
}

// What is read of each member of the options that not every qdisc has.
const OPTIONS_OF_JSON = {
  clockid(part, qdisc, note) {
    qdisc.clock = clockOf(part.text(), () => note(part.place, `${part.value} is left out`));
  },
  flags(part, qdisc, note) {
    qdisc.flags = flagsOf(part.hexadecimal(DOUBLE_WORD), part.place, note);
  },
  "max-sdu"(part, qdisc) {
    const sizes = part.items().map((it) => it.whole(0, DOUBLE_WORD));
    qdisc.sizes = sizes.length ? sizes : null;
  },
  admin: (part, qdisc) => qdisc.sides.push(sideOfJson(part)),
  fp(part, qdisc, note) {
    if (part.items().some((it) => it.value === "P")) note(part.place, "frame preemption is left out");
  },
};

function optionOfJson(name, part, qdisc, note) {
  if (Object.hasOwn(OPTIONS_OF_JSON, name)) OPTIONS_OF_JSON[name](part, qdisc, note);
  else if (!READ_OF_JSON.includes(name)) note(part.place, `${spelled(part.value).slice(0, 40)} is left out`);
}

function sideOfJson(part) {
  const [base, cycle, extension] = ["base_time", "cycle_time", "cycle_time_extension"].map((name) => part.get(name)).map((it) => it?.whole(0, GREATEST_TIME, " nanoseconds") ?? 0n);
  const entries = (part.get("schedule")?.items() ?? []).map((entry, number) => {
    if (entry.need("index").whole(0, DOUBLE_WORD) !== BigInt(number)) throw entry.need("index").wrong(`the index ${number}`);
    if (entry.need("cmd").value !== "S") throw entry.need("cmd").wrong('"S" (preemption is not modelled)');
    return [entry.need("gatemask").hexadecimal(BYTE), entry.need("interval").whole(0, DOUBLE_WORD, " nanoseconds")];
  });
  return { place: part.place, base, cycle, extension, entries };
}

// 4. The managed objects of IEEE Std 802.1Qcw

const RECOMMENDED = [1n, 0n, 2n, 3n, 4n, 5n, 6n, 7n]; // IEEE Std 802.1Q-2018, Table 8-5: the class of each priority, of eight classes
const STATE = ["config-change", "config-change-error", "config-change-time", "config-pending", "current-time", "oper-gate-states", "supported-cycle-max", "supported-interval-max", "supported-list-max", "tick-granularity"];
const OF_SIDES = SIDES.flatMap((side) => ["control-list", "cycle-time", "cycle-time-extension", "base-time"].map((name) => `${side}-${name}`));
const READ_OF_TABLE = [...OF_SIDES, "admin-gate-states", "gate-enabled", "queue-max-sdu-table"];

function readQcw(text, note) {
  const document = documentIn(text);
  const found = [];
  let tables = 0;
  for (const [above, part] of document.walk()) {
    const isNamed = localName(part.path.slice(part.path.lastIndexOf("/") + 1)) === "gate-parameter-table";
    if (!isNamed && !(part === document && OF_SIDES.some((it) => part.members().has(it)))) continue;
    tables += 1;
    found.push(...ofTable(part, isNamed ? above : [], note));
  }
  if (!found.length) refuse("/", "a gate-parameter-table with an admin-control-list or an oper-control-list", tables ? `${tables} such tables, without a list` : "none");
  return found;
}

// The interface that a table lies in.
const interfaceOf = (above) => above.reduce((device, it) => it.get("name")?.text() ?? device, null);

// The entries of a control list; null where there are none.
function controlList(control) {
  const found = control?.get("gate-control-entry") ?? null;
  return found && found.items().length ? found : null;
}

// The schedules of one port.
function ofTable(table, above, note) {
  const members = table.members();
  const sides = SIDES.map((side) => [side, controlList(members.get(`${side}-control-list`))]).filter(([, entries]) => entries);
  if (!sides.length) return [];
  for (const [name, it] of members) if (!READ_OF_TABLE.includes(name) && !STATE.includes(name)) note(it.place, `${name} is left out`);
  noteStates(members, note);
  const { classes, map } = mapOfTable(table, above, note);
  const sizes = sizesOfTable(members.get("queue-max-sdu-table"), note);
  const device = interfaceOf(above);
  return sides.map(([side, entries]) => ({ schedule: sideOfTable(members, side, entries, { classes, map, sizes }, note), device, side, place: table.place }));
}

function noteStates(members, note) {
  const [states, enabled] = ["admin-gate-states", "gate-enabled"].map((name) => members.get(name));
  if (states && states.whole(0, BYTE) !== BigInt(BYTE)) note(states.place, `${states.value} is left out: before a schedule is in force, all gates are open`);
  if (enabled && !enabled.truth()) note(enabled.place, "it is false, so the port runs no schedule; what is read is what it would run");
}

const READ_OF_ENTRY = ["index", "operation-name", "gate-states-value", "time-interval-value"];

function entryOfTable(entry, note) {
  const operation = entry.need("operation-name");
  if (localName(operation.text()) !== "set-gate-states") throw operation.wrong("set-gate-states (preemption is not modelled)");
  const gates = entry.need("gate-states-value").whole(0, BYTE);
  const interval = entry.need("time-interval-value").whole(1, DOUBLE_WORD, " nanoseconds");
  for (const [name, it] of entry.members()) if (!READ_OF_ENTRY.includes(name)) note(it.place, `${name} is left out`);
  return [gates, interval];
}

// The entries of a control list by the order of their indices.
function entriesOfTable(list, note) {
  const found = new Map();
  for (const entry of list.items("index")) {
    const index = entry.need("index").whole(0, DOUBLE_WORD);
    if (found.has(index)) throw entry.need("index").wrong("each index once");
    found.set(index, entryOfTable(entry, note));
  }
  return [...found].sort(([one], [other]) => (one < other ? -1 : 1)).map(([, entry]) => entry);
}

function sideOfTable(members, side, list, port, note) {
  const entries = entriesOfTable(list, note);
  const [cycle, base, extension] = ["cycle-time", "base-time", "cycle-time-extension"].map((name) => members.get(`${side}-${name}`));
  if (!cycle) note(list.place, `there is no ${side}-cycle-time: the cycle is the sum of the intervals`);
  const times = { base: base ? momentOfTable(base) : 0n, cycle: cycle ? cycleOfTable(cycle) : 0n, extension: extension?.whole(0, DOUBLE_WORD, " nanoseconds") ?? 0n };
  return scheduleOf(list.place, { entries, ...times, ...port, queues: null, clock: null, flags: 0n });
}

// A time of seconds and nanoseconds, in nanoseconds.
function momentOfTable(part) {
  const [seconds, nanoseconds] = [part.get("seconds"), part.get("nanoseconds")];
  const rest = nanoseconds?.whole(0, ONE_SECOND - 1n, " nanoseconds") ?? 0n;
  return (seconds?.whole(0, GREATEST_TIME / ONE_SECOND - 1n, " seconds") ?? 0n) * ONE_SECOND + rest;
}

// A fraction of a second, in nanoseconds; 0 is the sum of the intervals.
function cycleOfTable(part) {
  const [numerator, denominator] = [part.need("numerator").whole(0, DOUBLE_WORD), part.need("denominator").whole(1, DOUBLE_WORD)];
  const cycle = (numerator * ONE_SECOND) / denominator;
  if ((numerator * ONE_SECOND) % denominator || (numerator && !cycle)) refuse(part.place, "a whole number of nanoseconds", `${numerator}/${denominator} of a second`);
  return cycle;
}

// How many classes there are, and the class of each priority.
function mapOfTable(table, above, note) {
  let beside = above.at(-1) ?? null;
  for (const name of ["traffic-class", "traffic-class-table"]) beside = beside && (beside.get(name) ?? beside);
  const rows = beside?.get("traffic-class-map") ?? null;
  if (rows) return mapOfRows(rows, note);
  note(table.place, `there is no traffic-class-table beside it: the recommended classes of priorities 0 to 7 are taken, ${RECOMMENDED.join(" ")}`);
  return { classes: 8n, map: RECOMMENDED };
}

// By the number of classes, the class of a priority.
const classesOfRow = (row) => {
  const all = row.need("available-traffic-class").items("num-traffic-class");
  return new Map(all.map((it) => [it.need("num-traffic-class").whole(1, 8), it.need("traffic-class").whole(0, 7)]));
};

function mapOfRows(rows, note) {
  const found = new Map();
  for (const row of rows.items("priority")) {
    const classes = classesOfRow(row);
    found.set(row.need("priority").whole(0, 7), classes);
  }
  const all = [0n, 1n, 2n, 3n, 4n, 5n, 6n, 7n];
  const missing = all.find((it) => !found.has(it));
  if (missing !== undefined) refuse(rows.place, "each priority from 0 to 7", `none for ${missing}`);
  const common = [...all.slice(1), 8n].filter((number) => all.every((it) => found.get(it).has(number)));
  if (!common.length) refuse(rows.place, "a num-traffic-class that each priority has", "none");
  const classes = common.at(-1);
  if (common.length > 1) note(rows.place, `it has the classes for ${common.join(", ")} classes: those for ${classes} are taken`);
  return { classes, map: all.map((it) => found.get(it).get(classes)) };
}

// The limit of each class.
function sizesOfTable(part, note) {
  if (!part) return null;
  const found = [];
  for (const row of part.items("traffic-class")) {
    const number = Number(row.need("traffic-class").whole(0, 7));
    if (found[number] !== undefined) throw row.need("traffic-class").wrong("each traffic class once");
    found[number] = row.get("queue-max-sdu")?.whole(0, DOUBLE_WORD, " octets") ?? 0n;
    for (const [name, it] of row.members()) if (!["traffic-class", "queue-max-sdu", "transmission-overrun"].includes(name)) note(it.place, `${name} is left out`);
  }
  return found.length ? Array.from(found, (it) => it ?? 0n) : null;
}

function refuseXml(text) {
  const lines = text.split("\n");
  const number = lines.findIndex((it) => it.trim() && !it.trim().startsWith("#"));
  const [first] = wordsIn(lines[number]);
  refuse(`line ${number + 1}`, "tc lines, the output of tc qdisc show, or JSON", `${quoted(first.slice(0, 20))}, which is XML: ask for JSON (application/yang-data+json)`);
}

const READERS = { show: readShow, json: readShowJson, qcw: readQcw, xml: refuseXml };
