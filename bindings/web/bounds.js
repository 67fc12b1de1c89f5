// Delay bounds: what is told of each stream, and a picture of it against its deadline.
import { ticks } from "./moments.js";
import { element } from "./svg.js";
import { count } from "./words.js";

const BOUND = /^bound (\d+) (?:class (\d) )?(?:(wait|within) (\d+) to (\d+) end (\d+) to (\d+)|(none|unknown)|dropped (\w+))(?: deadline (\d+) (met|missed|unknown))?$/;

const SLACK = /^slack (\d+) (?:none|jitter (\d+))$/;

const WHY = /^why (\d+) gates (\d+) blocking (\d+) higher (\d+) queue (\d+)$/;

const SILENT_LINE = /^silent((?: \d)*)$/;

/**
 * The streams of each schedule that a run of bounds tells of. `silent` are the classes that are taken to send nothing, or null where it was
 * said of none.
 *
 * @param {string} answers
 * @returns {{apart: string, silent: string[] | null, classes: string[], streams: object[]}[]}
 */
export function boundsIn(answers) {
  const found = [];
  for (const line of answers.split("\n")) {
    if (/^(?:apart|refused|tc-fault)\b/.test(line)) found.push({ apart: line, silent: null, classes: [], streams: [] });
    else if (line.startsWith("class ")) found.at(-1)?.classes.push(line);
    const silent = SILENT_LINE.exec(line);
    if (silent && found.length) found.at(-1).silent = silent[1].split(" ").filter(Boolean);
    const slack = SLACK.exec(line);
    const of = found.at(-1)?.streams.at(-1);
    if (slack && of?.id === slack[1]) of.slack = slack[2] === undefined ? "none" : BigInt(slack[2]);
    const why = WHY.exec(line);
    if (why && of?.id === why[1]) Object.assign(of, { gates: BigInt(why[2]), blocking: BigInt(why[3]), higher: BigInt(why[4]), queue: BigInt(why[5]) });
    const it = BOUND.exec(line);
    if (!it) continue;
    const [, id, kind, how, least, greatest, first, last, word, dropped, deadline, verdict] = it;
    const time = (text) => (text === undefined ? null : BigInt(text));
    found.at(-1)?.streams.push({
      id, class: kind === undefined ? null : Number(kind), least: time(least), greatest: time(greatest), first: time(first), last: time(last),
      told: dropped ? `dropped: ${dropped}` : word === "none" ? "no bound" : word === "unknown" ? "not known" : how === "within" ? "bounded, whenever its frames come" : "bounded",
      within: how === "within",
      slack: null, gates: null, blocking: null, higher: null, queue: null, deadline: time(deadline), verdict: verdict ?? "", tone: verdict === "missed" ? "bad" : verdict === "unknown" ? "doubt" : "",
    });
  }
  return found;
}

// Classes in words.
const classesOf = (kinds) => (kinds.length === 1 ? `class ${kinds[0]}` : `classes ${kinds.slice(0, -1).join(", ")} and ${kinds.at(-1)}`);

// What is told of a class that shares its windows and has no bounds, in words.
function sharingWords(line) {
  const open = /^class (\d) open to ((?:\d )*\d)$/.exec(line);
  if (open) return `Class ${open[1]} has no bounds: it shares windows with ${classesOf(open[2].split(" "))}, above it, and what may be sent there is not known.`;
  const behind = /^class (\d) behind (\d)$/.exec(line);
  if (behind) return `Class ${behind[1]} has no bounds: it shares windows with class ${behind[2]}, above it, which has none.`;
  const blocked = /^class (\d) blocked$/.exec(line);
  if (blocked) return `Class ${blocked[1]} has no bounds: behind a frame of another class, no window takes its longest frame.`;
  return null;
}

/** What is told of a class, in words; null where there are none. */
export function classWords(line, write) {
  const full = /^class (\d) full at (\d+) stream (\d+) frame (\d+)$/.exec(line);
  if (full) return `Class ${full[1]}: frame ${full[4]} of stream ${full[3]} is the first that finds the queue full, ${write(BigInt(full[2]))} after the schedule comes into force.`;
  const stuck = /^class (\d) stuck at (\d+) stream (\d+) frame (\d+)(?: full at (\d+) stream (\d+) frame (\d+))?$/.exec(line);
  if (stuck) {
    const full = stuck[5] ? ` The queue is full ${write(BigInt(stuck[5]))} after the schedule comes into force (stream ${stuck[6]}, frame ${stuck[7]}).` : "";
    return `Class ${stuck[1]}: frame ${stuck[4]} of stream ${stuck[3]} fits into no window, and nothing behind it starts any more.${full}`;
  }
  const within = /^class (\d) within most (\d+) of (\d+)$/.exec(line);
  if (within) {
    const [, kind, most, room] = within;
    const dropped = BigInt(most) > BigInt(room) ? ` There is room for ${room}, so some may be dropped.` : "";
    return `Class ${kind}: at most ${count(Number(most), "frame")} ever wait${most === "1" ? "s" : ""} at once, whenever its frames come.${dropped}`;
  }
  const never = /^class (\d) stuck$/.exec(line);
  if (never) return `Class ${never[1]} is stuck: no window takes its longest frame.`;
  const overloaded = /^class (\d) overloaded$/.exec(line);
  if (overloaded) return `Class ${overloaded[1]} is overloaded: more frames come than leave, and no queue has room for them in the end.`;
  return sharingWords(line);
}

/** What the times of these streams count from. The nominal moment is OFFSET + n * PERIOD: without jitter the arrival. */
export const countedFrom = (streams) => (streams.some((it) => it.within) ? "their nominal moment, or with the offset any from their arrival" : "their arrival");

/** The streams of these ids, behind a word; nothing where there are none. */
export const listed = (word, ids) => (ids.length ? `; ${word}: stream${ids.length === 1 ? "" : "s"} ${ids.join(", ")}` : "");

// What is taken for granted of classes that are said to be silent: of all that have no streams.
const silentWords = (silent) => (silent === null ? "" : silent.length ? `${classesOf(silent).replace("c", "C")} ${silent.length === 1 ? "is" : "are"} taken to send nothing.` : "Each class that is said to be silent has streams.");

/** What is told of the deadlines of streams, in a sentence. */
export function deadlinesSaid(streams) {
  const due = streams.filter((it) => it.deadline !== null);
  const met = due.filter((it) => it.verdict === "met");
  const those = (verdict) => due.filter((it) => it.verdict === verdict).map((it) => it.id);
  if (!streams.length) return "";
  if (!due.length) return `${count(streams.length, "stream")}, no deadlines.`;
  if (met.length === due.length) return "Every deadline is met, for ever.";
  return `${met.length} of ${due.length} deadlines are met for ever${listed("missed", those("missed"))}${listed("not known", those("unknown"))}.`;
}

/** What bounds say in a sentence or a few. */
export const boundsVerdict = ({ silent, classes, streams }, write) => [deadlinesSaid(streams), silentWords(silent), ...classes.map((it) => classWords(it, write))].filter(Boolean).join(" ");

const BEGIN = 92; // where time begins, in pixels
const END = 24; // what lies behind its end
const HEAD = 24; // the top of the first stream's row
const ROW_STEP = 30; // from one stream to the next
const DRAWN = 200; // streams that are drawn

// Where a label of this width stands: behind the bar, before it, or behind the deadline, so that it covers neither.
function placeOf(wide, { from, to, deadline }, width) {
  const clear = (left) => deadline === null || deadline < left - 3 || deadline > left + wide + 3;
  const behind = to + 8;
  const before = from - 6 - wide;
  if (behind + wide <= width - 4 && clear(behind)) return behind;
  if (before >= BEGIN + 3 && clear(before)) return before;
  return deadline !== null && deadline > to && deadline + 8 + wide <= width - 4 ? deadline + 8 : Math.max(BEGIN + 3, Math.min(behind, width - 4 - wide));
}

// A stream's row: its name, its bar or why it has none, and its deadline; and its label with what it is not to cover.
function rowOfStream(it, top, x, width, write) {
  const row = element("g", { class: `row ${it.verdict}` });
  const [from, to] = it.last === null ? [BEGIN, BEGIN] : [x(it.first), Math.max(x(it.first) + 3, x(it.last))];
  const deadline = it.deadline === null ? null : x(it.deadline);
  const label = it.last === null ? it.told : it.first === it.last ? write(it.last) : `${write(it.first)} to ${write(it.last)}`;
  row.append(element("text", { x: 4, y: top + 15 }, `stream ${it.id}`), element("path", { class: "g", d: `M${BEGIN} ${top + 22}H${width - END}` }));
  if (it.last !== null) row.append(element("rect", { class: "f", x: from, y: top + 3, width: to - from, height: 15 }));
  if (deadline !== null) row.append(element("path", { class: "h", d: `M${deadline} ${top + 1}V${top + 20}` }), element("path", { class: "dl", d: `M${deadline} ${top - 1}V${top + 21}` }));
  const text = element("text", { x: to + 8, y: top + 15 }, label);
  row.append(text, element("title", {}, `stream ${it.id}: ${it.told}${it.deadline === null ? "" : `, deadline ${write(it.deadline)} ${it.verdict}`}`));
  return { row, text, beside: { from, to, deadline } };
}

/** The latest time that a picture of streams has: an end or a deadline. */
export const latestOf = (streams) => streams.slice(0, DRAWN).reduce((most, it) => [it.last, it.deadline].reduce((a, b) => (b !== null && b > a ? b : a), most), 1n);

/**
 * A picture of streams: from the least to the greatest time to each frame's end, against its deadline.
 *
 * @param {object[]} streams
 * @param {number} width
 * @param {(time: bigint) => string} write
 * @param {bigint} most the time at its right end
 * @returns {{svg: SVGElement, place: () => void}} the picture, and what places its labels once it is shown: only then they have a width
 */
export function drawBounds(streams, width, write, most = latestOf(streams)) {
  const drawn = streams.slice(0, DRAWN);
  const height = HEAD + drawn.length * ROW_STEP + 12;
  const svg = element("svg", { width, height, viewBox: `0 0 ${width} ${height}`, role: "img", class: "bounds" });
  const x = (time) => BEGIN + (Number(time) / Number(most)) * (width - BEGIN - END);
  for (const { at, text } of ticks({ from: 0n, to: most }, 0n, Math.max(2, Math.floor(width / 130)))) {
    svg.append(element("path", { class: "g", d: `M${x(at)} ${HEAD - 6}V${height - 12}` }), element("text", { class: "m", x: x(at), y: 14 }, text));
  }
  const rows = drawn.map((it, place) => rowOfStream(it, HEAD + place * ROW_STEP, x, width, write));
  svg.append(...rows.map(({ row }) => row));
  const place = () => {
    for (const { text, beside } of rows) text.setAttribute("x", placeOf(text.getComputedTextLength(), beside, width));
  };
  return { svg, place };
}
