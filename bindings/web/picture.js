// A picture of the port within the page: what time it shows, how to move in it, and which frame lies where.
import { sortedOf } from "./frames.js";
import { GREATEST, ticks } from "./moments.js";
import { shadeOf, shaded } from "./shades.js";
import { BOTTOM, LEFT, RIGHT, ROW, STEP, TOP, placeOfRow } from "./sizes.js";
import { element } from "./svg.js";
import { countFirst } from "./why.js";

const CROSS = 8; // the width and the height of a cross
const ABOVE = 30; // what is cut off at the top, where the port writes a heading
const LEGEND_TOP = BOTTOM + 34; // the top of the legend, and how far its lines are apart
const LEGEND_STEP = 18;
const LEGEND_GAP = 16; // pixels between the parts of a legend
const LEAST = 1000n; // the shortest time that is zoomed to, in picoseconds
const TAKEN = new Set(["svg", "title", "text", "path", "rect"]);
const NAMED = new Set(["class", "x", "y", "width", "height", "d", "viewBox", "role"]);

/** The time that is shown, moved so that it lies within what there is. */
export function clamped(from, length) {
  const long = length < LEAST ? LEAST : length;
  const most = GREATEST - 1_000_000n - long;
  const begin = from < 0n ? 0n : from > most ? most : from;
  return { from: begin, to: begin + long };
}

/**
 * The time to show after a step.
 *
 * @param {{from: bigint, to: bigint}} shown
 * @param {"nearer" | "farther" | "earlier" | "later"} step
 */
export function stepped({ from, to }, step) {
  const length = to - from;
  switch (step) {
    case "nearer":
      return clamped(from + length / 4n, length / 2n);
    case "farther":
      return clamped(from - length / 2n, length * 2n);
    case "earlier":
      return clamped(from - length / 2n, length);
    default:
      return clamped(from + length / 2n, length);
  }
}

/** The time to show after a zoom by a factor about a moment, which stays where it is. */
export function zoomed({ from, to }, moment, factor) {
  const scaled = (length) => (length * BigInt(Math.round(factor * 1000))) / 1000n;
  return clamped(moment - scaled(moment - from), scaled(to - from));
}

/** The moment at a place, in pixels from the left edge of a picture. */
export const momentIn = (shown, x) => {
  const place = (x - LEFT) / (shown.width - LEFT - RIGHT);
  const parts = BigInt(Math.round(Math.min(1, Math.max(0, place)) * 1e6));
  return shown.from + ((shown.to - shown.from) * parts) / 1_000_000n;
};

/** The time of so many pixels. */
export const lengthOf = (shown, pixels) => ((shown.to - shown.from) * BigInt(Math.round(pixels * 1000))) / BigInt((shown.width - LEFT - RIGHT) * 1000);

const xOf = (shown, moment) => LEFT + (Number(moment - shown.from) / Number(shown.to - shown.from)) * (shown.width - LEFT - RIGHT);

// What is safe of the port's picture, without its style: the page has that.
function safe(node) {
  if (!TAKEN.has(node.localName)) return null;
  const made = element(node.localName);
  for (const { name, value } of node.attributes) if (NAMED.has(name)) made.setAttribute(name, value);
  for (const child of node.childNodes) {
    if (child.nodeType === Node.TEXT_NODE) made.append(child.data);
    else if (child.nodeType === Node.ELEMENT_NODE) {
      const it = safe(child);
      if (it) made.append(it);
    }
  }
  return made;
}

// Puts the marks of time anew, counted from an origin.
function putTicks(svg, shown, origin) {
  for (const old of svg.querySelectorAll("path.g")) {
    if (old.nextElementSibling?.classList.contains("m")) old.nextElementSibling.remove();
    old.remove();
  }
  const first = svg.querySelector("text.t")?.nextSibling ?? svg.firstChild;
  for (const { at, text } of ticks(shown, origin, Math.max(2, Math.floor(shown.width / 130)))) {
    const x = xOf(shown, at).toFixed(2);
    first.before(element("path", { class: "g", d: `M${x} 52V${BOTTOM}` }), element("text", { class: "m", x, y: BOTTOM + 16 }, text));
  }
}

// Marks the beginnings of cycles but the first, which is a change, where they are far enough apart to be seen.
function putCycles(svg, shown, changes) {
  const frames = svg.querySelector("rect.f") ?? svg.querySelector("path.c") ?? svg.lastChild;
  changes.forEach(({ change, cycle }, place) => {
    if (cycle === null || lengthOf(shown, 12) > cycle) return;
    const end = changes[place + 1]?.change ?? shown.to;
    let at = shown.from > change ? change + ((shown.from - change + cycle - 1n) / cycle) * cycle : change + cycle;
    for (; at <= shown.to && at < end; at += cycle) {
      const x = xOf(shown, at).toFixed(2);
      frames.before(element("path", { class: "y", d: `M${x} 52V${BOTTOM}` }));
    }
  });
}

const rowOf = (kind) => TOP + (7 - kind) * STEP;

// Says in each row how many frames wait to its end and on. Their waits are drawn by the port.
function putLeft(svg, shown, frames) {
  const left = new Map();
  for (const it of sortedOf(frames).left) if (it.arrival < shown.to) left.set(it.class, (left.get(it.class) ?? 0) + 1);
  for (const [kind, number] of left) {
    const y = rowOf(kind);
    svg.append(element("text", { class: "l", x: shown.width - 4, y: y + 19 }, `${number} ${number === 1 ? "waits" : "wait"} ▸`));
  }
}

const isPlain = (wait) => !wait.getAttribute("d").includes("v"); // (that of the legend has other strokes)

// Puts waits and changes under the bars and crosses over them, these edged with the page's ground, so that each is seen beside a bar.
function putInLayers(svg) {
  const bar = svg.querySelector("rect.f");
  const under = [...svg.querySelectorAll("path.w, path.c")].filter((it) => isPlain(it));
  bar?.before(...under);
  const crosses = [...svg.querySelectorAll("path.d")];
  svg.append(...crosses.map((it) => element("path", { class: "h", d: it.getAttribute("d") })), ...crosses);
}

const isDropped = (frame) => frame.start === null && frame.fate !== "left";

// The place of the row in which a frame's cross lies: that of its class, or that of the wire where it has none.
const placeOfCross = (frame) => (frame.class === null ? 8 : 7 - frame.class);

// Where the crosses of dropped frames lie, in pixels: the middle of each.
function crossesIn(svg) {
  return [...svg.querySelectorAll("path.d")].flatMap((it) => {
    const [, x, y] = /^M([\d.]+) ([\d.]+)/.exec(it.getAttribute("d")) ?? [];
    return y === undefined || Number(y) > BOTTOM ? [] : [{ x: Number(x) + CROSS / 2, y: Number(y) + CROSS / 2 }];
  });
}

// The height at which a part of the port's picture begins.
function heightOf(it) {
  const [y, lines] = [it.getAttribute("y"), it.getAttribute("d")];
  if (y !== null) return Number(y);
  return lines === null ? 0 : parseFloat(lines.slice(lines.indexOf(" ") + 1));
}

// Where a part of the port's picture begins, from the left.
const leftOf = (it) => Number(it.getAttribute("x") ?? /^M([\d.]+)/.exec(it.getAttribute("d") ?? "")?.[1] ?? 0);

// Takes the parts of the port's legend together, each sign with its words, and those of the page's own behind them.
function groupLegend(legend, own) {
  const lineOf = (it) => (heightOf(it) < LEGEND_TOP + LEGEND_STEP ? 0 : 1);
  const all = legend.sort((one, other) => lineOf(one) - lineOf(other) || leftOf(one) - leftOf(other));
  const parts = [[]];
  for (const it of all) {
    parts.at(-1).push(it);
    if (it.localName === "text") parts.push([]);
  }
  return [...parts.filter((it) => it.length), ...own].map((part) => {
    const group = element("g", { class: "legend" });
    group.append(...part);
    return group;
  });
}

// The sign for pixels that are shaded, with its words, as a part of the legend.
const shadedSign = () => [
  ...[0.1, 0.5, 0.9].map((share, place) => shadeOf({ x: 64 + 8 * place, y: 452, width: 8, share }, 12)),
  element("text", { x: 94, y: 462 }, "shade: how full a pixel is"),
];

/** The classes whose rows are shown: those of the map, all eight where there is none, and those of the frames. */
export function kindsShown(kinds, frames) {
  const used = sortedOf(frames).kinds;
  return [0, 1, 2, 3, 4, 5, 6, 7].filter((it) => kinds === null || it < kinds || used.includes(it));
}

// How far each row moves down since rows below it are not shown; those that aren't shown have null. The row of the wire stays.
function movesOf(shown) {
  const moves = Array(9).fill(null);
  moves[8] = 0;
  let move = 0;
  for (let place = 7; place >= 0; place -= 1) {
    if (shown.includes(7 - place)) moves[place] = move;
    else move += STEP;
  }
  return { moves, above: move };
}

// Takes away the rows that aren't shown, and moves those above them down to the others, with what stands above all rows. Gives what stands below
// the axis: the legend.
function moveRows(svg, { moves, above }) {
  const legend = [];
  for (const it of [...svg.children]) {
    const y = heightOf(it);
    if (y > BOTTOM + 20) legend.push(it);
    if (!above || y > BOTTOM) continue;
    const lines = it.getAttribute("d");
    if (y && y < TOP - 4 && lines) it.setAttribute("d", lines.replace(/^(M[\d.]+) [\d.]+/, `$1 ${y + above}`));
    else if (y && y < TOP - 4) it.setAttribute("y", y + above);
    else if (y >= TOP - 4 && y < BOTTOM) {
      const move = moves[placeOfRow(y)];
      if (move === null) it.remove();
      else if (move) it.setAttribute("transform", `translate(0 ${move})`);
    }
  }
  return legend;
}

// The first frame of a class that is on the wire about a moment, if any.
function sentAt(queue, at, near) {
  const it = queue[countFirst(queue, ({ end }) => end !== null && end + near <= at)];
  return it && it.start !== null && it.start <= at + near ? it : null;
}

// The first frame of a class that waits about a moment, if any.
function waitingAt(queue, at, near) {
  const it = queue[countFirst(queue, ({ start }) => start !== null && start + near <= at)];
  return it && it.arrival <= at + near ? it : null;
}

/** A picture in the page. */
export class Picture {
  /**
   * @param {string} text the port's picture
   * @param {{from: bigint, to: bigint, width: number}} shown
   * @param {{origin: bigint, changes: object[], frames: object[], times: object, kinds: number | null}} run what is known of the run:
   *   `times` are those of the frames that were sent, as `timesOf` gives them, `kinds` is the number of classes of its map
   */
  constructor(text, shown, { origin, changes, frames, times, kinds }) {
    this.shown = shown;
    this.frames = frames;
    // (its style goes before it is parsed: the page's policy refuses it)
    const bars = shaded(text, shown, times);
    const parsed = new DOMParser().parseFromString(bars.text.replace(/<style>[^]*?<\/style>/, ""), "image/svg+xml").documentElement;
    this.svg = safe(parsed);
    this.crosses = crossesIn(this.svg);
    putInLayers(this.svg);
    putTicks(this.svg, shown, origin);
    putCycles(this.svg, shown, changes);
    putLeft(this.svg, shown, frames);
    this.svg.querySelector("rect.f")?.before(...bars.shades.map((it) => shadeOf(it)));
    this.svg.dataset.shaded = bars.number;
    this.svg.querySelector("text.t")?.remove();
    this.rows = movesOf(kindsShown(kinds, frames));
    this.legend = groupLegend(moveRows(this.svg, this.rows), bars.number ? [shadedSign()] : []);
    this.ring = element("rect", { class: "ring" });
  }

  // Gives a picture its size, with so many lines of a legend.
  #size(svg, lines) {
    const { above } = this.rows;
    const height = LEGEND_TOP + LEGEND_STEP * lines + 10 - ABOVE - above;
    svg.setAttribute("viewBox", `0 ${ABOVE + above} ${this.shown.width} ${height}`);
    svg.setAttribute("width", this.shown.width);
    svg.setAttribute("height", height);
  }

  // The boxes of the legend's parts, by a picture of nothing else: all of the picture is laid out once.
  #boxesIn(place) {
    const alone = element("svg");
    this.#size(alone, 1);
    alone.append(...this.legend);
    place.append(alone);
    const boxes = this.legend.map((it) => it.getBBox());
    alone.remove();
    return boxes;
  }

  /** Leaves the legend away: a picture below has it. */
  leaveLegend() {
    this.#size(this.svg, 0);
  }

  /** Lays out the legend by the width of its words, in as many lines as it needs, before the picture is put into a place of the page. */
  layLegend(canvas) {
    const boxes = this.#boxesIn(canvas);
    const whole = boxes.reduce((sum, it) => sum + it.width + LEGEND_GAP, 0);
    const begin = LEFT + whole < this.shown.width ? LEFT : 8;
    let [x, line] = [begin, 0];
    for (const [place, part] of this.legend.entries()) {
      const box = boxes[place];
      if (x > begin && x + box.width > this.shown.width - 8) [x, line] = [begin, line + 1];
      const y = LEGEND_TOP + LEGEND_STEP * line + 12 - Number(part.querySelector("text").getAttribute("y")) - 2;
      part.setAttribute("transform", `translate(${x - box.x} ${y})`);
      x += box.width + LEGEND_GAP;
    }
    this.svg.append(...this.legend);
    this.#size(this.svg, line + 1);
  }

  // The height in the port's picture of what lies at a height in the page's.
  #portHeight(y) {
    const at = y + ABOVE + this.rows.above;
    const place = this.rows.moves.findIndex((move, row) => move !== null && placeOfRow(at - move) === row);
    return place < 0 ? at : at - this.rows.moves[place];
  }

  // How far the row at a height of the port's picture is moved down.
  #moved(y) {
    return this.rows.moves[placeOfRow(y)] ?? 0;
  }

  /** The moment at a place, in pixels from the picture's left edge. */
  moment(x) {
    return momentIn(this.shown, x);
  }

  /** The class of a row at a height in pixels, "wire", or null. */
  row(y) {
    const place = placeOfRow(this.#portHeight(y));
    return (this.rows.moves[place] ?? null) === null ? null : place === 8 ? "wire" : 7 - place;
  }

  /**
   * The frame at a place: one that was dropped or is on the wire there, and else one that waits.
   *
   * @returns {object | null}
   */
  frameAt(x, y) {
    const row = this.row(y);
    if (row === null) return null;
    const near = lengthOf(this.shown, 3);
    const at = this.moment(x);
    const dropped = this.#droppedAt(x, y);
    if (dropped) return dropped;
    const { queues } = sortedOf(this.frames);
    const sent = (row === "wire" ? queues : [queues[row]]).map((it) => sentAt(it, at, near)).filter(Boolean);
    if (sent.length) return sent.reduce((one, other) => (other.taken < one.taken ? other : one));
    return row === "wire" ? null : waitingAt(queues[row], at, near);
  }

  // The frame whose cross lies at a place.
  #droppedAt(x, y) {
    const at = this.#portHeight(y);
    const cross = this.crosses.find((it) => Math.abs(it.x - x) < CROSS && Math.abs(it.y - at) < CROSS);
    return cross && sortedOf(this.frames).dropped.find((it) => this.#isAt(cross, it));
  }

  /** The open time of a class at a place, by the picture's bands: about from when to when, or null. */
  bandAt(x, y) {
    const row = this.row(y);
    if (row === null || row === "wire") return null;
    for (const band of this.svg.querySelectorAll("rect.o")) {
      const [left, top, width] = ["x", "y", "width"].map((name) => Number(band.getAttribute(name)));
      if (top === rowOf(row) && left <= x && x <= left + width) return { class: row, from: momentIn(this.shown, left), to: momentIn(this.shown, left + width) };
    }
    return null;
  }

  /** Rings a frame, or none. */
  mark(frame) {
    this.ring.remove();
    if (!frame) return;
    if (isDropped(frame)) {
      this.#ringCross(frame);
      return;
    }
    const [from, to] = [frame.start ?? frame.arrival, frame.end ?? this.shown.to];
    if (to < this.shown.from || from > this.shown.to) return;
    const left = Math.max(LEFT, xOf(this.shown, from));
    const right = Math.min(this.shown.width - RIGHT, xOf(this.shown, to));
    this.ring.setAttribute("x", left - 3);
    this.ring.setAttribute("width", Math.max(2, right - left) + 6);
    this.ring.setAttribute("y", rowOf(frame.class) - 2 + this.#moved(rowOf(frame.class)));
    this.ring.setAttribute("height", ROW + 4);
    this.svg.append(this.ring);
  }

  #crossOf(frame) {
    return this.crosses.find((it) => this.#isAt(it, frame));
  }

  #isAt(cross, frame) {
    return placeOfRow(cross.y) === placeOfCross(frame) && Math.abs(cross.x - xOf(this.shown, frame.arrival)) <= 1;
  }

  #ringCross(frame) {
    const cross = this.#crossOf(frame);
    if (!cross) return;
    for (const [name, value] of [["x", cross.x - 8], ["y", cross.y - 8 + this.#moved(cross.y)], ["width", 16], ["height", 16]]) this.ring.setAttribute(name, value);
    this.svg.append(this.ring);
  }

  /** Where a frame lies, in pixels: the middle of its bar, its cross, or where it begins to wait. */
  placeOf(frame) {
    const cross = isDropped(frame) ? this.#crossOf(frame) : null;
    const above = ABOVE + this.rows.above;
    if (cross) return { x: cross.x, y: cross.y + this.#moved(cross.y) - above };
    const x = xOf(this.shown, frame.start ?? frame.arrival) + (frame.start === null ? 0 : (xOf(this.shown, frame.end) - xOf(this.shown, frame.start)) / 2);
    const place = placeOfCross(frame);
    return { x, y: TOP + place * STEP + ROW / 2 + (this.rows.moves[place] ?? 0) - above };
  }
}

const TICK = /<path class="g" d="M(\d+\.\d+)V?[^"]*"\/>\s*<text class="m"[^>]*>(\d+) (ps|ns|us|ms|s)<\/text>/g;
const SIZES = { ps: 1n, ns: 1000n, us: 1_000_000n, ms: 1_000_000_000n, s: 1_000_000_000_000n };

// The end of a picture's time, by the first and the last tick of its axis.
function endByTicks(svg, from, width) {
  const found = [...svg.matchAll(TICK)].map(([, x, number, unit]) => ({ x: Number(x), at: BigInt(number) * SIZES[unit] }));
  const last = found.at(-1);
  const first = found.length > 1 ? found[0] : { x: LEFT, at: from };
  if (!last || last.x <= first.x) return null;
  const per = Number(last.at - first.at) / (last.x - first.x);
  return last.at + BigInt(Math.max(0, Math.round((width - RIGHT - last.x) * per)));
}

/**
 * The time that a picture shows.
 *
 * @param {string} svg the picture
 * @param {{from: bigint, to: bigint | null, width: number}} values what it was asked for
 * @returns {{from: bigint, to: bigint, width: number} | null} null where it can't be told
 */
export function shownIn(svg, { from, to, width }) {
  const end = to ?? endByTicks(svg, from ?? 0n, width);
  return end === null || end <= (from ?? 0n) ? null : { from: from ?? 0n, to: end, width };
}
