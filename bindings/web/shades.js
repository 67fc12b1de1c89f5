// Frames that are closer than a pixel: the pixels that they lie in are shaded by how full they are.
import { LEFT, RIGHT, placeOfRow } from "./sizes.js";
import { element } from "./svg.js";
import { countFirst } from "./why.js";

const BAR = 16; // the height of a bar
const NARROWEST = 2; // the width of the narrowest bar of the port
const NEAR = 0.03; // pixels that a bar of the port may lie beside its frame
const PALEST = 0.25; // the shade of a pixel in which hardly anything lies
const LEVELS = 32; // shades that are told apart

/** The starts and the ends of frames as numbers, counted from the first start, and their classes. */
export function timesOf(wire) {
  const first = wire[0]?.start ?? 0n;
  const times = { first, starts: new Float64Array(wire.length), ends: new Float64Array(wire.length), kinds: new Uint8Array(wire.length) };
  wire.forEach(({ start, end, class: kind }, place) => {
    times.kinds[place] = kind;
    times.starts[place] = Number(start - first);
    times.ends[place] = Number(end - first);
  });
  return times;
}

// Adds a frame to how full the pixels of a row are.
function addFrame(full, left, right) {
  const [first, last] = [Math.floor(left), Math.floor(right)];
  if (first === last) {
    full[first] += right - left;
    return;
  }
  for (let pixel = first; pixel <= last; pixel += 1) full[pixel] += Math.min(right, pixel + 1) - Math.max(left, pixel);
}

// How full each pixel of each row is, and the bars that are a frame's own: the frame is a pixel long or longer, and the port draws it so.
function fullness(times, { from, to, width }) {
  const pixels = width - LEFT - RIGHT;
  const { first, starts, ends, kinds } = times;
  const [begin, scale] = [Number(from - first), pixels / Number(to - from)];
  const rows = Array.from({ length: 9 }, () => ({ full: new Float64Array(pixels + 1), own: new Map(), short: 0 }));
  const add = (row, left, right) => {
    if (right - left >= 1) row.own.set(Math.round((LEFT + left) / NEAR), LEFT + Math.max(right, left + NARROWEST));
    else row.short += 1;
    addFrame(row.full, left, right);
  };
  for (let place = countFirst(ends, (it) => it <= begin); place < starts.length; place += 1) {
    const left = Math.max(0, (starts[place] - begin) * scale);
    const right = Math.min(pixels, (ends[place] - begin) * scale);
    if (left >= pixels) break;
    add(rows[7 - kinds[place]], left, right);
    add(rows[8], left, right);
  }
  return rows;
}

// A bar as the port writes it; that of the legend is less high.
const WRITTEN = /<rect class="f(?: s)?" x="([\d.]+)" y="(\d+)" width="([\d.]+)" height="16"\/>\n/g;

// The bars of a picture of the port in each row, from left to right, each with its place in the text.
function barsIn(text) {
  const rows = Array.from({ length: 9 }, () => []);
  for (const { 0: line, 1: x, 2: y, 3: width, index } of text.matchAll(WRITTEN)) {
    rows[placeOfRow(Number(y))]?.push({ x: Number(x), y: Number(y), right: Number(x) + Number(width), begin: index, end: index + line.length });
  }
  for (const row of rows) row.sort((one, other) => one.x - other.x);
  return rows;
}

// A text without the lines of bars.
function without(text, bars) {
  const parts = [];
  let from = 0;
  for (const { begin, end } of bars.sort((one, other) => one.begin - other.begin)) {
    parts.push(text.slice(from, begin));
    from = end;
  }
  return parts.join("") + text.slice(from);
}

// Whether a bar is that of one frame which is a pixel long or longer.
const isOwn = ({ own }, { x, right }) => [-1, 0, 1].some((step) => Math.abs((own.get(Math.round(x / NEAR) + step) ?? 0) - right) < 2 * NEAR);

// The bars that make a row look fuller than it is: those of several frames, and those of short ones that touch each other.
function misleading(bars, row) {
  const touches = (bar, other) => other !== undefined && other.x <= bar.right && bar.x <= other.right;
  return bars.filter((bar, place) => !isOwn(row, bar) && (bar.right - bar.x > NARROWEST + NEAR || touches(bar, bars[place - 1]) || touches(bar, bars[place + 1])));
}

// The pixels of bars, as stretches of one shade.
function stretchesOf(bars, { full }) {
  const levels = new Uint8Array(full.length);
  for (const { x, right } of bars) {
    for (let pixel = Math.max(0, Math.floor(x - LEFT)); pixel < Math.min(full.length, right - LEFT); pixel += 1) {
      if (full[pixel] > 0) levels[pixel] = Math.max(1, Math.round(full[pixel] * LEVELS));
    }
  }
  const found = [];
  levels.forEach((level, pixel) => {
    if (level && level === levels[pixel - 1]) found.at(-1).width += 1;
    else if (level) found.push({ x: LEFT + pixel, width: 1, share: level / LEVELS });
  });
  return found;
}

/**
 * A picture of the port without the bars that make a row look fuller than it is, and the shaded pixels that go in their place.
 *
 * @param {string} text the picture
 * @param {{from: bigint, to: bigint, width: number}} shown
 * @param {ReturnType<typeof timesOf>} times those of the frames that were sent, by their starts
 * @returns {{text: string, shades: {x: number, y: number, width: number, share: number}[], number: number}} how many bars there were, too
 */
export function shaded(text, shown, times) {
  const rows = fullness(times, shown);
  if (!rows[8].short) return { text, shades: [], number: 0 };
  const found = barsIn(text).map((bars, place) => (rows[place].short ? misleading(bars, rows[place]) : []));
  const shades = found.flatMap((bars, place) => stretchesOf(bars, rows[place]).map((it) => ({ ...it, y: bars[0].y })));
  const all = found.flat();
  return { text: all.length ? without(text, all) : text, shades, number: all.length };
}

/** A shaded pixel, or several alike, of a picture. */
export const shadeOf = ({ x, y, width, share }, height = BAR) => element("rect", { class: "v", x, y, width, height, "fill-opacity": (PALEST + (1 - PALEST) * Math.min(1, share)).toFixed(3) });
