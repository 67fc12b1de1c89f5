// The strip in which the gate list of a tc line is changed by hand: its edges are dragged, or moved by keys.
import { gateListsIn, limitsOf, movedEdge, patched, removedEntry, snapped, splitEntry, stepOf, toggledGate } from "./gates.js";
import { ticks, writeMoment } from "./moments.js";
import { LEFT, RIGHT } from "./sizes.js";
import { element } from "./svg.js";

const LANE = 10; // pixels of a class
const HIGH_LANE = 16; // and where there are few
const FEW = 4;
const DENSE = 20; // pixels of an entry, below which its edge has no handle
const AXIS = 14; // and of what stands below them
const REACH = 12; // pixels from an edge at which it is taken
const FINGER_REACH = 22; // and by a finger
const STIRRED = 3; // pixels after which a press on a gate is no click
const FREE = 0.06; // the share of the strip behind a cycle that is the sum of its intervals
const JOINED = 1000; // milliseconds between two keys that Ctrl+Z takes back together

const inPicoseconds = (nanoseconds) => BigInt(Math.round(nanoseconds)) * 1000n;
const written = (nanoseconds) => (nanoseconds === 0 ? "0" : writeMoment(inPicoseconds(nanoseconds)));
const hexOf = (gates) => gates.toString(16).padStart(2, "0");

// The open classes of gates, in words.
function openIn(gates) {
  const open = [7, 6, 5, 4, 3, 2, 1, 0].filter((kind) => (gates >> kind) & 1);
  return open.length ? `class ${open.join(", ")} open` : "all closed";
}

/**
 * A strip over texts, one of whose gate lists it shows. What is changed by hand goes to `change`; before the first change of a move there is `begin`,
 * and behind its last `end`.
 */
export class Strip {
  #lists = []; // those of all texts
  #texts = [];
  #at = 0; // which of the lists is shown
  #edge = 0; // the edge that is used
  #held = null; // the edge that is dragged, and the nanoseconds that the strip shows then; or the gate that is pressed
  #view = null; // how the list is drawn
  #key = { edge: -1, time: 0 }; // the edge that a key moved last, and when

  /**
   * @param {HTMLElement} box with `.strip`, `.said` and the controls
   * @param {{begin: (source: number) => void, change: (source: number, text: string, begin: number, end: number) => void, end: () => void,
   *   choose: (source: number, line: number) => void, plain: (text: string) => {text: string, back: (place: number) => number}}} calls `source` is the
   *   number of a text; `choose` is told the line of a gate list that is chosen; `plain` says what the lines of a text mean
   */
  constructor(box, calls) {
    this.box = box;
    this.calls = calls;
    [this.place, this.said, this.which, this.add, this.remove] = [".strip", ".said", "select", "[data-do=add]", "[data-do=remove]"].map((it) => box.querySelector(it));
    this.svg = element("svg", { "aria-hidden": "true" });
    this.place.append(this.svg);
    this.place.addEventListener("pointerdown", (event) => this.#down(event));
    this.place.addEventListener("pointermove", (event) => this.#move(event));
    for (const name of ["pointerup", "pointercancel"]) this.place.addEventListener(name, (event) => this.#up(event));
    this.place.addEventListener("keydown", (event) => this.#press(event));
    this.place.addEventListener("focusin", ({ target }) => this.#use(this.#edges().indexOf(target)));
    this.which.addEventListener("change", () => {
      this.#choose(Number(this.which.value));
      this.calls.choose(this.#list.source, this.#list.number);
    });
    this.add.addEventListener("click", () => this.#split());
    this.remove.addEventListener("click", () => this.#drop());
    new ResizeObserver(() => this.place.clientWidth !== this.#view?.width && this.draw()).observe(this.place);
  }

  /** Reads the texts anew when they are shown next, since what their lines mean has changed. */
  forget() {
    this.#texts = [];
  }

  /** Whether there is a gate list to show. */
  get has() {
    return this.#lists.length > 0;
  }

  get #list() {
    return this.#lists[this.#at];
  }

  /**
   * Shows a gate list of texts: that in which the cursor stands, or else that of the same place as before.
   *
   * @param {string[]} texts
   * @param {{source: number, place: number} | null} cursor
   */
  show(texts, cursor = null) {
    const same = texts.length === this.#texts.length && texts.every((it, place) => it === this.#texts[place]);
    if (same && !cursor) return;
    this.#take(texts);
    this.#key.edge = -1;
    const here = cursor ? this.#lists.findIndex(({ source, begin, end }) => source === cursor.source && begin <= cursor.place && cursor.place <= end) : -1;
    this.#at = here >= 0 ? here : Math.max(0, Math.min(this.#at, this.#lists.length - 1));
    this.#fillWhich();
    this.draw();
  }

  #take(texts) {
    this.#texts = texts;
    this.#lists = texts.flatMap((text, source) => gateListsIn(this.calls.plain(text)).map((it) => ({ ...it, source })));
  }

  #fillWhich() {
    const named = ({ number, device, source }) => `${source ? "other schedule, " : ""}line ${number}${device ? `, ${device}` : ""}`;
    this.which.replaceChildren(...this.#lists.map((it, place) => new Option(named(it), String(place))));
    this.which.value = String(this.#at);
    this.which.disabled = this.#lists.length < 2;
  }

  /** Shows the gate list of the command that begins in a line of the first text. */
  showLine(number) {
    const place = this.#lists.findIndex((it) => it.source === 0 && it.number === number);
    if (place >= 0) this.#choose(place);
  }

  #choose(place) {
    [this.#at, this.#edge] = [place, 0];
    this.which.value = String(place);
    this.draw();
  }

  #edges() {
    return [...this.place.querySelectorAll(".edge")];
  }

  // How the list that is shown lies in the strip: its nanoseconds, its pixels, its classes, and the pixels of each.
  #measure({ entries, sum, cycle, kinds }) {
    const most = entries.reduce((all, it) => all | it.gates, 0);
    const lanes = Math.max(kinds ?? 8, 32 - Math.clz32(most));
    const whole = this.#held?.whole ?? Math.max(cycle ?? sum * (1 + FREE), sum);
    return { whole, wide: Math.max(1, this.place.clientWidth - LEFT - RIGHT), lanes, lane: lanes <= FEW ? HIGH_LANE : LANE, width: this.place.clientWidth };
  }

  #xOf(moment) {
    return LEFT + (moment / this.#view.whole) * this.#view.wide;
  }

  #momentAt(x) {
    return ((x - LEFT) / this.#view.wide) * this.#view.whole;
  }

  /** Draws the strip anew, for its width and its list. */
  draw() {
    const list = this.#list;
    this.box.classList.toggle("bad", Boolean(list?.fault));
    for (const it of [this.add, this.remove]) it.disabled = !list || Boolean(list.fault);
    if (!list || list.fault) {
      this.#say(list ? `Line ${list.number}: ${list.fault}` : "");
      for (const it of this.#edges()) it.ariaDisabled = "true";
      return;
    }
    this.#edge = Math.min(this.#edge, list.entries.length - 1);
    this.#view = this.#measure(list);
    this.#drawLanes(list);
    this.#placeEdges(list);
    this.#tell();
  }

  #drawLanes(list) {
    const { lanes, lane, width } = this.#view;
    const height = lanes * lane;
    const kinds = Array.from({ length: lanes }, (_, kind) => kind);
    this.svg.setAttribute("width", width);
    this.svg.setAttribute("height", height + AXIS);
    this.svg.replaceChildren(...kinds.flatMap((kind) => this.#laneOf(list, kind)), ...this.#marksOf(list, height), ...this.#ticks(height + AXIS - 3));
    this.place.style.height = `${height + AXIS}px`;
  }

  // A part of the strip from one moment to another.
  #stretch(name, from, to, y, height) {
    return element("rect", { class: name, x: this.#xOf(from), y, width: Math.max(0.5, this.#xOf(to) - this.#xOf(from)), height });
  }

  // The row of a class: when it is open.
  #laneOf({ entries, sum, cycle }, kind) {
    const { lanes, lane } = this.#view;
    const y = (lanes - 1 - kind) * lane;
    const open = entries.filter((it) => (it.gates >> kind) & 1).map((it) => this.#stretch("open", it.begin, it.end, y + 0.5, lane - 1));
    return [this.#stretch("lane", 0, cycle ?? sum, y, lane), ...open, element("text", { x: LEFT - 6, y: y + lane / 2 + 4 }, kind)];
  }

  // The end of the cycle, and what lies between it and the end of the entries.
  #marksOf({ sum, cycle }, height) {
    const end = cycle ?? sum;
    const apart = end > sum ? [this.#stretch("rest", sum, end, 0, height)] : end < sum ? [this.#stretch("cut", end, sum, 0, height)] : [];
    return [...apart, element("path", { class: "cycle", d: `M${this.#xOf(end)} 0V${height + 4}` })];
  }

  #ticks(y) {
    const { whole, wide } = this.#view;
    const found = ticks({ from: 0n, to: inPicoseconds(whole) }, 0n, Math.max(2, Math.floor(wide / 130)));
    return found.map(({ at, text }) => element("text", { class: "tick", x: this.#xOf(Number(at) / 1000), y }, text));
  }

  // An edge for each entry, where the entry ends. One that is used stays in the page, so that it keeps the focus.
  #placeEdges(list) {
    const { lanes, lane, wide } = this.#view;
    this.place.classList.toggle("dense", wide < DENSE * list.entries.length);
    const old = this.#edges();
    const hadFocus = old.indexOf(document.activeElement) >= list.entries.length;
    old.slice(list.entries.length).forEach((it) => it.remove());
    list.entries.forEach((it, place) => {
      const edge = old[place] ?? this.#newEdge();
      edge.style.left = `${this.#xOf(it.end)}px`;
      edge.style.height = `${lanes * lane}px`;
      this.#label(edge, list, place);
    });
    if (hadFocus) this.#focus();
  }

  #newEdge() {
    const edge = document.createElement("div");
    edge.className = "edge";
    edge.role = "slider";
    edge.ariaOrientation = "horizontal";
    edge.ariaRoleDescription = "edge";
    this.place.append(edge);
    return edge;
  }

  #label(edge, list, place) {
    const it = list.entries[place];
    const { least, most } = limitsOf(list, place);
    edge.tabIndex = place === this.#edge ? 0 : -1;
    edge.ariaDisabled = "false";
    edge.setAttribute("aria-label", `End of entry ${place + 1} of ${list.entries.length}, gates ${hexOf(it.gates)}`);
    [edge.ariaValueMin, edge.ariaValueMax, edge.ariaValueNow] = [least, most, it.end].map(String);
    edge.ariaValueText = `${written(it.end)}: ${openIn(it.gates)} for ${written(it.interval)}`;
    edge.classList.toggle("used", place === this.#edge);
  }

  #focus() {
    this.#edges()[this.#edge]?.focus({ preventScroll: true });
  }

  #use(place) {
    if (place < 0 || !this.#list || this.#list.fault) return;
    this.#edge = place;
    this.#edges().forEach((it, at) => {
      it.tabIndex = at === place ? 0 : -1;
      it.classList.toggle("used", at === place);
    });
    this.#tell();
  }

  // (what is told of an edge its own words say, too: a reader hears only why nothing is done)
  #say(words, isRefusal = false) {
    this.said.ariaLive = isRefusal ? "polite" : "off";
    this.said.textContent = words;
  }

  // The numbers of the entry that is used, and of the cycle.
  #tell() {
    const { entries, sum, cycle } = this.#list;
    const it = entries[this.#edge];
    const after = cycle === null ? "the sum" : cycle === sum ? "as given" : cycle > sum ? `as given: the last gates stay for ${written(cycle - sum)} more` : `as given: ${written(sum - cycle)} of the entries are cut`;
    this.#say(`Entry ${this.#edge + 1} of ${entries.length}: ${hexOf(it.gates)}, ${written(it.begin)} to ${written(it.end)} (${it.interval.toLocaleString("en")} ns). Cycle ${written(cycle ?? sum)}, ${after}.`);
  }

  // Puts a change into the text, and shows what it comes to.
  #change(changes) {
    const { source } = this.#list;
    const { text, begin, end } = patched(this.#texts[source], changes);
    this.#take(this.#texts.with(source, text));
    this.draw();
    this.calls.change(source, text, begin, end);
  }

  #begin() {
    this.calls.begin(this.#list.source);
  }

  // A change that is a move of its own.
  #once(made) {
    if (made.refused) {
      this.#say(made.refused, true);
      return;
    }
    this.#key.edge = -1;
    this.#begin();
    this.#change(made.changes);
    this.calls.end();
  }

  #split() {
    this.#once(splitEntry(this.#texts[this.#list.source], this.#list, this.#edge));
  }

  #drop() {
    this.#once(removedEntry(this.#list, this.#edge));
  }

  #toggle(place, kind) {
    this.#edge = place;
    this.#once({ changes: toggledGate(this.#list, place, kind) });
  }

  // 1. By the pointer

  #down(event) {
    if (!this.#list || this.#list.fault || event.button !== 0) return;
    const [x, y] = this.#placeOf(event);
    const edge = this.#nearest(x, event.pointerType === "touch" ? FINGER_REACH : REACH);
    event.preventDefault();
    this.place.setPointerCapture(event.pointerId);
    if (edge === null) {
      this.#held = { x, y };
      return;
    }
    this.#use(edge);
    this.#focus();
    this.#held = { edge, whole: this.#view.whole, off: x - this.#xOf(this.#list.entries[edge].end), begun: false };
  }

  #placeOf(event) {
    const { left, top } = this.place.getBoundingClientRect();
    return [event.clientX - left, event.clientY - top];
  }

  // The edge that is nearest, if the pointer is not well within an entry; of several at one place that which can be moved to the side of the pointer.
  #nearest(x, near) {
    const far = this.#list.entries.map((it) => Math.abs(this.#xOf(it.end) - x));
    const least = Math.min(...far);
    const here = this.#list.entries.find((it) => x < this.#xOf(it.end));
    const wide = here ? this.#xOf(here.end) - this.#xOf(here.begin) : Infinity;
    if (least > Math.max(STIRRED, Math.min(near, wide / 3))) return null;
    const all = far.flatMap((it, place) => (it <= least + 1 ? [place] : []));
    return x < this.#xOf(this.#list.entries[all[0]].end) ? all[0] : all.at(-1);
  }

  #move(event) {
    const held = this.#held;
    if (!held) return;
    const [x, y] = this.#placeOf(event);
    if (held.edge === undefined) {
      if (Math.hypot(x - held.x, y - held.y) > STIRRED) held.stirred = true;
      return;
    }
    const moment = snapped(this.#list, held.edge, this.#momentAt(x - held.off), event.shiftKey);
    if (moment === null || moment === this.#list.entries[held.edge].end) return;
    if (!held.begun) this.#begin();
    held.begun = true;
    this.#change(movedEdge(this.#list, held.edge, moment));
  }

  #up(event) {
    const held = this.#held;
    this.#held = null;
    if (!held || !this.#list || this.#list.fault) return;
    this.draw();
    if (held.edge === undefined) {
      if (!held.stirred && event.type === "pointerup") this.#click(held);
    } else if (held.begun) this.calls.end();
  }

  // A click opens or closes the gate that lies there.
  #click({ x, y }) {
    const { lanes, lane } = this.#view;
    const moment = this.#momentAt(x);
    const place = this.#list.entries.findIndex((it) => it.begin <= moment && moment < it.end);
    const kind = lanes - 1 - Math.floor(y / lane);
    if (place >= 0 && kind >= 0 && kind < lanes) this.#toggle(place, kind);
  }

  // 2. By keys

  #press(event) {
    if (!this.#list || this.#list.fault || event.ctrlKey || event.metaKey || event.altKey) return;
    const side = { ArrowLeft: -1, ArrowDown: -1, ArrowRight: 1, ArrowUp: 1 }[event.key];
    const walk = { PageUp: this.#edge - 1, PageDown: this.#edge + 1, Home: 0, End: Infinity }[event.key];
    if (side) this.#step(side, event.shiftKey);
    else if (walk !== undefined) this.#walk(walk);
    else if (event.key === "Insert") this.#split();
    else if (event.key === "Delete") this.#drop();
    else if (/^[0-7]$/.test(event.key) && Number(event.key) < this.#view.lanes) this.#toggle(this.#edge, Number(event.key));
    else return;
    event.preventDefault();
  }

  #walk(place) {
    this.#use(Math.max(0, Math.min(this.#list.entries.length - 1, place)));
    this.#focus();
  }

  // Moves the edge a step; keys that follow at once are one move.
  #step(side, fine) {
    const moment = stepOf(this.#list, this.#edge, side, fine);
    if (moment === null) {
      this.#say(`The edge can't go farther ${side > 0 ? "right" : "left"}${fine ? "" : " by a microsecond; with Shift it goes by a nanosecond"}.`, true);
      return;
    }
    const now = performance.now();
    if (this.#key.edge !== this.#edge || now - this.#key.time > JOINED) this.#begin();
    this.#key = { edge: this.#edge, time: now };
    this.#change(movedEdge(this.#list, this.#edge, moment));
  }
}
