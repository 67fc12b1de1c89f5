// The picture under the pointer and the keys: it is moved and zoomed, and says what lies where.
import { clamped, lengthOf, momentIn, stepped, zoomed } from "./picture.js";

const MOVED = 4; // pixels after which a press is a drag
const LINE = 33; // pixels of a wheel that counts in lines
const TURN = 0.00223; // how much a pixel of a wheel zooms: a hundred of them by 1.25
const PINCHED = 0.01; // and one of two fingers on a touchpad, which come as a wheel with Ctrl, a few pixels at once
const NOTCH = 50; // pixels of the least turn of a wheel
const ZOOM_HINT = "Ctrl and the wheel zoom"; // what a wheel alone, which scrolls the page, is told
const HINT_TIME = 1500; // milliseconds that it is told

/** What moves a picture in a box. Times that are wanted go to `want`, a frame that is chosen to `choose`. */
export class Viewer {
  #pointers = new Map();
  #begun = null;
  #wanted = null; // the time that is wanted last, until its picture comes

  /**
   * @param {{box: HTMLElement, canvas: HTMLElement, canvases: HTMLElement[], band: HTMLElement, tip: HTMLElement}} parts `canvases` are those
   *   that move together
   * @param {{want: (time: {from: bigint, to: bigint}) => void, whole: () => void, choose: (frame: object) => void, tell: (found: object) => Node[]}} calls
   */
  constructor(parts, calls) {
    Object.assign(this, parts);
    this.calls = calls;
    this.picture = null;
    this.frame = null;
    this.box.addEventListener("wheel", (event) => this.#wheel(event), { passive: false });
    this.box.addEventListener("pointerdown", (event) => this.#down(event));
    this.box.addEventListener("pointermove", (event) => this.#move(event));
    this.box.addEventListener("pointerup", (event) => this.#up(event));
    this.box.addEventListener("pointercancel", () => this.#end());
    this.box.addEventListener("pointerleave", () => this.#pointers.size || this.#hide());
    this.box.addEventListener("keydown", (event) => this.#key(event));
  }

  /** Shows another picture, or none. */
  show(picture) {
    this.picture = picture;
    this.#wanted = null;
    this.#moveAll("");
    this.canvas.replaceChildren(...(picture ? [picture.svg] : []));
    this.box.hidden = !picture;
    this.box.classList.remove("held");
    this.#hide();
    // (a frame of another run is not marked)
    if (!picture?.frames?.includes(this.frame)) this.frame = null;
    else picture.mark(this.frame);
  }

  /** Leaves the picture where it is while another run's comes: nothing in it can be found or moved any more. */
  hold() {
    this.picture = null;
    this.frame = null;
    this.#hide();
    this.box.classList.add("held");
  }

  /** Whether the picture is of an earlier run than what is told beside it. */
  get isHeld() {
    return this.box.classList.contains("held");
  }

  /** Marks a frame, and shows where it is; another time is wanted where it lies outside. */
  find(frame) {
    this.frame = frame;
    if (!this.#hasTime()) return;
    const { from, to } = this.picture.shown;
    const [first, last] = [frame.arrival, frame.end ?? frame.arrival];
    if (last < from || first > to) {
      const length = to - from;
      this.calls.want(clamped((frame.start ?? frame.arrival) - length / 2n, length));
      return;
    }
    this.picture.mark(frame);
    const { x, y } = this.picture.placeOf(frame);
    this.#tell({ frame }, x, y);
  }

  /** Marks a frame, or none, where it is. */
  ring(frame) {
    this.frame = frame;
    if (this.#hasTime()) this.picture.mark(frame);
  }

  #hasTime() {
    return Boolean(this.picture?.shown);
  }

  // A place of the pointer in the picture's pixels, wherever the picture is moved to meanwhile.
  #place(event) {
    const { left, top } = this.box.getBoundingClientRect();
    const scale = this.#scale();
    return { x: (event.clientX - left - this.box.clientLeft) / scale, y: (event.clientY - top - this.box.clientTop) / scale };
  }

  // How many pixels of the window one of the picture's has.
  #scale() {
    return this.picture.svg.clientWidth / this.picture.shown.width;
  }

  // The time that is shown, or will be: turns of a wheel add up while a picture is drawn.
  #base() {
    return { ...this.picture.shown, ...this.#wanted };
  }

  #want(time) {
    this.#wanted = time;
    this.calls.want(time);
  }

  #wheel(event) {
    if (!this.#hasTime()) return;
    const zooms = event.ctrlKey || event.metaKey;
    if (!zooms && !event.shiftKey && Math.abs(event.deltaX) <= Math.abs(event.deltaY)) {
      this.#hintAt(this.#place(event));
      return;
    }
    event.preventDefault();
    const scale = event.deltaMode === WheelEvent.DOM_DELTA_LINE ? LINE : 1;
    const [across, down] = [event.deltaX * scale, event.deltaY * scale];
    const base = this.#base();
    if (!zooms) {
      this.#shift(lengthOf(base, across || down));
      return;
    }
    const factor = Math.exp(down * (Math.abs(down) < NOTCH ? PINCHED : TURN));
    this.#want(zoomed(base, momentIn(base, this.#place(event).x), Math.min(2, Math.max(0.5, factor))));
  }

  #hintAt({ x, y }) {
    this.#showTip([ZOOM_HINT], x, y);
    clearTimeout(this.hiding);
    this.hiding = setTimeout(() => this.#hide(), HINT_TIME);
  }

  #shift(length) {
    const { from, to } = this.#base();
    this.#want(clamped(from + length, to - from));
  }

  #down(event) {
    if (!this.#hasTime() || event.button !== 0) return;
    this.#pointers.set(event.pointerId, this.#place(event));
    this.box.setPointerCapture(event.pointerId);
    const points = [...this.#pointers.values()];
    const spread = points.length === 2 ? Math.abs(points[0].x - points[1].x) : 0;
    this.#begun = { at: this.#place(event), client: event.clientX, time: this.picture.shown, stretch: event.shiftKey, moved: false, spread, middle: points.reduce((sum, it) => sum + it.x, 0) / points.length };
  }

  #move(event) {
    if (!this.#hasTime()) return;
    const at = this.#place(event);
    if (!this.#pointers.has(event.pointerId)) {
      this.#hover(at);
      return;
    }
    this.#pointers.set(event.pointerId, at);
    const begun = this.#begun;
    if (!begun) return;
    if (this.#pointers.size === 2) this.#pinch(begun);
    else if (Math.abs(event.clientX - begun.client) > MOVED || begun.moved) {
      begun.moved = true;
      if (begun.stretch) this.#stretch(begun.at.x, at.x);
      else this.#moveAll(`translateX(${event.clientX - begun.client}px)`);
    }
  }

  #pinch(begun) {
    const [one, other] = [...this.#pointers.values()];
    const spread = Math.max(8, Math.abs(one.x - other.x));
    if (!begun.spread) return;
    begun.moved = true;
    begun.wanted = zoomed(begun.time, this.picture.moment(begun.middle), begun.spread / spread);
    this.#moveAll(`scaleX(${spread / begun.spread})`, `${begun.middle * this.#scale()}px 0`);
  }

  // Moves the picture, and those that move with it, until they are drawn anew.
  #moveAll(transform, origin = "") {
    for (const { style } of this.canvases) [style.transform, style.transformOrigin] = [transform, origin];
  }

  #stretch(one, other) {
    const scale = this.#scale();
    this.band.hidden = false;
    this.band.style.left = `${Math.min(one, other) * scale}px`;
    this.band.style.width = `${Math.abs(other - one) * scale}px`;
  }

  #up(event) {
    const begun = this.#begun;
    const at = this.#hasTime() ? this.#place({ clientX: event.clientX, clientY: event.clientY }) : null;
    this.#end();
    if (!begun || !at) return;
    if (begun.wanted) this.calls.want(begun.wanted);
    else if (!begun.moved) this.#press(begun.at);
    else if (begun.stretch) {
      const [from, to] = [begun.at.x, at.x].map((x) => this.picture.moment(x)).sort((a, b) => (a < b ? -1 : 1));
      this.calls.want(clamped(from, to - from));
    } else this.#shift(lengthOf(begun.time, (begun.client - event.clientX) / this.#scale()));
  }

  #end() {
    this.#pointers.clear();
    this.#begun = null;
    this.band.hidden = true;
    this.#moveAll("");
  }

  #press(at) {
    const frame = this.picture.frameAt(at.x, at.y);
    this.frame = frame;
    this.picture.mark(frame);
    if (!frame) return;
    this.#tell({ frame }, at.x, at.y);
    this.calls.choose(frame);
  }

  #hover(at) {
    const frame = this.picture.frameAt(at.x, at.y);
    const band = frame ? null : this.picture.bandAt(at.x, at.y);
    if (frame || band) this.#tell({ frame, band }, at.x, at.y);
    else this.#hide();
  }

  #tell(found, x, y) {
    clearTimeout(this.hiding);
    this.#showTip(this.calls.tell(found), x, y);
  }

  #showTip(parts, x, y) {
    this.tip.replaceChildren(...parts);
    this.tip.hidden = false;
    this.tip.style.left = "4px"; // (so that it is as wide as its words where there is room)
    const scale = this.#scale();
    const room = this.box.clientWidth - this.tip.offsetWidth - 8;
    this.tip.style.left = `${Math.max(4, Math.min(room, x * scale + 14))}px`;
    const under = y * scale + 18;
    const over = y * scale - this.tip.offsetHeight - 12;
    this.tip.style.top = `${under + this.tip.offsetHeight > this.box.clientHeight && over >= 4 ? over : under}px`;
  }

  #hide() {
    this.tip.hidden = true;
  }

  #key(event) {
    if (!this.#hasTime() || event.ctrlKey || event.metaKey || event.altKey) return;
    const step = { "+": "nearer", "=": "nearer", "-": "farther" }[event.key] ?? (event.shiftKey ? { ArrowLeft: "earlier", ArrowRight: "later" }[event.key] : undefined);
    if (step) this.#want(stepped(this.#base(), step));
    else if (event.key === "Home") this.calls.whole();
    else if (event.key === "Escape") this.#hide();
    else if (event.key === "ArrowLeft" || event.key === "ArrowRight") this.#walk(event.key === "ArrowRight" ? 1 : -1);
    else return;
    event.preventDefault();
  }

  // Goes to the frame before or after the one that is marked.
  #walk(step) {
    const { frames, shown } = this.picture;
    if (!frames.length) return;
    const here = this.frame ? frames.indexOf(this.frame) : frames.findIndex((it) => (it.end ?? it.arrival) >= shown.from) - (step > 0 ? 1 : 0);
    const frame = frames[Math.min(frames.length - 1, Math.max(0, here + step))];
    this.find(frame);
    this.calls.choose(frame);
  }
}
