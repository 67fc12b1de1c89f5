// A text with the numbers of its lines, one of which can be marked, with the colours of its words, and with what is underlined.
import { coloursIn, segmentsOf } from "./ink.js";
import { marksIn } from "./marks.js";

const MOST = 300_000; // characters of a text that a browser lays out at once
const AT_ONCE = 400; // lines that are shown of a longer one
const LONG_PASTE = 5_000; // characters of a text that is pasted by the page: a browser takes seconds and more for a long one

/**
 * An editor over a textarea that stands in a `.editor` with a `.numbers`, a `.mark` and a `.ink`, with a `.held` behind it. The textarea's own letters
 * are not seen: those of the lines in sight are in `.ink`, under it, where they have colours. Of a text that is too long to be
 * laid out some lines are shown, which can't be edited: all of it can be copied, cleared, and replaced by what is typed or pasted.
 *
 * Before the page itself puts in what is pasted or clears the text, the textarea has the event `replace`, which says whether the whole text goes,
 * and after it `input`.
 */
export class Editor {
  #held = null; // the lines of a text that is too long
  #text = ""; // that text
  #base = 0; // how many lines stand before those that are shown
  #count = 0; // how many are shown
  #put = ""; // what was put into the textarea last
  #starts = [0]; // where the lines that are shown begin
  #odd = []; // where the text is underlined
  #inked = ""; // which lines are in `.ink`

  /**
   * @param {HTMLElement} box
   * @param {(text: string) => string | null} taken what goes in where a text is pasted; null where nothing does
   * @param {(text: string) => {text: string, back: (place: number) => number}} plain the plain lines of a text, of which faults tell
   */
  constructor(box, taken, plain) {
    Object.assign(this, { taken, plain });
    this.area = box.querySelector("textarea");
    this.numbers = box.querySelector(".numbers");
    this.mark = box.querySelector(".mark");
    this.ink = box.querySelector(".ink");
    this.letters = this.ink.querySelector(".letters");
    this.note = box.parentElement.querySelector(".held");
    this.noteText = this.note.querySelector("span");
    this.line = null;
    this.area.addEventListener("input", () => this.#changed());
    this.area.addEventListener("scroll", () => this.#place());
    this.area.addEventListener("paste", (event) => this.#paste(event));
    this.area.addEventListener("copy", (event) => this.#copy(event));
    this.area.addEventListener("keydown", (event) => this.#key(event));
    this.note.querySelector("button").addEventListener("click", () => (this.#replace(""), this.area.focus()));
    new ResizeObserver(() => this.#place()).observe(this.area);
    this.#changed();
  }

  get text() {
    return this.#held ? this.#text : this.area.value;
  }

  set text(text) {
    const long = text.length > MOST;
    this.#held = long ? text.split("\n") : null;
    this.#text = long ? text : "";
    this.area.readOnly = long;
    this.note.hidden = !long;
    if (long) this.noteText.textContent = `${this.#held.length.toLocaleString("en")} lines: ${AT_ONCE} of them are shown, and can't be changed here. Select all to replace them.`;
    this.#show(0, text);
    this.area.scrollTo(0, 0);
    this.#changed();
  }

  /** Writes u for the micro sign and for the Greek letter mu in the times of a table of streams: the port takes u alone. */
  writeMicros() {
    const plain = this.text.replace(/^[ \t]*stream\b.*[µμ]s.*$/gm, (line) => line.replace(/[µμ](?=s\b)/g, "u"));
    if (plain === this.text) return;
    const { selectionStart, selectionEnd } = this.area;
    this.#exchange(plain, selectionStart, selectionEnd);
  }

  /** Puts in a text that differs in a part, and selects this part where it can be seen. */
  change(text, begin, end) {
    this.#exchange(text, begin, end);
    this.#reveal(begin, end);
  }

  /** Lines as they go in where the cursor stands, apart from what stands before and behind it. */
  apart(lines) {
    const { value, selectionStart: begin, selectionEnd: end } = this.area;
    const before = begin > 0 && value[begin - 1] !== "\n" ? "\n" : "";
    return before + (value[end] === "\n" ? lines.replace(/\n$/, "") : lines);
  }

  /** What the page put in last, before it was typed in. */
  get put() {
    return this.#held ? this.#text : this.#put;
  }

  /** Whether the text is too long to be changed. */
  get isHeld() {
    return this.#held !== null;
  }

  /** Whether nothing was changed since the page put the text in, so that the browser has nothing to undo. */
  get fresh() {
    return this.#held !== null || this.area.value === this.#put;
  }

  /** Whether all of the text is selected, so that what is typed or pasted takes its place. */
  get whole() {
    return this.area.selectionStart === 0 && this.area.selectionEnd === this.area.value.length;
  }

  /** Marks a line, or none where it is null. */
  markLine(line) {
    this.line = line;
    this.area.setAttribute("aria-invalid", String(line !== null));
    this.#place();
  }

  /** Underlines what faults are about, each of a line of the text: see `marksIn`. */
  underline(faults) {
    const marks = marksIn(this.plain(this.text), faults);
    const before = this.#held ? this.#held.slice(0, this.#base).reduce((sum, it) => sum + it.length + 1, 0) : 0;
    this.#odd = marks.map(({ begin, end }) => ({ begin: begin - before, end: end - before }));
    this.#inked = "";
    this.#place();
  }

  /** Goes to a line, and selects it. */
  goTo(line) {
    if (this.#held) {
      this.#show(Math.max(0, line - AT_ONCE / 2));
      this.#changed(this.line);
    }
    const lines = this.area.value.split("\n");
    const place = line - 1 - this.#base;
    const begin = lines.slice(0, place).reduce((sum, it) => sum + it.length + 1, 0);
    this.area.focus();
    this.area.setSelectionRange(begin, begin + (lines[place] ?? "").length);
    this.area.scrollTop = Math.max(0, (place - 3) * this.#height());
    this.#place();
  }

  // Shows lines from one on, or the whole text.
  #show(base, text) {
    this.#base = this.#held ? base : 0;
    this.area.value = this.#held ? this.#held.slice(base, base + AT_ONCE).join("\n") : text;
    this.#put = this.area.value;
  }

  // Puts another text in, which stays scrolled where it is.
  #exchange(text, begin, end) {
    const { scrollTop, scrollLeft } = this.area;
    this.text = text;
    this.area.setSelectionRange(begin, end);
    this.area.scrollTo(scrollLeft, scrollTop);
    this.#place();
  }

  // Scrolls so far that a part of the text is seen.
  #reveal(begin, end) {
    const above = this.area.value.slice(0, begin);
    const [top, left] = [(above.split("\n").length - 1) * this.#height(), begin - above.lastIndexOf("\n") - 1];
    const { scrollTop, clientHeight, scrollLeft, clientWidth } = this.area;
    if (top < scrollTop || top + 2 * this.#height() > scrollTop + clientHeight) this.area.scrollTop = Math.max(0, top - this.#height());
    const pen = document.createElement("canvas").getContext("2d");
    pen.font = getComputedStyle(this.area).font;
    const [from, to] = [left, left + end - begin + 2].map((it) => it * pen.measureText("0").width);
    if (from < scrollLeft || to > scrollLeft + clientWidth - 20) this.area.scrollLeft = Math.max(0, from - clientWidth / 2);
    this.#place();
  }

  // Puts a text in the place of what is selected, or of all, and the cursor behind it.
  #replace(text, begin = 0, end = this.area.value.length) {
    const whole = this.#held !== null || (begin === 0 && end === this.area.value.length);
    this.area.dispatchEvent(new CustomEvent("replace", { detail: { whole } }));
    const [before, after] = this.#held ? ["", ""] : [this.area.value.slice(0, begin), this.area.value.slice(end)];
    this.text = `${before}${text}${after}`;
    if (!this.#held) {
      const place = before.length + text.length;
      this.area.setSelectionRange(place, place);
      this.area.scrollTop = Math.max(0, (`${before}${text}`.split("\n").length - 4) * this.#height());
    }
    this.area.dispatchEvent(new Event("input", { bubbles: true }));
  }

  #paste(event) {
    const pasted = (event.clipboardData?.getData("text/plain") ?? "").replace(/\r\n?/g, "\n");
    if (this.#held && !this.whole) return;
    const text = this.taken(pasted);
    if (!this.#held && text === pasted && text.length < LONG_PASTE) return;
    event.preventDefault();
    if (text !== null) this.#replace(text, this.area.selectionStart, this.area.selectionEnd);
  }

  #copy(event) {
    if (!this.#held || !this.whole) return;
    event.preventDefault();
    event.clipboardData.setData("text/plain", this.#text);
  }

  // What is typed takes the place of a text that can't be edited where all of it is selected.
  #key(event) {
    if (!this.#held || !this.whole || event.ctrlKey || event.metaKey || event.altKey) return;
    const typed = event.key === "Enter" ? "\n" : event.key.length === 1 ? event.key : "";
    if (!typed && !["Delete", "Backspace"].includes(event.key)) return;
    event.preventDefault();
    this.#replace(typed);
  }

  #height() {
    return parseFloat(getComputedStyle(this.area).lineHeight);
  }

  #changed(line = null) {
    const text = this.area.value;
    this.#starts = [0];
    for (let at = text.indexOf("\n"); at >= 0; at = text.indexOf("\n", at + 1)) this.#starts.push(at + 1);
    this.#count = this.#starts.length;
    [this.#odd, this.#inked] = [[], ""];
    this.markLine(line);
  }

  // Puts the letters of the lines in sight where those of the textarea are.
  #drawInk(first, last, top, height) {
    const { clientLeft, clientWidth, clientHeight, scrollLeft } = this.area;
    // (what stands before it is no whole number of pixels wide)
    const box = this.ink.parentElement;
    const before = this.area.getBoundingClientRect().left - box.getBoundingClientRect().left - box.clientLeft;
    Object.assign(this.ink.style, { left: `${before + clientLeft}px`, width: `${clientWidth}px`, height: `${clientHeight}px` });
    this.letters.style.transform = `translate(${-scrollLeft}px, ${first * height - top}px)`;
    if (this.#inked === `${first} ${last}`) return;
    this.#inked = `${first} ${last}`;
    const text = this.area.value;
    const lineAt = (number) => text.slice(this.#starts[number], (this.#starts[number + 1] ?? text.length + 1) - 1);
    const colours = coloursIn(lineAt, first, last);
    this.letters.replaceChildren(...colours.map((words, place) => this.#lineOf(first + place, lineAt(first + place), words)));
  }

  // A line with its colours, and with what is underlined of it.
  #lineOf(number, text, words) {
    const [line, start] = [document.createElement("div"), this.#starts[number]];
    const odd = this.#odd.filter(({ begin, end }) => begin <= start + text.length && end > start).map(({ begin, end }) => ({ from: Math.max(0, begin - start), to: Math.min(end - start, Math.max(text.length, begin - start + 1)) }));
    for (const { text: part, colour, isOdd } of segmentsOf(text, words, odd)) {
      if (!colour && !isOdd) {
        line.append(part);
        continue;
      }
      const span = document.createElement("span");
      span.className = `${colour}${isOdd ? " odd" : ""}`.trim();
      span.textContent = part;
      line.append(span);
    }
    return line;
  }

  // Puts the numbers of the lines in sight, their letters, and the mark, where the lines are.
  #place() {
    const [top, height] = [this.area.scrollTop, this.#height()];
    const first = Math.max(0, Math.floor(top / height) - 1);
    const last = Math.min(this.#count, first + Math.ceil(this.area.clientHeight / height) + 3);
    this.numbers.textContent = Array.from({ length: Math.max(0, last - first) }, (_, place) => this.#base + first + place + 1).join("\n");
    this.numbers.style.transform = `translateY(${first * height - top}px)`;
    this.#drawInk(first, last, top, height);
    const place = this.line === null ? -1 : this.line - 1 - this.#base;
    this.mark.hidden = place < 0 || place >= this.#count;
    if (!this.mark.hidden) this.mark.style.transform = `translateY(${place * height - top}px)`;
  }
}
