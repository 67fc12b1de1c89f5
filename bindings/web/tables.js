// Tables that sort by a click on a heading, and that save as CSV.

const ROWS = 500; // rows that are shown

/**
 * A table within a box; columns are `{ name, title, kind }`, where kind is "number", "text", "time" (a length),
 * "moment", "measure" (a number, a text or a length) or "change" (a number or a length with its sign, or a text).
 */
export class Table {
  #columns;
  #rows = [];
  #earlier = null; // by their keys, the rows of an earlier run, with which these are compared
  #by = null;
  #down = false;

  /**
   * @param {HTMLElement} box
   * @param {{name: string, title: string, kind: string}[]} columns
   * @param {{time: (time: bigint) => string, moment: (moment: bigint) => string, change?: (value: bigint | number | string) => string, choose?: (row: object) => void,
   *   keys?: string[]}} how writes times, is told of a row that is clicked, and has the columns that name a row
   */
  constructor(box, columns, how) {
    this.box = box;
    this.how = how;
    this.#columns = columns;
  }

  /**
   * Shows rows, as they are sorted now. Where those of an earlier run are given, each value that was another one then is marked.
   *
   * @param {object[]} rows
   * @param {object[] | null} earlier
   * @returns {number} how many values are marked
   */
  show(rows, earlier = null) {
    this.#rows = rows;
    this.#earlier = earlier && this.#byKey(earlier);
    this.draw();
    return this.box.querySelectorAll("td.changed").length;
  }

  // Rows by their keys; of rows with one key each has its number, too.
  #byKey(rows) {
    const found = new Map();
    const seen = new Map();
    for (const row of rows) {
      const key = this.how.keys.map((name) => row[name]).join(" ");
      seen.set(key, (seen.get(key) ?? 0) + 1);
      found.set(`${key} ${seen.get(key)}`, row);
    }
    return found;
  }

  /** The rows as CSV, times in picoseconds. */
  get csv() {
    const cell = (value) => (value === null || value === undefined ? "" : String(value).replace(/^.*[",].*$/, (it) => `"${it.replace(/"/g, '""')}"`));
    const head = this.#columns.map(({ name, kind }) => (kind === "time" || kind === "moment" ? `${name}_ps` : name));
    return [head, ...this.#rows.map((row) => this.#columns.map(({ name }) => cell(row[name])))].map((it) => it.join(",")).join("\n") + "\n";
  }

  /** Draws the rows anew. */
  draw() {
    const table = document.createElement("table");
    table.append(this.#head(), this.#body());
    const note = document.createElement("p");
    note.className = "hint";
    note.hidden = this.#rows.length <= ROWS;
    note.textContent = `${ROWS} of ${this.#rows.length.toLocaleString("en")} rows are shown. The CSV has all.`;
    this.box.replaceChildren(table, note);
  }

  #head() {
    const row = document.createElement("tr");
    for (const column of this.#columns) {
      const [cell, button] = [document.createElement("th"), document.createElement("button")];
      button.type = "button";
      button.textContent = column.title;
      button.addEventListener("click", () => this.#sort(column));
      cell.scope = "col";
      if (this.#by === column) cell.ariaSort = this.#down ? "descending" : "ascending";
      cell.append(button);
      row.append(cell);
    }
    const head = document.createElement("thead");
    head.append(row);
    return head;
  }

  #sort(column) {
    this.#down = this.#by === column ? !this.#down : false;
    this.#by = column;
    this.draw();
    this.box.querySelectorAll("th button")[this.#columns.indexOf(column)].focus();
  }

  #sorted() {
    if (!this.#by) return this.#rows;
    const { name, kind } = this.#by;
    const key = kind === "number" ? (it) => Number(it[name]) : (it) => it[name];
    const order = (a, b) => {
      const [one, other] = [key(a), key(b)];
      if (one === other) return 0;
      if (one === null) return 1; // (what has no value comes last)
      if (other === null) return -1;
      return (one < other ? -1 : 1) * (this.#down ? -1 : 1);
    };
    return [...this.#rows].sort(order);
  }

  #body() {
    const body = document.createElement("tbody");
    const keys = this.#earlier && new Map([...this.#byKey(this.#rows)].map(([key, row]) => [row, key]));
    for (const it of this.#sorted().slice(0, ROWS)) {
      const row = document.createElement("tr");
      for (const { name, kind } of this.#columns) row.append(this.#cell(it[name], kind));
      if (keys) this.#markChanged(row, it, this.#earlier.get(keys.get(it)));
      if (it.tone) row.className = it.tone;
      if (this.how.choose) {
        row.tabIndex = 0;
        row.addEventListener("click", () => this.how.choose(it));
        row.addEventListener("keydown", (event) => event.key === "Enter" && this.how.choose(it));
      }
      row.row = it;
      body.append(row);
    }
    return body;
  }

  // Marks the values of a row that were others in the row of an earlier run, or all where there was none, and says what they were.
  #markChanged(row, now, before) {
    for (const [place, { name, kind }] of this.#columns.entries()) {
      if (before && (before[name] ?? null) === (now[name] ?? null)) continue;
      const cell = row.cells[place];
      cell.classList.add("changed");
      cell.title = [cell.title, before ? `before: ${this.#written(before[name], kind)}` : "not there before"].filter(Boolean).join("; ");
    }
  }

  #written(value, kind) {
    return value === null || value === undefined ? "–" : typeof value === "bigint" || kind === "change" ? this.how[kind](value) : String(value);
  }

  #cell(value, kind) {
    const cell = document.createElement("td");
    const time = typeof value === "bigint";
    cell.className = kind;
    cell.textContent = this.#written(value, kind);
    if (time) cell.title = `${value} ps`;
    return cell;
  }

  /** Marks the row of this value and brings it in sight. */
  mark(value) {
    for (const row of this.box.querySelectorAll("tbody tr")) {
      row.classList.toggle("marked", row.row === value);
      if (row.row === value) this.#reveal(row);
    }
  }

  // Brings a row in sight within the table: the page does not move away from the picture.
  #reveal(row) {
    const [box, at, head] = [this.box, row, this.box.querySelector("thead")].map((it) => it.getBoundingClientRect());
    if (at.top < box.top + head.height) this.box.scrollTop -= box.top + head.height - at.top;
    else if (at.bottom > box.top + this.box.clientHeight) this.box.scrollTop += at.bottom - box.top - this.box.clientHeight;
  }
}
