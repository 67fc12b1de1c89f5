// JSON documents whose parts know their path, as bindings/python/taprio/schedules/documents.py reads them: with each number exact.

const DEEPEST = 900; // how deep a document may be nested
const MOST_DIGITS = 4300; // of a whole number

/** A document has no schedule that can be read: where, what was expected there, and what was found. */
export class BadSchedule extends Error {
  constructor(place, expected, found) {
    super(`${place}: expected ${expected}, found ${found}`);
  }
}

/** A number with a fraction or an exponent, as it stands in the document. */
class Fraction {
  constructor(text) {
    this.text = text;
  }
}

const ESCAPED = { "\n": "\\n", "\r": "\\r", "\t": "\\t", "\\": "\\\\" };

const codeOf = (sign, digits) => sign.charCodeAt(0).toString(16).padStart(digits, "0");

/** A text in quotes, on one line. */
export function quoted(text) {
  const mark = text.includes("'") && !text.includes('"') ? '"' : "'";
  const inner = text.replace(/[\\\n\r\t]/g, (it) => ESCAPED[it]).replace(/[\x00-\x1f\x7f]/g, (it) => `\\x${codeOf(it, 2)}`).replace(/[\u2028\u2029]/g, (it) => `\\u${codeOf(it, 4)}`);
  return `${mark}${mark === "'" ? inner.replace(/'/g, "\\'") : inner}${mark}`;
}

const LETTERS = { '"': '"', "\\": "\\", "/": "/", b: "\b", f: "\f", n: "\n", r: "\r", t: "\t" };
const NUMBER = /-?(?:0|[1-9][0-9]*)(\.[0-9]+)?([eE][+-]?[0-9]+)?/y;
const LITERALS = { true: true, false: false, null: null };

/** Reads JSON: objects become maps, whole numbers bigints, and other numbers fractions. */
class Reader {
  #at = 0;

  constructor(text) {
    this.text = text;
  }

  read() {
    const value = this.#value(0);
    this.#blanks();
    if (this.#at < this.text.length) this.#wrong("Extra data");
    return value;
  }

  #wrong(expected, at = this.#at) {
    const before = this.text.slice(0, at).split("\n");
    const found = at < this.text.length ? quoted(this.text.slice(at, at + 20)) : "the end";
    throw new BadSchedule(`line ${before.length}, column ${before.at(-1).length + 1}`, `JSON (${expected})`, found);
  }

  #blanks() {
    while (" \t\n\r".includes(this.text[this.#at] ?? "x")) this.#at += 1;
  }

  // Whether this sign comes next, which is then taken.
  #takes(sign) {
    this.#blanks();
    const is = this.text[this.#at] === sign;
    if (is) this.#at += 1;
    return is;
  }

  #value(depth) {
    if (depth > DEEPEST) throw new BadSchedule("JSON", "numbers and nesting of a sensible size", "RecursionError");
    if (this.#takes("{")) return this.#object(depth);
    if (this.#takes("[")) return this.#list(depth);
    if (this.text[this.#at] === '"') return this.#string();
    for (const [word, value] of Object.entries(LITERALS)) if (this.#word(word)) return value;
    for (const word of ["NaN", "Infinity", "-Infinity"]) if (this.#word(word)) return new Fraction(word);
    return this.#number();
  }

  #word(word) {
    const is = this.text.startsWith(word, this.#at);
    if (is) this.#at += word.length;
    return is;
  }

  #number() {
    NUMBER.lastIndex = this.#at;
    const found = NUMBER.exec(this.text);
    if (!found) this.#wrong("Expecting value");
    this.#at += found[0].length;
    if (found[1] || found[2]) return new Fraction(found[0]);
    if (found[0].length > MOST_DIGITS) throw new BadSchedule("JSON", "numbers and nesting of a sensible size", "ValueError");
    return BigInt(found[0]);
  }

  #list(depth) {
    const found = [];
    if (this.#takes("]")) return found;
    for (;;) {
      found.push(this.#value(depth + 1));
      if (this.#takes("]")) return found;
      if (!this.#takes(",")) this.#wrong("Expecting ',' delimiter");
    }
  }

  #object(depth) {
    const pairs = [];
    if (this.#takes("}")) return new Map();
    for (;;) {
      this.#blanks();
      if (this.text[this.#at] !== '"') this.#wrong("Expecting property name enclosed in double quotes");
      const name = this.#string();
      if (!this.#takes(":")) this.#wrong("Expecting ':' delimiter");
      pairs.push([name, this.#value(depth + 1)]);
      if (this.#takes("}")) return mapOf(pairs);
      if (!this.#takes(",")) this.#wrong("Expecting ',' delimiter");
    }
  }

  #string() {
    const begin = this.#at;
    let made = "";
    for (this.#at += 1; ; this.#at += 1) {
      const sign = this.text[this.#at];
      if (sign === undefined) this.#wrong("Unterminated string starting at", begin);
      if (sign < " ") this.#wrong("Invalid control character at");
      if (sign === '"') break;
      made += sign === "\\" ? this.#escape(begin) : sign;
    }
    this.#at += 1;
    return made;
  }

  // The sign that a backslash and what stands behind it are: what is read ends at the last one of these.
  #escape(begin) {
    const sign = this.text[this.#at + 1];
    if (sign === undefined) this.#wrong("Unterminated string starting at", begin);
    if (sign !== "u" && LETTERS[sign] === undefined) this.#wrong("Invalid \\escape");
    this.#at += 1;
    if (sign !== "u") return LETTERS[sign];
    const digits = this.text.slice(this.#at + 1, this.#at + 5);
    if (!/^[0-9a-fA-F]{4}$/.test(digits)) this.#wrong("Invalid \\uXXXX escape");
    this.#at += 4;
    return String.fromCharCode(parseInt(digits, 16));
  }
}

function mapOf(pairs) {
  const made = new Map();
  for (const [name, value] of pairs) {
    if (made.has(name)) throw new BadSchedule("JSON", "each member of an object once", `${quoted(name)} twice`);
    made.set(name, value);
  }
  return made;
}

/** A name without the prefix of its module. */
export const localName = (name) => name.slice(name.lastIndexOf(":") + 1);

const inAscii = (text) => text.replace(/[\u007f-\uffff]/g, (it) => `\\u${codeOf(it, 4)}`);

/** A value as JSON, on one line. */
export function spelled(value) {
  if (value instanceof Fraction) return `"${value.text}"`;
  if (value instanceof Map) return `{${[...value].map(([name, it]) => `${spelled(name)}: ${spelled(it)}`).join(", ")}}`;
  if (Array.isArray(value)) return `[${value.map(spelled).join(", ")}]`;
  return typeof value === "bigint" ? String(value) : inAscii(JSON.stringify(value));
}

// A value as a fault shows it.
function told(value) {
  if (value instanceof Fraction) return value.text;
  const text = value instanceof Map ? "an object" : Array.isArray(value) ? "a list" : spelled(value);
  return text.length <= 60 ? text : `${text.slice(0, 57)}...`;
}

/** A part of a document, with its path. */
export class Part {
  constructor(value, path) {
    Object.assign(this, { value, path });
  }

  get place() {
    return this.path || "/";
  }

  wrong(expected) {
    return new BadSchedule(this.place, expected, told(this.value));
  }

  get isObject() {
    return this.value instanceof Map;
  }

  #object() {
    if (!this.isObject) throw this.wrong("an object");
    return this.value;
  }

  /** The members of an object, by their names without prefixes. */
  members() {
    const found = new Map();
    for (const [name, value] of this.#object()) {
      if (found.has(localName(name))) throw new BadSchedule(`${this.path}/${name}`, `${localName(name)} once`, "it with and without its prefix");
      found.set(localName(name), new Part(value, `${this.path}/${name}`));
    }
    return found;
  }

  /** A member, or null where there is none. */
  get(name) {
    const names = [...this.#object().keys()].filter((it) => localName(it) === name);
    if (names.length > 1) throw new BadSchedule(`${this.path}/${names[1]}`, `${name} once`, `${names[0]} too`);
    return names.length ? new Part(this.value.get(names[0]), `${this.path}/${names[0]}`) : null;
  }

  /** A member that has to be there. */
  need(name) {
    const found = this.get(name);
    if (!found) throw new BadSchedule(`${this.path}/${name}`, "a value", "none");
    return found;
  }

  /** The items of a list. Those with a key are called by it. */
  items(key = null) {
    if (!Array.isArray(this.value)) throw this.wrong("a list");
    return this.value.map((value, number) => {
      const member = key !== null && value instanceof Map ? [...value.keys()].find((it) => localName(it) === key) : undefined;
      const called = member === undefined ? null : value.get(member);
      return new Part(value, `${this.path}[${called === null ? number : `${key}=${told(called)}`}]`);
    });
  }

  text() {
    if (typeof this.value !== "string") throw this.wrong("a text");
    return this.value;
  }

  truth() {
    if (typeof this.value !== "boolean") throw this.wrong("true or false");
    return this.value;
  }

  /** A whole number within limits. A text of digits is one too: so RFC 7951 writes numbers of 64 bits. */
  whole(least, most, unit = "") {
    const isText = typeof this.value === "string" && /^[0-9]{1,20}$/.test(this.value);
    const value = isText ? BigInt(this.value) : this.value;
    if (typeof value !== "bigint" || value < BigInt(least) || value > BigInt(most)) throw this.wrong(`a whole number from ${least} to ${most}${unit}`);
    return value;
  }

  /** A hexadecimal number as tc writes it, such as "0x1", or a plain number. */
  hexadecimal(most) {
    if (typeof this.value !== "string") return this.whole(0, most);
    const found = /^\s*(?:0[xX])?([0-9a-fA-F]+)\s*$/.exec(this.value);
    const value = found && BigInt(`0x${found[1]}`);
    if (value === null || value > BigInt(most)) throw this.wrong(`a mask such as "0x1", at most 0x${most.toString(16)}`);
    return value;
  }

  /** Each object of the document with those that it lies in, outermost first. */
  *walk() {
    const ahead = [[[], this]];
    while (ahead.length) {
      const [above, part] = ahead.pop();
      if (part.isObject) {
        yield [above, part];
        const inside = [...part.value].map(([name, value]) => [[...above, part], new Part(value, `${part.path}/${name}`)]);
        ahead.push(...inside.reverse());
      } else if (Array.isArray(part.value)) ahead.push(...part.items("name").map((it) => [above, it]).reverse());
    }
  }
}

/** The document of a text. */
export const documentIn = (text) => new Part(new Reader(text).read(), "");
