// JSON texts (RFC 8259) whose whole numbers of 64 bits are exact.

import { NotJson } from "./errors.js";

// The arrays and objects that a text may nest.
const MOST_NESTED = 127;

const SPACE = /[ \t\n\r]*/y;
const NUMBER = /-?(?:0|[1-9][0-9]*)(\.[0-9]+)?([eE][+-]?[0-9]+)?/y;
const PLAIN = /[^"\\\u0000-\u001f]*/y;
const LONE_SURROGATE = /\p{Surrogate}/u;
const ESCAPES = { '"': '"', "\\": "\\", "/": "/", b: "\b", f: "\f", n: "\n", r: "\r", t: "\t" };

/** Whether the text is Unicode, so that UTF-8 has bytes for it. */
export function isUnicode(text) {
  return !LONE_SURROGATE.test(text);
}

const MOST_UNSIGNED = 2n ** 64n - 1n;
const LEAST_SIGNED = -(2n ** 63n);

// A number's value: a whole one is a number up to 2^53 - 1 and a BigInt past it; one with a fraction
// or an exponent, -0, and one past 64 bits are NaN, since no value holds them.
function numberOf(text, fraction, exponent) {
  const near = Number(text);
  if (!Number.isFinite(near)) throw new NotJson(`the number ${text} is out of range`);
  if (fraction !== undefined || exponent !== undefined || Object.is(near, -0)) return NaN;
  if (Number.isSafeInteger(near)) return near;
  const exact = BigInt(text);
  return exact < LEAST_SIGNED || exact > MOST_UNSIGNED ? NaN : exact;
}

class Reader {
  constructor(text) {
    this.text = text;
    this.at = 0;
  }

  refuse() {
    throw new NotJson(`this is no JSON: see position ${this.at}`);
  }

  match(pattern) {
    pattern.lastIndex = this.at;
    const found = pattern.exec(this.text);
    if (found === null) this.refuse();
    this.at = pattern.lastIndex;
    return found;
  }

  // Whether the character comes next; then it is passed.
  passes(character) {
    this.match(SPACE);
    if (this.text[this.at] !== character) return false;
    this.at += 1;
    return true;
  }

  need(character) {
    if (!this.passes(character)) this.refuse();
  }

  word(word, value) {
    if (!this.text.startsWith(word, this.at)) this.refuse();
    this.at += word.length;
    return value;
  }

  value(levels) {
    this.match(SPACE);
    switch (this.text[this.at]) {
      case "{": return this.object(levels);
      case "[": return this.array(levels);
      case '"': return this.string();
      case "n": return this.word("null", null);
      case "t": return this.word("true", true);
      case "f": return this.word("false", false);
      default: return numberOf(...this.match(NUMBER));
    }
  }

  array(levels) {
    const items = [];
    if (levels === 0) this.refuse();
    this.need("[");
    if (this.passes("]")) return items;
    do items.push(this.value(levels - 1)); while (this.passes(","));
    this.need("]");
    return items;
  }

  object(levels) {
    const members = new Map();
    if (levels === 0) this.refuse();
    this.need("{");
    if (this.passes("}")) return members;
    do {
      this.match(SPACE);
      const name = this.string();
      this.need(":");
      members.set(name, this.value(levels - 1));
    } while (this.passes(","));
    this.need("}");
    return members;
  }

  string() {
    if (this.text[this.at] !== '"') this.refuse();
    this.at += 1;
    let text = this.match(PLAIN)[0];
    while (this.text[this.at] === "\\") text += this.escape() + this.match(PLAIN)[0];
    if (this.text[this.at] !== '"') this.refuse();
    this.at += 1;
    if (!isUnicode(text)) this.refuse();
    return text;
  }

  escape() {
    const mark = this.text[this.at + 1];
    if (mark === "u") {
      const digits = this.text.slice(this.at + 2, this.at + 6);
      if (!/^[0-9a-fA-F]{4}$/.test(digits)) this.refuse();
      this.at += 6;
      return String.fromCharCode(parseInt(digits, 16));
    }
    if (!Object.hasOwn(ESCAPES, mark ?? "")) this.refuse();
    this.at += 2;
    return ESCAPES[mark];
  }
}

/**
 * The data of a JSON text: null, a boolean, a text, a number, a BigInt past 2^53 - 1, NaN for a
 * number that no value holds, an Array, or a Map of an object's members, of which the last of a
 * name counts.
 * @param {string} text
 * @throws {NotJson}
 */
export function parse(text) {
  const reader = new Reader(text);
  const data = reader.value(MOST_NESTED);
  reader.match(SPACE);
  if (reader.at !== text.length) reader.refuse();
  return data;
}

/**
 * Orders texts by their bytes of UTF-8, which is the order of their code points.
 * @param {string} a
 * @param {string} b
 */
export function compareTexts(a, b) {
  const length = Math.min(a.length, b.length);
  for (let i = 0; i < length; i += 1) {
    const x = a.charCodeAt(i);
    const y = b.charCodeAt(i);
    if (x !== y) {
      // a surrogate is a part of a code point past all that one unit holds
      const far = (unit) => unit >= 0xd800 && unit <= 0xdfff;
      return far(x) === far(y) ? x - y : far(x) ? 1 : -1;
    }
  }
  return a.length - b.length;
}

/** How many bytes of UTF-8 the text has. */
export function byteLength(text) {
  let length = text.length;
  for (let i = 0; i < text.length; i += 1) {
    const unit = text.charCodeAt(i);
    if (unit >= 0x80) length += unit < 0x800 || (unit >= 0xd800 && unit <= 0xdfff) ? 1 : 2;
  }
  return length;
}
