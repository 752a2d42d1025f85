// Keys and paths.

import { BadKey, EmptyKey, LongKey, TooDeep } from "./errors.js";
import { byteLength, compareTexts, isUnicode } from "./json.js";

/** The keys from the root to the deepest scalar. */
export const MOST_LEVELS = 32;

const MOST_KEY_BYTES = 768;
const BANNED = /[\u0000-\u001f\u007f.$#[\]/]/;

/**
 * Refuses a text that is no key.
 * @param {string} text
 * @throws {EmptyKey | LongKey | BadKey}
 */
export function checkKey(text) {
  if (text === "") throw new EmptyKey();
  if (byteLength(text) > MOST_KEY_BYTES) throw new LongKey();
  if (BANNED.test(text) || !isUnicode(text)) throw new BadKey(`the key ${JSON.stringify(text)} has a control character or one of . $ # [ ] /`);
}

/** A list of keys, from the root to a place. */
export class Path {
  /** @param {string[]} keys each of them a key */
  constructor(keys) {
    /** @type {readonly string[]} */
    this.keys = keys;
    /** Its one text: `/` for the root, else each key after a slash. */
    this.text = `/${keys.join("/")}`;
  }

  /**
   * The path of a text. The leading slash is optional, and empty pieces are skipped.
   * @param {string} text
   * @throws {EmptyKey | LongKey | BadKey | TooDeep}
   */
  static parse(text) {
    const keys = text.split("/").filter((key) => key !== "");
    keys.forEach(checkKey);
    if (keys.length > MOST_LEVELS) throw new TooDeep();
    return new Path(keys);
  }

  /** The path of these keys and then those of the other. @param {Path} other */
  join(other) {
    if (this.keys.length + other.keys.length > MOST_LEVELS) throw new TooDeep();
    return new Path([...this.keys, ...other.keys]);
  }

  /** Whether the other path is this one, or below it. @param {Path} other */
  isPrefixOf(other) {
    return this.keys.length <= other.keys.length && this.keys.every((key, i) => key === other.keys[i]);
  }

  /** Orders paths key by key, a prefix first. @param {Path} a @param {Path} b */
  static compare(a, b) {
    const length = Math.min(a.keys.length, b.keys.length);
    for (let i = 0; i < length; i += 1) {
      const order = compareTexts(a.keys[i], b.keys[i]);
      if (order !== 0) return order;
    }
    return a.keys.length - b.keys.length;
  }
}
