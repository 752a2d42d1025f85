// Values and drafts. Null, a boolean, a text, a number, and past 2^53 - 1 a BigInt, are themselves;
// an object is a Map of its members in byte order of their keys, none of them null and none empty.
// A draft may also have TIMESTAMP or an Increment where a scalar stands.

import { NotJson, NotWhole, Placeholder, Range, TooDeep } from "./errors.js";
import { compareTexts, isUnicode } from "./json.js";
import { MOST_LEVELS, checkKey } from "./paths.js";

/** Stands in a draft for the server's time. */
export const TIMESTAMP = Symbol("server timestamp");

/** Stands in a draft for the sum with the whole number that its place holds. */
export class Increment {
  constructor(by) {
    this.by = by;
  }
}

const INCREMENT_WORD = "increment";
const TIMESTAMP_WORD = "timestamp";
const TIMESTAMP_TEXT = `{".sv":"${TIMESTAMP_WORD}"}`;
const MOST_NESTED = 127;
const GREATEST = 2n ** 63n - 1n;
const LEAST = -(2n ** 63n);

// The members of a JSON array or object, none where it is neither.
function membersOf(data) {
  if (Array.isArray(data)) return Array.from(data, (item, i) => [String(i), item ?? null]);
  if (data instanceof Map) return [...data];
  const above = Object.getPrototypeOf(data);
  if (above === null || Object.getPrototypeOf(above) === null) return Object.entries(data);
  throw new NotJson(`a ${data.constructor?.name ?? "value"} is no value: give numbers, texts, booleans, arrays and plain objects`);
}

function scalarOf(data) {
  switch (typeof data) {
    case "boolean": return data;
    case "string":
      if (!isUnicode(data)) throw new NotJson("a text has half of a character (a lone surrogate)");
      return data;
    case "number":
      if (!Number.isInteger(data)) throw new NotWhole();
      if (!Number.isSafeInteger(data)) throw new Range();
      return data + 0; // no -0
    case "bigint":
      if (data < LEAST || data > GREATEST) throw new Range();
      return Number.isSafeInteger(Number(data)) ? Number(data) : data;
    default:
      throw new NotJson(`${typeof data} is no value: give null to remove what stands there`);
  }
}

class Walk {
  constructor(hasPlaceholders) {
    this.hasPlaceholders = hasPlaceholders;
  }

  // The tree of the data, with so many levels left for its leaves, its own among them.
  tree(data, levels, nested) {
    if (data === null) return null;
    if (typeof data !== "object") return this.leaf(levels, () => scalarOf(data));
    if (nested === MOST_NESTED) throw new NotJson("more than 127 arrays and objects are nested");
    const members = membersOf(data);
    if (this.hasPlaceholders && !Array.isArray(data)) {
      const value = members.find(([name]) => name === ".sv");
      if (value) return this.leaf(levels, () => placeholderOf(members.length, value[1]));
    }
    return this.branch(members, Math.max(levels - 1, 0), nested + 1);
  }

  leaf(levels, read) {
    if (levels === 0) throw new TooDeep();
    return read();
  }

  branch(members, levels, nested) {
    const found = new Map();
    for (const [name, data] of members.sort((a, b) => compareTexts(a[0], b[0]))) {
      checkKey(name);
      const tree = this.tree(data, levels, nested);
      if (tree !== null) found.set(name, tree);
    }
    return found.size === 0 ? null : found;
  }
}

function placeholderOf(count, value) {
  if (count !== 1) throw new Placeholder();
  return value === TIMESTAMP_WORD ? TIMESTAMP : incrementOf(value);
}

function incrementOf(value) {
  if (value === null || typeof value !== "object" || Array.isArray(value)) throw new Placeholder();
  const members = value instanceof Map ? [...value] : Object.entries(value);
  if (members.length !== 1 || members[0][0] !== INCREMENT_WORD) throw new Placeholder();
  const by = members[0][1];
  if (typeof by !== "number" && typeof by !== "bigint") throw new Placeholder();
  return new Increment(scalarOf(by));
}

/**
 * The value of JSON data, or its first fault in byte order of keys: `.sv` is no key here.
 * @param {unknown} data as `parse` gives it
 */
export function readValue(data) {
  return new Walk(false).tree(data, MOST_LEVELS + 1, 0);
}

/**
 * The draft of JSON data, or of a program's own values, or its first fault in byte order of keys.
 * @param {unknown} data as `parse` gives it, or plain objects and arrays
 */
export function readDraft(data) {
  return new Walk(true).tree(data, MOST_LEVELS + 1, 0);
}

/** The keys from the tree's root to its deepest scalar. */
export function depth(tree) {
  if (!(tree instanceof Map)) return 0;
  let deepest = 0;
  for (const child of tree.values()) deepest = Math.max(deepest, depth(child));
  return deepest + 1;
}

/** What stands in the tree below these keys, null for nothing. */
export function at(tree, keys) {
  let found = tree;
  for (const key of keys) {
    if (!(found instanceof Map)) return null;
    found = found.get(key) ?? null;
  }
  return found;
}

/** Whether a placeholder stands in the draft. */
export function hasPlaceholder(draft) {
  if (!(draft instanceof Map)) return draft === TIMESTAMP || draft instanceof Increment;
  return [...draft.values()].some(hasPlaceholder);
}

/** The JSON text of the tree, without spaces and with its names in byte order. */
export function print(tree) {
  if (tree === TIMESTAMP) return TIMESTAMP_TEXT;
  if (tree instanceof Increment) return `{".sv":{"${INCREMENT_WORD}":${tree.by}}}`;
  if (typeof tree === "string") return JSON.stringify(tree);
  if (!(tree instanceof Map)) return String(tree);
  return `{${Array.from(tree, ([name, child]) => `${JSON.stringify(name)}:${print(child)}`).join(",")}}`;
}

/** A copy of the value as plain objects. */
export function plain(tree) {
  if (!(tree instanceof Map)) return tree;
  const object = {};
  for (const [name, child] of tree) {
    // a member of this name would else set what the object inherits
    if (name === "__proto__") Object.defineProperty(object, name, { value: plain(child), enumerable: true, configurable: true, writable: true });
    else object[name] = plain(child);
  }
  return object;
}
