// Places of a database, and what is read of them.

import { Path } from "../core/paths.js";
import { at, plain } from "../core/tree.js";

const CONNECTED = /^\/?\.info\/connected\/?$/;

/** A place of a database. */
export class Ref {
  /**
   * @param {import("./db.js").Database} db
   * @param {Path | null} path null for `.info/connected`, which the client itself answers
   */
  constructor(db, path) {
    this.db = db;
    this.path = path;
  }

  /** @param {import("./db.js").Database} db @param {string} text */
  static parse(db, text) {
    return CONNECTED.test(text) ? new Ref(db, null) : new Ref(db, Path.parse(text));
  }

  /** The last key of its path, null for the root. */
  get key() {
    return this.path === null ? "connected" : this.path.keys.at(-1) ?? null;
  }

  /** The place above it, null for the root. */
  get parent() {
    if (this.path === null || this.path.keys.length === 0) return null;
    return new Ref(this.db, new Path(this.path.keys.slice(0, -1)));
  }

  /** The root of its database. */
  get root() {
    return new Ref(this.db, new Path([]));
  }

  /** The place below it. @param {string} text */
  child(text) {
    return new Ref(this.db, this.writable().join(Path.parse(text)));
  }

  /** Its path, where it is a place that can be written. */
  writable() {
    // `.info` is no key, and parsing it says so
    return this.path ?? Path.parse("/.info/connected");
  }

  /** The text of its path. */
  toString() {
    return this.path?.text ?? "/.info/connected";
  }
}

/** What stood at a place. It stays as it is. */
export class Snapshot {
  #tree;

  /** @param {Ref} ref @param {unknown} tree @param {number | null} number */
  constructor(ref, tree, number) {
    this.#tree = tree;
    /** The place. */
    this.ref = ref;
    /** The server's number at which it stood there; null for `.info/connected`. */
    this.number = number;
  }

  /** The last key of its path, null for the root. */
  get key() {
    return this.ref.key;
  }

  /** How many children it has. */
  get size() {
    return this.#tree instanceof Map ? this.#tree.size : 0;
  }

  /** Whether something stands there. */
  exists() {
    return this.#tree !== null;
  }

  /** The value, as a copy: null for nothing, whole numbers past 2^53 - 1 as BigInt, arrays as objects. */
  val() {
    return plain(this.#tree);
  }

  /** Whether something stands below it there. @param {string} text */
  hasChild(text) {
    return this.child(text).exists();
  }

  /** What stood below it. @param {string} text */
  child(text) {
    const ref = this.ref.child(text);
    return new Snapshot(ref, at(this.#tree, Path.parse(text).keys), this.number);
  }

  /**
   * Calls back with each child, in byte order of their keys, until a call answers true.
   * @param {(child: Snapshot) => boolean | void} callback
   * @returns {boolean} whether a call answered true
   */
  forEach(callback) {
    const keys = this.#tree instanceof Map ? [...this.#tree.keys()] : [];
    return keys.some((key) => callback(this.child(key)) === true);
  }

  toJSON() {
    return this.val();
  }
}
