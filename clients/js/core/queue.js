// Messages that wait for their answers, in the order in which they were made.

/**
 * A message without its numbers: these follow from its place. `kind` is `write`, `try`, `left`,
 * `cancel`, `on` or `off`; `word` is the message's word, and `body` the JSON of its operation or path.
 * @typedef {{ kind: string, word: string, body: string, request?: number, attempt?: number, path?: import("./paths.js").Path }} Queued
 */

/** Whether the message is a write, or a try of a transaction. @param {Queued | undefined} message */
export function isWrite(message) {
  return message?.kind === "write" || message?.kind === "try";
}

/** Whether the message leaves something for the session's end, or takes it back. @param {Queued | undefined} message */
export function isAction(message) {
  return message?.kind === "left" || message?.kind === "cancel";
}

/** A queue that knows which paths its messages are going to listen to. */
export class Queue {
  #messages = [];
  #first = 0;
  #listens = new Map();

  get length() {
    return this.#messages.length - this.#first;
  }

  /** The oldest message. @returns {Queued | undefined} */
  get oldest() {
    return this.#messages[this.#first];
  }

  /** @param {Queued} message */
  push(message) {
    this.#messages.push(message);
    this.#count(message, 1);
  }

  /** The oldest message, which waits no more. @returns {Queued | undefined} */
  shift() {
    const message = this.oldest;
    if (message === undefined) return undefined;
    this.#first += 1;
    this.#count(message, -1);
    if (this.#first * 2 > this.#messages.length) {
      this.#messages.splice(0, this.#first);
      this.#first = 0;
    }
    return message;
  }

  /** Whether a message listens to the path. @param {import("./paths.js").Path} path */
  listensTo(path) {
    return this.#listens.has(path.text);
  }

  /** Begins with these messages, and goes on with those that waited. @param {Queued[]} messages */
  putBefore(messages) {
    const waited = this.#messages.slice(this.#first);
    this.#messages = [];
    this.#first = 0;
    this.#listens.clear();
    for (const message of messages) this.push(message);
    for (const message of waited) this.push(message);
  }

  /** Keeps the writes alone. */
  keepWrites() {
    this.#messages = this.#messages.slice(this.#first).filter(isWrite);
    this.#first = 0;
    this.#listens.clear();
  }

  /** @returns {IterableIterator<Queued>} */
  *[Symbol.iterator]() {
    for (let i = this.#first; i < this.#messages.length; i += 1) yield this.#messages[i];
  }

  #count({ kind, path }, change) {
    if (kind !== "on") return;
    const count = (this.#listens.get(path.text) ?? 0) + change;
    if (count === 0) this.#listens.delete(path.text);
    else this.#listens.set(path.text, count);
  }
}
