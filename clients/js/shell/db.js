// A database as a program sees it: promises for what it asks, and callbacks for what it listens to.

import { ActionLost, DeniedListens, DeniedPlan, Offline, Shape, TooManyTries } from "../core/errors.js";
import { isClientId } from "../core/messages.js";
import { Path } from "../core/paths.js";
import { hasPlaceholder, plain, readDraft } from "../core/tree.js";
import { Link } from "./link.js";
import { Ref, Snapshot } from "./refs.js";

/** What a program's own callback throws is its own: it is thrown where nothing of ours is cut short. */
function callSafely(callback, ...given) {
  try {
    return callback(...given);
  } catch (error) {
    setTimeout(() => { throw error; });
    return undefined;
  }
}

// The connection was lost before all was done that is done with each one: it is done again with the next.
function passOverLoss(error) {
  if (!(error instanceof ActionLost || error instanceof Offline)) throw error;
}

function checkAddress(url) {
  const { protocol } = new URL(url);
  if (protocol !== "ws:" && protocol !== "wss:") throw new TypeError(`a server's address begins with ws:// or wss://, unlike ${url}`);
}

// The drafts of an update's values at their places.
function placesOf(values) {
  if (typeof values !== "object" || values === null || Array.isArray(values)) throw new Shape();
  return Object.entries(values).map(([name, value]) => [Path.parse(name), readDraft(value)]);
}

/** A client of a server. */
export class Database {
  #link;
  // what waits for the answer to its request
  #pending = new Map();
  // by the texts of paths: the listeners there, and the request that listens
  #places = new Map();
  // by requests: the texts of the paths that they listen to
  #listens = new Map();
  #connectedCallbacks = new Set();
  #errorCallbacks = new Set();

  /** @param {string | URL} url @param {import("../index.js").Options} options */
  constructor(url, options) {
    checkAddress(url);
    if (!isClientId(options?.client)) throw new TypeError("connect(url, { client }) needs a client id: 1 to 128 characters of A-Z a-z 0-9 _ -");
    /** The address of its server. */
    this.url = String(url);
    /** Its id. */
    this.client = options.client;
    this.#link = new Link(url, options, {
      tell: (notice) => this.#tell(notice),
      report: (error) => this.#report(error),
      stopped: (error) => this.#stopped(error),
    });
    this.#link.goOnline();
  }

  /** Whether a session is open. */
  get isConnected() {
    return this.#link.core.phase === "online";
  }

  /** Connects again, also where a newer tab or program has taken the client's id. */
  goOnline() {
    if (this.#link.isStopped) {
      this.#link.restart();
      this.#listens.clear();
      for (const place of this.#places.values()) this.#listen(place);
    }
    this.#link.goOnline();
  }

  /** Says goodbye, and stays away. */
  goOffline() {
    this.#link.goOffline();
  }

  // ---- requests

  // A promise for the answer to the request that the call makes.
  #request(call, given = {}) {
    return new Promise((resolve, reject) => {
      this.#link.run(call, (request) => this.#pending.set(request, { resolve, reject, ...given }));
    });
  }

  #settle(request, how, answer) {
    const waits = this.#pending.get(request);
    this.#pending.delete(request);
    waits?.[how](answer);
  }

  /** @param {Ref} ref @returns {Promise<number>} */
  async set(ref, value) {
    const path = ref.writable();
    const draft = readDraft(value);
    return this.#request((core) => core.set(path, draft));
  }

  /** @param {Ref} ref @returns {Promise<number>} */
  async update(ref, values) {
    const path = ref.writable();
    const places = placesOf(values);
    return this.#request((core) => core.update(path, places));
  }

  /** @param {Ref} ref @returns {Promise<number>} */
  async remove(ref) {
    const path = ref.writable();
    return this.#request((core) => core.remove(path));
  }

  /** @param {Ref} ref @param {(value: unknown) => unknown} update */
  async transact(ref, update) {
    if (typeof update !== "function") throw new TypeError("runTransaction(ref, update) needs a function from the value to the new one");
    const path = ref.writable();
    return this.#request((core) => core.transact(path), { ref, update });
  }

  /** @param {Ref} ref */
  async onDisconnectSet(ref, value) {
    const path = ref.writable();
    const draft = readDraft(value);
    return this.#request((core) => core.onDisconnectSet(path, draft));
  }

  /** @param {Ref} ref */
  async onDisconnectUpdate(ref, values) {
    const path = ref.writable();
    const places = placesOf(values);
    return this.#request((core) => core.onDisconnectUpdate(path, places));
  }

  /** @param {Ref} ref */
  async onDisconnectRemove(ref) {
    const path = ref.writable();
    return this.#request((core) => core.onDisconnectRemove(path));
  }

  /** @param {Ref} ref */
  async onDisconnectCancel(ref) {
    const path = ref.writable();
    return this.#request((core) => core.onDisconnectCancel(path));
  }

  // ---- listeners

  /** @param {Ref} ref @param {(snapshot: Snapshot) => void} callback @param {(error: Error) => void} [denied] */
  onValue(ref, callback, denied, { onlyOnce = false } = {}) {
    if (ref.path === null) return this.#onInfo(ref, callback, onlyOnce);
    const listener = { denied, wasCalled: false, callback: (snapshot) => {
      listener.wasCalled = true;
      if (onlyOnce) stop();
      callSafely(callback, snapshot);
    } };
    const stop = this.#addListener(ref, listener);
    const place = this.#places.get(ref.path.text);
    queueMicrotask(() => {
      const view = this.#link.core.view(ref.path);
      if (view !== null && !listener.wasCalled && place.listeners.has(listener)) listener.callback(new Snapshot(ref, view.value, view.number));
    });
    return stop;
  }

  #onInfo(ref, callback, onlyOnce) {
    const stop = this.onConnected((isConnected) => {
      if (onlyOnce) stop();
      callback(new Snapshot(ref, isConnected, null));
    });
    return stop;
  }

  /** @param {Ref} ref @returns {Promise<Snapshot>} */
  async get(ref) {
    if (ref.path === null) return new Snapshot(ref, this.isConnected, null);
    const view = this.#link.core.isLive(ref.path) ? this.#link.core.view(ref.path) : null;
    if (view !== null) return new Snapshot(ref, view.value, view.number);
    return new Promise((resolve, reject) => {
      const stop = this.#addListener(ref, { denied: reject, stopped: reject, callback: (snapshot) => {
        stop();
        resolve(snapshot);
      } });
    });
  }

  // Adds the listener, and answers what takes it away.
  #addListener(ref, listener) {
    const { path } = ref;
    let place = this.#places.get(path.text);
    if (place === undefined) {
      place = { path, ref, listeners: new Set(), request: 0 };
      this.#places.set(path.text, place);
      this.#listen(place);
    }
    place.listeners.add(listener);
    return () => this.#removeListener(place, listener);
  }

  #listen(place) {
    this.#link.run((core) => core.listen(place.path), (request) => {
      place.request = request;
      this.#listens.set(request, place);
    });
  }

  #removeListener(place, listener) {
    if (!place.listeners.delete(listener) || place.listeners.size > 0) return;
    this.#forget(place);
    this.#link.run((core) => core.unlisten(place.path));
  }

  #forget(place) {
    this.#listens.delete(place.request);
    if (this.#places.get(place.path.text) === place) this.#places.delete(place.path.text);
  }

  /** @param {(isConnected: boolean) => void} callback */
  onConnected(callback) {
    const listener = { wasCalled: false, call: (isConnected) => {
      listener.wasCalled = true;
      const made = callSafely(callback, isConnected);
      if (typeof made?.then === "function") made.then(undefined, passOverLoss);
    } };
    this.#connectedCallbacks.add(listener);
    queueMicrotask(() => {
      if (!listener.wasCalled && this.#connectedCallbacks.has(listener)) listener.call(this.isConnected);
    });
    return () => this.#connectedCallbacks.delete(listener);
  }

  /** @param {(error: Error) => void} callback */
  onError(callback) {
    this.#errorCallbacks.add(callback);
    return () => this.#errorCallbacks.delete(callback);
  }

  // ---- what the link tells

  #report(error) {
    if (this.#errorCallbacks.size === 0) console.warn(`presence-client: ${error.name}: ${error.message}`);
    for (const callback of [...this.#errorCallbacks]) callSafely(callback, error);
  }

  // Nothing that waits will be answered any more.
  #stopped(error) {
    const pending = [...this.#pending.values()];
    this.#pending.clear();
    for (const { reject } of pending) reject(error);
    for (const place of [...this.#places.values()]) {
      for (const listener of [...place.listeners]) {
        if (listener.stopped === undefined) continue;
        this.#removeListener(place, listener);
        listener.stopped(error);
      }
    }
    this.#report(error);
  }

  #tell(notice) {
    const { request } = notice;
    switch (notice.type) {
      case "done": return this.#done(request, notice.number);
      case "ask": return this.#ask(notice);
      case "toomany": return this.#settle(request, "reject", new TooManyTries());
      case "aborted": return this.#aborted(request);
      case "armed": return this.#settle(request, "resolve");
      case "lost": return this.#settle(request, "reject", new ActionLost());
      case "denied": return this.#denied(request);
      case "value": return this.#value(notice);
      case "connected": return [...this.#connectedCallbacks].forEach((listener) => listener.call(notice.isOpen));
    }
    return undefined;
  }

  #value({ path, number, value }) {
    const place = this.#places.get(path.text);
    for (const listener of [...place?.listeners ?? []]) {
      if (place.listeners.has(listener)) listener.callback(new Snapshot(place.ref, value, number));
    }
  }

  #denied(request) {
    const place = this.#listens.get(request);
    if (place === undefined) return this.#settle(request, "reject", new DeniedPlan());
    const error = new DeniedListens();
    this.#forget(place);
    for (const { denied } of place.listeners) {
      if (denied) callSafely(denied, error);
      else this.#report(error);
    }
    place.listeners.clear();
    return undefined;
  }

  // ---- transactions

  #ask({ request, value }) {
    const waits = this.#pending.get(request);
    waits.asked = value;
    try {
      const given = waits.update(plain(value));
      if (given === undefined) return this.#link.run((core) => core.abort(request));
      const draft = readDraft(given);
      waits.given = draft;
      return this.#link.run((core) => core.answer(request, draft));
    } catch (error) {
      this.#settle(request, "reject", error);
      return this.#link.run((core) => core.abort(request));
    }
  }

  #done(request, number) {
    const { ref, given } = this.#pending.get(request) ?? {};
    if (ref === undefined) return this.#settle(request, "resolve", number);
    const snapshot = hasPlaceholder(given) ? null : new Snapshot(ref, given, number);
    return this.#settle(request, "resolve", { committed: true, number, snapshot });
  }

  #aborted(request) {
    const { ref, asked } = this.#pending.get(request) ?? {};
    if (ref !== undefined) this.#settle(request, "resolve", { committed: false, number: null, snapshot: new Snapshot(ref, asked, null) });
  }
}

