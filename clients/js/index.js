// A client of a presence server, in the words of Firebase Realtime Database. README.md begins with an example.

import { Database } from "./shell/db.js";
import { Ref } from "./shell/refs.js";

export * from "./core/errors.js";
export { Database } from "./shell/db.js";
export { Ref, Snapshot } from "./shell/refs.js";
export { fileStorage } from "./shell/storage.js";

/**
 * A client of the server at this address. It connects at once, and comes back whenever the connection is lost.
 * @param {string | URL} url ws:// or wss:// and the server's address
 * @param {import("./index.js").Options} options
 * @returns {Database}
 */
export function connect(url, options) {
  return new Database(url, options);
}

/**
 * A place of the database: keys, each after a slash; without a path the root. `.info/connected` is the
 * client's own, and tells whether it is connected.
 * @param {Database} db
 * @param {string} [path]
 * @returns {Ref}
 */
export function ref(db, path = "/") {
  return Ref.parse(db, path);
}

/**
 * The place below another.
 * @param {Ref} parent
 * @param {string} path
 * @returns {Ref}
 */
export function child(parent, path) {
  return parent.child(path);
}

/**
 * Puts a value in the place of all that stands there. Null removes it.
 * @param {Ref} place
 * @param {unknown} value
 * @returns {Promise<number>} the server's number at which it stands
 */
export function set(place, value) {
  return place.db.set(place, value);
}

/**
 * Puts values at paths below the place, all of them or none, and leaves the rest as it is.
 * @param {Ref} place
 * @param {Record<string, unknown>} values by their paths
 * @returns {Promise<number>} the server's number at which they stand
 */
export function update(place, values) {
  return place.db.update(place, values);
}

/**
 * Removes what stands at the place.
 * @param {Ref} place
 * @returns {Promise<number>} the server's number at which it is gone
 */
export function remove(place) {
  return place.db.remove(place);
}

/**
 * Reads the place once: from the server, or, where this client listens to the place, what it was told last.
 * @param {Ref} place
 * @returns {Promise<import("./shell/refs.js").Snapshot>}
 */
export function get(place) {
  return place.db.get(place);
}

/**
 * Calls back with what stands at the place, and again after each write that touches it.
 * @param {Ref} place
 * @param {(snapshot: import("./shell/refs.js").Snapshot) => void} callback
 * @param {((error: Error) => void) | { onlyOnce?: boolean }} [denied] is called where the server denies it; or the options
 * @param {{ onlyOnce?: boolean }} [options]
 * @returns {() => void} what ends it
 */
export function onValue(place, callback, denied, options) {
  return typeof denied === "object" ? place.db.onValue(place, callback, undefined, denied) : place.db.onValue(place, callback, denied, options);
}

/**
 * Puts what the function makes of the value in its place. Where another write came in between, the function is
 * asked again, with the newer value, up to 25 times. The first value may be null, whatever stands there.
 * @param {Ref} place
 * @param {(value: any) => unknown} update answers the new value, or undefined to give up
 * @returns {Promise<import("./index.js").TransactionResult>}
 */
export function runTransaction(place, update) {
  return place.db.transact(place, update);
}

/**
 * What the server does once the session ends, whatever ends it.
 * @param {Ref} place
 * @returns {import("./index.js").OnDisconnect}
 */
export function onDisconnect(place) {
  const { db } = place;
  return {
    set: (value) => db.onDisconnectSet(place, value),
    update: (values) => db.onDisconnectUpdate(place, values),
    remove: () => db.onDisconnectRemove(place),
    cancel: () => db.onDisconnectCancel(place),
  };
}

/** Stands in a value for the server's time, in milliseconds since 1970, at which it is written. */
export function serverTimestamp() {
  return { ".sv": "timestamp" };
}

/** Stands in a value for the sum of this and the whole number that its place holds; this alone where it holds none. */
export function increment(by) {
  return { ".sv": { increment: by } };
}

/**
 * Says goodbye, so that the server does at once what was left for the session's end, and stays away. Writes wait.
 * @param {Database} db
 */
export function goOffline(db) {
  db.goOffline();
}

/**
 * Connects again.
 * @param {Database} db
 */
export function goOnline(db) {
  db.goOnline();
}

/**
 * Calls back with whether the client is connected, now and at each change. An async callback may fail for the loss
 * of the connection, by ActionLost or Offline: that is passed over, since the next connection calls back again.
 * @param {Database} db
 * @param {(isConnected: boolean) => unknown} callback
 * @returns {() => void} what ends it
 */
export function onConnected(db, callback) {
  return db.onConnected(callback);
}

/**
 * Calls back with what goes wrong, where no promise tells it. Without any, it is a warning on the console.
 * @param {Database} db
 * @param {(error: Error) => void} callback
 * @returns {() => void} what ends it
 */
export function onError(db, callback) {
  return db.onError(callback);
}
