// Where the count of a client's starts is kept.

import { isNumber } from "../core/messages.js";

/**
 * What keeps texts under names: the browser's localStorage, or anything with these two methods, which
 * may answer promises.
 * @typedef {{ getItem(name: string): string | null | Promise<string | null>, setItem(name: string, text: string): void | Promise<void> }} Storage
 */

// Keeps each text in a file of its own.
class FileStorage {
  constructor(fs, join, directory) {
    Object.assign(this, { fs, join, directory });
  }

  getItem(name) {
    try {
      return this.fs.readFileSync(this.join(this.directory, name), "utf8");
    } catch (error) {
      if (error.code === "ENOENT") return null;
      throw error;
    }
  }

  // The text stands, whole, once this returns: also where the machine stops then.
  setItem(name, text) {
    const file = this.join(this.directory, name);
    const fresh = `${file}.new`;
    this.fs.mkdirSync(this.directory, { recursive: true });
    this.fs.writeFileSync(fresh, text);
    this.#sync(fresh);
    this.fs.renameSync(fresh, file);
    this.#sync(this.directory);
  }

  #sync(path) {
    const open = this.fs.openSync(path, "r");
    try {
      this.fs.fsyncSync(open);
    } finally {
      this.fs.closeSync(open);
    }
  }
}

/**
 * Keeps texts in files of a directory, which is made where there is none. For Node alone.
 * @param {string} directory
 * @returns {Promise<Storage>}
 */
export async function fileStorage(directory) {
  // the names stand in a list, so that what packs the library for browsers doesn't look for them
  const [fs, path] = await Promise.all(["node:fs", "node:path"].map((name) => import(name)));
  return new FileStorage(fs, path.join, directory);
}

// What keeps the count where nothing is handed in.
async function usualStorage(given) {
  if (typeof given === "string") return fileStorage(given);
  if (given) return given;
  if (typeof globalThis.process?.versions?.node === "string") return fileStorage(".presence");
  if (globalThis.localStorage) return globalThis.localStorage;
  throw new TypeError("nothing keeps the client's count of starts here: hand in storage, or the incarnation");
}

// The counts of this program that go on, by their names.
const counting = new Map();

// Two tabs count one after the other, where the browser has locks, and two clients of one program anyhow.
function alone(name, count) {
  const locks = globalThis.navigator?.locks;
  if (locks) return locks.request(name, count);
  const turn = (counting.get(name) ?? Promise.resolve()).then(count);
  counting.set(name, turn.catch(() => {})); // one that fails doesn't stop the next
  return turn;
}

/**
 * The next incarnation of the client, which is stored when it is answered.
 * @param {Storage | string | undefined} given
 * @param {string} client
 * @param {number} above it is greater than this, too
 */
export async function nextIncarnation(given, client, above) {
  const storage = await usualStorage(given);
  const name = `presence-incarnation-${client}`;
  return alone(name, async () => {
    const stored = Number(await storage.getItem(name));
    const next = Math.max(isNumber(stored) ? stored : 0, above) + 1;
    await storage.setItem(name, String(next));
    return next;
  });
}
