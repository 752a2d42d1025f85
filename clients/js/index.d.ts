// The types of presence-client.

/** A whole number, from -2^63 to 2^63 - 1: past 2^53 - 1 it is a BigInt. */
export type Whole = number | bigint;

/** What may be written. An array is kept as an object under its indexes; null removes. */
export type Value = null | boolean | Whole | string | ServerTimestamp | Increment | readonly Value[] | { readonly [key: string]: Value };

/** What is read: null for nothing. */
export type Read = null | boolean | Whole | string | { [key: string]: Read };

/** Stands in a value for the sum with the whole number that its place holds. */
export interface Increment {
  readonly ".sv": { readonly increment: Whole };
}

/** Stands in a value for the server's time. */
export interface ServerTimestamp {
  readonly ".sv": "timestamp";
}

/** What keeps texts under names, as the browser's localStorage does. */
export interface Storage {
  getItem(name: string): string | null | Promise<string | null>;
  setItem(name: string, text: string): void | Promise<void>;
}

export interface Options {
  /** The client's id: 1 to 128 characters of A-Z a-z 0-9 _ -. One tab or program at a time has an id. */
  client: string;
  /**
   * Where the count of the client's starts is kept, or the directory for it. By default localStorage, and in Node
   * the directory `.presence`.
   */
  storage?: Storage | string;
  /**
   * The count of the client's starts itself, where the program keeps it: greater than in every earlier start, from 1
   * to 2^53 - 1; or a function that answers one greater than the one that it is given.
   */
  incarnation?: number | ((above: number) => number | Promise<number>);
  /** The class of WebSockets, where there is no global one, as that of the package ws. */
  WebSocket?: unknown;
  /** How long things take, in milliseconds. */
  timing?: Partial<Timing>;
}

export interface Timing {
  /** Between two signs of life. The server ends a session that is silent for 60,000. By default 20,000. */
  beat: number;
  /** For a connection to be made. By default 20,000. */
  open: number;
  /** For the next answer of the server. By default 30,000. */
  answer: number;
  /** Before the first attempt to come back. It doubles with each further one. By default 500. */
  firstPause: number;
  /** The longest pause between attempts. By default 30,000. */
  longestPause: number;
}

/** A client of a server. */
export interface Database {
  readonly url: string;
  readonly client: string;
  /** Whether a session is open. */
  readonly isConnected: boolean;
}

/** A place of a database. */
export interface Ref {
  readonly db: Database;
  /** The last key of its path, null for the root. */
  readonly key: string | null;
  /** The place above it, null for the root. */
  readonly parent: Ref | null;
  readonly root: Ref;
  child(path: string): Ref;
  /** The text of its path. */
  toString(): string;
}

/** What stood at a place. It stays as it is. */
export interface Snapshot {
  readonly ref: Ref;
  readonly key: string | null;
  /** The server's number at which it stood there; null for `.info/connected`. */
  readonly number: number | null;
  /** How many children it has. */
  readonly size: number;
  exists(): boolean;
  /** The value, as a copy. */
  val(): any;
  hasChild(path: string): boolean;
  child(path: string): Snapshot;
  /** Calls back with each child, in byte order of keys, until a call answers true. */
  forEach(callback: (child: Snapshot) => boolean | void): boolean;
  toJSON(): Read;
}

export interface TransactionResult {
  /** Whether the new value was written. */
  committed: boolean;
  /** The server's number at which it stands, null where none was written. */
  number: number | null;
  /**
   * What was written, or what the function saw when it gave up; null where the new value has the server's time in it:
   * read it by `get`.
   */
  snapshot: Snapshot | null;
}

/** What the server does once the session ends. The promises settle when the server knows it. */
export interface OnDisconnect {
  set(value: Value): Promise<void>;
  update(values: { readonly [path: string]: Value }): Promise<void>;
  remove(): Promise<void>;
  /** Takes back what was left at the place and below it. */
  cancel(): Promise<void>;
}

export function connect(url: string | URL, options: Options): Database;
export function ref(db: Database, path?: string): Ref;
export function child(parent: Ref, path: string): Ref;
/** Puts a value in the place of all that stands there. Settles, with the server's number, once it stands. */
export function set(place: Ref, value: Value): Promise<number>;
/** Puts values at paths below the place, all of them or none. */
export function update(place: Ref, values: { readonly [path: string]: Value }): Promise<number>;
export function remove(place: Ref): Promise<number>;
/** Reads the place once: from the server, or, where this client listens to the place, what it was told last. */
export function get(place: Ref): Promise<Snapshot>;
/** Calls back with what stands at the place, and again after each write that touches it. Answers what ends it. */
export function onValue(place: Ref, callback: (snapshot: Snapshot) => void, options?: { onlyOnce?: boolean }): () => void;
export function onValue(
  place: Ref,
  callback: (snapshot: Snapshot) => void,
  denied?: (error: PresenceError) => void,
  options?: { onlyOnce?: boolean },
): () => void;
/** Puts what the function makes of the value in its place; undefined gives up. */
export function runTransaction(place: Ref, update: (value: any) => Value | undefined): Promise<TransactionResult>;
export function onDisconnect(place: Ref): OnDisconnect;
export function serverTimestamp(): ServerTimestamp;
export function increment(by: Whole): Increment;
export function goOffline(db: Database): void;
export function goOnline(db: Database): void;
/**
 * Calls back with whether the client is connected, now and at each change. Answers what ends it. An async callback may
 * fail for the loss of the connection, by ActionLost or Offline: that is passed over, since the next connection calls back again.
 */
export function onConnected(db: Database, callback: (isConnected: boolean) => unknown): () => void;
/** Calls back with what goes wrong, where no promise tells it. Answers what ends it. */
export function onError(db: Database, callback: (error: Error) => void): () => void;
/** Keeps texts in files of a directory. For Node alone. */
export function fileStorage(directory: string): Promise<Storage>;

/** What every error of this library is. */
export class PresenceError extends Error {
  /** The protocol's name. */
  readonly name: string;
  /** The protocol's number in the group `kind`; 0 in the group `ended`. */
  readonly number: number;
  readonly kind: "call" | "write" | "message" | "denied" | "fault" | "ended";
}

/** 2: something is left for the session's end, and none is open. */
export class Offline extends PresenceError {}
/** 3: no transaction with this request waits. */
export class NoSuchRequest extends PresenceError {}
/** 4: a number would pass 2^53 - 1. */
export class Spent extends PresenceError {}

/** What is to be written is refused. */
export class WriteRefused extends PresenceError {}
/** 2 */
export class EmptyKey extends WriteRefused {}
/** 3: a key has more than 768 bytes. */
export class LongKey extends WriteRefused {}
/** 4: a key has a control character, or one of . $ # [ ] / */
export class BadKey extends WriteRefused {}
/** 5: data is nested more than 32 levels deep. */
export class TooDeep extends WriteRefused {}
/** 6: a number isn't whole. */
export class NotWhole extends WriteRefused {}
/** 7: a whole number past 64 bits, or past 2^53 - 1 and no BigInt. */
export class Range extends WriteRefused {}
/** 8: an object with the name `.sv` that neither serverTimestamp() nor increment() makes. */
export class Placeholder extends WriteRefused {}
/** 9: two places of an update are one, or one is above the other. */
export class Overlap extends WriteRefused {}
/** 10: an update names more than 256 places. */
export class ManyPaths extends WriteRefused {}
/** 11: the values of an update are no object. */
export class Shape extends WriteRefused {}

/** 2: a value can't be written as JSON, or what came is none. */
export class NotJson extends PresenceError {}
/** 3: a write has more than 1,048,576 bytes. */
export class TooLong extends PresenceError {}
/** 4: what came is no message. */
export class NoSuchMessage extends PresenceError {}
/** 5: a field of what came isn't what it has to be. */
export class Field extends PresenceError {
  readonly field: string;
}

/** 1: the session has left as much for its end as it may. */
export class DeniedPlan extends PresenceError {}
/** 2: the session listens to as many places as it may. */
export class DeniedListens extends PresenceError {}

/** The server refused a message. */
export class ServerFault extends PresenceError {}
/** 1 */
export class FaultBad extends ServerFault {}
/** 2: the server has had a newer session of this client. */
export class FaultOld extends ServerFault {}
/** 3: the session isn't open any more. */
export class FaultSession extends ServerFault {}
/** 4: the server misses a message. */
export class FaultOrder extends ServerFault {}
/** 5: the server has as many sessions as it may have. */
export class FaultFull extends ServerFault {}
/** 6: the server couldn't keep the message: it is sent again. */
export class FaultBusy extends ServerFault {}
/** 7: the server has no numbers left. */
export class FaultSpent extends ServerFault {}
/** 8: the server has to be started again. */
export class FaultDown extends ServerFault {}

/** A transaction was overtaken 25 times. */
export class TooManyTries extends PresenceError {}
/** The session ended before the answer came: whether what was left for its end stands isn't known. */
export class ActionLost extends PresenceError {}
/** A newer tab or program has this client's id; this one has stopped. */
export class Superseded extends PresenceError {}
