// The messages between a client and a server as JSON texts.

import { Field, NoSuchMessage } from "./errors.js";
import { parse } from "./json.js";
import { Path } from "./paths.js";
import { print, readValue } from "./tree.js";

/** The greatest number of a message. */
export const GREATEST_NUMBER = Number.MAX_SAFE_INTEGER;

/** The most bytes of a message to the server. */
export const MOST_BYTES = 1_048_576;

/** The most bytes of a message round its operation: its names, its numbers and its session. */
export const MOST_AROUND = 256;

const CLIENT_ID = /^[A-Za-z0-9_-]{1,128}$/;
const WHYS = ["bye", "lost", "lease", "superseded", "slow", "restart"];

/** Whether the text is a client's id. @param {unknown} text */
export function isClientId(text) {
  return typeof text === "string" && CLIENT_ID.test(text);
}

/** Whether it is a whole number from 1 to 2^53 - 1. @param {unknown} data */
export function isNumber(data) {
  return Number.isSafeInteger(data) && data >= 1;
}

// ---- to the server

/** The JSON of a session. */
export function sessionText({ client, incarnation, attempt }) {
  return `["${client}",${incarnation},${attempt}]`;
}

/** The JSON of the set of the draft. @param {Path} path */
export function setText(path, draft) {
  return `{"op":"set","path":${JSON.stringify(path.text)},"value":${print(draft)}}`;
}

/** The JSON of the update of the drafts, whose names are in byte order. @param {Path} path */
export function updateText(path, named) {
  const values = named.map(([name, draft]) => `${JSON.stringify(name)}:${print(draft)}`);
  return `{"op":"update","path":${JSON.stringify(path.text)},"values":{${values.join(",")}}}`;
}

/** The JSON of a transaction's try. @param {Path} path */
export function tryText(path, expected, draft) {
  return `{"expect":${print(expected)},"op":"tx","path":${JSON.stringify(path.text)},"value":${print(draft)}}`;
}

/** The text of a message without numbers. @param {"hello" | "beat"} word */
export function bareText(word, session) {
  return `{"m":"${word}","s":${sessionText(session)}}`;
}

/** The text of a Bye. */
export function byeText(session, q) {
  return `{"m":"bye","q":${q},"s":${sessionText(session)}}`;
}

/** The text of a message that waits for its answer, with its numbers. */
export function queuedText({ word, body }, session, q, n) {
  const numbered = word === "op" ? `"n":${n},` : "";
  const name = word === "op" || word === "left" ? "op" : "path";
  return `{"m":"${word}",${numbered}"${name}":${body},"q":${q},"s":${sessionText(session)}}`;
}

// ---- to a client

function needed(name, isRight, data) {
  if (!isRight(data)) throw new Field(name);
  return data;
}

// What is read of a field, where reading refuses nothing.
function readField(name, read) {
  try {
    return read();
  } catch {
    throw new Field(name);
  }
}

const number = (name) => (message) => needed(name, isNumber, message.get(name));
const word = (name, words) => (message) => needed(name, (data) => words.includes(data), message.get(name));

function sessionOf(data) {
  const isSession = Array.isArray(data) && data.length === 3 && isClientId(data[0]) && isNumber(data[1]) && isNumber(data[2]);
  if (!isSession) throw new Field("s");
  return { client: data[0], incarnation: data[1], attempt: data[2] };
}

function pathOf(data) {
  if (typeof data !== "string") throw new Field("path");
  return Path.parse(data);
}

function outOf(data) {
  if (data === "wrote") return { wrote: true };
  if (!(data instanceof Map) || !data.has("stale")) throw new Field("out");
  return { wrote: false, held: readValue(data.get("stale")) };
}

function pairOf(data) {
  if (!Array.isArray(data) || data.length !== 2) throw new Field("values");
  return { path: pathOf(data[0]), value: readValue(data[1]) };
}

function valuesOf(data) {
  if (!Array.isArray(data)) throw new Field("values");
  const values = data.map(pairOf);
  const rise = values.every(({ path }, i) => i === 0 || Path.compare(values[i - 1].path, path) < 0);
  if (!rise) throw new Field("values");
  return values;
}

function valueOf(message) {
  if (!message.has("value")) throw new Field("value");
  return readValue(message.get("value"));
}

function isStamp(data) {
  return Array.isArray(data) && data.length === 2 && data.every(isNumber);
}

const s = ["session", (message) => sessionOf(message.get("s"))];
const r = ["r", number("r")];
const z = ["z", number("z")];
const q = ["q", number("q")];

// The fields of each message, in the order in which they are checked.
const DOWN = {
  welcome: [s, z, ["ops", (message) => needed("ops", (data) => data === 0 || isNumber(data), message.get("ops"))]],
  reply: [s, r, z, q, ["n", number("n")], ["done", number("done")], ["out", (message) => readField("out", () => outOf(message.get("out")))]],
  armed: [s, r, z, q],
  snap: [s, r, z, q, ["path", (message) => readField("path", () => pathOf(message.get("path")))], ["value", (message) => readField("value", () => valueOf(message))]],
  push: [s, r, z, ["values", (message) => readField("values", () => valuesOf(message.get("values")))]],
  offdone: [s, r, z, q],
  denied: [s, r, z, q, ["why", word("why", [1, 2])]],
  gone: [s, r, z, ["why", word("why", WHYS)]],
  fault: [
    ["session", (message) => (message.get("s") === null ? null : sessionOf(message.get("s")))],
    ["code", word("code", [1, 2, 3, 4, 5, 6, 7, 8])],
    ["last", (message) => (message.get("code") === 2 ? needed("last", isStamp, message.get("last")) : undefined)],
  ],
};

/**
 * The message of a text to a client: `word`, and its fields, `s` as `session`.
 * @param {string} text
 * @throws {import("./errors.js").NotJson | NoSuchMessage | Field}
 */
export function decodeDown(text) {
  const data = parse(text);
  const word = data instanceof Map ? data.get("m") : undefined;
  if (typeof word !== "string" || !Object.hasOwn(DOWN, word)) throw new NoSuchMessage();
  const message = { word };
  for (const [name, read] of DOWN[word]) message[name] = read(data);
  return message;
}
