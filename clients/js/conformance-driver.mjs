// Plays calls and packets into the core alone, for a runner that compares it with another client of the
// protocol. Reads a JSON object from each line of its input, and answers each by one on a line:
//
//   {"do":"new","clients":[ID,..]}          begins with these clients, in their first incarnation
//   {"do":"call","id":ID,"words":WORDS}     makes the call of a script line, behind its `call ID `
//   {"do":"down","id":ID,"text":TEXT}       hands the message to the client
//   {"do":"restart","id":ID}                starts the client again, with the next incarnation
//   {"do":"views"}                          answers {"views":["ID PATH NUMBER VALUE",..]}
//
// A call and a message answer {"ups":[TEXT,..],"notes":[TEXT,..],"refused":N or null}; what is no line of
// a script is answered with "bad":true besides.

import { Core } from "./core/core.js";
import { NotJson, PresenceError, WriteRefused } from "./core/errors.js";
import { compareTexts, parse } from "./core/json.js";
import { GREATEST_NUMBER, decodeDown } from "./core/messages.js";
import { Path } from "./core/paths.js";
import { print, readDraft } from "./core/tree.js";

const REFUSED_TEXT = 5;

class BadLine extends Error {}

function noticeText(notice) {
  const { type, request } = notice;
  switch (type) {
    case "done": return `done ${request} ${notice.number}`;
    case "ask": return `ask ${request} ${notice.attempt} ${print(notice.value)}`;
    case "value": return `value ${notice.path.text} ${notice.number} ${print(notice.value)}`;
    case "connected": return `connected ${notice.isOpen}`;
    case "denied": return `denied ${request} ${notice.why}`;
    case "faulted": return `faulted ${notice.code}`;
    default: return `${type} ${request}`;
  }
}

// What stands before the first space, and what behind it, which is none where there is no space.
function halves(text) {
  const space = text.indexOf(" ");
  return space < 0 ? [text, undefined] : [text.slice(0, space), text.slice(space + 1)];
}

function both(text) {
  const [first, rest] = halves(text);
  if (rest === undefined) throw new BadLine();
  return [first, rest];
}

function requestOf(text) {
  if (!/^\+?[0-9]+$/.test(text) || BigInt(text.replace("+", "")) >= 2n ** 64n) throw new BadLine();
  return Number(text);
}

const draftOf = (text) => readDraft(parse(text));

function placesOf(text) {
  const data = parse(text);
  if (!(data instanceof Map)) throw new NotJson();
  return Array.from(data, ([name, value]) => [Path.parse(name), readDraft(value)]);
}

// A call whose path and JSON are read before it is made.
function atPath(call) {
  return (core, given) => core[call](Path.parse(given));
}

function withJson(call, read) {
  return (core, given) => {
    const [path, json] = both(given);
    core[call](Path.parse(path), read(json));
  };
}

const GIVEN = {
  set: withJson("set", draftOf),
  update: withJson("update", placesOf),
  remove: atPath("remove"),
  transact: atPath("transact"),
  answer: (core, given) => {
    const [request, json] = both(given);
    const number = requestOf(request);
    core.answer(number, draftOf(json));
  },
  abort: (core, given) => core.abort(requestOf(given)),
  "od-set": withJson("onDisconnectSet", draftOf),
  "od-update": withJson("onDisconnectUpdate", placesOf),
  "od-remove": atPath("onDisconnectRemove"),
  "od-cancel": atPath("onDisconnectCancel"),
  listen: atPath("listen"),
  unlisten: atPath("unlisten"),
};

const BARE = {
  online: (core) => core.goOnline(),
  offline: (core) => core.goOffline(),
  lost: (core) => core.lost(),
  beat: (core) => core.beat(),
  resend: (core) => core.resend(),
};

function make(core, words) {
  const [word, given] = halves(words);
  const calls = given === undefined ? BARE : GIVEN;
  if (!Object.hasOwn(calls, word)) throw new BadLine();
  calls[word](core, given);
}

// What refuses the call, or whether there is no such call.
function refusalOf(error) {
  if (error instanceof BadLine) return { refused: null, bad: true };
  if (!(error instanceof PresenceError)) throw error;
  const isText = error instanceof WriteRefused || error instanceof NotJson;
  return { refused: isText ? REFUSED_TEXT : error.number };
}

function after(core, act) {
  let refusal = { refused: null };
  try {
    act();
  } catch (error) {
    refusal = refusalOf(error);
  }
  return { ups: core.takeSends(), notes: core.takeNotices().map(noticeText), ...refusal };
}

let cores = new Map();
let incarnations = new Map();

function start(id, incarnation) {
  incarnations.set(id, incarnation);
  cores.set(id, new Core(id, incarnation));
}

function viewsOf(id) {
  return cores.get(id).views().map(({ path, number, value }) => `${id} ${path.text} ${number} ${print(value)}`);
}

const COMMANDS = {
  new: ({ clients }) => {
    cores = new Map();
    incarnations = new Map();
    for (const id of clients) start(id, 1);
    return {};
  },
  call: ({ id, words }) => after(cores.get(id), () => make(cores.get(id), words)),
  down: ({ id, text }) => {
    const message = decodeDown(text);
    return after(cores.get(id), () => cores.get(id).receive(message));
  },
  restart: ({ id }) => {
    const incarnation = incarnations.get(id);
    if (incarnation < GREATEST_NUMBER) start(id, incarnation + 1);
    return { ups: [], notes: [], refused: null };
  },
  views: () => ({ views: [...cores.keys()].sort(compareTexts).flatMap(viewsOf) }),
};

// The lines of the input, which line feeds alone end.
async function* lines(input) {
  let rest = "";
  input.setEncoding("utf8");
  for await (const text of input) {
    const parts = (rest + text).split("\n");
    rest = parts.pop();
    yield* parts;
  }
  if (rest !== "") yield rest;
}

for await (const line of lines(process.stdin)) {
  const command = JSON.parse(line);
  process.stdout.write(`${JSON.stringify(COMMANDS[command.do](command))}\n`);
}
