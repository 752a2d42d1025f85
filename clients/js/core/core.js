// A client without sockets and timers: what each call, and each message that comes, makes of it.

import { ManyPaths, NoSuchRequest, Offline, Overlap, Spent, TooDeep, TooLong } from "./errors.js";
import { byteLength, compareTexts } from "./json.js";
import { GREATEST_NUMBER, MOST_AROUND, bareText, byeText, isClientId, isNumber, queuedText, setText, tryText, updateText } from "./messages.js";
import { MOST_LEVELS, Path } from "./paths.js";
import { Queue, isAction, isWrite } from "./queue.js";
import { depth } from "./tree.js";

/** The tries of a transaction before it is given up. */
export const MOST_TRIES = 25;

const MOST_PLACES = 256;
const BAD = 1;
const SESSION = 3;
const PLAN = 1;

function checkDepth(path, draft) {
  if (path.keys.length + depth(draft) > MOST_LEVELS) throw new TooDeep();
}

// The operation of drafts at places below a path, which are in path order then.
function updateOf(path, places) {
  if (places.length > MOST_PLACES) throw new ManyPaths();
  for (const [place, draft] of places) {
    if (path.keys.length + place.keys.length + depth(draft) > MOST_LEVELS) throw new TooDeep();
  }
  const inOrder = [...places].sort((a, b) => Path.compare(a[0], b[0]));
  for (let i = 1; i < inOrder.length; i += 1) {
    if (inOrder[i - 1][0].isPrefixOf(inOrder[i][0])) throw new Overlap();
  }
  const named = places.map(([place, draft]) => [place.text.slice(1), draft]);
  return updateText(path, named.sort((a, b) => compareTexts(a[0], b[0])));
}

/**
 * The state of one incarnation of a client. A refused call throws, and changes nothing. Calls that
 * answer a number answer that of their request, by which notices name them.
 */
export class Core {
  #session;
  #attempts = 0;
  /** @type {"off" | "opening" | "online"} */
  #phase = "off";
  // how many writes the server had carried out at the first Welcome that was accepted
  #base = null;
  // how many writes were made, went out, and were answered
  #made = 0;
  #sent = 0;
  #answered = 0;
  // how many messages of the session were answered, how many of its stream were taken, and the
  // server's number in the last one
  #heard = 0;
  #taken = 0;
  #seen = 0;
  #requests = 0;
  #queue = new Queue();
  // by the texts of paths: what is listened to, and what is shown of it
  #watches = new Map();
  // by requests: the transactions that ask
  #asks = new Map();
  #sends = [];
  #notices = [];
  #mostBytes;

  /**
   * A client in a new incarnation, off.
   * @param {string} client its id
   * @param {number} incarnation greater than all earlier ones, from 1 to 2^53 - 1
   * @param {number} [mostBytes] a write whose message may have more is refused as TooLong, last of all
   */
  constructor(client, incarnation, mostBytes = Infinity) {
    if (!isClientId(client)) throw new TypeError("a client id has 1 to 128 characters of A-Z a-z 0-9 _ -");
    if (!isNumber(incarnation)) throw new TypeError("an incarnation is a whole number from 1 to 2^53 - 1");
    this.#session = { client, incarnation, attempt: 1 };
    this.#mostBytes = mostBytes;
  }

  /**
   * Goes on as this incarnation, as though all calls had been made in it. It is for a client that the
   * server has welcomed in none: so the one before has sent nothing but Hellos.
   * @param {number} incarnation greater than all earlier ones
   */
  renew(incarnation) {
    if (!isNumber(incarnation)) throw new TypeError("an incarnation is a whole number from 1 to 2^53 - 1");
    if (this.#base !== null || this.#phase !== "off") throw new TypeError("a client that was welcomed keeps its incarnation");
    this.#session = { client: this.#session.client, incarnation, attempt: 1 };
    this.#attempts = 0;
  }

  // ---- what it is like

  /** `off`, `opening` where a Hello waits for its Welcome, or `online`. */
  get phase() {
    return this.#phase;
  }

  /** The session of the last Hello, while it is open or being opened. */
  get session() {
    return this.#phase === "off" ? null : this.#session;
  }

  /** How many messages of the session wait for an answer, its Hello among them. */
  get unanswered() {
    return { off: 0, opening: 1, online: this.#queue.length }[this.#phase];
  }

  /** The incarnation, in all of its sessions. */
  get incarnation() {
    return this.#session.incarnation;
  }

  /** Whether the server has welcomed this incarnation. */
  get wasWelcomed() {
    return this.#base !== null;
  }

  /** Whether a message of the session's stream is missing before this one, so that none is taken any more. */
  misses({ session, r }) {
    return this.#phase === "online" && session !== null && this.#isMine(session) && r > this.#taken + 1;
  }

  /** What is shown of the path: a number and a value, or null. @param {Path} path */
  view(path) {
    const watch = this.#watches.get(path.text);
    return watch === undefined ? null : this.#shownOf(watch);
  }

  /** Whether this session told a value of the path. @param {Path} path */
  isLive(path) {
    return this.#watches.get(path.text)?.isLive === true;
  }

  /** The views of all paths, in path order. */
  views() {
    return this.#inOrder().flatMap((watch) => {
      const shown = this.#shownOf(watch);
      return shown === null ? [] : [{ path: watch.path, ...shown }];
    });
  }

  /** The texts to send, oldest first, which are taken out. @returns {string[]} */
  takeSends() {
    return this.#sends.splice(0);
  }

  /** What there is to tell, oldest first, which is taken out. */
  takeNotices() {
    return this.#notices.splice(0);
  }

  // ---- writes

  /** Puts the draft in the place of all that stands at the path. @param {Path} path */
  set(path, draft) {
    this.#checkWrite();
    checkDepth(path, draft);
    return this.#write(setText(path, draft));
  }

  /** Puts the drafts at their places below the path. @param {Path} path @param {[Path, unknown][]} places */
  update(path, places) {
    this.#checkWrite();
    return this.#write(updateOf(path, places));
  }

  /** Removes what stands at the path. @param {Path} path */
  remove(path) {
    this.#checkWrite();
    return this.#write(setText(path, null));
  }

  /** Asks, by the notice `ask`, what to put in the place of the value. @param {Path} path */
  transact(path) {
    this.#checkRequest();
    const request = this.#nextRequest();
    this.#ask(request, 1, path, this.view(path)?.value ?? null);
    return request;
  }

  /** Answers what the request's transaction asked. @param {number} request */
  answer(request, draft) {
    const { path, attempt, value } = this.#askOf(request);
    this.#checkNumbers();
    checkDepth(path, value);
    checkDepth(path, draft);
    const body = tryText(path, value, draft);
    this.#checkLength(body);
    this.#asks.delete(request);
    this.#enqueueWrite({ kind: "try", word: "op", body, request, attempt, path });
  }

  /** Gives up the request's transaction. @param {number} request */
  abort(request) {
    this.#askOf(request);
    this.#asks.delete(request);
    this.#note({ type: "aborted", request });
  }

  // ---- what is left for the end of the session

  /** Leaves a set. @param {Path} path */
  onDisconnectSet(path, draft) {
    this.#checkAction();
    checkDepth(path, draft);
    return this.#leave("left", setText(path, draft));
  }

  /** Leaves an update. @param {Path} path @param {[Path, unknown][]} places */
  onDisconnectUpdate(path, places) {
    this.#checkAction();
    return this.#leave("left", updateOf(path, places));
  }

  /** Leaves a remove. @param {Path} path */
  onDisconnectRemove(path) {
    this.#checkAction();
    return this.#leave("left", setText(path, null));
  }

  /** Takes back what was left at the path and below it. @param {Path} path */
  onDisconnectCancel(path) {
    this.#checkAction();
    return this.#leave("cancel", JSON.stringify(path.text));
  }

  // ---- listening

  /** Listens to the path: the notice `value` tells its value, and each later one. @param {Path} path */
  listen(path) {
    this.#checkRequest();
    if (this.#watches.has(path.text)) return this.#nextRequest();
    this.#checkMessage();
    const request = this.#nextRequest();
    if (this.#phase === "online") this.#enqueue(onOf(path, request));
    this.#watches.set(path.text, { path, request, isLive: false, shown: null });
    return request;
  }

  /** Listens no more to the path, and shows nothing of it. @param {Path} path */
  unlisten(path) {
    if (!this.#watches.has(path.text)) return;
    if (this.#phase === "online") {
      this.#checkMessage();
      this.#enqueue({ kind: "off", word: "off", body: JSON.stringify(path.text) });
    }
    this.#watches.delete(path.text);
  }

  // ---- sessions

  /** Asks for a session, where none is open or being opened. */
  goOnline() {
    if (this.#phase !== "off") return;
    if (this.#attempts >= GREATEST_NUMBER) throw new Spent();
    this.#attempts += 1;
    this.#session = { ...this.#session, attempt: this.#attempts };
    this.#phase = "opening";
    this.#sends.push(bareText("hello", this.#session));
  }

  /** Says goodbye, where the session is open, and leaves it. */
  goOffline() {
    if (this.#phase === "online") {
      this.#checkMessage();
      const q = this.#heard + this.#queue.length + 1;
      this.#endSession();
      this.#sends.push(byeText(this.#session, q));
    }
    this.#phase = "off";
  }

  /** The connection was lost: as `goOffline`, without a goodbye. */
  lost() {
    if (this.#phase === "online") this.#endSession();
    this.#phase = "off";
  }

  /** Says that the client is there, where the session is open. */
  beat() {
    if (this.#phase === "online") this.#sends.push(bareText("beat", this.#session));
  }

  /** Sends all messages of the session that have no answer again, or the Hello. */
  resend() {
    if (this.#phase === "opening") this.#sends.push(bareText("hello", this.#session));
    if (this.#phase === "online") this.#sendAll();
  }

  // ---- messages that come

  /**
   * Takes a message as `decodeDown` gives it. One that isn't for the client now is passed over.
   * @param {ReturnType<typeof import("./messages.js").decodeDown>} message
   * @returns {boolean} whether the client took it
   */
  receive(message) {
    if (message.word === "fault") return this.#receiveFault(message);
    if (!this.#isMine(message.session)) return false;
    if (message.word === "welcome") return this.#phase === "opening" && this.#receiveWelcome(message.ops);
    if (this.#phase !== "online" || message.r !== this.#taken + 1) return false;
    this.#taken += 1;
    this.#seen = message.z;
    this.#judge(message);
    return true;
  }

  #isMine({ client, incarnation, attempt }) {
    const own = this.#session;
    return client === own.client && incarnation === own.incarnation && attempt === own.attempt;
  }

  #judge(message) {
    switch (message.word) {
      case "gone": return this.#endSession();
      case "push": return message.values.forEach(({ path, value }) => this.#tellLive(path, message.z, value));
    }
    const oldest = this.#queue.oldest;
    const fits = message.q === this.#heard + 1 && this.#answers(message, oldest);
    if (!fits) return this.#endSession(BAD);
    this.#queue.shift();
    this.#heard += 1;
    return this.#settle(message, oldest);
  }

  // Whether the message is an answer of the kind that the oldest message waits for.
  #answers(message, oldest) {
    switch (message.word) {
      case "reply":
        return isWrite(oldest) && message.n === this.#baseOrZero() + this.#answered + 1 && (message.out.wrote || oldest.kind === "try");
      case "armed": return isAction(oldest);
      case "denied": return message.why === PLAN ? isAction(oldest) : oldest?.kind === "on";
      case "snap": return oldest?.kind === "on" && oldest.path.text === message.path.text;
      case "offdone": return oldest?.kind === "off";
    }
    return false;
  }

  #settle(message, { request, attempt, path }) {
    switch (message.word) {
      case "reply": {
        this.#answered += 1;
        if (message.out.wrote) this.#note({ type: "done", request, number: message.done });
        else if (attempt < MOST_TRIES) this.#ask(request, attempt + 1, path, message.out.held);
        else this.#note({ type: "toomany", request });
        break;
      }
      case "armed": this.#note({ type: "armed", request }); break;
      case "denied": {
        this.#note({ type: "denied", request, why: message.why });
        if (message.why !== PLAN && !this.#queue.listensTo(path)) this.#watches.delete(path.text);
        break;
      }
      case "snap":
        if (!this.#queue.listensTo(path)) this.#tell(path, message.z, message.value);
    }
  }

  #receiveWelcome(ops) {
    const base = this.#base ?? ops;
    const fits = base + this.#answered <= ops && ops <= base + this.#sent
      && base + this.#made <= GREATEST_NUMBER && this.#watches.size + this.#queue.length <= GREATEST_NUMBER;
    if (!fits) {
      this.#note({ type: "faulted", code: BAD });
      this.#phase = "off";
      return true;
    }
    this.#phase = "online";
    this.#base = base;
    this.#sent = this.#made;
    this.#heard = 0;
    this.#taken = 0;
    this.#queue.putBefore(this.#inOrder().map(({ path, request }) => onOf(path, request)));
    this.#note({ type: "connected", isOpen: true });
    this.#sendAll();
    return true;
  }

  #receiveFault({ session, code, last }) {
    const notice = { type: "faulted", code, last };
    if (session === null) {
      this.#note(notice);
      return true;
    }
    if (!this.#isMine(session) || this.#phase === "off") return false;
    if (this.#phase === "online" && code === SESSION) this.#endSession(code);
    else this.#note(notice);
    if (this.#phase === "opening") this.#phase = "off";
    return true;
  }

  // ---- steps that these share

  #baseOrZero() {
    return this.#base ?? 0;
  }

  #inOrder() {
    return [...this.#watches.values()].sort((a, b) => Path.compare(a.path, b.path));
  }

  // What the session told holds at the number of the last message.
  #shownOf({ isLive, shown }) {
    return isLive ? { number: this.#seen, value: shown.value } : shown;
  }

  #note(notice) {
    this.#notices.push(notice);
  }

  #ask(request, attempt, path, value) {
    this.#asks.set(request, { path, attempt, value });
    this.#note({ type: "ask", request, attempt, value });
  }

  #askOf(request) {
    const ask = this.#asks.get(request);
    if (ask === undefined) throw new NoSuchRequest();
    return ask;
  }

  #tell(path, number, value) {
    const watch = this.#watches.get(path.text);
    if (watch === undefined) return;
    watch.isLive = true;
    watch.shown = { number, value };
    this.#note({ type: "value", path, number, value });
  }

  // A Push is passed over for a path until the Snap that answers its last On.
  #tellLive(path, number, value) {
    if (this.isLive(path)) this.#tell(path, number, value);
  }

  #nextRequest() {
    this.#requests += 1;
    return this.#requests;
  }

  #checkRequest() {
    if (this.#requests >= GREATEST_NUMBER) throw new Spent();
  }

  #checkMessage() {
    if (this.#heard + this.#queue.length >= GREATEST_NUMBER) throw new Spent();
  }

  // Whether a write and a message have a number left.
  #checkNumbers() {
    if (this.#baseOrZero() + this.#made >= GREATEST_NUMBER) throw new Spent();
    this.#checkMessage();
  }

  #checkWrite() {
    this.#checkRequest();
    this.#checkNumbers();
  }

  #checkAction() {
    if (this.#phase !== "online") throw new Offline();
    this.#checkRequest();
    this.#checkMessage();
  }

  #checkLength(body) {
    if (this.#mostBytes < Infinity && byteLength(body) + MOST_AROUND > this.#mostBytes) throw new TooLong();
  }

  #write(body) {
    this.#checkLength(body);
    const request = this.#nextRequest();
    this.#enqueueWrite({ kind: "write", word: "op", body, request });
    return request;
  }

  #leave(word, body) {
    this.#checkLength(body);
    const request = this.#nextRequest();
    this.#enqueue({ kind: word, word, body, request });
    return request;
  }

  #enqueueWrite(message) {
    this.#enqueue(message);
    this.#made += 1;
    if (this.#phase === "online") this.#sent = this.#made;
  }

  #enqueue(message) {
    if (this.#phase === "online") {
      const q = this.#heard + this.#queue.length + 1;
      this.#sends.push(queuedText(message, this.#session, q, this.#baseOrZero() + this.#made + 1));
    }
    this.#queue.push(message);
  }

  #sendAll() {
    let q = this.#heard;
    let n = this.#baseOrZero() + this.#answered;
    for (const message of this.#queue) {
      q += 1;
      if (isWrite(message)) n += 1;
      this.#sends.push(queuedText(message, this.#session, q, n));
    }
  }

  // The session is left: its writes without an answer stay, and so does what it showed.
  #endSession(fault) {
    this.#note({ type: "connected", isOpen: false });
    for (const message of this.#queue) {
      if (isAction(message)) this.#note({ type: "lost", request: message.request });
    }
    if (fault !== undefined) this.#note({ type: "faulted", code: fault });
    this.#phase = "off";
    this.#heard = 0;
    this.#taken = 0;
    this.#queue.keepWrites();
    for (const watch of this.#watches.values()) {
      if (watch.isLive) watch.shown = { number: this.#seen, value: watch.shown.value };
      watch.isLive = false;
    }
  }
}

function onOf(path, request) {
  return { kind: "on", word: "on", body: JSON.stringify(path.text), request, path };
}
