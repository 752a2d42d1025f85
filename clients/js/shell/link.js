// A client's connection: it opens sockets, hands texts to and fro, beats, and comes back when one is lost.

import { Core } from "../core/core.js";
import { FAULTS, FaultOld, Superseded } from "../core/errors.js";
import { MOST_BYTES, decodeDown } from "../core/messages.js";
import { nextIncarnation } from "./storage.js";

const OLD = 2;
const ORDER = 4;
const BUSY = 6;
const MOST_RESENDS = 6;
const MOST_RENEWALS = 3;

/** How long things take, in milliseconds. */
export const TIMING = {
  /** Between two Beats: the server ends a session that is silent for 60,000. */
  beat: 20_000,
  /** For a socket to open and the Welcome to come. */
  open: 20_000,
  /** For the next answer, where one is due. */
  answer: 30_000,
  /** Before the first attempt to come back; it doubles with each further one. */
  firstPause: 500,
  /** The longest pause between attempts. */
  longestPause: 30_000,
};

// Between a half and the whole of it, so that many clients don't come back at once.
function jittered(pause) {
  return pause * (0.5 + Math.random() / 2);
}

function socketClass(given) {
  const found = given ?? globalThis.WebSocket;
  if (found) return found;
  throw new TypeError("there is no WebSocket here: hand one in, as connect(url, { WebSocket }) with that of the package ws, or start Node with --experimental-websocket");
}

/** A core, and what carries its messages. */
export class Link {
  #url;
  #options;
  #timing;
  #owner;
  #socket = null;
  #isWanted = false;
  #isStopped = false;
  // the greatest incarnation that the server has had of this client, as far as it is known
  #known = 0;
  #hasIncarnation = false;
  #renewals = 0;
  #losses = 0;
  #resends = 0;
  #progress = 0;
  #spoke = 0;
  #timers = { again: undefined, open: undefined, beat: undefined, resend: undefined };
  #isTelling = false;
  #waiting = [];

  /**
   * @param {string | URL} url
   * @param {object} options those of `connect`
   * @param {{ tell(notice: object): void, report(error: Error): void, stopped(error: Error): void }} owner is
   * told each notice of the core, what went wrong, and why the link stopped for good
   */
  constructor(url, options, owner) {
    this.#url = url;
    this.#options = options;
    this.#timing = { ...TIMING, ...options.timing };
    this.#owner = owner;
    socketClass(options.WebSocket);
    this.core = this.#newCore();
  }

  // The incarnation is the right one before anything goes out: see #open.
  #newCore() {
    return new Core(this.#options.client, 1, MOST_BYTES);
  }

  /** Whether another tab or program has the client's id now, so that this link has stopped. */
  get isStopped() {
    return this.#isStopped;
  }

  /** Begins again with a new core, and a new incarnation, where the link has stopped. */
  restart() {
    this.core = this.#newCore();
    this.#hasIncarnation = false;
    this.#isStopped = false;
  }

  /**
   * Makes a call of the core; then what it sends goes out, and what it notes is told.
   * @template T
   * @param {(core: Core) => T} call
   * @param {(made: T) => void} [before] is called with the result before anything is told
   * @returns {T}
   */
  run(call, before) {
    const hasWaited = this.core.unanswered > 0;
    const made = call(this.core);
    if (!hasWaited) this.#progress = Date.now();
    before?.(made);
    this.#flush();
    return made;
  }

  /** Connects, and comes back as often as the connection is lost. */
  goOnline() {
    if (this.#isWanted) return;
    this.#isWanted = true;
    globalThis.addEventListener?.("online", this.#hasNetwork);
    globalThis.addEventListener?.("offline", this.#hasNoNetwork);
    this.#losses = 0;
    this.#open();
  }

  /** Says goodbye, and stays away. */
  goOffline() {
    this.#isWanted = false;
    globalThis.removeEventListener?.("online", this.#hasNetwork);
    globalThis.removeEventListener?.("offline", this.#hasNoNetwork);
    clearTimeout(this.#timers.again);
    this.#timers.again = undefined;
    this.run((core) => core.goOffline());
    this.#close();
  }

  // ---- sockets

  #hasNetwork = () => {
    if (this.#socket === null && this.#timers.again !== undefined) this.#openNow();
  };

  #hasNoNetwork = () => {
    if (this.#socket !== null) this.#lose();
  };

  #openNow() {
    clearTimeout(this.#timers.again);
    this.#timers.again = undefined;
    this.#open();
  }

  // A socket to the server, once the incarnation is stored.
  async #open() {
    try {
      if (!this.#hasIncarnation) await this.#takeIncarnation();
      if (this.#isWanted && this.#socket === null && this.#timers.again === undefined) this.#connect();
    } catch (error) {
      this.#owner.report(error);
      if (this.#isWanted) this.#comeBack();
    }
  }

  async #takeIncarnation() {
    const { client, incarnation, storage } = this.#options;
    const core = this.core;
    const next = incarnation === undefined ? await nextIncarnation(storage, client, this.#known)
      : typeof incarnation === "function" ? await incarnation(this.#known) : incarnation;
    if (core !== this.core || this.#hasIncarnation) return;
    core.renew(next);
    this.#hasIncarnation = true;
  }

  #connect() {
    const Socket = socketClass(this.#options.WebSocket);
    const socket = new Socket(this.#url);
    this.#socket = socket;
    this.#timers.open = setTimeout(() => this.#lose(), this.#timing.open);
    socket.onopen = () => this.run((core) => core.goOnline());
    socket.onmessage = ({ data }) => this.#hear(data);
    socket.onclose = () => this.#lose();
    socket.onerror = () => {}; // a close comes after it
  }

  // The socket is given up; whatever it still has to say is passed over.
  #close() {
    const socket = this.#socket;
    this.#socket = null;
    this.#resends = 0;
    for (const name of ["open", "resend"]) clearTimeout(this.#timers[name]);
    clearInterval(this.#timers.beat);
    Object.assign(this.#timers, { open: undefined, resend: undefined, beat: undefined });
    if (socket === null) return;
    socket.onopen = socket.onmessage = socket.onclose = null;
    socket.onerror = () => {};
    socket.close();
  }

  // The connection is lost: another is made after a while.
  #lose() {
    this.#close();
    if (this.#isWanted) this.#comeBack();
    this.run((core) => core.lost());
  }

  #comeBack() {
    const { firstPause, longestPause } = this.#timing;
    const pause = Math.min(firstPause * 2 ** this.#losses, longestPause);
    this.#losses += 1;
    clearTimeout(this.#timers.again);
    this.#timers.again = setTimeout(() => this.#openNow(), jittered(pause));
  }

  // Another tab or program goes on under the client's id: two that took it from each other would never end.
  #stop(error = new Superseded()) {
    this.#known = Math.max(this.#known, this.core.incarnation);
    this.#isStopped = true;
    this.goOffline();
    this.#owner.stopped(error);
  }

  // ---- messages

  #flush() {
    for (const text of this.core.takeSends()) {
      if (this.#socket === null) continue;
      this.#socket.send(text);
      this.#spoke = Date.now();
    }
    for (const notice of this.core.takeNotices()) this.#waiting.push(notice);
    if (this.#isTelling) return; // by what is told now
    this.#isTelling = true;
    try {
      for (let notice = this.#waiting.shift(); notice; notice = this.#waiting.shift()) this.#handle(notice);
    } finally {
      this.#isTelling = false;
    }
  }

  #hear(data) {
    let message;
    try {
      message = decodeDown(typeof data === "string" ? data : "");
    } catch (error) {
      this.#owner.report(error);
      this.#lose();
      return;
    }
    const socket = this.#socket;
    const isTaken = this.run((core) => core.receive(message));
    if (this.#socket !== socket) return; // what was told has ended it
    if (isTaken && message.word !== "fault") this.#advance();
    if (isTaken && message.word === "gone" && message.why === "superseded") this.#stop();
    else if (this.core.phase === "off" || this.core.misses(message)) this.#lose();
    else if (Date.now() - this.#spoke > this.#timing.beat) this.#beat(); // timers of hidden pages may sleep
  }

  // The server goes on answering.
  #advance() {
    this.#progress = Date.now();
    this.#resends = 0;
  }

  #handle(notice) {
    if (notice.type === "faulted") this.#onFault(notice);
    if (notice.type === "connected" && notice.isOpen) this.#onWelcome();
    this.#owner.tell(notice);
  }

  #onWelcome() {
    clearTimeout(this.#timers.open);
    this.#losses = 0;
    this.#renewals = 0;
    this.#progress = Date.now();
    this.#timers.beat = setInterval(() => this.#beat(), this.#timing.beat);
  }

  #beat() {
    const isLate = this.core.unanswered > 0 && Date.now() - this.#progress > this.#timing.answer;
    if (isLate) this.#lose();
    else this.run((core) => core.beat());
  }

  // ---- refused messages

  #onFault({ code, last }) {
    if (code === OLD) return this.#onOld(last);
    this.#owner.report(new FAULTS[code]());
    if (this.core.phase !== "online") return undefined; // what heard it loses the connection
    if (code === BUSY || code === ORDER) return this.#resendSoon();
    return this.#lose();
  }

  // A first incarnation that the server has seen already, or a greater one, is counted on from that one: so
  // a client whose storage was emptied comes in. One that was welcomed before has been overtaken.
  #onOld([incarnation]) {
    this.#known = Math.max(this.#known, incarnation);
    if (this.core.wasWelcomed || this.#renewals === MOST_RENEWALS) return this.#stop();
    if (typeof this.#options.incarnation === "number") {
      return this.#stop(new FaultOld(`the server has had incarnation ${incarnation} of this client: hand in a greater one`));
    }
    this.#renewals += 1;
    this.#hasIncarnation = false;
    return undefined;
  }

  // A message that the server couldn't keep is sent again, and with it those behind it, which came out of order.
  #resendSoon() {
    if (this.#timers.resend !== undefined) return;
    if (this.#resends === MOST_RESENDS) {
      this.#lose();
      return;
    }
    const pause = jittered(Math.min(this.#timing.firstPause * 2 ** this.#resends, this.#timing.longestPause));
    this.#resends += 1;
    this.#timers.resend = setTimeout(() => {
      this.#timers.resend = undefined;
      this.run((core) => core.resend());
    }, pause);
  }
}

