// What the tests share: servers, real and false ones, what stands between them and a client, and patience.

import { spawn } from "node:child_process";
import { createHash } from "node:crypto";
import { existsSync, mkdtempSync, rmSync } from "node:fs";
import { createServer as createHttp } from "node:http";
import { createRequire } from "node:module";
import { connect as connectTcp, createServer as createTcp } from "node:net";
import { tmpdir } from "node:os";
import { join } from "node:path";
import { createInterface } from "node:readline";
import { parse } from "../core/json.js";

/** How long a test waits for what has to come. Nothing is measured by it. */
export const PATIENCE = 90_000;

/** Short pauses, so that tests which lose connections don't wait for long ones, and patience with slow machines. */
export const QUICK = { firstPause: 20, longestPause: 100, open: PATIENCE, answer: PATIENCE };

function packageWs() {
  const require = createRequire(import.meta.url);
  for (const name of ["ws", "/usr/share/nodejs/ws"]) { // Debian's place comes last
    try {
      return require(name);
    } catch {
      // it isn't there
    }
  }
  return undefined;
}

/** Node's own WebSocket, or that of the package ws. */
export const WebSocket = globalThis.WebSocket ?? packageWs();
if (WebSocket === undefined) {
  throw new Error("the tests need a WebSocket: run node --experimental-websocket --test, or install the package ws (Debian: node-ws)");
}

export const sleep = (ms) => new Promise((resolve) => setTimeout(resolve, ms));

/** Waits until the answer is something, and answers it. */
export async function until(what, answer) {
  const end = Date.now() + PATIENCE;
  for (;;) {
    const found = await answer();
    if (found) return found;
    if (Date.now() > end) throw new Error(`never came: ${what}`);
    await sleep(10);
  }
}

/** A storage in memory, as a browser's. */
export function memory(texts = new Map()) {
  return { texts, getItem: (name) => texts.get(name) ?? null, setItem: (name, text) => void texts.set(name, text) };
}

/** A directory that is gone after the test, once what was to be done after it before has been done. */
export function scratch(t) {
  const directory = mkdtempSync(join(tmpdir(), "presence-"));
  t.after(() => rmSync(directory, { recursive: true, force: true, maxRetries: 20, retryDelay: 100 }));
  return directory;
}

/** A port that nobody listens to. */
export async function freePort() {
  const server = createTcp();
  await new Promise((resolve) => server.listen(0, "127.0.0.1", resolve));
  const { port } = server.address();
  await new Promise((resolve) => server.close(resolve));
  return port;
}

// ---- the program

const PROGRAM = process.env.PRESENCE_PROGRAM;

/** Why a test with the program is left out, false where it isn't. Where a program is named it has to be there. */
export const noProgram = PROGRAM ? false : "PRESENCE_PROGRAM names no server program";
if (PROGRAM && !existsSync(PROGRAM)) throw new Error(`PRESENCE_PROGRAM names ${PROGRAM}, and no such file is there`);

/** The program as a server over a file. */
export class RealServer {
  constructor(t) {
    t.after(() => this.kill());
    this.file = join(scratch(t), "presence.db");
  }

  async start() {
    this.port ??= await freePort();
    const child = spawn(PROGRAM, ["serve", `127.0.0.1:${this.port}`, this.file], { stdio: ["ignore", "pipe", "inherit"] });
    this.child = child;
    this.ended = new Promise((resolve) => child.once("exit", resolve));
    const lines = createInterface({ input: child.stdout });
    await new Promise((resolve, reject) => {
      lines.once("line", resolve);
      child.once("error", reject);
      child.once("exit", () => reject(new Error("the server program ended before it listened")));
    });
    return this;
  }

  get url() {
    return `ws://127.0.0.1:${this.port}/`;
  }

  async kill() {
    this.child?.kill("SIGKILL");
    await this.ended;
  }
}

/** A server of the program that runs until the test ends. */
export async function realServer(t) {
  return new RealServer(t).start();
}

// ---- what stands between

/** Hands bytes to and fro between clients and a port, until it is told to cut. */
export class Proxy {
  #pairs = new Set();
  #isDeaf = false;

  static async before(t, port) {
    const proxy = new Proxy();
    proxy.server = createTcp((near) => proxy.#join(near, connectTcp(port, "127.0.0.1")));
    await new Promise((resolve) => proxy.server.listen(0, "127.0.0.1", resolve));
    t.after(() => {
      proxy.cut();
      proxy.server.close();
    });
    return proxy;
  }

  get url() {
    return `ws://127.0.0.1:${this.server.address().port}/`;
  }

  #join(near, far) {
    const pair = { near, far };
    const end = () => {
      this.#pairs.delete(pair);
      near.destroy();
      far.destroy();
    };
    this.#pairs.add(pair);
    near.on("data", (bytes) => far.write(bytes)).on("close", end).on("error", end);
    far.on("data", (bytes) => this.#isDeaf || near.write(bytes)).on("close", end).on("error", end);
  }

  /** From now on nothing that the server says comes through. */
  deafen() {
    this.#isDeaf = true;
  }

  /** Cuts all connections; new ones come through. */
  cut() {
    this.#isDeaf = false;
    for (const { near, far } of this.#pairs) {
      near.destroy();
      far.destroy();
    }
  }
}

// ---- false servers

const HANDSHAKE = "258EAFA5-E914-47DA-95CA-C5AB0DC85B11";
const TEXT = 1;
const CLOSE = 8;

// The frames of a client (RFC 6455), of which the tests send short and whole ones.
class Frames {
  #bytes = Buffer.alloc(0);

  *read(more) {
    this.#bytes = Buffer.concat([this.#bytes, more]);
    for (let frame = this.#next(); frame; frame = this.#next()) yield frame;
  }

  #next() {
    const bytes = this.#bytes;
    if (bytes.length < 2) return undefined;
    const short = bytes[1] & 0x7f;
    const wide = { 126: 2, 127: 8 }[short] ?? 0;
    if (bytes.length < 6 + wide) return undefined;
    const length = wide === 0 ? short : bytes.readUIntBE(4 * (wide === 8) + 2, wide === 8 ? 6 : 2);
    const begin = 6 + wide;
    if (bytes.length < begin + length) return undefined;
    const mask = bytes.subarray(begin - 4, begin);
    const body = Buffer.from(bytes.subarray(begin, begin + length).map((byte, i) => byte ^ mask[i % 4]));
    this.#bytes = bytes.subarray(begin + length);
    return { kind: bytes[0] & 0x0f, body };
  }
}

function frameOf(text) {
  const body = Buffer.from(text);
  const head = body.length < 126 ? Buffer.from([0x80 | TEXT, body.length]) : Buffer.from([0x80 | TEXT, 126, body.length >> 8, body.length & 0xff]);
  return Buffer.concat([head, body]);
}

/** A connection to a false server. */
class Peer {
  heard = [];

  constructor(socket, answer) {
    this.socket = socket;
    const frames = new Frames();
    socket.on("error", () => {});
    socket.on("data", (bytes) => {
      for (const { kind, body } of frames.read(bytes)) {
        if (kind === CLOSE) socket.end();
        if (kind !== TEXT) continue;
        const message = Object.fromEntries(parse(body.toString()));
        this.heard.push(message);
        answer(message, this);
      }
    });
  }

  /** Says the message, in the session of the last one that came, or a text as it is. */
  say(message) {
    const text = typeof message === "string" ? message : JSON.stringify({ s: this.heard.at(-1).s, ...message });
    this.socket.write(frameOf(text));
  }

  cut() {
    this.socket.destroy();
  }
}

/** A server of which the test decides every answer. */
export class FalseServer {
  /** The connections so far. */
  peers = [];

  /** @param {(message: object, peer: Peer, server: FalseServer) => void} answer is called with each message */
  static async start(t, answer) {
    const server = new FalseServer();
    server.http = createHttp();
    server.http.on("upgrade", (request, socket) => {
      const accept = createHash("sha1").update(request.headers["sec-websocket-key"] + HANDSHAKE).digest("base64");
      socket.write(`HTTP/1.1 101 Switching Protocols\r\nUpgrade: websocket\r\nConnection: Upgrade\r\nSec-WebSocket-Accept: ${accept}\r\n\r\n`);
      server.peers.push(new Peer(socket, (message, peer) => answer(message, peer, server)));
    });
    await new Promise((resolve) => server.http.listen(0, "127.0.0.1", resolve));
    t.after(() => {
      for (const peer of server.peers) peer.cut();
      server.http.close();
    });
    return server;
  }

  get url() {
    return `ws://127.0.0.1:${this.http.address().port}/`;
  }

  /** All that came over all connections. */
  get heard() {
    return this.peers.flatMap(({ heard }) => heard);
  }
}
