// The library against the server's program, over TCP connections that the tests cut.

import assert from "node:assert/strict";
import { spawn } from "node:child_process";
import { once } from "node:events";
import { test } from "node:test";
import { fileURLToPath } from "node:url";
import * as presence from "../index.js";
import { PATIENCE, Proxy, QUICK, RealServer, WebSocket, memory, noProgram, realServer, scratch, until } from "./support.mjs";

const { child, connect, get, goOffline, goOnline, onConnected, onDisconnect, onError, onValue, ref, remove, runTransaction, serverTimestamp, set, update } = presence;

const withProgram = { skip: noProgram, timeout: 4 * PATIENCE };
const slowly = { skip: noProgram, timeout: 20 * PATIENCE }; // hundreds of writes that are saved one by one

function client(t, url, id, options = {}) {
  const db = connect(url, { client: id, storage: memory(), WebSocket, timing: { ...QUICK, beat: 5_000 }, ...options });
  db.errors = [];
  onError(db, (error) => db.errors.push(error));
  t.after(() => goOffline(db));
  return db;
}

const online = (db) => until(`${db.client} is online`, () => db.isConnected);

test("values come back as they were written", withProgram, async (t) => {
  const { url } = await realServer(t);
  const db = client(t, url, "alice");
  const place = ref(db, "/values");
  const value = { text: "\u{1f600} \" \\ \u0001 \u2028", yes: true, no: false, zero: 0, least: -(2n ** 63n), past: 2n ** 53n + 1n, list: [1, null, { a: 2 }], none: null, empty: {} };
  assert.ok((await set(place, value)) >= 2);
  const read = await get(place);
  assert.deepEqual(read.val(), { text: value.text, yes: true, no: false, zero: 0, least: value.least, past: value.past, list: { 0: 1, 2: { a: 2 } } });
  assert.equal(read.child("list/2/a").val(), 2);
  assert.equal(read.hasChild("none"), false);
  await update(place, { "list/2": 7, text: null, "deep/er": serverTimestamp() });
  const after = (await get(child(place, "deep/er"))).val();
  assert.ok(Math.abs(after - Date.now()) < PATIENCE);
  assert.deepEqual((await get(child(place, "list"))).val(), { 0: 1, 2: 7 });
  await remove(place);
  assert.equal((await get(place)).exists(), false);
  const keys = [];
  await set(ref(db, "/order"), { "\u{1f600}": 1, "\uffee": 2, 10: 3, 9: 4 });
  (await get(ref(db, "/order"))).forEach(({ key }) => void keys.push(key));
  assert.deepEqual(keys, ["10", "9", "\uffee", "\u{1f600}"]);
});

test("a client comes back after the server was killed, and what it wrote meanwhile stands", withProgram, async (t) => {
  const server = await new RealServer(t).start();
  const db = client(t, server.url, "alice");
  const seen = [];
  onValue(ref(db, "/a"), (snapshot) => seen.push(snapshot.val()));
  await set(ref(db, "/a"), 1);
  await server.kill();
  await until("the loss", () => !db.isConnected);
  assert.equal(seen.at(-1), 1);
  const late = [set(ref(db, "/a"), 2), set(ref(db, "/b"), 3)];
  await server.start();
  const numbers = await Promise.all(late);
  assert.ok(numbers[0] < numbers[1]);
  await until("the value that was written meanwhile", () => seen.at(-1) === 2);
  assert.equal((await get(ref(db, "/b"))).val(), 3);
});

test("a write whose answer was lost is sent again, and carried out once", withProgram, async (t) => {
  const server = await realServer(t);
  const proxy = await Proxy.before(t, server.port);
  const watcher = client(t, server.url, "watcher");
  const seen = [];
  onValue(ref(watcher, "/x"), (snapshot) => seen.push([snapshot.number, snapshot.val()]));
  const db = client(t, proxy.url, "alice");
  await set(ref(db, "/before"), 1);
  await until("the listener", () => seen.length === 1);
  proxy.deafen();
  const write = set(ref(db, "/x"), serverTimestamp());
  await until("the write is carried out", () => seen.length === 2);
  proxy.cut();
  const number = await write;
  assert.equal(number, seen[1][0]); // that of the first time
  await set(ref(watcher, "/own"), 1); // its answer comes behind all that was written before
  assert.equal(seen.length, 2);
  assert.equal((await get(ref(watcher, "/x"))).val(), seen[1][1]);
});

test("what a process left is carried out when it is killed", withProgram, async (t) => {
  const { url } = await realServer(t);
  const watcher = client(t, url, "watcher");
  const seen = [];
  onValue(ref(watcher, "/online/leaver"), (snapshot) => seen.push(snapshot.val()));
  const leaver = spawn(process.execPath, [...process.execArgv, fileURLToPath(new URL("leaver.mjs", import.meta.url)), url, scratch(t)], { stdio: ["ignore", "pipe", "inherit"] });
  t.after(() => leaver.kill("SIGKILL"));
  const [text] = await once(leaver.stdout, "data");
  assert.equal(String(text), "there\n");
  await until("it is there", () => seen.at(-1) === true);
  const before = Date.now();
  leaver.kill("SIGKILL");
  await until("it is gone", () => seen.at(-1) === null);
  const last = (await get(ref(watcher, "/seen/leaver"))).val();
  assert.ok(last >= before - 2000 && last <= Date.now() + 2000);
  assert.deepEqual(seen, [null, true, null]);
});

test("transactions of four clients count to 400", slowly, async (t) => {
  const { url } = await realServer(t);
  const clients = ["a", "b", "c", "d"].map((id) => client(t, url, id));
  let overtaken = 0;
  const hundred = async (db) => {
    onValue(ref(db, "/n"), () => {}); // so that each transaction begins with the value that stands there
    for (let made = 0; made < 100;) {
      try {
        const { committed } = await runTransaction(ref(db, "/n"), (n) => (n ?? 0) + 1);
        assert.equal(committed, true);
        made += 1;
      } catch (error) {
        if (error.name !== "TooManyTries") throw error;
        overtaken += 1; // 25 times in a row; it has written nothing
      }
    }
  };
  await Promise.all(clients.map(hundred));
  const reader = client(t, url, "reader");
  assert.equal((await get(ref(reader, "/n"))).val(), 400);
  t.diagnostic(`${overtaken} transactions were overtaken 25 times and begun again`);
});

test("a listener misses nothing while its connection is cut 50 times", slowly, async (t) => {
  const server = await realServer(t);
  const proxy = await Proxy.before(t, server.port);
  const writer = client(t, server.url, "writer");
  const listener = client(t, proxy.url, "listener");
  const seen = [];
  onValue(ref(listener, "/k"), (snapshot) => seen.push([snapshot.number, snapshot.val() ?? 0]));
  await until("the first value", () => seen.length > 0);
  let losses = 0;
  onConnected(listener, (isConnected) => { losses += isConnected ? 0 : 1; });
  for (let k = 1; k <= 50; k += 1) {
    const write = set(ref(writer, "/k"), k);
    if (k % 2 === 0) await write;
    proxy.cut();
    await write;
    await until(`value ${k}`, () => seen.at(-1)[1] === k);
  }
  assert.ok(losses >= 45, `${losses} losses`);
  for (let i = 1; i < seen.length; i += 1) {
    assert.ok(seen[i - 1][0] <= seen[i][0] && seen[i - 1][1] <= seen[i][1], `${seen[i - 1]} came before ${seen[i]}`);
  }
});

test("writes that are made offline stand in their order", withProgram, async (t) => {
  const { url } = await realServer(t);
  const watcher = client(t, url, "watcher");
  const seen = [];
  onValue(ref(watcher, "/w"), (snapshot) => seen.push(snapshot.val()));
  await until("the first value", () => seen.length === 1);
  const db = client(t, url, "alice");
  await online(db);
  goOffline(db);
  const order = [];
  const writes = [1, 2, 3, 4, 5].map((k) => set(ref(db, "/w"), k).then((number) => {
    order.push(k);
    return number;
  }));
  assert.equal((await get(ref(watcher, "/w"))).val(), null);
  goOnline(db);
  const numbers = await Promise.all(writes);
  assert.deepEqual(numbers, [...numbers].sort((a, b) => a - b));
  assert.deepEqual(order, [1, 2, 3, 4, 5]);
  await until("the last value", () => seen.at(-1) === 5);
  assert.deepEqual(seen, [null, 1, 2, 3, 4, 5]);
});

test("of two tabs with one id the older one stops, and no fight goes on", withProgram, async (t) => {
  const { url } = await realServer(t);
  const storage = memory();
  const changes = [];
  const tab = async (name) => {
    const db = client(t, url, "alice", { storage });
    onConnected(db, (isConnected) => changes.push(`${name} ${isConnected}`));
    await online(db);
    return db;
  };
  const older = await tab("older");
  const newer = await tab("newer");
  await until("the older one stops", () => older.errors.length === 1);
  assert.equal(older.errors[0].name, "Superseded");
  await new Promise((resolve) => setTimeout(resolve, 2000));
  assert.equal(newer.isConnected, true);
  assert.deepEqual(newer.errors, []);
  const before = changes.length;
  goOnline(older); // the user comes back to the older tab
  await online(older);
  await until("the newer one stops", () => newer.errors.length === 1);
  assert.equal(newer.errors[0].name, "Superseded");
  assert.equal(await set(ref(older, "/a"), 1) > 0, true);
  assert.deepEqual(changes.slice(before).filter((change) => change.endsWith("true")), ["older true"]);
});

test("an incarnation that was used is refused by the server", withProgram, async (t) => {
  const { url } = await realServer(t);
  const first = client(t, url, "alice", { incarnation: 5 });
  await set(ref(first, "/a"), 1);
  const second = client(t, url, "alice", { incarnation: 4 });
  await assert.rejects(set(ref(second, "/a"), 2), { name: "FaultOld", number: 2 });
  assert.equal((await get(ref(first, "/a"))).val(), 1);
});

test("the server denies the 257th place of a session's end, and its 257th listener", slowly, async (t) => {
  const { url } = await realServer(t);
  const db = client(t, url, "alice");
  await online(db);
  const left = await Promise.allSettled(Array.from({ length: 257 }, (_, i) => onDisconnect(ref(db, `/p/${i}`)).set(i)));
  assert.deepEqual(left.slice(0, 256).filter(({ status }) => status !== "fulfilled"), []);
  assert.equal(left[256].reason.name, "DeniedPlan");
  const denied = new Promise((resolve) => {
    for (let i = 0; i < 257; i += 1) onValue(ref(db, `/l/${i}`), () => {}, (error) => resolve([i, error.name]));
  });
  assert.deepEqual(await denied, [256, "DeniedListens"]);
  await onDisconnect(ref(db, "/p")).cancel();
  goOffline(db);
  const watcher = client(t, url, "watcher");
  assert.equal((await get(ref(watcher, "/p"))).val(), null);
});

test("what was left is carried out at goOffline, and a cancelled place keeps its value", withProgram, async (t) => {
  const { url } = await realServer(t);
  const db = client(t, url, "alice");
  await online(db);
  await update(ref(db, "/u"), { a: 9, c: 3 });
  await onDisconnect(ref(db, "/u")).set({ a: 1, b: 2 });
  await onDisconnect(ref(db, "/u/a")).cancel();
  goOffline(db);
  const watcher = client(t, url, "watcher");
  await until("the session's end", async () => (await get(ref(watcher, "/u/b"))).val() === 2);
  assert.deepEqual((await get(ref(watcher, "/u"))).val(), { a: 9, b: 2 });
});

test("a write that is too long is refused here, and the connection stays", withProgram, async (t) => {
  const { url } = await realServer(t);
  const db = client(t, url, "alice");
  await assert.rejects(set(ref(db, "/a"), "x".repeat(1_048_576)), { name: "TooLong", number: 3 });
  const text = "\u00e9".repeat(500_000);
  await set(ref(db, "/a"), text);
  assert.equal((await get(ref(db, "/a"))).val(), text);
  assert.deepEqual(db.errors, []);
});
