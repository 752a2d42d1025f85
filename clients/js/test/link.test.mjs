// The shell against servers of which the test decides every answer: what is lost, refused, late or wrong.

import assert from "node:assert/strict";
import { readdirSync, readFileSync } from "node:fs";
import { test } from "node:test";
import * as presence from "../index.js";
import { nextIncarnation } from "../shell/storage.js";
import { FalseServer, PATIENCE, QUICK, WebSocket, memory, scratch, sleep, until } from "./support.mjs";

const { connect, goOffline, goOnline, onConnected, onDisconnect, onError, onValue, ref, runTransaction, set } = presence;

// A client of the server that goes away with the test. What goes wrong is in `errors`.
function client(t, server, options = {}) {
  const db = connect(server.url, { client: "alice", storage: memory(), WebSocket, ...options, timing: { ...QUICK, ...options.timing } });
  const errors = [];
  onError(db, (error) => errors.push(error));
  t.after(() => goOffline(db));
  return { db, errors };
}

const names = (errors) => errors.map(({ name }) => name);

// Welcomes every Hello, and counts the writes.
function welcoming(answer) {
  let ops = 0;
  let r = 0;
  return (message, peer, server) => {
    const say = (word, fields) => peer.say({ m: word, r: (r += 1), z: 100 + r, ...fields });
    if (message.m === "hello") {
      r = 0;
      peer.say({ m: "welcome", z: 1, ops });
    } else if (answer?.(message, peer, { say, server }) !== true && message.m === "op") {
      ops = Math.max(ops, message.n);
      say("reply", { q: message.q, n: message.n, done: 10 + message.n, out: "wrote" });
    }
  };
}

const timed = { timeout: 2 * PATIENCE };

test("a Hello that is refused as full is tried again, as the next attempt", timed, async (t) => {
  const server = await FalseServer.start(t, (message, peer) => {
    if (message.m === "hello" && message.s[2] < 3) peer.say({ m: "fault", code: 5 });
    else welcoming()(message, peer, server);
  });
  const { db, errors } = client(t, server);
  assert.equal(await set(ref(db, "a"), 1), 11);
  assert.deepEqual(names(errors), ["FaultFull", "FaultFull"]);
  assert.deepEqual(server.heard.filter(({ m }) => m === "hello").map(({ s }) => s), [["alice", 1, 1], ["alice", 1, 2], ["alice", 1, 3]]);
});

test("a write that the server couldn't keep is sent again on the same connection, and those behind it", timed, async (t) => {
  let refusals = 2;
  const server = await FalseServer.start(t, welcoming((message, peer) => {
    if (message.m !== "op" || refusals === 0) return false;
    refusals -= 1;
    peer.say({ m: "fault", code: message.q === 1 ? 6 : 4 });
    return true;
  }));
  const { db, errors } = client(t, server);
  const numbers = await Promise.all([set(ref(db, "a"), 1), set(ref(db, "a"), 2)]);
  assert.deepEqual(numbers, [11, 12]);
  assert.deepEqual(names(errors), ["FaultBusy", "FaultOrder"]);
  assert.equal(server.peers.length, 1);
  assert.deepEqual(server.heard.filter(({ m }) => m === "op").map(({ q }) => q), [1, 2, 1, 2]);
});

test("a server that stays busy is left, and asked again later", timed, async (t) => {
  const server = await FalseServer.start(t, welcoming((message, peer, { server: { peers } }) => {
    if (message.m !== "op" || peers.length > 1) return false;
    peer.say({ m: "fault", code: 6 });
    return true;
  }));
  const { db } = client(t, server);
  assert.equal(await set(ref(db, "a"), 1), 11);
  assert.equal(server.peers.length, 2);
});

for (const [code, name] of [[1, "FaultBad"], [3, "FaultSession"], [7, "FaultSpent"], [8, "FaultDown"]]) {
  test(`a write that is refused as ${name} goes out again in the next session, with its number`, timed, async (t) => {
    const server = await FalseServer.start(t, welcoming((message, peer, { server: { peers } }) => {
      if (message.m !== "op" || peers.length > 1) return false;
      peer.say({ m: "fault", code });
      return true;
    }));
    const { db, errors } = client(t, server);
    assert.equal(await set(ref(db, "a"), 1), 11);
    assert.deepEqual(names(errors), [name]);
    assert.equal(errors[0].number, code);
    assert.deepEqual(server.heard.filter(({ m }) => m === "op").map(({ s, q, n }) => [s[2], q, n]), [[1, 1, 1], [2, 1, 1]]);
  });
}

test("the first Hello of a client whose count was lost is old, and its count goes on from the server's", timed, async (t) => {
  const storage = memory();
  const server = await FalseServer.start(t, (message, peer) => {
    if (message.m === "hello" && message.s[1] <= 7) peer.say({ m: "fault", code: 2, last: [7, 3] });
    else welcoming()(message, peer, server);
  });
  const { db, errors } = client(t, server, { storage });
  assert.equal(await set(ref(db, "a"), 1), 11);
  assert.deepEqual(errors, []);
  assert.deepEqual(server.heard[1].s, ["alice", 8, 1]);
  assert.deepEqual([...storage.texts], [["presence-incarnation-alice", "8"]]);
});

test("an incarnation that is handed in and old stops the client, and says what the last one was", timed, async (t) => {
  const server = await FalseServer.start(t, (message, peer) => peer.say({ m: "fault", code: 2, last: [7, 3] }));
  const { db, errors } = client(t, server, { incarnation: 5 });
  await assert.rejects(set(ref(db, "a"), 1), { name: "FaultOld", number: 2, message: /incarnation 7/ });
  assert.deepEqual(names(errors), ["FaultOld"]);
  await sleep(300);
  assert.equal(server.peers.length, 1);
});

test("an incarnation may be handed in by a function, which is told the last one", timed, async (t) => {
  const server = await FalseServer.start(t, (message, peer) => {
    if (message.m === "hello" && message.s[1] <= 7) peer.say({ m: "fault", code: 2, last: [7, 3] });
    else welcoming()(message, peer, server);
  });
  const { db } = client(t, server, { incarnation: async (above) => above + 2 });
  await set(ref(db, "a"), 1);
  assert.deepEqual(server.heard.slice(0, 2).map(({ s }) => s[1]), [2, 9]);
});

test("a client that a newer one has taken the place of stops, and says so", timed, async (t) => {
  const server = await FalseServer.start(t, welcoming((message, peer, { say }) => {
    if (message.m === "op") say("gone", { why: "superseded" });
    return true;
  }));
  const { db, errors } = client(t, server);
  const connected = [];
  onConnected(db, (isConnected) => connected.push(isConnected));
  await assert.rejects(set(ref(db, "a"), 1), { name: "Superseded" });
  assert.deepEqual(names(errors), ["Superseded"]);
  await sleep(300);
  assert.equal(server.peers.length, 1);
  assert.equal(connected.at(-1), false);
});

test("one whose newer one came while it was away stops, too, and goOnline takes the place back", timed, async (t) => {
  let last = 0;
  const server = await FalseServer.start(t, (message, peer) => {
    if (message.m === "hello" && message.s[1] < last) peer.say({ m: "fault", code: 2, last: [last, 1] });
    else welcoming((asked, other, { say }) => asked.m === "on" && (say("snap", { q: asked.q, path: asked.path, value: 5 }), true))(message, peer, server);
  });
  const { db, errors } = client(t, server);
  const values = [];
  onValue(ref(db, "a"), (snapshot) => values.push(snapshot.val()));
  await until("the first value", () => values.length === 1);
  last = 9;
  server.peers[0].cut();
  await until("the client stops", () => errors.length === 1);
  assert.deepEqual(names(errors), ["Superseded"]);
  goOnline(db);
  await until("the second value", () => values.length === 2);
  assert.deepEqual(server.heard.at(-1).s, ["alice", 10, 1]);
});

test("the count is stored before the first packet", timed, async (t) => {
  const events = [];
  const server = await FalseServer.start(t, (message, peer) => {
    events.push(`heard ${message.m} ${message.s[1]}`);
    welcoming()(message, peer, server);
  });
  const storage = {
    getItem: async () => "41",
    setItem: async (name, text) => {
      await sleep(100);
      events.push(`stored ${text}`);
    },
  };
  const { db } = client(t, server, { storage });
  await set(ref(db, "a"), 1);
  assert.deepEqual(events, ["stored 42", "heard hello 42", "heard op 42"]);
});

test("a storage that fails is reported, and asked again", timed, async (t) => {
  let failures = 2;
  const storage = memory();
  const server = await FalseServer.start(t, welcoming());
  const { db, errors } = client(t, server, { storage: { ...storage, setItem: (name, text) => {
    if (failures > 0) throw new Error(`full ${failures--}`);
    storage.setItem(name, text);
  } } });
  await set(ref(db, "a"), 1);
  assert.deepEqual(errors.map(({ message }) => message), ["full 2", "full 1"]);
});

test("files keep the count of each client", timed, async (t) => {
  const directory = `${scratch(t)}/counts`;
  const server = await FalseServer.start(t, welcoming());
  for (const id of ["alice", "alice", "bob"]) {
    const { db } = client(t, server, { client: id, storage: directory });
    await set(ref(db, "a"), 1);
    goOffline(db);
  }
  assert.deepEqual(server.heard.filter(({ m }) => m === "hello").map(({ s }) => s.slice(0, 2)), [["alice", 1], ["alice", 2], ["bob", 1]]);
  assert.deepEqual(readdirSync(directory).sort(), ["presence-incarnation-alice", "presence-incarnation-bob"]);
  assert.equal(readFileSync(`${directory}/presence-incarnation-alice`, "utf8"), "2");
});

test("two clients of one program that start at once get counts of their own", timed, async () => {
  const storage = { ...memory(), getItem: async (name) => { await sleep(20); return storage.texts.get(name) ?? null; } };
  const counts = await Promise.all([1, 2, 3].map(() => nextIncarnation(storage, "alice", 0)));
  assert.deepEqual(counts, [1, 2, 3]);
});

test("what the server denies is refused where it was asked", timed, async (t) => {
  const server = await FalseServer.start(t, welcoming((message, peer, { say }) => {
    if (message.m === "left") return say("denied", { q: message.q, why: 1 }), true;
    if (message.m === "on") return say("denied", { q: message.q, why: 2 }), true;
    return false;
  }));
  const { db } = client(t, server);
  await until("the session", () => db.isConnected);
  await assert.rejects(onDisconnect(ref(db, "a")).remove(), { name: "DeniedPlan", number: 1 });
  await assert.rejects(presence.get(ref(db, "a")), { name: "DeniedListens", number: 2 });
  const denied = new Promise((resolve) => onValue(ref(db, "a"), () => {}, resolve));
  assert.equal((await denied).name, "DeniedListens");
});

test("a transaction that is overtaken 25 times is given up", timed, async (t) => {
  let tries = 0;
  const server = await FalseServer.start(t, welcoming((message, peer, { say }) => {
    if (message.m !== "op") return false;
    tries += 1;
    say("reply", { q: message.q, n: message.n, done: tries, out: { stale: tries } });
    return true;
  }));
  const { db } = client(t, server);
  const seen = [];
  await assert.rejects(runTransaction(ref(db, "n"), (value) => {
    seen.push(value);
    return -1;
  }), { name: "TooManyTries" });
  assert.deepEqual(seen, [null, ...Array.from({ length: 24 }, (_, i) => i + 1)]);
});

test("a transaction that gives up, throws or asks for what is no value writes nothing", timed, async (t) => {
  const server = await FalseServer.start(t, welcoming());
  const { db } = client(t, server);
  await until("the session", () => db.isConnected);
  const result = await runTransaction(ref(db, "n"), () => undefined);
  assert.equal(result.committed, false);
  assert.equal(result.snapshot.val(), null);
  await assert.rejects(runTransaction(ref(db, "n"), () => { throw new Error("mine"); }), { message: "mine" });
  await assert.rejects(runTransaction(ref(db, "n"), () => 0.5), { name: "NotWhole", number: 6 });
  assert.deepEqual(server.heard.map(({ m }) => m), ["hello"]);
});

test("an action is lost with its connection, and refused without one", timed, async (t) => {
  const server = await FalseServer.start(t, welcoming((message, peer) => message.m === "left" && (peer.cut(), true)));
  const { db } = client(t, server);
  await assert.rejects(onDisconnect(ref(db, "a")).remove(), { name: "Offline", number: 2, message: /onConnected/ });
  await until("the session", () => db.isConnected);
  await assert.rejects(onDisconnect(ref(db, "a")).set(1), { name: "ActionLost" });
});

test("what onConnected does for a connection that is lost is done again for the next one", timed, async (t) => {
  const server = await FalseServer.start(t, welcoming((message, peer, { say, server: { peers } }) => {
    if (message.m === "left" && peers.length === 1) peer.cut();
    else if (message.m === "left") say("armed", { q: message.q });
    return message.m === "left";
  }));
  const { db } = client(t, server);
  const done = [];
  onConnected(db, async (isConnected) => {
    if (!isConnected) return;
    await onDisconnect(ref(db, "a")).remove(); // lost at first, and no rejection that nobody handles
    done.push(await set(ref(db, "a"), true));
  });
  await until("it is done", () => done.length === 1);
  assert.deepEqual(server.heard.map(({ m }) => m), ["hello", "left", "hello", "left", "op"]);
});

test("a server that answers nothing is left after a while", timed, async (t) => {
  const server = await FalseServer.start(t, welcoming((message, peer, { server: { peers } }) => message.m === "op" && peers.length === 1));
  const { db } = client(t, server, { timing: { beat: 50, answer: 200 } });
  assert.equal(await set(ref(db, "a"), 1), 11);
  assert.equal(server.peers.length, 2);
  assert.ok(server.peers[0].heard.some(({ m }) => m === "beat"));
});

test("an idle client beats, and isn't taken for one that waits", timed, async (t) => {
  const server = await FalseServer.start(t, welcoming());
  const { db } = client(t, server, { timing: { beat: 30, answer: 100 } });
  await until("eight Beats", () => server.heard.filter(({ m }) => m === "beat").length >= 8);
  assert.equal(await set(ref(db, "a"), 1), 11);
  assert.equal(server.peers.length, 1);
});

test("a Hello that isn't answered is given up", timed, async (t) => {
  const server = await FalseServer.start(t, (message, peer) => server.peers.length > 1 && welcoming()(message, peer, server));
  const { db } = client(t, server, { timing: { open: 200 } });
  assert.equal(await set(ref(db, "a"), 1), 11);
  assert.deepEqual(server.heard.filter(({ m }) => m === "hello").map(({ s }) => s[2]), [1, 2]);
});

test("what is no message ends the connection, and is reported", timed, async (t) => {
  const server = await FalseServer.start(t, welcoming((message, peer, { server: { peers } }) => {
    if (message.m !== "op" || peers.length > 1) return false;
    peer.say('{"m":"reply"');
    return true;
  }));
  const { db, errors } = client(t, server);
  assert.equal(await set(ref(db, "a"), 1), 11);
  assert.deepEqual(names(errors), ["NotJson"]);
});

test("a message that leaves one out ends the connection", timed, async (t) => {
  const server = await FalseServer.start(t, welcoming((message, peer, { server: { peers } }) => {
    if (message.m !== "op" || peers.length > 1) return false;
    peer.say({ m: "push", r: 2, z: 5, values: [] });
    return true;
  }));
  const { db } = client(t, server);
  assert.equal(await set(ref(db, "a"), 1), 11);
  assert.equal(server.peers.length, 2);
});

test("an answer that fits nothing ends the connection, and is reported as bad", timed, async (t) => {
  const server = await FalseServer.start(t, welcoming((message, peer, { say, server: { peers } }) => {
    if (message.m !== "op" || peers.length > 1) return false;
    say("armed", { q: message.q });
    return true;
  }));
  const { db, errors } = client(t, server);
  assert.equal(await set(ref(db, "a"), 1), 11);
  assert.deepEqual(names(errors), ["FaultBad"]);
});

test("goOffline says goodbye and stays away; what is written then waits for goOnline", timed, async (t) => {
  const server = await FalseServer.start(t, welcoming());
  const { db } = client(t, server);
  await set(ref(db, "a"), 1);
  goOffline(db);
  await until("the Bye", () => server.heard.at(-1).m === "bye");
  let isDone = false;
  const late = set(ref(db, "a"), 2).then((number) => {
    isDone = true;
    return number;
  });
  await sleep(200);
  assert.equal(isDone, false);
  assert.equal(server.peers.length, 1);
  goOnline(db);
  assert.equal(await late, 12);
  assert.deepEqual(server.heard.map(({ m }) => m), ["hello", "op", "bye", "hello", "op"]);
});

test(".info/connected is a place that the client answers itself", timed, async (t) => {
  const server = await FalseServer.start(t, welcoming());
  const { db } = client(t, server);
  const seen = [];
  const stop = onValue(ref(db, ".info/connected"), (snapshot) => seen.push(snapshot.val()));
  await until("the session", () => seen.at(-1) === true);
  assert.equal((await presence.get(ref(db, "/.info/connected"))).val(), true);
  goOffline(db);
  assert.deepEqual(seen, [false, true, false]);
  stop();
  await assert.rejects(set(ref(db, ".info/connected"), true), { name: "BadKey", number: 4 });
});

test("what a callback throws is thrown where nothing is cut short", timed, async (t) => {
  const server = await FalseServer.start(t, welcoming((message, peer, { say }) => message.m === "on" && (say("snap", { q: message.q, path: message.path, value: 1 }), true)));
  const { db } = client(t, server);
  const thrown = new Promise((resolve) => process.setUncaughtExceptionCaptureCallback(resolve));
  t.after(() => process.setUncaughtExceptionCaptureCallback(null));
  const seen = [];
  onValue(ref(db, "a"), () => { throw new Error("mine"); });
  onValue(ref(db, "a"), (snapshot) => seen.push(snapshot.val()));
  assert.equal((await thrown).message, "mine");
  assert.deepEqual(seen, [1]);
});

test("what connect needs is said at once", timed, () => {
  assert.throws(() => connect("ws://127.0.0.1:1/", {}), { name: "TypeError", message: /client id/ });
  assert.throws(() => connect("ws://127.0.0.1:1/", { client: "a b" }), { name: "TypeError", message: /A-Z a-z 0-9 _ -/ });
  assert.throws(() => connect("http://127.0.0.1:1/", { client: "a" }), { name: "TypeError", message: /ws:\/\// });
});
