// The core: what goes out, what is noted and what is refused, call by call and message by message.

import assert from "node:assert/strict";
import { test } from "node:test";
import { Core } from "../core/core.js";
import * as errors from "../core/errors.js";
import { decodeDown } from "../core/messages.js";
import { Path } from "../core/paths.js";
import { readDraft } from "../core/tree.js";

const at = (text) => Path.parse(text);
const draft = (value) => readDraft(value);

// A core with its session open, and nothing left to take out.
function online(client, { ops = 0, z = 1, incarnation = 1 } = {}) {
  const core = new Core(client, incarnation);
  core.goOnline();
  hear(core, `{"m":"welcome","ops":${ops},"s":["${client}",${incarnation},1],"z":${z}}`);
  take(core);
  return core;
}

function hear(core, text) {
  return core.receive(decodeDown(text));
}

// What goes out and what is noted since the last time.
function take(core) {
  return { sends: core.takeSends(), notices: core.takeNotices() };
}

function reply(session, { r, z, q, n, done, out }) {
  return `{"done":${done},"m":"reply","n":${n},"out":${out},"q":${q},"r":${r},"s":${session},"z":${z}}`;
}

test("lost reply, resent write: it goes out again with its number, and is done once", () => {
  const core = online("alice");
  core.set(at("/a"), draft(1));
  assert.deepEqual(take(core).sends, ['{"m":"op","n":1,"op":{"op":"set","path":"/a","value":1},"q":1,"s":["alice",1,1]}']);
  core.lost();
  core.goOnline();
  assert.deepEqual(take(core), { sends: ['{"m":"hello","s":["alice",1,2]}'], notices: [{ type: "connected", isOpen: false }] });
  hear(core, '{"m":"welcome","ops":1,"s":["alice",1,2],"z":4}');
  assert.deepEqual(take(core), {
    sends: ['{"m":"op","n":1,"op":{"op":"set","path":"/a","value":1},"q":1,"s":["alice",1,2]}'],
    notices: [{ type: "connected", isOpen: true }],
  });
  hear(core, reply('["alice",1,2]', { r: 1, z: 5, q: 1, n: 1, done: 2, out: '"wrote"' }));
  assert.deepEqual(take(core), { sends: [], notices: [{ type: "done", request: 1, number: 2 }] });
  assert.equal(core.unanswered, 0);
});

test("client restart and old stamps: a repeated Welcome of an earlier incarnation is passed over", () => {
  const core = new Core("alice", 2);
  core.goOnline();
  assert.deepEqual(core.takeSends(), ['{"m":"hello","s":["alice",2,1]}']);
  assert.equal(hear(core, '{"m":"welcome","ops":0,"s":["alice",1,1],"z":1}'), false);
  assert.equal(core.phase, "opening");
  assert.equal(hear(core, '{"m":"welcome","ops":0,"s":["alice",2,1],"z":3}'), true);
  assert.equal(core.phase, "online");
});

test("a Hello that is too old is faulted, and the client is off", () => {
  const core = new Core("alice", 1);
  core.goOnline();
  hear(core, '{"code":2,"last":[2,1],"m":"fault","s":["alice",1,1]}');
  assert.deepEqual(core.takeNotices(), [{ type: "faulted", code: 2, last: [2, 1] }]);
  assert.equal(core.phase, "off");
});

test("transactions race: the overtaken one asks again with the newer value", () => {
  const bob = online("bob", { z: 2 });
  bob.listen(at("/n"));
  hear(bob, '{"m":"snap","path":"/n","q":1,"r":1,"s":["bob",1,1],"value":0,"z":5}');
  take(bob);
  const request = bob.transact(at("/n"));
  assert.deepEqual(take(bob).notices, [{ type: "ask", request, attempt: 1, value: 0 }]);
  bob.answer(request, draft(1));
  assert.deepEqual(take(bob).sends, ['{"m":"op","n":1,"op":{"expect":0,"op":"tx","path":"/n","value":1},"q":2,"s":["bob",1,1]}']);
  hear(bob, '{"m":"push","r":2,"s":["bob",1,1],"values":[["/n",1]],"z":6}');
  hear(bob, reply('["bob",1,1]', { r: 3, z: 7, q: 2, n: 1, done: 7, out: '{"stale":1}' }));
  assert.deepEqual(take(bob).notices, [
    { type: "value", path: at("/n"), number: 6, value: 1 },
    { type: "ask", request, attempt: 2, value: 1 },
  ]);
  bob.answer(request, draft(2));
  assert.deepEqual(take(bob).sends, ['{"m":"op","n":2,"op":{"expect":1,"op":"tx","path":"/n","value":2},"q":3,"s":["bob",1,1]}']);
  hear(bob, '{"m":"push","r":4,"s":["bob",1,1],"values":[["/n",2]],"z":8}');
  hear(bob, reply('["bob",1,1]', { r: 5, z: 8, q: 3, n: 2, done: 8, out: '"wrote"' }));
  assert.deepEqual(take(bob).notices.at(-1), { type: "done", request, number: 8 });
  assert.deepEqual(bob.views(), [{ path: at("/n"), number: 8, value: 2 }]);
});

test("a transaction whose every try is overtaken is given up at the 25th stale reply", () => {
  const core = online("bob");
  const request = core.transact(at("/n"));
  for (let k = 1; k <= 25; k += 1) {
    assert.deepEqual(core.takeNotices(), [{ type: "ask", request, attempt: k, value: k === 1 ? null : k - 1 }]);
    core.answer(request, draft(-1));
    hear(core, reply('["bob",1,1]', { r: k, z: k + 1, q: k, n: k, done: k + 1, out: `{"stale":${k}}` }));
  }
  assert.deepEqual(core.takeNotices(), [{ type: "toomany", request }]);
  assert.throws(() => core.answer(request, draft(1)), errors.NoSuchRequest);
});

test("an abort is noted and sends nothing; an answer to a request that doesn't ask is refused", () => {
  const core = online("bob");
  const request = core.transact(at("/n"));
  take(core);
  core.abort(request);
  assert.deepEqual(take(core), { sends: [], notices: [{ type: "aborted", request }] });
  assert.throws(() => core.answer(99, draft(1)), { name: "NoSuchRequest", number: 3 });
  assert.throws(() => core.abort(request), { name: "NoSuchRequest", number: 3 });
});

test("queue before online, clean goodbye", () => {
  const core = new Core("alice", 1);
  assert.equal(core.set(at("/a"), draft(1)), 1);
  assert.equal(core.set(at("/a"), draft(2)), 2);
  assert.throws(() => core.onDisconnectSet(at("/a"), draft(1)), { name: "Offline", number: 2 });
  assert.deepEqual(take(core), { sends: [], notices: [] });
  core.goOnline();
  hear(core, '{"m":"welcome","ops":0,"s":["alice",1,1],"z":1}');
  const both = [
    '{"m":"op","n":1,"op":{"op":"set","path":"/a","value":1},"q":1,"s":["alice",1,1]}',
    '{"m":"op","n":2,"op":{"op":"set","path":"/a","value":2},"q":2,"s":["alice",1,1]}',
  ];
  assert.deepEqual(take(core).sends, ['{"m":"hello","s":["alice",1,1]}', ...both]);
  core.resend();
  assert.deepEqual(take(core).sends, both);
  core.resend();
  assert.deepEqual(take(core).sends, both);
  hear(core, reply('["alice",1,1]', { r: 1, z: 2, q: 1, n: 1, done: 2, out: '"wrote"' }));
  hear(core, reply('["alice",1,1]', { r: 2, z: 3, q: 2, n: 2, done: 3, out: '"wrote"' }));
  assert.deepEqual(take(core).notices, [{ type: "done", request: 1, number: 2 }, { type: "done", request: 2, number: 3 }]);
  core.goOffline();
  assert.deepEqual(take(core), { sends: ['{"m":"bye","q":3,"s":["alice",1,1]}'], notices: [{ type: "connected", isOpen: false }] });
  assert.equal(hear(core, '{"m":"gone","r":3,"s":["alice",1,1],"why":"bye","z":4}'), false);
  assert.deepEqual(take(core), { sends: [], notices: [] });
});

test("view across a loss: it stays until the next session's Snap", () => {
  const core = online("bob", { z: 2 });
  core.listen(at("/a"));
  assert.equal(core.view(at("/a")), null);
  hear(core, '{"m":"snap","path":"/a","q":1,"r":1,"s":["bob",1,1],"value":null,"z":3}');
  hear(core, '{"m":"push","r":2,"s":["bob",1,1],"values":[["/a",1]],"z":4}');
  assert.deepEqual(core.view(at("/a")), { number: 4, value: 1 });
  core.lost();
  assert.deepEqual(core.view(at("/a")), { number: 4, value: 1 });
  core.goOnline();
  take(core);
  hear(core, '{"m":"welcome","ops":0,"s":["bob",1,2],"z":7}');
  assert.deepEqual(core.takeSends(), ['{"m":"on","path":"/a","q":1,"s":["bob",1,2]}']);
  assert.deepEqual(core.view(at("/a")), { number: 4, value: 1 });
  hear(core, '{"m":"snap","path":"/a","q":1,"r":1,"s":["bob",1,2],"value":2,"z":8}');
  assert.deepEqual(core.view(at("/a")), { number: 8, value: 2 });
  core.unlisten(at("/a"));
  assert.deepEqual(core.takeSends(), ['{"m":"off","path":"/a","q":2,"s":["bob",1,2]}']);
  assert.equal(core.view(at("/a")), null);
});

test("a message that comes twice or too early is passed over", () => {
  const core = online("bob");
  core.listen(at("/a"));
  const snap = '{"m":"snap","path":"/a","q":1,"r":1,"s":["bob",1,1],"value":1,"z":3}';
  assert.equal(hear(core, '{"m":"push","r":2,"s":["bob",1,1],"values":[["/a",9]],"z":4}'), false);
  assert.equal(core.misses(decodeDown('{"m":"push","r":2,"s":["bob",1,1],"values":[],"z":4}')), true);
  assert.equal(hear(core, snap), true);
  assert.equal(hear(core, snap), false);
  assert.deepEqual(core.view(at("/a")), { number: 3, value: 1 });
});

test("an answer that doesn't fit ends the session, and its notices come in order", () => {
  const core = online("alice");
  const left = core.onDisconnectRemove(at("/x"));
  const cancelled = core.onDisconnectCancel(at("/x"));
  core.set(at("/a"), draft(1));
  take(core);
  hear(core, '{"m":"armed","q":2,"r":1,"s":["alice",1,1],"z":2}');
  assert.deepEqual(core.takeNotices(), [
    { type: "connected", isOpen: false },
    { type: "lost", request: left },
    { type: "lost", request: cancelled },
    { type: "faulted", code: 1 },
  ]);
  assert.equal(core.phase, "off");
  core.goOnline();
  take(core);
  hear(core, '{"m":"welcome","ops":0,"s":["alice",1,2],"z":4}');
  assert.deepEqual(core.takeSends(), ['{"m":"op","n":1,"op":{"op":"set","path":"/a","value":1},"q":1,"s":["alice",1,2]}']);
});

test("a stale reply fits a transaction alone, and a limit its own messages", () => {
  const stale = online("alice");
  stale.set(at("/a"), draft(1));
  hear(stale, reply('["alice",1,1]', { r: 1, z: 2, q: 1, n: 1, done: 2, out: '{"stale":1}' }));
  assert.equal(stale.phase, "off");
  const denied = online("alice");
  denied.onDisconnectRemove(at("/a"));
  hear(denied, '{"m":"denied","q":1,"r":1,"s":["alice",1,1],"why":2,"z":2}');
  assert.equal(denied.phase, "off");
});

test("a denied listen forgets its path, unless a later message listens to it", () => {
  const core = online("bob");
  const first = core.listen(at("/a"));
  core.unlisten(at("/a"));
  core.listen(at("/a"));
  take(core);
  hear(core, '{"m":"denied","q":1,"r":1,"s":["bob",1,1],"why":2,"z":2}');
  assert.deepEqual(core.takeNotices(), [{ type: "denied", request: first, why: 2 }]);
  hear(core, '{"m":"offdone","q":2,"r":2,"s":["bob",1,1],"z":3}');
  hear(core, '{"m":"snap","path":"/a","q":3,"r":3,"s":["bob",1,1],"value":7,"z":4}');
  assert.deepEqual(core.view(at("/a")), { number: 4, value: 7 });
  const other = core.listen(at("/b"));
  hear(core, '{"m":"denied","q":4,"r":4,"s":["bob",1,1],"why":2,"z":5}');
  assert.deepEqual(core.takeNotices().at(-1), { type: "denied", request: other, why: 2 });
  core.lost();
  core.goOnline();
  take(core);
  hear(core, '{"m":"welcome","ops":0,"s":["bob",1,2],"z":7}');
  assert.deepEqual(core.takeSends(), ['{"m":"on","path":"/a","q":1,"s":["bob",1,2]}']);
});

test("listens go out before writes at a Welcome, in path order", () => {
  const core = new Core("alice", 1);
  for (const path of ["/a-b", "/a/b", "/\u{1f600}", "/\uffee", "/a"]) core.listen(at(path));
  core.set(at("/x"), draft(1));
  core.goOnline();
  take(core);
  hear(core, '{"m":"welcome","ops":5,"s":["alice",1,1],"z":9}');
  const sent = core.takeSends().map((text) => JSON.parse(text));
  assert.deepEqual(sent.map(({ path, n }) => path ?? n), ["/a", "/a/b", "/a-b", "/\uffee", "/\u{1f600}", 6]);
  assert.deepEqual(sent.map(({ q }) => q), [1, 2, 3, 4, 5, 6]);
});

test("a Welcome with writes that the client never sent, or without those that were answered, is refused", () => {
  for (const ops of [2, 5]) {
    const core = online("alice", { ops: 3 });
    core.set(at("/a"), draft(1));
    core.lost();
    core.goOnline();
    take(core);
    hear(core, `{"m":"welcome","ops":${ops},"s":["alice",1,2],"z":9}`);
    assert.deepEqual(take(core), { sends: [], notices: [{ type: "faulted", code: 1 }] });
    assert.equal(core.phase, "off");
  }
});

test("faults: of the own session, of another, of none", () => {
  const core = online("alice");
  hear(core, '{"code":6,"m":"fault","s":["alice",1,1]}');
  assert.equal(core.phase, "online");
  assert.equal(hear(core, '{"code":3,"m":"fault","s":["alice",1,9]}'), false);
  hear(core, '{"code":1,"m":"fault","s":null}');
  hear(core, '{"code":3,"m":"fault","s":["alice",1,1]}');
  assert.equal(core.phase, "off");
  const notices = core.takeNotices().map(({ type, code, isOpen }) => code ?? `${type} ${isOpen}`);
  assert.deepEqual(notices, [6, 1, "connected false", 3]);
});

test("numbers that are used up refuse what needs them, and nothing else", () => {
  const core = online("alice", { ops: Number.MAX_SAFE_INTEGER });
  assert.throws(() => core.set(at("/a"), draft(1)), { name: "Spent", number: 4 });
  core.onDisconnectRemove(at("/a"));
  const request = core.transact(at("/a"));
  assert.throws(() => core.answer(request, draft(1)), errors.Spent);
  core.abort(request);
});

test("Beats go out while the session is open, and Hellos again while it is being opened", () => {
  const core = new Core("alice", 1);
  core.beat();
  core.resend();
  assert.deepEqual(core.takeSends(), []);
  core.goOnline();
  core.goOnline();
  core.beat();
  core.resend();
  assert.deepEqual(core.takeSends(), ['{"m":"hello","s":["alice",1,1]}', '{"m":"hello","s":["alice",1,1]}']);
  hear(core, '{"m":"welcome","ops":0,"s":["alice",1,1],"z":1}');
  core.beat();
  assert.deepEqual(core.takeSends(), ['{"m":"beat","s":["alice",1,1]}']);
});

test("a write whose message may be too long is refused, where a bound is given", () => {
  const core = new Core("alice", 1, 1_048_576);
  assert.throws(() => core.set(at("/a"), draft("x".repeat(1_048_576))), { name: "TooLong", number: 3 });
  core.set(at("/a"), draft("x".repeat(1_048_000)));
  core.goOnline();
  hear(core, '{"m":"welcome","ops":0,"s":["alice",1,1],"z":1}');
  const sent = core.takeSends();
  assert.equal(sent.length, 2);
  assert.ok(sent[1].length <= 1_048_576);
});

test("a client that the server has welcomed keeps its incarnation", () => {
  const core = new Core("alice", 1);
  core.set(at("/a"), draft(1));
  core.goOnline();
  hear(core, '{"code":2,"last":[7,3],"m":"fault","s":["alice",1,1]}');
  core.renew(8);
  core.goOnline();
  assert.deepEqual(core.takeSends().at(-1), '{"m":"hello","s":["alice",8,1]}');
  hear(core, '{"m":"welcome","ops":4,"s":["alice",8,1],"z":30}');
  assert.deepEqual(core.takeSends(), ['{"m":"op","n":5,"op":{"op":"set","path":"/a","value":1},"q":1,"s":["alice",8,1]}']);
  core.lost();
  assert.throws(() => core.renew(9), TypeError);
});
