// Texts, numbers, keys, paths and values.

import assert from "node:assert/strict";
import { test } from "node:test";
import * as errors from "../core/errors.js";
import { byteLength, compareTexts, parse } from "../core/json.js";
import { decodeDown } from "../core/messages.js";
import { Core } from "../core/core.js";
import { Path, checkKey } from "../core/paths.js";
import { depth, plain, print, readDraft, readValue } from "../core/tree.js";

const through = (text) => print(readDraft(parse(text)));

test("whole numbers of 64 bits are exact, and all others are refused", () => {
  for (const text of ["0", "-1", "9007199254740991", "9007199254740993", "9223372036854775807", "-9223372036854775808"]) {
    assert.equal(through(text), text);
  }
  assert.equal(readDraft(parse("9007199254740993")), 9007199254740993n);
  assert.equal(typeof readDraft(parse("9007199254740991")), "number");
  for (const text of ["9223372036854775808", "18446744073709551615"]) assert.throws(() => through(text), { name: "Range", number: 7 });
  for (const text of ["1.0", "1e2", "-0", "18446744073709551616", "-9223372036854775809", "0.5"]) {
    assert.throws(() => through(text), { name: "NotWhole", number: 6 }, text);
  }
  assert.throws(() => through("1e400"), { name: "NotJson", number: 2 });
});

test("a program's own numbers are whole and exact, too", () => {
  assert.equal(print(readDraft(-0)), "0");
  assert.equal(print(readDraft(2n ** 63n - 1n)), "9223372036854775807");
  assert.equal(readDraft(5n), 5);
  assert.throws(() => readDraft(1.5), errors.NotWhole);
  assert.throws(() => readDraft(NaN), errors.NotWhole);
  assert.throws(() => readDraft(2 ** 53), errors.Range);
  assert.throws(() => readDraft(2n ** 63n), errors.Range);
});

test("what is no JSON is refused", () => {
  const texts = ["", " ", "nul", "01", "+1", "[1,]", "{\"a\":1,}", "{a:1}", "'a'", "\"\t\"", "\"\\x\"", "\"\\u12g4\"", "\"\\ud83d\"", "\"\\ude00\\ud83d\"", "1 2", "[", "\"", "-", "1.", "1e", "\u00a01", `${"[".repeat(128)}${"]".repeat(128)}`];
  for (const text of texts) assert.throws(() => parse(text), errors.NotJson, text);
  parse(`${"[".repeat(127)}${"]".repeat(127)}`);
});

test("texts and names print as serde_json prints them", () => {
  assert.equal(through('"\\u0001\\b\\f\\n\\r\\t\\"\\\\\\/\\u007f\\u2028\\ud83d\\ude00"'), '"\\u0001\\b\\f\\n\\r\\t\\"\\\\/\u007f\u2028\u{1f600}"');
  assert.equal(through(' { "b" : 1 , "a" : [ true , null , "x" ] } '), '{"a":{"0":true,"2":"x"},"b":1}');
});

test("of a name that stands twice the last counts, and names print in byte order of UTF-8", () => {
  assert.equal(through('{"a":1,"b":2,"a":{"x":3}}'), '{"a":{"x":3},"b":2}');
  // U+FFEE is before U+1F600 in UTF-8, and behind it in the units of JavaScript's texts
  assert.equal(through('{"\u{1f600}":1,"\uffee":2,"z":3,"10":4,"9":5}'), '{"10":4,"9":5,"z":3,"\uffee":2,"\u{1f600}":1}');
  assert.ok(compareTexts("\uffee", "\u{1f600}") < 0);
  assert.ok(compareTexts("a", "a/") < 0);
  assert.equal(byteLength("a\u00e9\uffee\u{1f600}"), 1 + 2 + 3 + 4);
});

test("nulls and objects without children aren't kept", () => {
  assert.equal(through('{"a":null,"b":{"c":{}},"d":[],"e":[null]}'), "null");
  assert.equal(through('{"a":{"b":null,"c":false}}'), '{"a":{"c":false}}');
});

test("a member named __proto__ is a member like others", () => {
  const value = plain(readDraft(parse('{"__proto__":{"x":1}}')));
  assert.deepEqual(Object.keys(value), ["__proto__"]);
  assert.equal({}.x, undefined);
  assert.equal(Object.getPrototypeOf(value), Object.prototype);
});

test("keys: 768 bytes, and no character that no key has", () => {
  checkKey("k".repeat(768));
  checkKey("\u{1f600}".repeat(192));
  assert.throws(() => checkKey("\u{1f600}".repeat(193)), { name: "LongKey", number: 3 });
  assert.throws(() => checkKey("k".repeat(769)), { name: "LongKey", number: 3 });
  assert.throws(() => checkKey(""), { name: "EmptyKey", number: 2 });
  for (const key of [".", "$", "#", "[", "]", "/", "\u0000", "\u001f", "\u007f", "\ud800"]) {
    assert.throws(() => checkKey(`a${key}`), { name: "BadKey", number: 4 }, key);
  }
});

test("path texts", () => {
  assert.equal(Path.parse("a//b/").text, "/a/b");
  assert.equal(Path.parse("").text, "/");
  assert.throws(() => Path.parse("/a.b"), errors.BadKey);
  assert.equal(Path.parse(Array(32).fill("k").join("/")).keys.length, 32);
  assert.throws(() => Path.parse(Array(33).fill("k").join("/")), { name: "TooDeep", number: 5 });
  assert.ok(Path.parse("/a").isPrefixOf(Path.parse("/a/b")));
  assert.ok(!Path.parse("/a/b").isPrefixOf(Path.parse("/a")));
  assert.ok(Path.compare(Path.parse("/a/b"), Path.parse("/a-b")) < 0);
});

test("limits of depth, the path included", () => {
  const core = new Core("alice", 1);
  const path = (length) => Path.parse(Array(length).fill("k").join("/"));
  core.set(path(32), 1);
  core.set(path(31), readDraft({ x: 1 }));
  assert.throws(() => core.set(path(31), readDraft({ x: { y: 1 } })), { name: "TooDeep", number: 5 });
  core.set(path(32), readDraft({ x: { y: null } }));
  assert.throws(() => core.update(path(31), [[Path.parse("x/y"), null]]), errors.TooDeep);
  assert.equal(depth(readDraft({ a: { b: 1 }, c: 2 })), 2);
});

test("updates: overlapping places, too many of them, and their order", () => {
  const core = new Core("alice", 1);
  const places = (values) => Object.entries(values).map(([name, value]) => [Path.parse(name), readDraft(value)]);
  assert.throws(() => core.update(Path.parse("/"), places({ "a/b": 1, a: 2 })), { name: "Overlap", number: 9 });
  assert.throws(() => core.update(Path.parse("/"), places({ "/a": 1, a: 2 })), errors.Overlap);
  assert.throws(() => core.update(Path.parse("/"), places({ "": 1, a: 2 })), errors.Overlap);
  const many = (count) => places(Object.fromEntries(Array.from({ length: count }, (_, i) => [`k${i}`, i])));
  core.update(Path.parse("/"), many(256));
  assert.throws(() => core.update(Path.parse("/"), many(257)), { name: "ManyPaths", number: 10 });
  const ordered = new Core("alice", 1);
  ordered.update(Path.parse("/p"), places({ "a/b": 1, "a-b": 2, "": undefined ?? null }).slice(0, 2));
  ordered.goOnline();
  ordered.receive(decodeDown('{"m":"welcome","ops":0,"s":["alice",1,1],"z":1}'));
  assert.equal(ordered.takeSends()[1], '{"m":"op","n":1,"op":{"op":"update","path":"/p","values":{"a-b":2,"a/b":1}},"q":1,"s":["alice",1,1]}');
});

test("the first fault in byte order of keys counts", () => {
  assert.throws(() => readDraft({ b: 1.5, "a.": 1 }), errors.BadKey);
  assert.throws(() => readDraft({ a: 1.5, "b.": 1 }), errors.NotWhole);
  assert.throws(() => readDraft({ "a.": null }), errors.BadKey);
  // item 10 is walked before item 2
  assert.throws(() => readDraft([0, 1, 2.5, 3, 4, 5, 6, 7, 8, 9, { ".": 1 }]), errors.BadKey);
});

test("server values: the timestamp alone", () => {
  assert.equal(print(readDraft({ t: { ".sv": "timestamp" } })), '{"t":{".sv":"timestamp"}}');
  assert.throws(() => readDraft({ ".sv": "x" }), { name: "Placeholder", number: 8 });
  assert.throws(() => readDraft({ ".sv": "timestamp", a: 1 }), errors.Placeholder);
  assert.throws(() => readValue(parse('{".sv":"timestamp"}')), errors.BadKey);
});

test("server values: increments of whole numbers alone", () => {
  assert.equal(print(readDraft({ n: { ".sv": { increment: -2 } } })), '{"n":{".sv":{"increment":-2}}}');
  assert.equal(print(readDraft({ ".sv": { increment: 2n ** 63n - 1n } })), '{".sv":{"increment":9223372036854775807}}');
  assert.throws(() => readDraft({ ".sv": { increment: 1.5 } }), { name: "NotWhole", number: 6 });
  assert.throws(() => readDraft(parse('{".sv":{"increment":9223372036854775808}}')), { name: "Range", number: 7 });
  assert.throws(() => readDraft({ ".sv": { increment: "x" } }), errors.Placeholder);
  assert.throws(() => readDraft({ ".sv": { increment: 1, a: 1 } }), errors.Placeholder);
  assert.throws(() => readDraft({ ".sv": { increment: 1.5 }, a: 1 }), errors.Placeholder);
});

test("values that no JSON has are refused with what to do", () => {
  assert.throws(() => readDraft({ a: undefined }), { name: "NotJson", message: /give null to remove/ });
  assert.throws(() => readDraft(new Date(0)), { name: "NotJson", message: /a Date is no value/ });
  assert.throws(() => readDraft(() => 1), errors.NotJson);
  assert.throws(() => readDraft("\ud800"), errors.NotJson);
  const circle = {};
  circle.a = circle;
  assert.throws(() => readDraft(circle), errors.NotJson);
});

test("messages to a client: the first wrong field is named", () => {
  const refused = (text) => {
    try {
      return decodeDown(text).word;
    } catch (error) {
      return error.field ?? error.name;
    }
  };
  assert.equal(refused("["), "NotJson");
  for (const text of ["[]", "{}", '{"m":"hi"}', '{"m":1}', '{"m":"hello","s":["a",1,1]}', '{"m":"toString"}']) assert.equal(refused(text), "NoSuchMessage", text);
  for (const s of ['["a!",1,1]', '["a",0,1]', '["a",1]', '["a",1,1,1]', "null", '["a",1,9007199254740992]', '["",1,1]']) {
    assert.equal(refused(`{"m":"welcome","s":${s},"z":1,"ops":0}`), "s", s);
  }
  assert.equal(refused('{"m":"welcome","s":["a",1,1],"z":0,"ops":0}'), "z");
  assert.equal(refused('{"m":"welcome","s":["a",1,1],"z":1,"ops":-1}'), "ops");
  assert.equal(refused('{"m":"welcome","s":["a",1,1],"z":1,"ops":0,"more":[1.5]}'), "welcome");
  const reply = (out) => `{"m":"reply","s":["a",1,1],"r":1,"z":1,"q":1,"n":1,"done":1,"out":${out}}`;
  for (const out of ['"no"', "null", '{"stale":1.5}', "{}", '{"stale":{".sv":"timestamp"}}']) assert.equal(refused(reply(out)), "out", out);
  assert.equal(refused(reply('{"stale":null}')), "reply");
  assert.equal(refused('{"m":"snap","s":["a",1,1],"r":1,"z":1,"q":1,"path":"/a.b","value":1}'), "path");
  assert.equal(refused('{"m":"snap","s":["a",1,1],"r":1,"z":1,"q":1,"path":"/a"}'), "value");
  const push = (values) => `{"m":"push","s":["a",1,1],"r":1,"z":1,"values":${values}}`;
  for (const values of ['[["/a",1],["/a",1]]', '[["/b",1],["/a",1]]', '[["/a"]]', "{}"]) assert.equal(refused(push(values)), "values", values);
  assert.equal(refused(push("[]")), "push");
  assert.equal(refused('{"m":"gone","s":["a",1,1],"r":1,"z":1,"why":"no"}'), "why");
  assert.equal(refused('{"m":"denied","s":["a",1,1],"r":1,"z":1,"q":1,"why":3}'), "why");
  assert.equal(refused('{"m":"fault","code":1}'), "s");
  assert.equal(refused('{"m":"fault","s":null,"code":9}'), "code");
  assert.equal(refused('{"m":"fault","s":null,"code":2}'), "last");
  assert.equal(refused('{"m":"fault","s":null,"code":1}'), "fault");
});

test("every error has the protocol's number and name", () => {
  const numbers = {
    Offline: 2, NoSuchRequest: 3, Spent: 4, EmptyKey: 2, LongKey: 3, BadKey: 4, TooDeep: 5, NotWhole: 6, Range: 7, Placeholder: 8,
    Overlap: 9, ManyPaths: 10, Shape: 11, NotJson: 2, TooLong: 3, NoSuchMessage: 4, DeniedPlan: 1, DeniedListens: 2, FaultBad: 1,
    FaultOld: 2, FaultSession: 3, FaultOrder: 4, FaultFull: 5, FaultBusy: 6, FaultSpent: 7, FaultDown: 8,
  };
  for (const [name, number] of Object.entries(numbers)) {
    const error = new errors[name]();
    assert.equal(error.name, name);
    assert.equal(error.number, number, name);
    assert.ok(error instanceof errors.PresenceError && error.message.length > 0);
  }
});
