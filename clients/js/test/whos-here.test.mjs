// The page of examples/whos-here in three pages of two browsers, one of which is killed.

import assert from "node:assert/strict";
import { writeFileSync } from "node:fs";
import { test } from "node:test";
import { serve } from "../../../examples/whos-here/serve.mjs";
import { Browser, chromium } from "./chromium.mjs";
import { PATIENCE, noProgram, realServer, until } from "./support.mjs";

const skip = noProgram || (chromium ? false : "there is no Chromium (Debian: chromium)");

const STATES = "Object.fromEntries([...document.querySelectorAll('.person')].map(({ dataset }) => [dataset.person, dataset.state]))";
const STATUS = (id) => `document.querySelector('[data-person="${id}"] .status')?.textContent`;

test("three pages see each other come, type, and be killed", { skip, timeout: 6 * PATIENCE }, async (t) => {
  const server = await realServer(t);
  const files = await serve(0);
  t.after(() => files.close());
  const address = `http://127.0.0.1:${files.address().port}/examples/whos-here/?server=${encodeURIComponent(server.url)}&name=`;
  const [first, second] = await Promise.all([Browser.start(t), Browser.start(t)]);
  const alice = await first.open(`${address}alice`);
  const bob = await first.open(`${address}bob`);
  const carol = await second.open(`${address}carol`);
  const sees = (page, states) => until(`a page shows ${JSON.stringify(states)}`, async () => {
    const shown = await page.evaluate(STATES);
    return Object.keys(states).length === Object.keys(shown).length && Object.entries(states).every(([id, state]) => shown[id] === state);
  });

  const all = { alice: "online", bob: "online", carol: "online" };
  await Promise.all([alice, bob, carol].map((page) => sees(page, all)));

  await carol.evaluate("document.querySelector('#words').focus()");
  await carol.type("hello");
  await sees(alice, { ...all, carol: "typing" });
  await sees(alice, all); // she stopped
  await carol.evaluate("document.querySelector('#say').requestSubmit()");
  await until("alice reads it", async () => (await alice.evaluate("document.querySelector('[data-person=carol] .said')?.textContent")) === "hello");

  await second.kill();
  await Promise.all([alice, bob].map((page) => sees(page, { ...all, carol: "away" })));
  assert.match(await alice.evaluate(STATUS("carol")), /^last seen (just now|\d+ min ago)$/);

  await bob.evaluate("document.querySelector('#words').focus()");
  await bob.type("she left?");
  await sees(alice, { alice: "online", bob: "typing", carol: "away" });
  if (process.env.SCREENSHOT) writeFileSync(process.env.SCREENSHOT, await alice.screenshot());

  // a second tab under bob's name: the first one says so, and comes back when it is asked to
  const other = await first.open(`${address}bob`);
  await until("the older tab says so", () => bob.evaluate("!document.querySelector('#elsewhere').hidden"));
  await sees(other, { alice: "online", bob: "online", carol: "away" });
  await bob.evaluate("document.querySelector('#elsewhere button').click()");
  await until("the newer tab says so", () => other.evaluate("!document.querySelector('#elsewhere').hidden"));
  await until("the older tab is back", () => bob.evaluate("document.querySelector('#elsewhere').hidden && document.querySelector('#state').dataset.connected === 'true'"));
});
