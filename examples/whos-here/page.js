// Who is online, who is typing, and when others were last seen: index.html?name=NAME&server=ws://ADDRESS/
import { child, connect, goOnline, onConnected, onDisconnect, onError, onValue, ref, remove, serverTimestamp, set, update } from "../../clients/js/index.js";

const TYPING_ENDS = 3_000; // milliseconds behind the last key
const find = (id) => document.getElementById(id);
const query = new URLSearchParams(location.search);
const name = query.get("name");

if (name) enter(name, query.get("server") ?? "ws://127.0.0.1:8080/");
else find("door").hidden = false; // its form comes back with a name

function enter(client, server) {
  const db = connect(server, { client });
  const people = ref(db, "people");
  const me = child(people, client);

  // What the server does once this page is gone is left before the page says that it is here.
  onConnected(db, async (isConnected) => {
    find("state").textContent = isConnected ? `you are ${client}` : "connecting …";
    find("state").dataset.connected = isConnected;
    if (!isConnected) return;
    find("elsewhere").hidden = true;
    try {
      await onDisconnect(me).update({ online: null, typing: null, seen: serverTimestamp() });
      await update(me, { online: true, seen: serverTimestamp() });
    } catch (error) {
      console.info(error.message); // the connection was lost: it is all done again with the next one
    }
  });

  onError(db, ({ name: kind, message }) => {
    console.info(message);
    find("elsewhere").hidden = kind !== "Superseded";
  });
  find("elsewhere").querySelector("button").onclick = () => goOnline(db);

  let shown = {};
  const show = () => find("people").replaceChildren(...inOrder(shown, client).map((person) => itemOf(person, client)));
  onValue(people, (snapshot) => {
    shown = snapshot.val() ?? {};
    show();
  });
  setInterval(show, 10_000); // "2 min ago" grows older

  listenToKeys(child(me, "typing"), child(me, "words"));
  find("room").hidden = false;
}

// Tells that someone is typing, and what was said.
function listenToKeys(typing, words) {
  const field = find("words");
  let ends; // a timer while someone is typing
  const stop = () => {
    clearTimeout(ends);
    ends = undefined;
    return remove(typing);
  };
  const fails = (error) => console.info(error.message);
  field.oninput = () => {
    if (ends === undefined) set(typing, true).catch(fails);
    clearTimeout(ends);
    ends = setTimeout(() => stop().catch(fails), TYPING_ENDS);
  };
  find("say").onsubmit = (event) => {
    event.preventDefault();
    const said = field.value.trim();
    field.value = "";
    Promise.all([stop(), said && set(words, said)]).catch(fails);
  };
}

// This page's own person first, then who is online, then the others by when they were last seen.
function inOrder(people, own) {
  const rank = ({ id, online }) => (id === own ? 0 : online ? 1 : 2);
  return Object.entries(people).map(([id, person]) => ({ id, ...person }))
    .sort((a, b) => rank(a) - rank(b) || (rank(a) === 2 ? b.seen - a.seen : a.id.localeCompare(b.id)));
}

function itemOf({ id, online, typing, seen, words }, own) {
  const item = element("li", "person");
  item.dataset.person = id;
  item.dataset.state = !online ? "away" : typing ? "typing" : "online";
  const face = element("span", "face", id.slice(0, 1).toUpperCase());
  face.style.setProperty("--hue", hueOf(id));
  const text = element("div", "text");
  text.append(element("span", "name", id === own ? `${id} (you)` : id), element("span", "said", words ?? ""));
  item.append(face, text, element("span", "status", { away: `last seen ${ago(seen)}`, typing: "typing", online: "online" }[item.dataset.state]));
  return item;
}

function element(tag, className, text = "") {
  return Object.assign(document.createElement(tag), { className, textContent: text });
}

function hueOf(id) {
  return [...id].reduce((hue, letter) => (hue * 31 + letter.codePointAt(0)) % 360, 7);
}

function ago(moment) {
  const seconds = Math.max(0, Math.round((Date.now() - moment) / 1000));
  if (seconds < 60) return "just now";
  if (seconds < 3600) return `${Math.floor(seconds / 60)} min ago`;
  if (seconds < 86_400) return `${Math.floor(seconds / 3600)} h ago`;
  return new Date(moment).toLocaleDateString();
}
