// A client of a presence server: client.mjs NAME [ADDRESS]. Says who is there, and counts its visit.
import { connect, get, increment, onConnected, onDisconnect, onValue, ref, set } from "../clients/js/index.js";

const [name, address = "127.0.0.1:8080"] = process.argv.slice(2);
const db = connect(`ws://${address}/`, { client: name });
const me = ref(db, `presence/${name}`);

onConnected(db, async (isConnected) => {
  console.log(isConnected ? "online" : "offline");
  if (!isConnected) return;
  await onDisconnect(me).remove();
  await set(me, true);
});
onValue(ref(db, "presence"), (snapshot) => console.log("/presence", JSON.stringify(snapshot.val())));

const visits = ref(db, "visits");
await set(visits, increment(1));
console.log("visits", (await get(visits)).val());
