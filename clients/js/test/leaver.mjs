// A client in a process of its own, for a test that kills it: leaver.mjs URL STORAGE. It leaves something for its
// end, says that it is there, and then waits.

import { connect, onConnected, onDisconnect, ref, serverTimestamp, set } from "../index.js";
import { WebSocket } from "./support.mjs";

const [url, storage] = process.argv.slice(2);
const db = connect(url, { client: "leaver", storage, WebSocket });
onConnected(db, async (isConnected) => {
  if (!isConnected) return;
  await onDisconnect(ref(db, "/")).update({ "online/leaver": null, "seen/leaver": serverTimestamp() });
  await set(ref(db, "online/leaver"), true);
  console.log("there");
});
