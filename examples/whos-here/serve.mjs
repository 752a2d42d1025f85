// Serves this repository's files to browsers: node examples/whos-here/serve.mjs [PORT]
import { readFile } from "node:fs/promises";
import { createServer } from "node:http";
import { extname, join, normalize } from "node:path";
import { fileURLToPath } from "node:url";

const ROOT = fileURLToPath(new URL("../..", import.meta.url));
const KINDS = { ".html": "text/html", ".js": "text/javascript", ".css": "text/css" };

/** Serves the page and the library on the port of this machine alone; 0 takes a free one. */
export function serve(port) {
  const server = createServer(async (request, response) => {
    try {
      const path = normalize(decodeURIComponent(new URL(request.url, "http://localhost").pathname));
      const file = path.endsWith("/") ? `${path}index.html` : path;
      if (!/^\/(examples|clients\/js)\//.test(file) || !(extname(file) in KINDS)) throw new Error("not served");
      const body = await readFile(join(ROOT, file));
      response.writeHead(200, { "content-type": `${KINDS[extname(file)]}; charset=utf-8`, "cache-control": "no-store" }).end(body);
    } catch {
      response.writeHead(404, { "content-type": "text/plain" }).end("not found\n");
    }
  });
  return new Promise((resolve, reject) => {
    server.once("error", reject);
    server.listen(port, "127.0.0.1", () => resolve(server));
  });
}

if (process.argv[1] === fileURLToPath(import.meta.url)) {
  const server = await serve(Number(process.argv[2] ?? 8000));
  console.log(`http://127.0.0.1:${server.address().port}/examples/whos-here/`);
}
