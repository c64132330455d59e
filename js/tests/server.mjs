// A server of pages for browsers, with the package as npm has installed it.

import { readFileSync } from "node:fs";
import { createServer } from "node:http";

export const PACKAGE = "/node_modules/gregorio-chant/";
/** What a page has to allow for the package, and no more. */
export const POLICY = "default-src 'none'; script-src 'self' 'wasm-unsafe-eval'; worker-src 'self'; connect-src 'self'";

const TYPES = { wasm: "application/wasm", html: "text/html", gabc: "text/plain" };

/** Returns a page with these lines in its body. */
export const pageOf = (...lines) => ["text/html", `<!DOCTYPE html><meta charset="utf-8"><link rel="icon" href="data:,">${lines.join("\n")}`];

/** Returns the type and the content of a file of the package, if `path` is one. */
function ofPackage(path) {
  if (!path.startsWith(PACKAGE) || path.includes("..")) return undefined;
  return [TYPES[path.split(".").at(-1)] ?? "text/javascript", readFileSync(`.${path}`)];
}

/** Starts a server. `contentOf` returns the type, the content, and if there is one the policy of what a page asks for, now or later. Returns its address, and what ends it. */
export async function serve(contentOf) {
  const server = createServer(async ({ url }, response) => {
    const [type = "text/plain", content, policy] = (await contentOf(url)) ?? ofPackage(url) ?? [];
    const headers = policy ? { "content-security-policy": policy } : {};
    response.writeHead(content === undefined ? 404 : 200, { "content-type": type, ...headers });
    response.end(content);
  });
  await new Promise((resolve) => server.listen(0, "127.0.0.1", resolve));
  const end = () => {
    server.closeAllConnections();
    server.close();
  };
  return { address: `http://127.0.0.1:${server.address().port}`, end };
}
