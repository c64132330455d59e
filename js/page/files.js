// Files that are opened and saved.

// A page is slow with a longer score, and nobody writes one by hand.
export const MOST_BYTES = 1_000_000;

const decoder = new TextDecoder("utf-8", { ignoreBOM: true });
const strict = new TextDecoder("utf-8", { fatal: true });

function isUtf8(bytes) {
  try {
    strict.decode(bytes);
    return true;
  } catch {
    return false;
  }
}

/** Returns how the lines of a text end: in CR LF if all do. */
const lineEndOf = (text) => (/\r\n/.test(text) && !/(^|[^\r])\n/.test(text) ? "\r\n" : "\n");

/** Returns the text of a file, how its lines end, and its bytes if they are no UTF-8. Throws an `Error` with a sentence if it is too long or cannot be read. */
export async function opened(file) {
  if (file.size > MOST_BYTES) throw new Error(`${file.name} has more than ${MOST_BYTES.toLocaleString("en")} bytes, which is too long for this page.`);
  let bytes;
  try {
    bytes = new Uint8Array(await file.arrayBuffer());
  } catch (error) {
    throw new Error(`${file.name} was not read: ${error.message}`);
  }
  const text = decoder.decode(bytes);
  return { name: file.name, text, lineEnd: lineEndOf(text), bytes: isUtf8(bytes) ? undefined : bytes };
}

/** Returns the beginning of a file's name from the headers of a score: from its `name`. */
export function nameFrom(tree) {
  const headers = [...(tree?.root.children() ?? [])].filter((it) => it.kind === "header").map((it) => [...it.children()]);
  const parts = headers.find((it) => it.find(({ kind }) => kind === "headerName")?.text === "name");
  const words = (parts?.find(({ kind }) => kind === "headerValue")?.text ?? "").normalize("NFD").replace(/\p{M}/gu, "").toLowerCase();
  return words.replace(/[^\p{L}\p{N}]+/gu, "-").replace(/^-|-$/g, "").slice(0, 60) || "score";
}

/** Saves a text as a file, as the browser saves downloads. */
export function save(name, text, type = "text/plain") {
  const href = URL.createObjectURL(new Blob([text], { type }));
  Object.assign(document.createElement("a"), { download: name, href }).click();
  setTimeout(() => URL.revokeObjectURL(href), 10_000);
}
