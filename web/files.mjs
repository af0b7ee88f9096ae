// The page's own files: in the page itself, where web/one-file.py put them, or else beside it.
const held = (name) => document.querySelector(`script[data-file="${name}"]`)?.textContent.trim() ?? null;

/** The bytes of a file that the page itself has, or null. */
export function heldBytes(name) {
  const text = held(name);
  return text === null ? null : Uint8Array.from(atob(text), (it) => it.charCodeAt(0));
}

/** The bytes of a file. */
export async function fileOf(name) {
  const bytes = heldBytes(name);
  if (bytes !== null) return bytes;
  const found = await fetch(new URL(name, import.meta.url));
  if (!found.ok) throw new Error(`${name}: ${found.status} ${found.statusText}`);
  return new Uint8Array(await found.arrayBuffer());
}

let address = null;

/** A worker, begun by a text of the page: so the page's policy holds for it too, and it loads nothing from elsewhere. */
export function newWorker() {
  const text = held("worker.mjs");
  const code = text === null ? `import ${JSON.stringify(new URL("worker.mjs", import.meta.url).href)};` : new TextDecoder().decode(heldBytes("worker.mjs"));
  address ??= URL.createObjectURL(new Blob([code], { type: "text/javascript" }));
  return new Worker(address, { type: text === null ? "module" : "classic" });
}
