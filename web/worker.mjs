// Computes what the page shows, in a thread of its own: whatever the modules are, the page can stop it.
import { compute, downloadsOf, readFile, view } from "./answers.mjs";
import { Nuigatre } from "./nuigatre.mjs";

let library = null, files = [], found = null, known = "";

/** Computes anew where what it depends on is another; whether it did. */
function computed(state) {
  const key = JSON.stringify([state.switched, state.main, state.names, state.world, files.map((it) => it.serial)]);
  if (key === known) return false;
  // what failed is computed again
  known = "";
  found = compute(library, files, state);
  known = key;
  return true;
}

async function answer({ given, state, wasm, memoryLimit }) {
  library ??= await Nuigatre.load(wasm ?? undefined, { memoryLimit });
  for (const { name, bytes, serial } of given ?? []) {
    files = files.filter((it) => it.name !== name);
    // one file of worlds is taken, the last one
    const file = { ...readFile(library, name, bytes), serial };
    if (file.text !== undefined) files = files.filter((it) => it.text === undefined);
    files.push(file);
  }
  files = files.filter((it) => !state.gone.includes(it.serial));
  const isNew = computed(state);
  // what can be saved is sent once
  return { ...view(found, state), isProved: library.isProved, memory: library.memory, downloads: isNew ? downloadsOf(found) : null };
}

onmessage = async ({ data }) => {
  try {
    postMessage({ serial: data.serial, shown: await answer(data) });
  } catch (why) {
    // a trap, or no memory: the page begins another worker
    postMessage({ serial: data.serial, failed: { name: why.name, message: why.message } });
  }
};
