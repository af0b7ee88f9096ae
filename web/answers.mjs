// What the page shows of a component. It is made of the library's answers alone: what a module imports, exports and calls its
// functions (`scan`), what a component requires (`plannedWorld`), what is left (`trim`); with worlds, which interfaces it
// imports and why (component.mjs), and without them which chains lead to imports (`why`, `paths`). Here files get their roles
// and names, and what is shown is put together.
import { Boxes, counted, itemTexts, joined, MOST } from "./boxes.mjs";
import { componentBoxes, componentInterfaces, componentSentence, throughOf } from "./component.mjs";
import { faultsOf, hintOf } from "./hints.mjs";
import { BadArgument, Fault, OutOfMemory } from "./nuigatre.mjs";
import { shortImport } from "./picture.mjs";
import { placeText } from "./places.mjs";

/** The name under which adapters import what the main module exports. */
const MAIN_MODULE = "__main_module__";

/** A list cut to its first, and how many are left out. */
const cut = (list, most) => ({ list: list.slice(0, most), more: Math.max(0, list.length - most) });
const isFunction = (it) => it.kind === "func";

/** An adapter's name is that of its file up to the first dot, unless it is given. */
export const nameOf = (file) => file.replace(/^.*\//, "").replace(/\..*$/, "");

/** A dropped file: a module with what the library lists of it, or the fault for which it is refused; or worlds as a text. */
export function readFile(library, name, bytes) {
  const isWasm = [0, 0x61, 0x73, 0x6d].every((it, n) => bytes[n] === it);
  // what is listed of the text may be wrong where that is no UTF-8: the library gets its bytes, and refuses them
  if (!isWasm) return { name, bytes, text: new TextDecoder().decode(bytes) };
  try {
    const { imports, exports, function_names } = library.scan(bytes);
    return { name, bytes, isModule: true, imports, exports, functionNames: new Map(function_names.map((it) => [it.index, it.name])) };
  } catch (why) {
    if (!(why instanceof Fault)) throw why;
    return { name, bytes, refused: Object.assign(why, { file: name }) };
  }
}

/** The names of the functions that a module imports, by the modules that it imports them of; but not what adapters import of
 *  the main module. */
function importsByModule(file) {
  const all = new Map();
  for (const it of file.imports.filter((it) => isFunction(it) && it.module !== MAIN_MODULE)) (all.get(it.module) ?? all.set(it.module, new Set()).get(it.module)).add(it.name);
  return all;
}

/** The names of adapters, beside this main module: as is given; or that of the file, if the main module imports of it; or else
 *  one of which the main module imports nothing but what the adapter exports. */
function adapterNames(asked, adapters, names) {
  const isNamed = (file) => Object.hasOwn(names, file.name), ownName = (file) => (isNamed(file) ? names[file.name] : nameOf(file.name));
  const taken = new Set(adapters.map(ownName));
  return adapters.map((file) => {
    const own = ownName(file);
    if (isNamed(file) || asked.has(own)) return own;
    const has = new Set(file.exports.filter(isFunction).map((it) => it.name));
    const found = [...asked].find(([module, list]) => !taken.has(module) && [...list].every((it) => has.has(it)));
    if (!found) return own;
    taken.add(found[0]);
    return found[0];
  });
}

/** Which file is the main module, and which are adapters, with their names: as is chosen, or else by what modules import of
 *  each other. */
export function rolesOf(files, { main: chosen, names = {} } = {}) {
  const modules = files.filter((it) => it.isModule), worlds = files.find((it) => it.text !== undefined);
  const rated = (main) => {
    const others = modules.filter((it) => it !== main), asked = importsByModule(main), found = adapterNames(asked, others, names);
    const adapters = others.map((file, n) => ({ name: found[n], file }));
    const isAdapter = main.imports.some((it) => it.module === MAIN_MODULE), hasMemory = !main.imports.some((it) => it.kind === "memory");
    return { main, adapters, worlds, isAdapter, hasMemory, met: adapters.filter((it) => asked.has(it.name)).length };
  };
  const given = modules.filter((it) => it.name === chosen), all = (given.length ? given : modules).map(rated);
  const isBetter = (a, b) => (b.met - a.met || a.isAdapter - b.isAdapter || b.hasMemory - a.hasMemory) > 0;
  return all.length ? all.reduce((best, it) => (isBetter(best, it) ? it : best)) : { main: undefined, adapters: [], worlds };
}

/** The worlds in a text, with the numbers of their imports and exports; none if it is no JSON, which the library says. */
export function worldsIn(text) {
  const sizeOf = (it) => Object.keys(it ?? {}).length;
  try {
    return JSON.parse(text).worlds.map((it) => ({ name: String(it.name), size: sizeOf(it.imports) + sizeOf(it.exports) }));
  } catch {
    return [];
  }
}

/** The world of a component. Where the main module lacks an export of the world, the adapters are tried for it in turn: the
 *  library says which export, and whether an adapter has it. The first fault counts where no adapter does. */
function plannedWorld(library, component) {
  const given = component.adapters.map((it) => [...it.exports]), first = [];
  for (let tries = 0; ; tries++) {
    const adapters = component.adapters.map((it, n) => ({ ...it, exports: given[n] }));
    try {
      return { made: library.plannedWorld({ ...component, adapters }), keys: given };
    } catch (why) {
      if (!(why instanceof Fault)) throw why;
      first.push(why);
      const { place } = why, isMissing = place?.kind === "missing-function" || place?.kind === "missing-export";
      const key = isMissing ? (place.kind === "missing-function" ? place.module : place.name) : null;
      const from = isMissing && place.adapter !== null ? component.adapters.findIndex((it) => it.name === place.adapter) : -1;
      const to = from + 1;
      const isKnown = key !== null && (from === -1 ? place.adapter === null : given[from].includes(key));
      if (!isKnown || to >= component.adapters.length || tries > 200) throw first.find((it) => it.place?.adapter === null) ?? first[0];
      if (from !== -1) given[from] = given[from].filter((it) => it !== key);
      given[to].push(key);
    }
  }
}

/** The world of the component of these files: the one that is chosen, or else the first that the library makes, from the
 *  largest on: one that includes others has what these have. */
function worldOf(library, main, adapters, worlds, chosen) {
  const found = worldsIn(worlds.text), names = found.map((it) => it.name);
  const bySize = found.map((_, n) => n).sort((a, b) => found[b].size - found[a].size || a - b).slice(0, MOST.worlds);
  const parts = adapters.map(({ name, file }) => ({ name, wasm: file.bytes, exports: [] })), given = { worlds: worlds.bytes, main: main.bytes };
  const tried = Number.isInteger(chosen) ? [chosen] : bySize.length ? bySize : [0];
  let fault = null;
  for (const world of tried) {
    try {
      const { made, keys } = plannedWorld(library, { ...given, world, adapters: parts });
      return { made, component: { ...given, world, adapters: parts.map((it, n) => ({ ...it, exports: keys[n] })) }, world, names };
    } catch (why) {
      if (!(why instanceof Fault)) throw why;
      fault ??= Object.assign(why, { world });
    }
  }
  throw Object.assign(fault, { worlds: names });
}

/** Which interfaces a component imports, and the paths to them; of a key that was asked about last the paths are kept. null if
 *  that needs more memory than there is. */
function answerOf(library, whole) {
  let key = null, last = null;
  const pathsOf = (asked) => {
    if (asked !== key) [last, key] = [library.componentPaths(whole.component, asked), asked];
    return last;
  };
  try {
    return { imports: library.componentImports(whole.component), all: library.componentPaths(whole.component, "all"), pathsOf };
  } catch (why) {
    if (!(why instanceof OutOfMemory)) throw why;
    return null;
  }
}

/** The fault of worlds that are there without a program; null if there is none. */
function faultOfWorlds(library, { bytes }) {
  try {
    library.world({ worlds: bytes, world: 0, main: new Uint8Array(0) });
  } catch (why) {
    if (!(why instanceof Fault)) throw why;
    // the program is looked at after the worlds
    return faultsOf(why.call, why.number)[0]?.[1] === "DEDUPE" ? null : why;
  }
  return null;
}

/** What is required of an adapter: what the main module imports, in its order; and, with worlds, what else its trimmed form
 *  exports. */
function requiredOf(library, asked, { name, file }, trimmed) {
  const functionsOf = (exports) => exports.filter(isFunction).map((it) => it.name), has = new Set(functionsOf(file.exports));
  const required = [...(asked.get(name) ?? []), ...(trimmed ? functionsOf(library.scan(trimmed).exports) : [])];
  return [...new Set(required)].filter((it) => has.has(it));
}

/** A switch: whether an export of an adapter counts as used. */
export const switchOf = (adapter, name) => `${adapter} ${name}`;

/** Of an adapter: the exports that are used, the chains to its imports, which exports reach each, and the trimmed size. */
function chainsOf(library, adapter, required, switched, settings) {
  const { bytes, exports } = adapter.file, isRequired = new Set(required);
  const others = exports.filter((it) => isFunction(it) && !isRequired.has(it.name)).map((it) => it.name);
  const used = [...required, ...others].filter((it) => switched[switchOf(adapter.name, it)] ?? isRequired.has(it));
  const found = { required, others, used, chains: null, reach: new Map(), trimmed: null };
  if (!used.length) return found;
  found.chains = library.why(bytes, used);
  for (const name of used.slice(0, MOST.exports)) {
    library.why(bytes, [name]).imports.forEach((at, n) => at !== null && found.reach.set(n, [...(found.reach.get(n) ?? []), name]));
  }
  found.trimmed = library.trim(bytes, used, settings);
  return found;
}

/** The imports of an adapter that are of other core modules, and not of the component. */
function innerModules(record, adapters) {
  const inner = new Set([MAIN_MODULE, ...adapters.map((it) => it.name)]);
  for (const { info } of record?.adapters ?? []) {
    for (const { module, instance } of info.imports) {
      if (instance.names?.some((it) => /^(main-module|adapter)/.test(it.import.kind))) inner.add(module);
    }
  }
  return inner;
}

/** Whether a key asks about a module: it is the module's name or its package, each with its version or without. */
export function asksFor(key, module) {
  const [, name, version] = /^(.*?)(@[^@/]*)?$/s.exec(module), end = name.indexOf("/"), package_ = end < 0 ? null : name.slice(0, end);
  const names = [module, name, ...(package_ === null ? [] : [package_, `${package_}${version ?? ""}`])];
  return key === "all" || names.includes(key);
}

/** Whether the component has to import this: it is a function, and of no other core module. */
const isOuter = (inner) => (it) => isFunction(it) && !inner.has(it.module);

/** Each interface of imports, with its functions, and by which exports of adapters or of the main module it comes, as far as
 *  modules say it: which are imported for their types alone is known of the component with all that is required. */
function interfacesOf({ main, asked, adapters, parts, inner, types }) {
  const all = new Map();
  const entry = (key) => all.get(key) ?? all.set(key, { key, functions: new Map(), calls: new Set(), own: new Set(), ticked: new Set(), isOfMain: false }).get(key);
  for (const it of main.imports.filter(isOuter(inner))) {
    const found = entry(it.module);
    found.isOfMain = true;
    found.functions.set(it.name, true);
  }
  adapters.forEach(({ name, file }, n) => {
    const calls = asked.get(name) ?? new Set(), isRequired = new Set(parts[n].required);
    file.imports.forEach((it, at) => {
      if (!isOuter(inner)(it)) return;
      const found = entry(it.module), by = parts[n].reach.get(at);
      found.functions.set(it.name, Boolean(by) || (found.functions.get(it.name) ?? false));
      for (const export_ of by ?? []) found[calls.has(export_) ? "calls" : isRequired.has(export_) ? "own" : "ticked"].add(export_);
    });
  });
  for (const key of types) entry(key);
  const kindOf = (it) => ([...it.functions.values()].some(Boolean) ? "used" : types.includes(it.key) ? "types" : null);
  const entries = [...all.values()].map((it) => ({ ...it, kind: kindOf(it) })), rank = (it) => ["used", "types", null].indexOf(it.kind);
  return entries.sort((a, b) => rank(a) - rank(b) || (a.key < b.key ? -1 : 1));
}

/** The shortest path through the main module to each of its imports; and why there is none, if it can't be followed. */
function mainPaths(library, main) {
  const paths = new Map(), functions = main.imports.filter(isFunction);
  if (!functions.length) return { paths, unfollowed: null };
  // no more than can be drawn: the paths to many imports may be long
  const imports = functions.length > MOST.ends ? functions.slice(0, MOST.ends).map((it) => `${it.module}=${it.name}`) : [];
  try {
    for (const { interface: module, name, steps } of library.paths(main.bytes, { imports })) paths.set(JSON.stringify([module, name]), steps);
    return { paths, unfollowed: null };
  } catch (why) {
    if (!(why instanceof Fault || why instanceof BadArgument || why instanceof OutOfMemory)) throw why;
    return { paths, unfollowed: why };
  }
}

/** The file that a fault of a component is about. */
function fileOfFault(why, { main, adapters, worlds }) {
  const faults = faultsOf(why.call, why.number).map((it) => it.join(" ")), adapter = adapters.find((it) => it.name === why.place?.adapter);
  if (adapter) return adapter.file.name;
  return faults.some((it) => ["world MAIN", "message DEDUPE", "message PLAN"].includes(it)) ? main.name : faults.length ? worlds.name : null;
}

/** All that is computed of the files, before it is filtered. */
export function compute(library, files, state = {}) {
  const { main, adapters, worlds, isAdapter } = rolesOf(files, state), switched = state.switched ?? {};
  const faults = files.filter((it) => it.refused).map((it) => it.refused), texts = files.filter((it) => it.text !== undefined && it !== worlds);
  faults.push(...texts.map((it) => ({ file: it.name, message: `it is no module, and the worlds are those of ${worlds.name}`, hint: "Take one of the two away." })));
  if (!main) {
    const why = worlds && faultOfWorlds(library, worlds);
    if (why) faults.push(Object.assign(why, { file: worlds.name }));
    return { files, main: null, adapters: [], worlds, faults };
  }
  const attempt = (file, call) => {
    try {
      return call();
    } catch (why) {
      if (!(why instanceof Fault || why instanceof BadArgument)) throw why;
      faults.push(Object.assign(why, { file: file ?? fileOfFault(why, { main, adapters, worlds }) }));
      return null;
    }
  };
  const asked = importsByModule(main);
  const renamed = attempt(main.name, () => library.dedupe(main.bytes));
  const whole = worlds ? attempt(null, () => worldOf(library, main, adapters, worlds, state.world)) : null;
  const record = whole?.made.record ?? null, exports = record?.info.exports ?? [];
  const ofKind = (kind) => exports.find((it) => it.export.kind === kind);
  const realloc = ofKind("general-purpose-realloc")?.name ?? null;
  const pageSizeLog2 = ofKind("memory")?.export.type.page_size_log2 ?? 16;
  const none = { required: [], others: [], used: [], chains: null, reach: new Map(), trimmed: null };
  const parts = adapters.map((adapter) => attempt(adapter.file.name, () => {
    const made = whole?.made.adapters.find((it) => it.name === adapter.name)?.wasm;
    const required = requiredOf(library, asked, adapter, made), found = chainsOf(library, adapter, required, switched, { realloc, pageSizeLog2 });
    // where nothing is switched the adapter is the component's
    return made && found.used.join("\n") === required.join("\n") ? { ...found, trimmed: made } : found;
  }) ?? none);
  const inner = innerModules(record, adapters), { paths, unfollowed } = mainPaths(library, main);
  const known = whole && attempt(null, () => answerOf(library, whole)), types = known?.imports.filter((it) => it.kind === "types").map((it) => it.interface) ?? [];
  // the library's answers are about the component as it is: with other exports it is asked about its modules
  const answer = parts.every((it) => it.used.length === it.required.length && it.used.every((name, n) => name === it.required[n])) ? known : null;
  const found = { files, main, isAdapter, asked, adapters, worlds, faults, renamed, whole, record, parts, inner, paths, unfollowed, types, answer };
  return { ...found, interfaces: answer ? componentInterfaces(found, answer.imports, answer.all) : interfacesOf(found) };
}

const STARTS = {
  export: (it) => ["export", it.name, `exports ${it.name}`],
  start: () => ["export", "start function", "has a start function"],
  fills: (it) => ["item", `${it.space} ${it.index}`, `fills ${it.space} ${it.index}, through which it may be called`],
};

/** A path without its middle, if it has more steps than are drawn. */
function middleCut(steps) {
  const half = MOST.steps / 2, more = steps.length - MOST.steps;
  return more > 0 ? [...steps.slice(0, half), { cut: more }, ...steps.slice(half + more)] : steps;
}

/** Boxes of the path through the main module to one of its imports: the id of the last one. */
function addMainPath(boxes, { main, paths }, { module, name }) {
  let left = boxes.add("main", null, main.name, "main"), id = "main";
  const steps = paths.get(JSON.stringify([module, name])) ?? [];
  // the item after an export or a table is that itself, and the last one is the import
  for (const step of middleCut(steps.slice(0, -1).filter((_, n) => n !== 1 || steps[0].kind === "start"))) {
    if (step.cut) {
      left = boxes.add(`${id}\ncut`, left, `… ${counted(step.cut, "item")}`, "item", `${counted(step.cut, "item")} of ${main.name} that are not drawn`);
      continue;
    }
    const isItem = step.kind === "item";
    const { label, title } = isItem ? itemTexts(step.space, step.index, step.name) : { label: STARTS[step.kind](step)[1], title: `${main.name} ${STARTS[step.kind](step)[2]}` };
    id += `\n${isItem ? `${step.space} ${step.index}` : JSON.stringify([step.kind, label])}`;
    left = boxes.add(id, left, label, isItem ? "item" : STARTS[step.kind](step)[0], isItem ? `${title} of ${main.name}` : title);
  }
  return left;
}

/** Boxes of the chain in an adapter to one of its imports: the id of the last one before it. */
function addChain(boxes, found, n, at) {
  const { main, asked, adapters, parts } = found, { chains, required } = parts[n], { name: own, file } = adapters[n];
  const steps = [at];
  while (chains.finders[steps.at(-1)] !== steps.at(-1)) steps.push(chains.finders[steps.at(-1)]);
  steps.reverse();
  const name = chains.exports[steps[0]], isCalled = asked.get(own)?.has(name) ?? false;
  const root = isCalled ? addMainPath(boxes, found, { module: own, name }) : required.includes(name) ? boxes.add("component", null, "the component", "component") : boxes.add("you", null, "you ticked", "component");
  const by = isCalled ? `${main.name} imports ${name} of ${own}` : required.includes(name) ? `the component needs ${name} of ${own}` : `you ticked ${name} of ${own}`;
  let left = boxes.add(`${n} export ${name}`, root, name, "export", by);
  // the first item is the export's own, and the last one the import
  for (const step of middleCut(steps.slice(1, -1))) {
    if (step.cut) {
      left = boxes.add(`${n} cut ${at}`, left, `… ${counted(step.cut, "item")}`, "item", `${counted(step.cut, "item")} of ${own} that are not drawn`);
      continue;
    }
    const { space, index } = chains.items[step], { label, title } = itemTexts(space, index, space === "func" ? file.functionNames.get(index) : undefined);
    left = boxes.add(`${n} ${step}`, left, label, "item", `${title} of ${own}`);
  }
  return left;
}

/** The chains to the imports that are wanted, as boxes of a picture. */
function boxesOf(found, wanted, isOfOne) {
  const { main, adapters, parts, inner } = found, boxes = new Boxes();
  let ends = 0;
  const end = (id, it, leftOf) => {
    if (++ends > MOST.ends) return;
    boxes.add(id, leftOf(), shortImport(isOfOne ? null : it.module, it.name), "import", `${it.module} ${it.name}`, false, it.module);
  };
  for (const it of main.imports.filter((it) => isOuter(inner)(it) && wanted(it))) end(JSON.stringify([it.module, it.name]), it, () => addMainPath(boxes, found, it));
  adapters.forEach(({ file }, n) => parts[n].chains?.imports.forEach((at, number) => {
    const it = file.imports[number];
    if (at !== null && it && isOuter(inner)(it) && wanted(it)) end(`${n} import ${number}`, it, () => addChain(boxes, found, n, at));
  }));
  return { boxes: boxes.all, more: Math.max(0, ends - MOST.ends), cuts: [] };
}

/** Why an interface is imported, and when it goes, as far as modules say it. */
export function sentence(main, it) {
  const [calls, own, ticked] = [it.calls, it.own, it.ticked].map((set) => [...set]), count = calls.length + own.length + ticked.length;
  if (it.kind === null) return "No function of it is imported: no export that is used reaches one.";
  if (it.kind === "types") return "It is imported for its types alone, as long as all is used that the component needs; what you took away or ticked may change that.";
  if (it.isOfMain) return `${main.name} imports it itself${count ? `, and ${joined([...calls, ...own, ...ticked])} of an adapter ${count > 1 ? "reach" : "reaches"} it too` : ". It goes when no code there calls it"}.`;
  const parts = [calls.length && `${main.name} calls ${joined(calls)}`, own.length && `the component needs ${joined(own)}`, ticked.length && `you ticked ${joined(ticked)}`].filter(Boolean);
  return `It is imported because ${parts.join(", and ")}. It goes when ${count > 1 ? "none of these is" : "that is not"} used.`;
}

/** Where each path to what was asked for could be cut. */
const cutSentence = (cuts) => (cuts.length ? ` Each path goes through ${joined(cuts)}, marked *: without ${cuts.length > 1 ? "a call of one of these" : "that"} it goes.` : "");

/** A fault as it is shown: what it means, in which file and where, what to do, and the library's own text. */
export function faultView(why) {
  const { means, hint } = hintOf(why), place = why.place?.kind === "json-path" ? why.place.path || "the whole" : placeText(why.place ?? null);
  const file = why.file ? `${why.file}: ` : "", missing = why.missing ? `export ${JSON.stringify(why.missing)}` : "", text = why.text ?? (means ? why.message : "");
  return { title: `${file}${means || why.message}`, text, where: [place, missing].filter(Boolean).join(", "), hint: hint || (why.hint ?? ""), number: why.number ?? null };
}

/** Whether a name may be an adapter's: it is of no package, and nothing that the binary format of components fixes. */
const mayBeAdapter = (module) => !/[:[\]|$#]/.test(module) && !["env", "cm32p2", MAIN_MODULE, ""].includes(module);

/** The version of WASI whose worlds the page has: those of commands. And what modules call its first preview. */
export const WASI = "0.2.6", WASI_PREVIEW_1 = "wasi_snapshot_preview1";

/** What to do next, in the order of what is to be done first. `offer` is what a button does, `also` what the page has for it. */
export function notesOf({ main, isAdapter, asked, adapters, worlds, whole, parts, faults, interfaces, unfollowed }) {
  const notes = [], names = new Set(adapters.map((it) => it.name)), note = (text, offer = null, also = "") => notes.push({ text, offer, also });
  const open = [...asked].filter(([module]) => !whole && !names.has(module) && mayBeAdapter(module)).map(([module, list]) => ({ module, count: list.size }));
  if (isAdapter) note(`Add your program too: ${main.name} imports what a program exports, so it looks like an adapter.`, null, "Or choose “Make it main” for your program.");
  for (const { module, count } of open.slice(0, 5)) {
    const where = module === WASI_PREVIEW_1 ? ` It comes with Wasmtime’s releases: ${module}.command.wasm for programs, and ${module}.reactor.wasm for libraries.` : "";
    note(`Add the adapter ${module} too, if it is one: ${main.name} imports ${counted(count, "function")} of this name, which is of no package. Your component will import what that adapter imports, and not these.${where}`);
  }
  adapters.forEach(({ name, file }, n) => {
    if (parts[n].required.length || faults.some((it) => it.file === file.name) || isAdapter) return;
    const others = open.length ? `, but of ${joined(open.map((it) => it.module))}` : "";
    note(`Give ${file.name} the name under which ${main.name} imports it: it imports nothing of ${name}${others}.`, null, `If ${file.name} is your program, choose “Make it main”.`);
  });
  const isWasi = adapters.some((it) => it.file.exports.some((export_) => export_.name.startsWith(`wasi:cli/run@${WASI}#`))), offer = isWasi ? "wasi" : null;
  if (worlds && !whole) note(`Mend the fault above first${isWasi ? `, or use the worlds of WASI ${WASI}` : ""}: what is shown here is as without the worlds.`, offer);
  if (!worlds && adapters.length && !isAdapter) {
    const needed = adapters.flatMap((it) => it.file.exports).find((it) => isFunction(it) && it.name.includes("#"))?.name;
    const end = `: without them only what ${main.name} imports of an adapter counts as used, and a component needs more${needed ? `, such as ${needed}` : ""}.`;
    note(`${isWasi ? `Use the worlds of WASI ${WASI}, or add your own` : "Add the worlds, if you have them"}${end}`, offer, "You may also tick it below.");
  }
  if (unfollowed) note(`For paths through ${main.name} too, build it in another way: they can't be followed. ${faultView(unfollowed).title}`);
  if (!interfaces.length && !open.length) note(`Nothing is to be done: ${main.name} imports no function, and neither does its component.`);
  return notes;
}

/** What to do next where there is no program. */
function noteWithoutMain({ worlds, faults }) {
  if (!worlds || faults.some((it) => it.file === worlds.name)) return [];
  return [{ text: `Add your program too: ${worlds.name} has worlds, and no module is there.`, offer: null, also: "" }];
}

/** What can be saved, of all that was computed. */
export function downloadsOf({ main, adapters, parts, renamed, record }) {
  if (!main) return [];
  const list = adapters.map(({ name }, n) => ({ name: `${name}.trimmed.wasm`, bytes: parts[n].trimmed, type: "application/wasm" })).filter((it) => it.bytes);
  if (renamed?.renames.length) list.push({ name: "main.renamed.wasm", bytes: renamed.module, type: "application/wasm" });
  if (record) list.push({ name: "record.json", bytes: new TextEncoder().encode(JSON.stringify(record)), type: "application/json" });
  return list;
}

function filesView({ files, main, adapters, faults }) {
  return files.map((it) => {
    const adapter = adapters.find((other) => other.file === it);
    return { name: it.name, size: it.bytes.length, role: it === main ? "main" : adapter ? "adapter" : it.refused || faults.some((why) => why.file === it.name) ? "refused" : "worlds", as: adapter?.name ?? null };
  });
}

function switchesOf({ adapters, parts }) {
  const listed = (name, part, list) => cut(list.map((it) => ({ name: it, key: switchOf(name, it), isOn: part.used.includes(it) })), MOST.exports);
  return adapters.map(({ name }, n) => ({ adapter: name, ...listed(name, parts[n], parts[n].required), others: listed(name, parts[n], parts[n].others) }));
}

/** The interfaces that a key asks about, and the paths to them; null if there are none. */
function pickedOf(found, key) {
  const { answer, interfaces } = found, own = interfaces.filter((it) => it.key === key);
  // trimming removed it: the world may not have it at all
  if (!answer || own[0]?.kind === null) {
    const list = own.length ? own : interfaces.filter((it) => asksFor(key, it.key)), keys = new Set(list.map((it) => it.key));
    return list.length ? { list, paths: answer ? { boxes: [], more: 0, cuts: [] } : boxesOf(found, (it) => keys.has(it.module), list.length === 1) } : null;
  }
  try {
    const paths = answer.pathsOf(key), keys = new Set(paths.ways.map((it) => it.interface)), list = interfaces.filter((it) => keys.has(it.key));
    return { list: list.length ? list : interfaces.filter((it) => asksFor(key, it.key)), paths: componentBoxes(found, paths, list.length === 1) };
  } catch (why) {
    if (!(why instanceof Fault || why instanceof BadArgument)) throw why;
    const list = interfaces.filter((it) => asksFor(key, it.key));
    return list.length ? { list, paths: { boxes: [], more: 0, cuts: [] } } : null;
  }
}

/** What the page draws: of what was computed what a search finds, and the picture of what is picked. */
export function view(found, { find = "", picked = null } = {}) {
  const { main, adapters, parts, record, renamed, whole, answer } = found, text = find.trim().toLowerCase();
  const shown = { files: filesView(found), faults: found.faults.map(faultView), main: main?.name ?? null, notes: main ? notesOf(found) : noteWithoutMain(found) };
  Object.assign(shown, { worlds: whole?.names ?? found.faults.find((it) => it.worlds)?.worlds ?? [], world: whole?.world ?? found.faults.find((it) => it.worlds)?.world ?? null });
  if (!main) return shown;
  const matches = (it) => !text || it.key.toLowerCase().includes(text) || [...it.functions.keys()].some((name) => name.toLowerCase().includes(text));
  const through = (it) => (answer ? throughOf(main, it) : [...(it.isOfMain ? [main.name] : []), ...it.calls, ...it.own, ...it.ticked]);
  const says = (it) => (answer ? componentSentence(main, it) : sentence(main, it));
  const entries = found.interfaces.map((it) => ({ ...it, count: [...it.functions.values()].filter(Boolean).length }));
  const stays = entries.filter((it) => it.kind !== null), one = picked === null ? null : pickedOf({ ...found, interfaces: entries }, picked);
  const listed = cut(entries.filter(matches), MOST.interfaces), all = () => (answer ? componentBoxes(found, answer.all, false) : boxesOf(found, () => true, false));
  const sum = (list) => list.reduce((total, it) => total + it, 0), paths = one ? one.paths : all();
  const functions = one ? one.list.flatMap((it) => [...it.functions].map(([name, isImported]) => ({ name: one.list.length > 1 ? `${it.key} ${name}` : name, isImported }))) : [];
  return {
    ...shown,
    // what is asked about types has the worlds' answer alone
    hasTypes: answer !== null,
    interfaces: listed.list.map((it) => ({ key: it.key, kind: it.kind, count: it.count, all: it.functions.size, isOpen: !whole && mayBeAdapter(it.key), through: through(it).slice(0, 4), others: Math.max(0, through(it).length - 4) })),
    moreInterfaces: listed.more,
    numbers: { interfaces: stays.length, of: entries.length, functions: sum(stays.map((it) => it.count)), renamed: renamed?.renames.length ?? null, lowerings: record?.plan.length ?? null, before: sum(adapters.map((it) => it.file.bytes.length)), after: sum(parts.map((it) => it.trimmed?.length ?? 0)) },
    switches: switchesOf(found),
    picked: one && {
      key: one.list.length === 1 ? one.list[0].key : picked,
      says: (one.list.length === 1 ? says(one.list[0]) : one.list.length ? `These are ${counted(one.list.length, "interface")}.` : "It is in the world, and not imported.") + cutSentence(paths.cuts),
      list: one.list.map((it) => ({ key: it.key, says: says(it) })),
      functions: cut(functions, MOST.functions),
    },
    picture: paths,
    renames: cut(renamed?.renames ?? [], MOST.renames),
    plan: record && cut(record.plan.map((it) => ({ ...it, module: it.module.kind === "main" ? "main" : it.module.name })), MOST.uses),
  };
}
