// What the library says of a component whose worlds are there: which interfaces it imports and with what each goes, as
// `wcplan --imports` says it, and the paths to them, as `wcplan --why` says them.
import { Boxes, counted, itemTexts, joined, MOST } from "./boxes.mjs";
import { shortImport } from "./picture.mjs";

/** The files of the modules of the library's answers: the main module, and adapters by their names. */
const nameOf = (main, { adapter }) => (adapter === null ? main.name : adapter);

/** Lists by a key: of each what it has. */
function grouped(list, keyOf, of) {
  const groups = new Map();
  for (const it of list) (groups.get(keyOf(it)) ?? groups.set(keyOf(it), new Set()).get(keyOf(it))).add(of(it));
  return groups;
}

/** The functions that modules import of each interface, with whether the component imports them: a call by the interface. */
function functionsBy({ main, adapters }, ways) {
  const functions = [main, ...adapters.map((it) => it.file)].flatMap((it) => it.imports.filter((other) => other.kind === "func"));
  const own = ways.filter((it) => it.name !== null), names = grouped(functions, (it) => it.module, (it) => it.name);
  const imported = grouped(own, (it) => it.interface, (it) => it.import.name), modules = grouped(own, (it) => it.interface, (it) => it.import.module);
  return (key) => {
    const there = imported.get(key) ?? new Set(), all = [...new Set([key, ...(modules.get(key) ?? [])])].flatMap((it) => [...(names.get(it) ?? [])]);
    return new Map([...all, ...there].map((name) => [name, there.has(name)]));
  };
}

/** What adapters import, as their files have it, and the component does not: trimming removes it. */
function removedOf({ adapters, record }, imports, ways) {
  const kept = new Set([...imports.map((it) => it.interface), ...ways.map((it) => it.import?.module)]);
  for (const { info } of record.adapters) for (const { module } of info.imports) kept.add(module);
  const removed = new Map(), inner = new Set(["__main_module__", ...adapters.map((it) => it.name)]);
  for (const { file } of adapters) {
    for (const { module, name, kind } of file.imports) {
      if (kind === "func" && !kept.has(module) && !inner.has(module)) (removed.get(module) ?? removed.set(module, new Map()).get(module)).set(name, false);
    }
  }
  return [...removed].sort(([a], [b]) => (a < b ? -1 : 1)).map(([key, functions]) => ({ key, kind: null, functions, modules: [] }));
}

/** The interfaces that a component imports, in the library's order, and then those that trimming removed. */
export function componentInterfaces(found, imports, { ways }) {
  const types = new Map(ways.filter((it) => it.name === null).map((it) => [it.interface, it])), functionsOf = functionsBy(found, ways);
  const entry = ({ interface: key, kind, modules }) => ({ key, kind, modules, functions: functionsOf(key), type: types.get(key) ?? null });
  return [...imports.map(entry), ...removedOf(found, imports, ways)];
}

/** The calls through which an interface comes: those of the main module, and exports of adapters. */
export const throughOf = (main, { modules }) => modules.flatMap((it) => (it.adapter === null ? [main.name] : [...it.exports, ...it.stays]));

/** Who needs a type of an interface that is imported for its types alone. */
function needs({ type: way }) {
  const it = way?.import, type = way?.type ? `its type ${way.type}` : "one of them";
  if (!it) return "";
  return /^world (?:im|ex)ports$/.test(it.module) ? `: ${it.name}, which the ${it.module}, needs ${type}` : `: ${it.name} of ${it.module} needs ${type}`;
}

/** A function of the main module, by its name or that of its export. */
const labelIn = (main, { index, name }) => itemTexts("func", index, name ?? main.exports.find((it) => it.kind === "func" && it.index === index)?.name).label;

/** Why an interface is imported, and when it goes. */
export function componentSentence(main, it) {
  const { kind, modules } = it;
  if (kind === null) return "It is not imported: no export that is used reaches it, and trimming removes it.";
  if (kind === "types") return `It is imported for its types alone${needs(it)}. It goes when nothing that is imported needs one.`;
  const own = modules.find((other) => other.adapter === null), others = modules.filter((other) => other.adapter !== null);
  const calls = others.flatMap((other) => other.exports), stays = others.flatMap((other) => other.stays), bytes = others.reduce((sum, other) => sum + (other.bytes ?? 0), 0);
  if (own) {
    const by = own.by?.length ? `, in ${joined(own.by.map((other, n) => (n < 6 ? labelIn(main, other) : "")))}` : "";
    const reaching = [...calls, ...stays], other = reaching.length ? `, and ${joined(reaching)} of ${others.length > 1 ? "adapters" : "an adapter"} ${reaching.length > 1 ? "reach" : "reaches"} it too` : ". It goes when no code there calls it";
    return `${main.name} imports it itself${by}${other}.`;
  }
  const called = calls.length ? `${main.name} calls ${joined(calls)}` : "", needed = stays.length ? `the component needs ${joined(stays)}` : "";
  const because = `It is imported because ${[called, needed].filter(Boolean).join(", and ")}.`;
  if (kind === "stays") return `${because} It stays with ${others.length > 1 ? "these adapters" : "this adapter"}, whatever ${main.name} calls.`;
  return `${because} It goes when ${calls.length > 1 ? "none of these is" : "that is not"} used, and ${counted(bytes, "byte")} of the adapter with it.`;
}

/** The items of a path, from where it begins: each names the next. */
function pathTo(module, item, isThere) {
  const path = [];
  for (let at = item; at !== null; at = module.items[at].from) {
    path.push(at);
    // what leads there is drawn already
    if (path.length > 1 && isThere(at)) break;
  }
  return path.reverse();
}

const FIRST = {
  export: (it, name) => ["export", it.name, `${name} exports ${it.name}`],
  start: (_, name) => ["export", "start function", `${name} has a start function`],
  fills: (it, name) => ["item", `${it.space} ${it.index}`, `${name} fills ${it.space} ${it.index}, through which it may be called`],
  unreached: (_, name) => ["item", "not reached", `nothing in ${name} is known to lead there`],
  unread: (it, name) => ["item", "not followed", `${name} is not followed: ${it.body}`],
};

/** The tree of paths to imports as boxes of a picture. */
class Tree {
  #boxes = new Boxes();

  constructor({ main }, { modules }) {
    Object.assign(this, { main, modules });
  }

  get all() {
    return this.#boxes.all;
  }

  #id(at, item) {
    return `${at}\n${this.modules[at].items[item].space} ${this.modules[at].items[item].index}`;
  }

  /** The box where a path begins, of an item that has a root. */
  #root(at, item) {
    const module = this.modules[at], { root, only } = module.items[item], it = module.roots[root], isMain = module.adapter === null;
    const name = nameOf(this.main, module), [kind, label, title] = (FIRST[it.kind] ?? FIRST.unreached)(it, name);
    const isCalled = !isMain && it.main !== null && it.main !== undefined;
    const left = isMain ? this.#boxes.add("main", null, this.main.name, "main") : isCalled ? this.leftOf(0, it.main) : this.#boxes.add("component", null, "the component", "component");
    const by = isCalled ? `${this.main.name} imports ${label} of ${name}` : isMain ? title : `the component needs ${label} of ${name}`;
    const isMark = Boolean(only) || (isCalled && Boolean(this.modules[0].items[it.main].only));
    return this.#boxes.add(`${at} ${it.kind}\n${label}`, left, label, kind, by, isMark);
  }

  /** The box before an item: of the path that leads to it all but itself are drawn. */
  leftOf(at, item) {
    const module = this.modules[at], name = nameOf(this.main, module);
    const path = pathTo(module, item, (it) => this.#boxes.has(this.#id(at, it))), first = module.items[path[0]];
    const isRoot = first.root !== null, isStart = isRoot && module.roots[first.root].kind === "start";
    let left = isRoot ? this.#root(at, path[0]) : this.#boxes.has(this.#id(at, path[0])) ? this.#id(at, path[0]) : this.#boxes.add("main", null, this.main.name, "main");
    const inner = path.slice(isRoot && isStart ? 0 : 1, -1), half = MOST.steps / 2, cut = inner.length > MOST.steps ? inner.length - MOST.steps : 0;
    const drawn = cut ? [...inner.slice(0, half), ...inner.slice(half + cut)] : inner;
    drawn.forEach((position, n) => {
      const { space, index, name: own, only, callers } = module.items[position], id = this.#id(at, position), { label, title } = itemTexts(space, index, own);
      if (cut && n === half) left = this.#boxes.add(`${id} cut`, left, `… ${counted(cut, "item")}`, "item", `${counted(cut, "item")} of ${name} that are not drawn`);
      left = this.#boxes.add(id, this.#called(left, id, callers, name), label, "item", `${title} of ${name}`, only);
    });
    return this.#called(left, `${this.#id(at, item)} end`, module.items[item].callers, name);
  }

  /** The functions that may call an item that a table hands out, before it. */
  #called(left, id, callers, name) {
    if (!callers?.count) return left;
    const texts = callers.first.map((it) => itemTexts("func", it.index, it.name)), more = callers.count - texts.length;
    const of = (member) => joined([...texts.map((it) => it[member]), ...(more > 0 ? [`${more} more`] : [])]);
    return this.#boxes.add(`${id} callers`, left, `called by ${of("label")}`, "item", `of ${name} ${of("title")} may call it through the table`);
  }

  /** The box of an import. */
  end(id, way, left, isOfOne) {
    if (way.name !== null) return this.#boxes.add(id, left, shortImport(isOfOne ? null : way.interface, way.name), "import", `${way.interface} ${way.name}`, false, way.interface);
    const types = way.type ? `its type ${way.type}` : "its types";
    return this.#boxes.add(id, left, `${shortImport(way.interface, "").trim()}: ${types}`, "import", `${way.interface} for ${types}`, false, way.interface);
  }

  /** The box before an interface that is imported for its types alone: the import that needs one, or the world. */
  needing(way) {
    const { module, item, import: by } = way;
    const left = module !== null && item !== null ? this.leftOf(module, item) : module !== null ? this.#boxes.add("main", null, this.main.name, "main") : this.#boxes.add("component", null, "the component", "component");
    if (!by) return left;
    return this.#boxes.add(JSON.stringify(["needs", module, by.module, by.name]), left, shortImport(by.module, by.name), "item", `${by.module} ${by.name}, which needs a type`);
  }
}

/** The paths to imports as boxes, and how many more there are; and where each path to what was asked for could be cut. */
export function componentBoxes(found, answer, isOfOne) {
  const tree = new Tree(found, answer), seen = new Map();
  for (const way of answer.ways.slice(0, MOST.ends)) {
    const { adapter = null } = answer.modules[way.module] ?? {}, plain = JSON.stringify([adapter, way.interface, way.import?.name, way.name === null]);
    // an import may be there twice
    const count = (seen.get(plain) ?? 0) + 1, left = way.name === null ? tree.needing(way) : way.item === null || way.module === null ? null : tree.leftOf(way.module, way.item);
    seen.set(plain, count);
    tree.end(`end ${plain} ${count}`, way, left, isOfOne);
  }
  return { boxes: tree.all, more: Math.max(0, answer.ways.length - MOST.ends), cuts: tree.all.filter((it) => it.isMark).map((it) => it.label) };
}
