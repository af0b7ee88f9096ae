// A forest of paths as a picture: its roots at the left, each box after the one that leads to it, one row for each end.
const SVG = "http://www.w3.org/2000/svg", ROW = 25, HEIGHT = 19, GAP = 22, CHARACTER = 6.7, MOST = 48;
/** How much smaller a picture may be drawn to fit its room. */
const SMALLEST = 0.8;

/** What fits into a box; the whole is its title. */
const short = (text) => (text.length <= MOST ? text : `${text.slice(0, MOST - 1)}…`);

const SIGNS = { LT: "<", GT: ">", RF: "&", BP: "*", LP: "(", RP: ")", C: ",", u20: " ", u27: "'", u5b: "[", u5d: "]", u7b: "{", u7d: "}" };

/** A function's name to be read: one that Rust mangled in its older form without that, and without its hash; another as it is. */
export function readable(name) {
  const parts = [];
  if (name.length > 2000) return name;
  for (let rest = /^_ZN(.*)E$/s.exec(name)?.[1] ?? ""; rest; ) {
    const digits = /^\d+/.exec(rest)?.[0], length = Number(digits);
    if (!digits || digits.length + length > rest.length) return name;
    parts.push(rest.slice(digits.length, digits.length + length));
    rest = rest.slice(digits.length + length);
  }
  if (parts.length > 1 && /^h[0-9a-f]{16}$/.test(parts.at(-1))) parts.pop();
  if (!parts.length) return name;
  const whole = (it) => it.replace(/^_(?=\$)/, "").replace(/\$(\w+)\$/g, (sign, of) => (Object.hasOwn(SIGNS, of) ? SIGNS[of] : sign)).replace(/\.\./g, "::");
  return parts.map(whole).join("::");
}

/** The last two parts of a name that can be read, which say most. */
export function shortName(name) {
  const found = readable(name);
  if (found === name) return name;
  let plain = found;
  for (let last = ""; last !== plain; ) [last, plain] = [plain, plain.replace(/<[^<>]*>(?:::)?/g, "")];
  return plain.split("::").filter(Boolean).slice(-2).join("::") || found;
}

const KINDS = { method: "", static: "", constructor: "new ", "resource-drop": "drop ", "resource-new": "new ", "resource-rep": "rep " };

/** An import as a box has it: without what a reader can do without; of an interface without its namespace and version. */
export function shortImport(module, name) {
  const plain = name.replace(/^\[([a-z-]+)\]/, (whole, kind) => KINDS[kind] ?? whole);
  return module === null ? plain : `${module.replace(/^[^:/]*:(?=.)/, "").replace(/@[^@/]*$/, "")} ${plain}`;
}

function element(name, attributes, parent, text) {
  const made = document.createElementNS(SVG, name);
  for (const [key, value] of Object.entries(attributes)) made.setAttribute(key, value);
  if (text !== undefined) made.textContent = text;
  parent?.append(made);
  return made;
}

/** The boxes as a forest: each with the one to its left, and those to its right. */
export function forest(boxes) {
  const byId = new Map();
  for (const box of boxes) {
    const left = byId.get(box.left) ?? null, it = { ...box, left, right: [] };
    left?.right.push(it);
    byId.set(box.id, it);
  }
  const all = [...byId.values()];
  return { all, roots: all.filter((it) => !it.left) };
}

/** The row of each box: an end has one of its own, and another is in the middle of those to its right. */
function placeRows(roots) {
  let rows = 0;
  // without recursion: a path may be long
  const todo = roots.map((it) => ({ it, isDone: false })).reverse();
  while (todo.length) {
    const { it, isDone } = todo.pop();
    if (!it.right.length) it.y = rows++ * ROW + 14;
    else if (isDone) it.y = (it.right[0].y + it.right.at(-1).y) / 2;
    else {
      // short paths are above long ones
      it.right.sort((a, b) => (b.kind === "import") - (a.kind === "import"));
      todo.push({ it, isDone: true }, ...it.right.map((other) => ({ it: other, isDone: false })).reverse());
    }
  }
  return rows;
}

/** What is before the label of a box through which each path goes. */
const mark = (it) => (it.isMark ? "* " : "");

/** The path to a box as a text. */
export function pathOf(it) {
  const labels = [];
  for (let at = it; at; at = at.left) labels.push(mark(at) + (at === it ? at.title : at.label));
  return labels.reverse().join(" → ");
}

/** The text in a box. */
const textOf = (it) => short(mark(it) + it.label);

function draw(it, boxes, edges) {
  if (it.left) {
    const from = it.left.x + it.left.width, middle = it.x - GAP / 2;
    it.edge = element("path", { d: `M${from} ${it.left.y}C${middle} ${it.left.y} ${middle} ${it.y} ${it.x} ${it.y}` }, edges);
  }
  it.box = element("g", { class: `node ${it.kind}${it.isMark ? " mark" : ""}` }, boxes);
  element("title", {}, it.box, it.title);
  element("rect", { x: it.x, y: it.y - HEIGHT / 2, width: it.width, height: HEIGHT, rx: it.kind === "item" ? 4 : 10 }, it.box);
  element("text", { x: it.x + 8, y: it.y + 4 }, it.box, textOf(it));
}

/** Lights the path to a box while it is pointed at or focused, and picks an import by a click or a key. The listeners are of what
 *  is around the boxes: of each box with a listener of its focus a browser makes a stop of the Tab key. */
function listen(frame, all, ends, pick) {
  const byBox = new Map(all.map((it) => [it.box, it])), boxOf = (event) => byBox.get(event.target.closest?.(".node")) ?? null;
  let lit = null;
  const light = (to) => {
    if (to === lit) return;
    for (const [it, on] of [[lit, false], [to, true]]) {
      for (let at = it; at; at = at.left) {
        at.box.classList.toggle("lit", on);
        at.edge?.classList.toggle("lit", on);
      }
    }
    frame.firstChild.classList.toggle("pointed", to !== null);
    lit = to;
  };
  for (const name of ["pointerover", "focusin"]) frame.addEventListener(name, (event) => light(boxOf(event)));
  for (const name of ["pointerleave", "focusout"]) frame.addEventListener(name, () => light(null));
  // one box is a stop of the Tab key: that which had the focus last
  frame.addEventListener("focusin", (event) => {
    const it = boxOf(event);
    if (it?.kind === "import") for (const other of ends) other.box.setAttribute("tabindex", other === it ? "0" : "-1");
  });
  frame.addEventListener("click", (event) => {
    const it = boxOf(event);
    if (it?.kind === "import") pick(it);
  });
  frame.addEventListener("keydown", (event) => {
    const it = boxOf(event), at = ends.indexOf(it), to = { ArrowDown: at + 1, ArrowUp: at - 1, Home: 0, End: ends.length - 1 }[event.key];
    if (at < 0 || (to === undefined && event.key !== "Enter" && event.key !== " ")) return;
    event.preventDefault();
    if (to === undefined) pick(it);
    else ends[to]?.box.focus();
  });
}

/** The picture of boxes `{ id, left, label, title, kind }`, each after the one to its left, in a room so wide. */
export function picture(boxes, pick, room = Infinity) {
  const { all, roots } = forest(boxes), rows = placeRows(roots), height = Math.max(1, rows) * ROW + 6;
  let width = 0;
  for (const it of all) {
    it.x = it.left ? it.left.x + it.left.width + GAP : 4;
    it.width = textOf(it).length * CHARACTER + 16;
    width = Math.max(width, it.x + it.width + 8);
  }
  const scale = Math.max(SMALLEST, Math.min(1, room / width));
  const svg = element("svg", { viewBox: `0 0 ${width} ${height}`, width: width * scale, height: height * scale, role: "group", "aria-label": "Paths from the main module to imports" });
  const edges = element("g", { class: "edges", "aria-hidden": "true" }, svg), nodes = element("g", {}, svg);
  const ends = all.filter((it) => it.kind === "import").sort((a, b) => a.y - b.y);
  for (const it of all) draw(it, nodes, edges);
  ends.forEach((it, n) => {
    const set = { tabindex: n ? "-1" : "0", role: "button", "aria-label": pathOf(it), "data-key": `node ${it.id}` };
    for (const [name, value] of Object.entries(set)) it.box.setAttribute(name, value);
  });
  const frame = document.createElement("div");
  frame.append(svg);
  listen(frame, all, ends, pick);
  return frame;
}
