// The page: shows what the worker computes of the files, and asks it anew where something is chosen.
import { fileOf, heldBytes, newWorker } from "./files.mjs";
import { forest, pathOf, picture } from "./picture.mjs";

const $ = (id) => document.getElementById(id);
const query = new URLSearchParams(location.search);
/** Of larger files the calls would need more memory than the worker's limit; and for how long they may take. */
const MOST_BYTES = 32 * 2 ** 20, MOST_SECONDS = Number(query.get("seconds")) || 60, MEMORY_LIMIT = 2 ** 30;
/** The example, and the worlds of WASI's commands. */
const EXAMPLE = { folder: "example/", files: ["main.wasm", "adapter.wasm", "notes.json"] }, WASI = "wasi-command.json";

const NOTHING = { switched: {}, main: null, names: {}, world: null, gone: [], find: "", picked: null };
const state = { ...NOTHING };
/** Each file with a number of its own, which the worker knows too. */
let files = [], serials = 0;
/** The worker, the number of what was asked last, and what is asked once it has answered. */
let worker = null, asked = 0, isBusy = false, isStale = false, given = [], library = null, begun = 0, watch = 0;
/** What was shown last, of files and faults, and of which interface; of so few paths the texts are shown with it. */
let lastFiles = [], lastFaults = "", lastPicked = null;
const FEW_PATHS = 5;

const plural = (count, one, several = one + "s") => (count === 1 ? one : several);
const bytes = (count) => `${count.toLocaleString("en")} ${plural(count, "byte")}`;

function made(name, { text, children = [], on = {}, ...attributes } = {}) {
  const it = document.createElement(name);
  for (const [key, value] of Object.entries(attributes)) if (value !== null && value !== false) it.setAttribute(key, value === true ? "" : value);
  if (text !== undefined) it.textContent = text;
  it.append(...children);
  for (const [event, call] of Object.entries(on)) it.addEventListener(event, call);
  return it;
}

const say = (text) => {
  if ($("says-status").textContent !== text) $("says-status").textContent = text;
};

/** A worker; a new one has to be given all files again. */
function start() {
  worker = newWorker();
  worker.onmessage = ({ data }) => answered(data);
  worker.onerror = (event) => answered({ serial: asked, failed: { name: "Error", message: event.message ?? "the worker does not start" } });
  given = [...files];
  library = heldBytes("nuigatre.wasm");
}

/** Ends the worker, whatever it is at. */
function stop(why) {
  worker?.terminate();
  worker = null;
  answered({ serial: asked, failed: { name: "Stopped", message: why } });
}

/** Asks for what is to be shown. While an answer is awaited only the newest question is kept. */
function ask() {
  isStale = true;
  if (isBusy) return;
  try {
    if (!worker) start();
  } catch (why) {
    isBusy = true;
    return answered({ serial: asked, failed: { name: why.name, message: why.message } });
  }
  isStale = false;
  isBusy = true;
  begun = performance.now();
  document.body.dataset.ready = "no";
  const files = given.splice(0).map(({ name, content, serial }) => ({ name, bytes: content, serial }));
  worker.postMessage({ serial: ++asked, given: files, state, wasm: library, memoryLimit: MEMORY_LIMIT });
  library = null;
  watch = setInterval(() => {
    const seconds = Math.floor((performance.now() - begun) / 1000);
    if (seconds >= MOST_SECONDS) return stop(`It took more than ${MOST_SECONDS} seconds, and was stopped.`);
    if (seconds >= 1) say(`Computing for ${seconds} s.`);
    $("stop").hidden = seconds < 1;
  }, 250);
}

const HINTS = {
  OutOfMemory: "The files need more memory than a gigabyte. Take one away; or ask wctrim and wcplan, which have no such limit.",
  Stopped: "Take a file away; or open the page with ?seconds=600 after its address; or ask wctrim and wcplan, which have no limit of time.",
  NuigatreError: "Is nuigatre.wasm beside the page, and of the same version?",
};

function answered({ serial, shown, failed }) {
  if (serial !== asked || !isBusy) return;
  isBusy = false;
  clearInterval(watch);
  $("stop").hidden = true;
  if (isStale && !failed) return ask();
  $("again").hidden = !failed;
  say("");
  if (failed) {
    worker?.terminate();
    worker = null;
    const known = (it) => lastFiles.find((other) => other.name === it.name && other.size === it.content.length);
    const names = files.map((it) => known(it) ?? { name: it.name, size: it.content.length, role: "file", as: null });
    keepingFocus(() => show({ files: names, faults: [{ title: failed.message, text: "", where: "", hint: HINTS[failed.name] ?? "" }], notes: [], worlds: [], main: null }));
  } else {
    keepingFocus(() => show(shown));
  }
  document.body.dataset.ready = "yes";
}

/** Draws anew; what has the focus, and what is written there, is kept. */
function keepingFocus(draw) {
  const active = document.activeElement, key = active?.dataset?.key, { value } = active ?? {};
  draw();
  if (!key || active.isConnected) return;
  const it = document.querySelector(`[data-key="${CSS.escape(key)}"]`);
  if (it && active.type === "text") it.value = value;
  (it ?? $(key.startsWith("file ") ? "choose" : "answer")).focus({ preventScroll: true });
}

function fileLine(it) {
  const remove = made("button", { type: "button", text: "×", "data-key": `file remove ${it.name}`, "aria-label": `Take ${it.name} away`, on: { click: () => takeAway(it.name) } });
  const role = made("span", { class: "role" });
  if (it.role === "adapter") {
    const name = made("input", { type: "text", value: it.as, "data-key": `file name ${it.name}`, "aria-label": `Name of the adapter ${it.name}` });
    name.addEventListener("change", () => change({ names: { ...state.names, [it.name]: name.value } }));
    role.append("adapter", name, made("button", { type: "button", text: "Make it main", "data-key": `file main ${it.name}`, "aria-label": `Make it main: ${it.name}`, on: { click: () => change({ main: it.name, switched: {} }) } }));
  } else {
    role.append({ main: "main module, your program", refused: "refused", file: "" }[it.role] ?? it.role);
  }
  return made("li", { children: [made("span", { class: "name", text: it.name }), made("span", { class: "size", text: bytes(it.size) }), remove, role] });
}

function pick(key) {
  change({ picked: state.picked === key ? null : key });
  // where the answer is below the list it would not be seen
  if (matchMedia("(max-width: 960px)").matches) $("shown").scrollIntoView();
}

function interfaceButton(it) {
  const isGone = it.kind === null, isTypes = it.kind === "types", through = it.through.join(", ") + (it.others ? ` and ${it.others} more` : "");
  const inside = [made("span", { class: "key mono", text: isGone || isTypes ? it.key : it.key.replace(/^[^/]*\//, "") }), made("span", { class: "count", text: isGone || isTypes ? "" : `${it.count} of ${it.all}` })];
  if (!isGone && !isTypes) inside.push(made("span", { class: "through", text: `through ${through}` }));
  const name = isGone ? `${it.key}, no function imported` : isTypes ? `${it.key}, for its types alone` : `${it.key}, ${it.count} of ${it.all} ${plural(it.all, "function")}, through ${through}`;
  return made("button", { type: "button", class: isGone ? "gone" : null, "data-key": `interface ${it.key}`, "aria-pressed": String(state.picked === it.key), "aria-label": name, children: inside, on: { click: () => pick(it.key) } });
}

function groupOf(it, hasTypes) {
  if (it.isOpen) return "Of no package: an adapter’s?";
  if (it.kind === "types") return "Imported for their types alone";
  if (it.kind === null) return hasTypes ? "Not imported: nothing that is used reaches them" : "No function of them is used: they may be imported for types";
  return it.key.includes("/") ? it.key.replace(/\/.*/, "") : "Of the world itself";
}

function listOf(interfaces, more, hasTypes) {
  const groups = new Map(), lines = [];
  // those of a package are together; what is imported comes first, and then what is so for its types, and what is not
  const rank = (it) => (it.kind === null ? 2 : it.kind === "types" ? 1 : 0);
  for (const it of [...interfaces].sort((a, b) => rank(a) - rank(b))) {
    const group = groupOf(it, hasTypes);
    (groups.get(group) ?? groups.set(group, []).get(group)).push(it);
  }
  for (const [head, list] of groups) lines.push(made("h3", { text: head }), ...list.map(interfaceButton));
  if (more) lines.push(made("p", { class: "quiet", text: `${more} more: search for them.` }));
  return lines.length ? lines : [made("p", { class: "quiet", text: state.find ? "No module has an import like that." : "No module has an import." })];
}

function numberEntries({ interfaces, of, functions, before, after, renamed, lowerings }) {
  const percent = before ? `−${Math.round(100 - (100 * after) / before)} %` : null;
  return [
    [interfaces, `${plural(interfaces, "interface")} imported, of ${of}`],
    [functions, `${plural(functions, "function")} of ${plural(interfaces, "it", "them")}`],
    [percent, `adapters: ${bytes(before)} → ${bytes(after)}`, "good"],
    [renamed, `${plural(renamed, "import")} renamed`],
    [lowerings, `${plural(lowerings, "function")} in the plan`],
  ].filter(([number]) => number !== null).map(([number, text, kind]) => made("div", { class: kind ?? null, children: [made("dt", { text }), made("dd", { text: String(number) })] }));
}

/** Of each adapter that was opened: whether all its exports are shown. */
const opened = new Set();

function switchBoxes({ list, more }) {
  const boxes = list.map(({ name, key, isOn }) => {
    const box = made("input", { type: "checkbox", "data-key": `switch ${key}` });
    box.checked = isOn;
    box.addEventListener("change", () => change({ switched: { ...state.switched, [key]: box.checked } }));
    return made("label", { class: isOn ? "mono" : "mono off", children: [box, ` ${name}`] });
  });
  return [...boxes, ...(more ? [`${more} more`] : [])];
}

function switchesOf({ adapter, list, more, others }) {
  const parts = [made("legend", { text: adapter }), ...switchBoxes({ list, more })];
  const count = others.list.length + others.more;
  if (count) {
    const rest = made("details", { class: "others", open: opened.has(adapter), children: [made("summary", { text: `${count} more ${plural(count, "export")}, not used`, "data-key": `others ${adapter}` }), ...switchBoxes(others)] });
    rest.addEventListener("toggle", () => opened[rest.open ? "add" : "delete"](adapter));
    parts.push(rest);
  }
  return made("fieldset", { children: parts });
}

let urls = [];

/** Links that save what there is. */
function showDownloads(list) {
  if (list === null) return;
  urls.forEach((it) => URL.revokeObjectURL(it));
  urls = list.map(({ bytes: content, type }) => URL.createObjectURL(new Blob([content], { type })));
  $("downloads").replaceChildren(...list.map((it, n) => made("a", { class: "button", href: urls[n], download: it.name, text: `${it.name}, ${bytes(it.bytes.length)}`, "data-key": `save ${it.name}` })));
}

/** Files that are not taken, of what was last dropped. */
let refused = [];

function showFaults(given) {
  const faults = [...refused, ...given], known = JSON.stringify(faults);
  $("fault").hidden = !faults.length;
  // an alert that changes is read out again
  if (known === lastFaults) return;
  lastFaults = known;
  const line = (it) => [made("b", { text: it.title }), made("span", { text: it.hint }), made("span", { class: "mono", text: it.where }), made("span", { class: "mono quiet", text: it.text })];
  $("faults").replaceChildren(...faults.map((it) => made("li", { children: line(it).filter((part) => part.textContent) })));
}

function showNotes(notes) {
  const offer = () => made("button", { type: "button", "data-key": "offer wasi", text: "Use the worlds of WASI", on: { click: useWasi } });
  $("next").hidden = !notes.length;
  $("notes").replaceChildren(...notes.map((it) => made("li", { children: [made("span", { text: `${it.text} ${it.also} ` }), ...(it.offer ? [offer()] : [])] })));
}

/** The boxes that are shown, and how wide their room was when they were drawn. */
let drawn = { boxes: [], more: 0 }, drawnWidth = 0;

/** Draws the picture in the room that there is; whether it is wider. */
function drawPicture() {
  const { boxes, more } = drawn, room = $("picture");
  drawnWidth = room.offsetWidth;
  room.replaceChildren(...(boxes.length ? [picture(boxes, (it) => change({ picked: it.key }), room.clientWidth || Infinity)] : []));
  const isWider = room.scrollWidth > room.clientWidth + 1;
  $("more").textContent = `${more ? `${more} more paths are not drawn. ` : ""}${isWider ? "The picture is wider than its room: scroll it to the imports, or read the paths as text." : ""}`;
  return isWider;
}

new ResizeObserver(() => {
  if ($("picture").offsetWidth !== drawnWidth && $("picture").offsetWidth) keepingFocus(drawPicture);
}).observe($("picture"));

function showPaths({ picked, picture: { boxes, more } }) {
  $("title").textContent = picked ? picked.key : "All imports, each with its path";
  const says = picked ? picked.says : "";
  if ($("says").textContent !== says) $("says").textContent = says;
  drawn = { boxes, more };
  const isWider = drawPicture(), ends = forest(boxes).all.filter((it) => it.kind === "import");
  $("paths").replaceChildren(...ends.map((it) => made("li", { text: pathOf(it) })));
  $("paths").parentElement.hidden = !boxes.length;
  const key = picked?.key ?? null;
  if (key !== lastPicked) $("paths").parentElement.open = key !== null && isWider && ends.length <= FEW_PATHS;
  lastPicked = key;
  $("functions-shown").hidden = !picked;
  if (!picked) return;
  const { list, more: others } = picked.functions, imported = list.filter((it) => it.isImported).length;
  $("functions-title").textContent = `Its functions: ${imported} of ${list.length} imported${others ? `, and ${others} more` : ""}`;
  $("functions").replaceChildren(...list.map((it) => made("li", { class: it.isImported ? null : "gone", text: it.isImported ? it.name : `${it.name}, not imported` })));
}

function statusOf({ main, interfaces, moreInterfaces, numbers, faults }) {
  if (!main) return "";
  const found = interfaces.length + moreInterfaces, count = faults.length + refused.length;
  const parts = [`${numbers.interfaces} ${plural(numbers.interfaces, "interface is", "interfaces are")} imported`];
  if (state.find) parts.push(`the search finds ${found}`);
  if (count) parts.push(`there ${plural(count, "is a fault", `are ${count} faults`)}`);
  return `${parts.join("; ")}.`;
}

function show(shown) {
  lastFiles = shown.files;
  $("files").replaceChildren(...shown.files.map(fileLine));
  $("hint").hidden = shown.files.length > 0;
  $("choice").hidden = shown.worlds.length < 2;
  $("world").replaceChildren(...shown.worlds.map((name, n) => made("option", { value: String(n), text: name, selected: n === (state.world ?? shown.world) })));
  showFaults(shown.faults);
  showNotes(shown.notes);
  for (const id of ["listed", "summary", "shown"]) $(id).hidden = !shown.main;
  for (const id of ["used", "planned", "renamed", "kept"]) $(id).hidden = true;
  if (!shown.main) return showDownloads([]);
  $("proved").textContent = shown.isProved ? "by code with a machine-checked proof" : "by a build without its proof";
  $("list").replaceChildren(...listOf(shown.interfaces, shown.moreInterfaces, shown.hasTypes));
  $("numbers").replaceChildren(...numberEntries(shown.numbers));
  $("uses").replaceChildren(...shown.switches.map(switchesOf));
  $("used").hidden = !shown.switches.length;
  $("undo").hidden = !Object.keys(state.switched).length;
  showPaths(shown);
  const plan = shown.plan?.list ?? [];
  $("plan").replaceChildren(...plan.map((it) => made("tr", { children: [it.module, it.interface ?? "the world itself", it.name, it.slot ?? "–", it.realloc ?? "–"].map((text) => made("td", { text: String(text) })) })));
  $("more-plan").textContent = shown.plan?.more ? `${shown.plan.more} more are not shown: the record has them.` : "";
  $("planned").hidden = !plan.length;
  $("renames").replaceChildren(...shown.renames.list.map((it) => made("li", { text: `${it.module} ${it.original} → ${it.name}` })));
  if (shown.renames.more) $("renames").append(made("li", { text: `${shown.renames.more} more` }));
  $("renamed").hidden = !shown.renames.list.length;
  showDownloads(shown.downloads);
  $("kept").hidden = !$("downloads").children.length;
  say(statusOf(shown));
}

function change(members) {
  Object.assign(state, members);
  ask();
}

function takeAway(name) {
  const gone = files.filter((it) => it.name === name).map((it) => it.serial);
  files = files.filter((it) => it.name !== name);
  refused = [];
  const { [name]: _, ...names } = state.names;
  change({ gone: [...state.gone, ...gone], names, main: state.main === name ? null : state.main, world: name.endsWith(".json") ? null : state.world });
}

/** Adds files: one of the same name is replaced. */
function take(list, others = {}) {
  const large = list.filter((it) => it.content.length > MOST_BYTES);
  const added = list.filter((it) => !large.includes(it)).map((it) => ({ ...it, serial: ++serials }));
  const gone = files.filter((it) => added.some((other) => other.name === it.name)).map((it) => it.serial);
  files = [...files.filter((it) => !gone.includes(it.serial)), ...added];
  given = [...given.filter((it) => !gone.includes(it.serial)), ...(worker ? added : [])];
  refused = large.map(({ name }) => ({ title: `${name} has more than ${bytes(MOST_BYTES)}`, text: "", where: "", hint: "wctrim and wcplan take files of any size." }));
  // other worlds have other numbers
  const world = added.every((it) => it.name.endsWith(".wasm")) ? state.world : null;
  change({ world, ...others, gone: [...state.gone, ...gone] });
}

async function takeFiles(list) {
  document.body.dataset.ready = "no";
  const all = [...list], content = async (it) => new Uint8Array(it.size > MOST_BYTES ? MOST_BYTES + 1 : await it.arrayBuffer());
  const read = await Promise.allSettled(all.map(async (it) => ({ name: it.name, content: await content(it) })));
  take(read.filter((it) => it.status === "fulfilled").map((it) => it.value));
  // a folder is no file
  const unread = all.filter((_, n) => read[n].status === "rejected");
  refused.push(...unread.map((it) => ({ title: `${it.name} can't be read`, text: "", where: "", hint: "Drop the files of a folder, and not the folder." })));
}

/** Takes files of the page; what can't be loaded is a fault. */
async function takeOwn(folder, names, others) {
  document.body.dataset.ready = "no";
  try {
    take(await Promise.all(names.map(async (name) => ({ name, content: await fileOf(folder + name) }))), others());
  } catch (why) {
    showFaults([{ title: `${names[0]} can't be loaded`, text: why.message, where: "", hint: "Is the page served with all its files?" }]);
    document.body.dataset.ready = "yes";
  }
}

function example() {
  return takeOwn(EXAMPLE.folder, EXAMPLE.files, () => {
    const gone = [...state.gone, ...files.map((it) => it.serial)];
    files = [];
    given = [];
    Object.assign(state, { ...NOTHING, gone, find: state.find });
    return {};
  });
}

const useWasi = () => takeOwn("", [WASI], () => ({ world: null }));

$("unstarted").hidden = true;
$("choose").addEventListener("change", (event) => {
  takeFiles(event.target.files);
  // so that the same file can be chosen again
  event.target.value = "";
});
$("example").addEventListener("click", example);
$("stop").addEventListener("click", () => stop("It was stopped."));
$("again").addEventListener("click", ask);
$("undo").addEventListener("click", () => change({ switched: {} }));
$("find").addEventListener("input", () => change({ find: $("find").value }));
$("world").addEventListener("change", () => change({ world: Number($("world").value) }));
addEventListener("dragover", (event) => {
  event.preventDefault();
  $("drop").classList.add("over");
});
addEventListener("dragleave", () => $("drop").classList.remove("over"));
addEventListener("drop", (event) => {
  event.preventDefault();
  $("drop").classList.remove("over");
  takeFiles(event.dataTransfer.files);
});
document.body.dataset.ready = "yes";
if (query.has("example")) example();
