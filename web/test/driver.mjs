// Uses the page as a person would, and sends what was seen to the server of checks/web.py. It runs in the page itself.
import { fileOf, newWorker } from "../files.mjs";
import { throughTable } from "./components.mjs";
import { damaged, numbers } from "./damage.mjs";

const $ = (id) => document.getElementById(id);
const asked = new URLSearchParams(location.search), results = [], errors = [];
addEventListener("error", (event) => errors.push(event.message));
addEventListener("unhandledrejection", (event) => errors.push(String(event.reason)));
let isForbidden = false;
addEventListener("securitypolicyviolation", (event) => isForbidden || errors.push(`the page's policy refuses ${event.blockedURI}`));
// what the page offers to save, by its address
const blobs = new Map(), createObjectURL = URL.createObjectURL.bind(URL);
URL.createObjectURL = (blob) => {
  const url = createObjectURL(blob);
  blobs.set(url, blob);
  return url;
};
const pause = (milliseconds) => new Promise((done) => setTimeout(done, milliseconds));

/** Waits until the page has shown what was asked of it. */
async function settled() {
  await pause(20);
  while (document.body.dataset.ready !== "yes") await pause(20);
}

function check(what, is) {
  results.push({ what, is: Boolean(is) });
}

const text = (id) => $(id).textContent.replace(/\s+/g, " ").trim();
const button = (label) => [...document.querySelectorAll("#list button")].find((it) => it.getAttribute("aria-label").startsWith(label));

const bytesOf = (name) => fileOf("example/" + name);
const others = async (name) => new Uint8Array(await (await fetch(name)).arrayBuffer());
const label = (name) => [...document.querySelectorAll("#uses label")].find((it) => it.textContent.trim() === name);

/** Gives the focus to something; of a window that has none a browser sends no events. */
function focus(it) {
  it.focus();
  if (!document.hasFocus()) document.activeElement.dispatchEvent(new FocusEvent("focusin", { bubbles: true }));
}

/** Presses a key on what has the focus. */
function press(key) {
  const before = document.activeElement;
  before.dispatchEvent(new KeyboardEvent("keydown", { key, bubbles: true, cancelable: true }));
  if (document.activeElement !== before && !document.hasFocus()) {
    before.dispatchEvent(new FocusEvent("focusout", { bubbles: true }));
    document.activeElement.dispatchEvent(new FocusEvent("focusin", { bubbles: true }));
  }
}

/** Takes all files away. */
async function cleared() {
  for (let it; (it = document.querySelector('#files [aria-label^="Take"]')); await settled()) it.click();
}

/** Drops files on the page. */
async function drop(...files) {
  const data = new DataTransfer();
  for (const [name, content] of files) data.items.add(new File([content], name));
  dispatchEvent(new DragEvent("drop", { dataTransfer: data, bubbles: true, cancelable: true }));
  await settled();
}

async function empty() {
  check("the page says that it runs, and what to drop", $("unstarted").hidden && !$("hint").hidden && text("hint").includes("wasm32-wasip1"));
  for (const id of ["listed", "summary", "used", "shown", "planned", "renamed", "kept", "fault", "next"]) check(`${id} is not shown without files`, $(id).hidden);
}

async function example() {
  $("example").click();
  await settled();
  check("one interface is imported", text("numbers").includes("interface imported, of 1"));
  check("the adapter goes from 512 to 317 bytes", text("numbers").includes("512 bytes → 317 bytes"));
  check("the plan has four functions", $("plan").children.length === 4);
  check("the plan has slots", text("plan").includes("summarize3cabi_import_realloc"));
  check("the largest world is taken", $("world").selectedOptions[0]?.textContent === "app");
  check("no fault is shown, and nothing is left to do", $("fault").hidden && $("next").hidden);
  check("there is a picture of the paths", document.querySelectorAll("#picture .node.import").length >= 4);
  check("the page says whether its code is proved", /proof/.test(text("proved")));
  check("a screen reader is told how many interfaces are imported", text("says-status") === "1 interface is imported.");
  const texts = $("paths").parentElement;
  texts.open = true;
  $("find").dispatchEvent(new Event("input"));
  await settled();
  check("the texts of paths stay open", texts.open);
  texts.open = false;
}

async function picked() {
  button("my:notes/store@1.2.0").focus();
  button("my:notes/store@1.2.0").click();
  await settled();
  check("a pressed interface is said to be", button("my:notes/store@1.2.0").getAttribute("aria-pressed") === "true");
  check("it keeps the focus", document.activeElement === button("my:notes/store@1.2.0"));
  check("a sentence says why it is imported", text("says").startsWith("main.wasm imports it itself"));
  check("its functions are listed", text("functions-title").endsWith("4 of 4 imported"));
  const path = [...$("paths").children].map((it) => it.textContent).find((it) => it.includes("summarize"));
  check("a path leads through the program to the import", path === "main.wasm → * print → length_of → my:notes/store@1.2.0 summarize");
  const nodes = [...document.querySelectorAll("#picture .node.import")];
  check("one box of the picture is a stop of the Tab key", nodes.filter((it) => it.getAttribute("tabindex") === "0").length === 1);
  focus(nodes.find((it) => it.getAttribute("tabindex") === "0"));
  const first = document.activeElement;
  press("ArrowDown");
  check("an arrow goes to the next", document.activeElement !== first && document.activeElement.classList.contains("import"));
  check("which lights its path, and says it", document.activeElement.classList.contains("lit") && document.activeElement.getAttribute("aria-label").startsWith("main.wasm → "));
  press("End");
  press("Home");
  check("and Home to the first", document.activeElement === first);
  const { key } = document.activeElement.dataset;
  button("my:notes/store@1.2.0").click();
  await settled();
  document.querySelector(`[data-key="${CSS.escape(key)}"]`).focus();
  press("Enter");
  await settled();
  check("a key on an import picks its interface", text("title") === "my:notes/store@1.2.0");
  check("and the box keeps the focus", document.activeElement.dataset.key === key);
}

async function searched() {
  for (const [word, count] of [["summarize", 1], ["nothing like it", 0], ["", 1]]) {
    $("find").value = word;
    $("find").dispatchEvent(new Event("input"));
    await settled();
    check(`a search for "${word}" finds ${count}`, document.querySelectorAll("#list button").length === count);
    check("and says so", !word || text("says-status").includes(`finds ${count}`));
  }
}

async function switched() {
  const before = document.querySelectorAll("#picture .node.import").length;
  label("length_of").firstChild.focus();
  label("length_of").firstChild.click();
  await settled();
  check("an export that is taken away takes its paths with it", document.querySelectorAll("#picture .node.import").length < before);
  check("and bytes of the adapter", !text("numbers").includes("317 bytes"));
  check("its box keeps the focus", document.activeElement === label("length_of").firstChild);
  $("undo").click();
  await settled();
  check("and all can be as it was", text("numbers").includes("317 bytes") && label("length_of").firstChild.checked && $("undo").hidden);
  const rest = document.querySelector("#uses details");
  rest.open = true;
  rest.querySelector("input").click();
  await settled();
  check("an export that is not used can be ticked", /317 bytes/.test(text("numbers")) === false && document.querySelector("#uses details").open);
  document.querySelector("#uses details input").click();
  await settled();
  check("and taken away again", text("numbers").includes("317 bytes"));
}

async function saved() {
  const links = [...$("downloads").children];
  check("trimmed adapters and the record are links", links.map((it) => `${it.tagName} ${it.download}`).join() === "A old-notes.trimmed.wasm,A record.json");
  const [adapter, record] = await Promise.all(links.map(async (it) => new Uint8Array(await blobs.get(it.href).arrayBuffer())));
  const wanted = await others("/examples/wcplan/trimmed.wasm");
  check("the adapter is that of the examples", adapter.length === wanted.length && adapter.every((it, n) => it === wanted[n]));
  check("the record has the plan", JSON.parse(new TextDecoder().decode(record)).plan.length === 4);
}

/** What a person does who has a program and an adapter, of any name and in any order, and no worlds. */
async function begun() {
  await cleared();
  const adapter = await bytesOf("adapter.wasm"), main = await bytesOf("main.wasm");
  await drop(["some adapter.wasm", adapter]);
  check("an adapter alone asks for its program", text("notes").startsWith("Add your program too"));
  await drop(["app.wasm", main]);
  check("with the program it gets the name under which that imports it", document.querySelector("#files input")?.value === "old-notes");
  check("the worlds are asked for", text("notes").startsWith("Add the worlds"));
  check("no other core module is listed", document.querySelectorAll("#list button").length === 1);
  const name = document.querySelector("#files input");
  name.value = "other";
  name.dispatchEvent(new Event("change"));
  await settled();
  check("a name of which nothing is imported is said", text("notes").includes("Give some adapter.wasm the name"));
  await cleared();
  await drop(["app.wasm", main]);
  check("a program alone asks for its adapter", text("notes").startsWith("Add the adapter old-notes too"));
}

/** An interface that is imported for its types alone, and a function that is called through a table. */
async function typed() {
  await cleared();
  await drop(["app.wasm", throughTable().main], ["wasi.json", await fileOf("wasi-command.json")]);
  const heads = [...document.querySelectorAll("#list h3")].map((it) => it.textContent);
  check(`an interface for its types is imported: ${heads}`, heads.join() === "wasi:filesystem,Imported for their types alone" && text("numbers").includes("interfaces imported, of 2"));
  button("wasi:clocks/wall-clock@0.2.6, for its types alone").click();
  await settled();
  check("and it is said which import needs one", text("says").includes("[method]descriptor.stat of wasi:filesystem/types@0.2.6 needs its type datetime"));
  button("wasi:filesystem/types@0.2.6").click();
  await settled();
  check("where to cut is marked", document.querySelectorAll("#picture .node.mark").length === 2 && text("says").includes("Each path goes through table 0 and func 3"));
  check("and who calls through a table is said", [...document.querySelectorAll("#picture .node text")].some((it) => it.textContent === "called by func 1"));
  await cleared();
  await drop(["x.wit", new TextEncoder().encode("package a:b; world x {}")]);
  check("a file that is no module is a fault", text("faults").includes("x.wit: It is neither a WebAssembly module nor JSON.") && text("files").includes("refused"));
  await drop(["x.wit", await fileOf("wasi-command.json")]);
  check("and worlds alone ask for a program", $("fault").hidden && text("notes").startsWith("Add your program too"));
  await cleared();
  await drop(["app.wasm", await bytesOf("main.wasm")]);
}

async function faults() {
  await drop(["adapter.wasm", (await bytesOf("adapter.wasm")).slice(0, 100)]);
  check("a damaged module is a fault, with what it means", !$("fault").hidden && text("faults").includes("adapter.wasm: The module ends inside an item."));
  check("where, and what to do", text("faults").includes("byte 100") && text("faults").includes("Build or download it again"));
  await drop(["adapter.wasm", await bytesOf("adapter.wasm")]);
  check("a whole one in its place is none", $("fault").hidden);
  await drop(["app.wasm", Uint8Array.from([0, 0x61, 0x73, 0x6d, 0x0d, 0, 1, 0])]);
  check("a component is said to be one", text("faults").includes("It is a component"));
  document.querySelector('[aria-label="Take app.wasm away"]').click();
  await settled();
  await drop(["notes.json", new TextEncoder().encode('{"worlds":')]);
  check("worlds that are no JSON are a fault with its place", /not JSON/.test(text("faults")) && /byte 10/.test(text("faults")));
  check("paths are shown all the same", document.querySelectorAll("#picture .node.import").length >= 4);
  const remove = document.querySelector('[aria-label="Take notes.json away"]');
  remove.focus();
  remove.click();
  await settled();
  check("without worlds there is no plan", $("planned").hidden && $("fault").hidden);
  check("the focus goes to the choice of files", document.activeElement === $("choose"));
  await drop(["large.wasm", new Uint8Array(33 * 2 ** 20)]);
  check("a file that is too large is refused", text("faults").includes("large.wasm"));
}

/** A module with so many exports, each of a function that calls the next, that an answer takes long. */
function long(exports, functions) {
  const number = (it) => (it < 128 ? [it] : [(it & 127) | 128, ...number(it >>> 7)]);
  const name = (text) => [text.length, ...new TextEncoder().encode(text)], list = (length, of) => Array.from({ length }, (_, n) => of(n)).flat();
  const section = (id, count, content) => [[id, ...number(number(count).length + content.length), ...number(count)], content];
  const body = (n) => [3 + number(n).length, 0, 0x10, ...number(n), 0x0b];
  const parts = [[0, 0x61, 0x73, 0x6d, 1, 0, 0, 0], ...section(1, 1, [0x60, 0, 0]), ...section(2, 1, [...name("a:b/c"), ...name("f"), 0, 0])];
  parts.push(...section(3, functions, list(functions, () => 0)), ...section(7, exports, list(exports, (n) => [...name(`e${n}`), 0, ...number(1 + n)])));
  // the last one calls the import
  parts.push(...section(10, functions, list(functions, (n) => body(n + 1 < functions ? n + 2 : 0))));
  return Uint8Array.from(parts.flat());
}

async function stopped() {
  await cleared();
  const adapter = long(300, 200000), number = (it) => (it < 128 ? [it] : [(it & 127) | 128, ...number(it >>> 7)]);
  const imports = Array.from({ length: 300 }, (_, n) => [1, 120, `e${n}`.length, ...new TextEncoder().encode(`e${n}`), 0, 0]).flat(), content = [...number(300), ...imports];
  const main = Uint8Array.from([0, 0x61, 0x73, 0x6d, 1, 0, 0, 0, 1, 4, 1, 0x60, 0, 0, 2, ...number(content.length), ...content]);
  const dropped = drop(["app.wasm", main], ["x.wasm", adapter]);
  for (let n = 0; $("stop").hidden && n < 2000; n++) await pause(20);
  check("what takes long can be stopped", !$("stop").hidden && /Computing for \d+ s/.test(text("says-status")));
  $("stop").click();
  await dropped;
  check("and is", text("faults").startsWith("It was stopped.") && !$("again").hidden && $("stop").hidden);
  document.querySelector('[aria-label="Take x.wasm away"]').click();
  await settled();
  check("the next answer is as ever", $("fault").hidden && $("again").hidden && text("notes").includes("Add the adapter x too"));
}

/** A worker with little memory says so. */
async function limited() {
  const worker = newWorker(), wasm = long(10, 200000);
  const message = { serial: 1, given: [{ name: "app.wasm", bytes: wasm, serial: 1 }], state: { switched: {}, main: null, names: {}, world: null, gone: [], find: "", picked: null }, memoryLimit: 4 * 2 ** 20 };
  const answer = await new Promise((done) => {
    worker.onmessage = ({ data }) => done(data);
    worker.postMessage(message);
  });
  worker.terminate();
  check(`a call that needs more memory than the limit ends: ${answer.failed?.name}`, answer.failed?.name === "OutOfMemory");
}

/** The page's policy holds in the page and in its workers. */
async function forbidden() {
  isForbidden = true;
  const refused = await fetch(asked.get("elsewhere")).then(() => false, () => true);
  const worker = new Worker(URL.createObjectURL(new Blob([`fetch(${JSON.stringify(asked.get("elsewhere"))}).then(() => postMessage(false), () => postMessage(true));`], { type: "text/javascript" })));
  const isRefused = await new Promise((done) => (worker.onmessage = ({ data }) => done(data)));
  worker.terminate();
  check("nothing is loaded from elsewhere", refused && isRefused);
  isForbidden = false;
}

async function renamed() {
  const twice = [2, 13, 2, 1, 97, 1, 102, 0, 0, 1, 97, 1, 102, 0, 0];
  const wasm = Uint8Array.from([0, 0x61, 0x73, 0x6d, 1, 0, 0, 0, 1, 4, 1, 0x60, 0, 0, ...twice]);
  await cleared();
  await drop(["twice.wasm", wasm]);
  check("renamed imports are listed", text("renames") === "a f → f [v2]");
}

const channels = (color) => color.match(/[\d.]+/g).map(Number);
const luminance = (color) => channels(color).slice(0, 3).map((it) => it / 255).map((it) => (it <= 0.04045 ? it / 12.92 : ((it + 0.055) / 1.055) ** 2.4)).reduce((sum, it, n) => sum + it * [0.2126, 0.7152, 0.0722][n], 0);
const contrast = (a, b) => (Math.max(luminance(a), luminance(b)) + 0.05) / (Math.min(luminance(a), luminance(b)) + 0.05);

/** Of a text its color and that behind it. */
function colorsOf(it) {
  if (it instanceof SVGElement) return [getComputedStyle(it).fill, getComputedStyle(it.parentElement.querySelector("rect")).fill];
  let behind = it;
  while (behind && (channels(getComputedStyle(behind).backgroundColor)[3] ?? 1) < 1) behind = behind.parentElement;
  return [getComputedStyle(it).color, behind ? getComputedStyle(behind).backgroundColor : "rgb(255, 255, 255)"];
}

/** Whether each text can be read: its contrast is at least 4.5. */
function readableTexts() {
  const own = (it) => [...it.childNodes].some((child) => child.nodeType === 3 && child.textContent.trim());
  const texts = [...document.querySelectorAll("body *")].filter((it) => own(it) && !["SCRIPT", "STYLE", "TITLE", "title", "OPTION"].includes(it.tagName) && it.getClientRects().length);
  const pale = texts.filter((it) => contrast(...colorsOf(it)) < 4.5).map((it) => `${it.tagName} ${it.textContent.slice(0, 30)}`);
  check(`each of ${texts.length} texts has enough contrast${pale.length ? `: not ${pale.slice(0, 3).join("; ")}` : ""}`, texts.length > 10 && pale.length === 0);
  check("the page is as dark as was asked", !asked.has("dark") || luminance(getComputedStyle(document.body).backgroundColor) < 0.1);
}

/** Whether nothing is wider than the page, and each control has a name. */
function laidOut() {
  const root = document.documentElement;
  check(`nothing is wider than ${innerWidth} pixels`, root.scrollWidth <= innerWidth);
  const nameless = [...document.querySelectorAll("button, input, select, a, summary, [tabindex='0']")].filter((it) => !(it.getAttribute("aria-label") || it.textContent.trim() || it.closest("label")?.textContent.trim()));
  check("each control has a name", nameless.length === 0);
  const shown = [...document.querySelectorAll("main section")].filter((it) => !it.hidden);
  check("each part has a name", shown.every((it) => it.getAttribute("aria-label") || $(it.getAttribute("aria-labelledby"))?.textContent || it.getAttribute("role") === "alert"));
}

/** Damaged modules through the page's worker, while this thread has to stay alive. */
async function fuzz(count) {
  const worker = newWorker(), drawn = numbers(2);
  const names = ["main.wasm", "adapter.wasm", "notes.json"], whole = await Promise.all(names.map(bytesOf));
  let last = performance.now(), longest = 0, slowest = 0, failed = 0, refused = 0;
  const ticking = setInterval(() => {
    longest = Math.max(longest, performance.now() - last);
    last = performance.now();
  }, 50);
  const answer = (message) => new Promise((done) => {
    worker.onmessage = ({ data }) => done(data);
    worker.postMessage(message);
  });
  for (let n = 0; n < count; n++) {
    const given = names.map((name, at) => ({ name, bytes: at === n % 3 || drawn(4) === 0 ? damaged(whole[at], drawn) : whole[at], serial: 3 * n + at }));
    const begun = performance.now();
    const { failed: why, shown } = await answer({ serial: n, given, state: { switched: {}, main: null, names: {}, world: null, gone: [], find: "", picked: null }, memoryLimit: 2 ** 30 });
    slowest = Math.max(slowest, performance.now() - begun);
    failed += why ? 1 : 0;
    refused += shown?.faults.length ? 1 : 0;
  }
  clearInterval(ticking);
  worker.terminate();
  check(`${count} damaged files are answered, ${refused} with faults; ${failed} failed`, failed === 0 && refused > count / 4);
  results.push({ what: `the slowest answer took ${Math.round(slowest)} ms, and the page was busy for ${Math.round(longest)} ms at most`, is: longest < 5000 });
}

try {
  await settled();
  await empty();
  readableTexts();
  await example();
  await picked();
  laidOut();
  readableTexts();
  if (!asked.has("look")) {
    await searched();
    await switched();
    await saved();
    await begun();
    await typed();
    await faults();
    await renamed();
    await stopped();
    await limited();
    await forbidden();
    await fuzz(Number(asked.get("fuzz")));
  }
  check("no error is reported" + errors.join("; ").replace(/^(.)/, ": $1"), errors.length === 0);
} catch (why) {
  check(`${why.name}: ${why.message}`, false);
}
await fetch("/results", { method: "POST", body: JSON.stringify(results) });
