#!/usr/bin/env node
// Says in a terminal what the page shows.
import { realpathSync } from "node:fs";
import { mkdir, readFile as read, writeFile } from "node:fs/promises";
import { basename, join } from "node:path";
import { fileURLToPath, pathToFileURL } from "node:url";
import { parseArgs } from "node:util";
import { compute, downloadsOf, readFile, switchOf, view } from "./answers.mjs";
import { Nuigatre, NuigatreError } from "./nuigatre.mjs";
import { forest, pathOf } from "./picture.mjs";
import { escaped } from "./places.mjs";

const USAGE = `usage: why.mjs MAIN.wasm [ADAPTER.wasm].. [WORLDS.json] [--import KEY] [--without EXPORT].. [--save FOLDER]

Says which interfaces a component of these files imports, and why: by which calls each comes, and when it goes.
Which file is the main module is seen from what they import of each other; WORLDS.json is what
wasm-tools component wit --json prints.

  --import KEY      of an interface or a package alone, with its version or without: the path to each of its functions;
                    with worlds * is where to cut: each path goes through there
  --without EXPORT  as if this export of an adapter were not used
  --save FOLDER     writes the trimmed adapters, and with worlds the record, into the folder
`;
const OPTIONS = { import: { type: "string" }, without: { type: "string", multiple: true, default: [] }, save: { type: "string" }, help: { type: "boolean", short: "h" } };

function* fileLines({ files, numbers }) {
  const roles = { main: () => "main module", adapter: (it) => `adapter ${it.as}`, refused: () => "refused", worlds: () => "worlds" };
  for (const it of files) yield `${it.name}: ${roles[it.role](it)}, ${it.size} bytes`;
  if (numbers?.before) yield `adapters, trimmed: ${numbers.after} bytes`;
}

function* interfaceLines(shown) {
  for (const it of shown.interfaces.filter((other) => other.kind !== null)) {
    const through = `${it.through.join(", ")}${it.others ? ` and ${it.others} more` : ""}`;
    yield `${it.key}: ${it.kind === "types" ? "only its types are used" : `${it.count} of ${it.all} functions, through ${through}${it.kind === "stays" ? "; it stays" : ""}`}`;
  }
  if (shown.moreInterfaces) yield `${shown.moreInterfaces} more`;
}

function* pathLines({ picked, picture }) {
  if (!picked.list.length) yield `${picked.key}: in the world but not imported`;
  for (const it of picked.list) yield `${it.key}: ${it.says}`;
  if (picture.cuts.length) yield `cut at * ${picture.cuts.join(", * ")}: each path goes through there`;
  for (const it of forest(picture.boxes).all.filter((other) => other.kind === "import")) yield `  ${pathOf(it)}`;
  if (picture.more) yield `  ${picture.more} more paths`;
}

/** The lines on what is shown; the last of them on what is wrong, and what to do next. */
export function* linesOf(shown) {
  yield* fileLines(shown);
  if (shown.main) yield* shown.picked ? pathLines(shown) : interfaceLines(shown);
  for (const it of shown.faults) yield `fault: ${[it.title, it.hint, it.where, it.text].filter(Boolean).join(" | ")}`;
  for (const it of shown.notes) yield `next: ${it.text}${it.offer ? ` Those of WASI are in ${fileURLToPath(new URL("wasi-command.json", import.meta.url))}.` : ""}`;
}

/** The first interfaces, and how many more there are. */
function namesOf({ interfaces, moreInterfaces }) {
  const more = Math.max(0, interfaces.length - 8) + moreInterfaces;
  return `${interfaces.slice(0, 8).map((it) => it.key).join(" ") || "none"}${more ? ` and ${more} more` : ""}`;
}

/** The switches of the page for which these exports of adapters are not used. */
function without({ adapters, parts }, names) {
  const known = adapters.flatMap(({ name, file }, n) => file.exports.map((it) => ({ adapter: name, name: it.name, isUsed: parts[n].required.includes(it.name) })));
  for (const name of names) {
    const found = known.filter((it) => it.name === name);
    if (!found.length) throw new NuigatreError(`no adapter has the export ${name} of --without`);
    if (!found.some((it) => it.isUsed)) throw new NuigatreError(`the export ${name} of --without is not used`);
  }
  return Object.fromEntries(known.filter((it) => it.isUsed && names.includes(it.name)).map((it) => [switchOf(it.adapter, it.name), false]));
}

async function main(words) {
  const { values, positionals } = parseArgs({ args: words, options: OPTIONS, allowPositionals: true });
  if (values.help || !positionals.length) return console.log(USAGE.trimEnd());
  const library = await Nuigatre.load();
  const files = await Promise.all(positionals.map(async (path) => readFile(library, basename(path), new Uint8Array(await read(path)))));
  let found = compute(library, files);
  if (values.without.length && found.main) found = compute(library, files, { switched: without(found, values.without) });
  const shown = view(found, { picked: values.import ?? null });
  if (values.import !== undefined && shown.main && !shown.picked) throw new NuigatreError(`no import ${values.import}; imports: ${namesOf(shown)}`);
  for (const line of linesOf(shown)) console.log(escaped(line));
  if (values.save !== undefined) {
    await mkdir(values.save, { recursive: true });
    // an adapter's name is of the user's files, or of the main module's imports: it may be no file's name
    for (const it of downloadsOf(found)) await writeFile(join(values.save, it.name.replace(/[^\w.-]/g, "_")), it.bytes);
  }
  if (shown.faults.length || !shown.main) process.exitCode = 1;
}

// npx calls it by a link
if (process.argv[1] && import.meta.url === pathToFileURL(realpathSync(process.argv[1])).href) {
  try {
    await main(process.argv.slice(2));
  } catch (why) {
    if (!(why instanceof NuigatreError || why.code)) throw why;
    console.error(`why.mjs: ${escaped(why.message)}`);
    process.exitCode = why.code?.startsWith("ERR_PARSE_ARGS") ? 2 : 1;
  }
}
