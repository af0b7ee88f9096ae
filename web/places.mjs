// The words for the place of a fault: those of the Rust crate, of Python and of wcplan, with names escaped as wcplan escapes them.
const SECTIONS = ["custom", "type", "import", "function", "table", "memory", "global", "export", "start", "element", "code", "data", "data count"];
/** How many names of a list are shown. */
const MOST = 8;
const SIGNS = { "\n": "\\n", "\r": "\\r", "\t": "\\t", "\0": "\\0" };
const TYPES = { "non-null-funcref": "(ref func)", "non-null-externref": "(ref extern)" };

/** A text without what is invisible, or acts on a terminal: each such character is there by its code. */
export const escaped = (text) => String(text).replace(/(?! )[\p{C}\p{Z}]/gu, (it) => SIGNS[it] ?? `\\u{${it.codePointAt(0).toString(16)}}`);

const quoted = (name) => `"${escaped(String(name).replace(/[\\"]/g, "\\$&"))}"`;
const listed = (names) => names.slice(0, MOST).map(quoted).join(" ") + (names.length > MOST ? ` and ${names.length - MOST} more` : "");
const section = (id) => (SECTIONS[id] ? `${SECTIONS[id]} section` : `section ${id}`);
const valType = (it) => (typeof it === "string" ? (TYPES[it] ?? it) : `(ref ${it.nullable ? "null " : ""}${it.index})`);
const valTypes = (list) => `(${list.map(valType).join(", ")})`;
const funcType = ({ params, results }) => `${valTypes(params)} -> ${results.length === 1 ? valType(results[0]) : valTypes(results)}`;

/** The words for a place by its kind. Of a kind without words the text of the fault says all. */
const WORDS = {
  import: (it) => `import ${quoted(it.module)} ${quoted(it.name)}`,
  export: (it) => `export ${quoted(it.name)}`,
  "missing-export": (it) => `missing export ${quoted(it.name)}`,
  "missing-function": (it) => `missing ${quoted(it.module)} ${quoted(it.name)}`,
  bytes: (it) => `byte ${it.offset}${it.section === null ? "" : `, in ${SECTIONS[it.section] ? "the " : ""}${section(it.section)}`}`,
  section: (it) => section(it.id),
  body: (it) => `${it.operator === null ? "" : `operator ${it.operator} of the `}body of function ${it.function}`,
  "page-sizes": (it) => `page size ${it.own}, main module's ${it.main}`,
  function: (it) => `function ${[it.interface, it.name].filter((name) => name !== null).map(quoted).join(" ")}`,
  worlds: (it) => (it.worlds.length ? `worlds ${listed(it.worlds)}` : "there is no world"),
  imports: (it) => (it.imports.length ? `imports ${listed(it.imports)}` : "the world imports nothing"),
  world: (it) => `world ${it.index}`,
  interface: (it) => `interface ${it.index}`,
  type: (it) => `type ${it.index}`,
  package: (it) => `package ${it.index}`,
  "json-byte": (it) => `byte ${it.byte}`,
  "json-path": (it) => escaped(it.path),
  module: () => "",
  key: () => "",
};

/** The words for a place; of a kind that is not known here they are what the library says. */
export function placeText(place) {
  if (!place) return "";
  if (!Object.hasOwn(WORDS, place.kind)) return escaped(JSON.stringify(place));
  let words = WORDS[place.kind](place);
  if (place.types) words += `, wanted ${funcType(place.types.wanted)}, found ${funcType(place.types.found)}`;
  return words && typeof place.adapter === "string" ? `${words}, in adapter ${quoted(place.adapter)}` : words;
}

/** The line of a fault: its text, with the name of an export that is missing, and its place. */
export function lineOf(text, place, missing) {
  const line = escaped(missing === null ? text : `${text} \`${missing}\``), words = placeText(place);
  if (place?.kind === "json-byte") return `${line} at ${words}`;
  // the text of the other fault of a path has the path
  if (place?.kind === "json-path") return text === "Json: repeated member" ? `Json: ${words}: repeated member` : line;
  return words ? `${line}: ${words}` : line;
}
