// The boxes of a picture, and the words that they and sentences have in common.
import { readable, shortName } from "./picture.mjs";

/** How much is shown, so that no module makes the page slow. */
export const MOST = { interfaces: 400, functions: 200, uses: 2000, ends: 250, steps: 200, exports: 300, renames: 500, worlds: 50 };

export const counted = (count, one) => `${count.toLocaleString("en")} ${one}${count === 1 ? "" : "s"}`;

/** A list as a sentence has it, of at most six names. */
export const joined = (names) => {
  const shown = names.length > 6 ? [...names.slice(0, 5), `${names.length - 5} more`] : names;
  return shown.length < 2 ? shown.join("") : `${shown.slice(0, -1).join(", ")} and ${shown.at(-1)}`;
};

/** The boxes of a picture: each is after the one to its left, and there once. `isMark` says that each path goes through it, and
 *  `key` of an import which interface it is of. */
export class Boxes {
  #boxes = new Map();

  /** Adds a box, unless it is there, and returns its id. */
  add(id, left, label, kind, title = label, isMark = false, key = null) {
    if (!this.#boxes.has(id)) this.#boxes.set(id, { id, left, label, kind, title, isMark: Boolean(isMark), key });
    return id;
  }

  has(id) {
    return this.#boxes.has(id);
  }

  get all() {
    return [...this.#boxes.values()];
  }
}

/** A function of a module as a box has it, and in full. */
export function itemTexts(space, index, name) {
  const number = `${space} ${index}`;
  return name ? { label: shortName(name), title: `${number}, ${readable(name)}` } : { label: number, title: number };
}
