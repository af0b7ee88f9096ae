/** The module, for `require`: `const { Nuigatre } = await require("nuigatre")`. TypeScript 5.3 or newer reads this. */
declare const nuigatre: Promise<typeof import("./nuigatre.mjs", { with: { "resolution-mode": "import" } })>;
export = nuigatre;
