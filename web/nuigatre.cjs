"use strict";

// For `require`: a promise of the module, which is one of ECMAScript.
module.exports = import("./nuigatre.mjs");
