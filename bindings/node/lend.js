"use strict";
// Narrows a pass. Prints the narrowed pass, and whether README's root signed it: lend.js < PASS.

const { Pass } = require("./clubpass.js");

const root = Buffer.from("00112233445566778899aabbccddeeff", "hex");
const lent = Pass.parse(require("fs").readFileSync(0, "utf8").trim()).narrow("kind = court");
console.log(`${lent}\n${lent.verify(root) ? "signed" : "not signed"}`);
