// Does the same as tell.c, with the module for Node.js.
"use strict";

const { Pass, PassError, isCaveat } = require(process.env.CLUBPASS_JS);

const hex = (bytes) => bytes.toString("hex") || "-";
const written = (pass, form) => {
  try {
    return hex(Buffer.from(pass.to(form)));
  } catch (error) {
    if (!(error instanceof PassError)) throw error;
    return `fault-${error.fault}`;
  }
};
const data = (word) => Buffer.from(word.replace("-", ""), "hex");
const tellPass = (root, text) => {
  try {
    const pass = Pass.parse(data(text));
    const texts = ["v1", "v2", "json"].map((form) => written(pass, form));
    const caveats = pass.caveats.map(hex).join(",") || "-";
    const again = Pass.mint(data(root), pass.identifier, pass.location).narrow(...pass.caveats);
    return [pass.form, hex(pass.location), hex(pass.identifier), caveats, hex(pass.signature), ...texts, hex(again.signature),
      pass.verify(data(root)) ? "signed" : "not signed"].join(" ");
  } catch (error) {
    if (!(error instanceof PassError)) throw error;
    return `fault ${error.fault}`;
  }
};
const tellCaveat = (text) => (isCaveat(data(text)) ? "yes" : "no");
const tellVerdict = (text, action, kind, moment, facility, day, hour, guests, owed, spent) => {
  const ask = { action, moment, guests: Number(guests), owed: Number(owed), spent: Number(spent) };
  if (kind !== "-") ask.kind = kind;
  if (facility !== "-") Object.assign(ask, { facility, day, hour: Number(hour) });
  try {
    const fault = Pass.parse(data(text)).firstFault(ask);
    return fault === null ? "allows" : `${fault.understood ? "denies" : "not understood"} ${fault.number}`;
  } catch (error) {
    if (!(error instanceof PassError)) throw error;
    return error.fault === 9 ? "no ask" : `fault ${error.fault}`;
  }
};
const TELL = { pass: tellPass, caveat: tellCaveat, ask: tellVerdict };
const lines = require("fs").readFileSync(0, "utf8").split("\n").slice(0, -1);
for (const line of lines) {
  const [what, ...words] = line.split(" ");
  console.log(TELL[what](...words));
}
