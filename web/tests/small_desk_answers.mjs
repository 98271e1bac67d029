// Prints the small desk's replies for tests/pages/small_desk.py. The first line of the input is a
// club in JSON, and each other line is a request in JSON.
import { createInterface } from "node:readline";
import { SmallDesk } from "../src/small_desk.mjs";

let desk = null;
for await (const line of createInterface({ input: process.stdin })) {
  const given = JSON.parse(line);
  if (desk === null) {
    for (const key of Object.values(given.keys)) key.root = Uint8Array.from(Buffer.from(key.root, "hex"));
    desk = new SmallDesk(given);
  } else {
    console.log(JSON.stringify(await desk.answer(given.text, given.asked, given.moment)));
  }
}
