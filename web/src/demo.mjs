// The booking page, with a trial club inside the page.
import { openClubToTry, passToTry } from "./demo_desk.mjs";
import { startPage } from "./booking_page.mjs";
import { keepPass, keepSpares, keptPasses, keptSpares } from "./keeping.mjs";

async function tryIt() {
  openClubToTry();
  if (keptPasses().length === 0) keepPass(await passToTry("anna-1"), "Anna");
  if (keptSpares().length === 0) keepSpares(await Promise.all(["anna-lend-1", "anna-lend-2"].map(passToTry)));
  await startPage();
}

tryIt();
