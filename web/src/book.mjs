// The booking page of a club.
import { startPage } from "./booking_page.mjs";

startPage();
