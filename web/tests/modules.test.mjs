// Each module of web/src is in a test.
import assert from "node:assert/strict";
import { readdirSync, readFileSync } from "node:fs";
import { test } from "node:test";

const here = (path) => new URL(path, import.meta.url);
const modules = readdirSync(here("../src")).filter((name) => /\.m?js$/.test(name));
const tests = readdirSync(here(".")).filter((name) => name.endsWith(".test.mjs"));
const texts = tests.map((name) => readFileSync(here(name), "utf8")).join("\n");

for (const name of modules) {
  test(`${name} is in a test`, () => assert.ok(texts.includes(name)));
}
