// The page's scripts for tests in Node, from the folder that PAGE_FOLDER names, which page/assemble fills; by default out/page.
import assert from "node:assert/strict";
import { readFileSync } from "node:fs";
import { dirname, resolve } from "node:path";
import { test } from "node:test";
import { fileURLToPath } from "node:url";

export const root = resolve(dirname(fileURLToPath(import.meta.url)), "../..");
export const folder = resolve(process.env.PAGE_FOLDER ?? `${root}/out/page`);

export const take = (name) => import(`${folder}/scripts/${name}.js`);
export const engineBytes = () => new Uint8Array(readFileSync(`${folder}/engine.wasm`));
export const example = (name) => new Uint8Array(readFileSync(`${root}/examples/${name}`));

// A test that something has a value.
export const equal = (what, wanted, found) => test(what, () => assert.deepEqual(found, wanted));
