// The package as a dependency: what bundlers make of it, and what else it exports. Takes esbuild from Debian's package.

import assert from "node:assert/strict";
import { execFileSync } from "node:child_process";
import { mkdirSync, mkdtempSync, readFileSync, rmSync, symlinkSync, writeFileSync } from "node:fs";
import { createRequire } from "node:module";
import { tmpdir } from "node:os";
import { join } from "node:path";
import { after } from "node:test";
import { fileURLToPath, pathToFileURL } from "node:url";
import * as errors from "../yurewha/index.js";
import { BYTES, ROOT, test } from "./support.js";

const folder = mkdtempSync(join(tmpdir(), "yurewha-"));
after(() => rmSync(folder, { recursive: true }));
mkdirSync(join(folder, "node_modules"));
symlinkSync(fileURLToPath(new URL("bindings/wasm/yurewha", ROOT)), join(folder, "node_modules/yurewha"));
writeFileSync(join(folder, "entry.js"), 'export * from "yurewha";\n');
execFileSync(fileURLToPath(new URL("tools/install_packages", ROOT)), ["esbuild"], { stdio: "inherit" });

/** The text of a bundle of the whole package. */
function bundled(name, ...options) {
    const made = join(folder, name);
    const given = ["entry.js", "--bundle", "--minify", "--format=esm", "--log-level=warning", `--outfile=${made}`, ...options];
    const said = execFileSync("esbuild", given, { cwd: folder, encoding: "utf8", stdio: ["ignore", "pipe", "pipe"] });
    assert.equal(said, "");
    return readFileSync(made, "utf8");
}

test("a bundle for browsers names no module of Node, and works", async () => {
    const text = bundled("browser.mjs", "--platform=browser");
    assert.ok(!text.includes("node:"));
    const { load } = await import(pathToFileURL(join(folder, "browser.mjs")));
    const y = await load(BYTES);
    assert.equal(y.dataHash(new Uint8Array()).hex(), (await errors.load(BYTES)).dataHash(new Uint8Array()).hex());
});

test("a bundle for Node reads the module from a file", async () => {
    bundled("node.mjs", "--platform=node");
    const { load } = await import(pathToFileURL(join(folder, "node.mjs")));
    const y = await load(new URL("bindings/wasm/yurewha/yurewha.wasm", ROOT));
    assert.ok(y.xorbHash([]).equals(new y.Hash()));
    await assert.rejects(load(), { code: "ENOENT" });
    writeFileSync(join(folder, "yurewha.wasm"), BYTES);
    assert.equal((await load()).dataHash(new Uint8Array()).hex(), y.dataHash(new Uint8Array()).hex());
});

test("an error has its name in a minified bundle too", async () => {
    bundled("names.mjs", "--platform=browser");
    const made = await import(pathToFileURL(join(folder, "names.mjs")));
    const kinds = Object.keys(errors).filter((name) => name !== "load");
    assert.equal(kinds.length, 18);
    for (const name of kinds) {
        const hasRule = ["BrokenRule", "InvalidJson", "InvalidLists", "InvalidProof"].includes(name);
        const error = hasRule ? new made[name](1, "a message") : new made[name]("a message");
        assert.deepEqual([error.name, `${error}`], [name, `${name}: ${error.message}`]);
        assert.ok(error.stack.startsWith(`${name}: ${error.message}\n`), error.stack);
        assert.deepEqual(Object.keys(error), hasRule ? ["rule"] : []);
    }
});

test("the package exports its own description and the module", () => {
    const { resolve } = createRequire(join(folder, "entry.js"));
    const description = JSON.parse(readFileSync(resolve("yurewha/package.json"), "utf8"));
    assert.equal(description.name, "yurewha");
    assert.deepEqual(readFileSync(resolve("yurewha/yurewha.wasm")), BYTES);
    assert.throws(() => resolve("yurewha/library.js"));
});

test("both entries export the same names", async () => {
    const browser = await import("../yurewha/browser.js");
    assert.deepEqual(Object.keys(browser), Object.keys(errors));
    const given = await browser.load(BYTES);
    assert.ok(given.dataHash(new Uint8Array(3)).hex().length === 64);
});

test("the entry for browsers fetches whatever has an address, also a file", async () => {
    const browser = await import("../yurewha/browser.js");
    const [asked, { fetch }] = [[], globalThis];
    globalThis.fetch = async (address) => (asked.push(`${address}`), new Response(BYTES));
    try {
        await browser.load();
    } finally {
        globalThis.fetch = fetch;
    }
    assert.deepEqual(asked, [`${new URL("bindings/wasm/yurewha/yurewha.wasm", ROOT)}`]);
});
