// Loads the module.

import { instanceOver } from "./instance.js";
import { Library } from "./library.js";

/** The module of a response, unless that says that it has none. */
async function compiledOf(response) {
    if (!response.ok) throw new Error(`${response.url || "a response"}: status ${response.status}`);
    return WebAssembly.compile(await response.arrayBuffer());
}

/** What a bundle or a page calls `load`. `readFile` reads the file of an address; without it, files are fetched too. */
export function loader(readFile) {
    /** A compiled module, of itself, its bytes, a response that has them, or the address of a file. */
    async function compiled(source) {
        if (source instanceof WebAssembly.Module) return source;
        if (ArrayBuffer.isView(source) || source instanceof ArrayBuffer) return WebAssembly.compile(source);
        if (source instanceof Response) return compiledOf(source);
        const url = new URL(source, import.meta.url);
        if (readFile && url.protocol === "file:") return WebAssembly.compile(await readFile(url));
        return compiledOf(await fetch(url));
    }

    /** Everything that the package has, over one instance of the module. */
    return async function load(source = new URL("./yurewha.wasm", import.meta.url)) {
        const instance = await WebAssembly.instantiate(await compiled(await source), {});
        return instanceOver(new Library(instance.exports));
    };
}
