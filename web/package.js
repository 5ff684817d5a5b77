// The package, which is in another folder of the repository.

/** The package over an instance of its module. */
export async function loaded() {
    const { load } = await import("../bindings/wasm/yurewha/index.js").catch((cause) => {
        const said = "the package isn't in ../bindings/wasm/yurewha; serve the repository's top folder, and open /web/ there";
        throw new Error(said, { cause });
    });
    try {
        return await load();
    } catch (cause) {
        throw new Error(`the module can't be loaded: ${cause.message}`, { cause });
    }
}
