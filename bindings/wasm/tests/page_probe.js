// The tests of the page put this before its script. It counts what lives, and holds back what a file named "slow" comes to, until it is let go.
// What it counts stands in the attributes of the page, which every driver reads.

const shown = document.documentElement.dataset;
let letGo;
const isLetGo = new Promise((resolve) => (letGo = resolve));
document.addEventListener("let-go", () => letGo());
const isSlow = (file) => file?.name?.startsWith("slow") ?? false;
const count = (name, by) => (shown[name] = Number(shown[name] ?? 0) + by);

// What the collector frees later would hide what the page forgot.
globalThis.FinalizationRegistry = class {
    register() {}
    unregister() {}
};

const { instantiate } = WebAssembly;
WebAssembly.instantiate = async (...given) => {
    const { exports } = await instantiate(...given);
    const allocate = (size) => (count("blocks", 1), exports.allocate(size));
    const release = (block) => (count("blocks", -1), exports.release(block));
    const yurewha_subtree_final_hash = (subtree, out) => {
        const status = exports.yurewha_subtree_final_hash(subtree, out);
        if ("lies" in shown) new Uint8Array(exports.memory.buffer)[out] ^= 1;
        return status;
    };
    return { exports: { ...exports, allocate, release, yurewha_subtree_final_hash } };
};

const { arrayBuffer } = Blob.prototype;
Blob.prototype.arrayBuffer = async function () {
    const data = await arrayBuffer.call(this);
    if (!isSlow(this)) return data;
    await isLetGo;
    setTimeout(() => count("gone", 1));
    return data;
};

const Real = Worker;
globalThis.Worker = class extends Real {
    #isSlow = false;
    #isEnded = false;

    constructor(...given) {
        super(...given);
        count("workers", 1);
    }

    postMessage(work) {
        this.#isSlow = isSlow(work.file) || work.files?.some(isSlow);
        super.postMessage(work);
    }

    terminate() {
        if (!this.#isEnded) count("workers", -1);
        this.#isEnded = true;
        super.terminate();
    }

    addEventListener(kind, run) {
        super.addEventListener(kind, async (event) => {
            if (this.#isSlow) await isLetGo;
            if (!this.#isEnded) run(event);
        });
    }
};
