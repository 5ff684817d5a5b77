// Lines of pairs.

const PAIR = /^([0-9a-fA-F]{64}) (0|[1-9][0-9]{0,19})$/;

/** The chunks that lines of pairs say; space at the end doesn't count. Throws an Error that names the first line that is none. */
export function chunksOfLines(yurewha, text) {
    const lines = text.trimEnd().split(/\r?\n/);
    const pairs = lines.map((line, k) => {
        const found = PAIR.exec(line);
        if (!found) throw new Error(`line ${k + 1} is no pair of 64 hex digits, a space, and a size`);
        return [yurewha.Hash.fromHex(found[1]), BigInt(found[2])];
    });
    return yurewha.Chunks.from(pairs);
}
