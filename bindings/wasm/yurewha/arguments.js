// Checks of what a caller hands in. None of them runs a caller's code.

const MAX = 2n ** 64n - 1n;
const encoder = new TextEncoder();

// What an array of bytes says of itself. A subclass may say something else of its length or its elements.
const said = Object.getOwnPropertyDescriptors(Object.getPrototypeOf(Uint8Array.prototype));
const kindOf = said[Symbol.toStringTag].get;
const bufferOf = said.buffer.get;
const offsetOf = said.byteOffset.get;
const lengthOf = said.length.get;
const bytesOf = said.byteLength.get;
const lengthOfBuffer = Object.getOwnPropertyDescriptor(ArrayBuffer.prototype, "byteLength").get;

/** How many characters of a text an error shows. */
const MOST_SHOWN = 70;

/** The message of an error: what a value must be, and the value. */
export const mustBe = (what, rule, value) => `${what} must ${rule}, got ${named(value)}`;

/** The error of a value of another type. */
export const wrongType = (...given) => new TypeError(mustBe(...given));

/** A value in an error's words, for which none of the value's own code runs. */
function named(value) {
    if (typeof value === "string") return JSON.stringify(value.length > MOST_SHOWN ? `${value.slice(0, MOST_SHOWN)}...` : value);
    if (typeof value === "function") return "a function";
    if (typeof value !== "object" || value === null) return String(value);
    if (Array.isArray(value)) return "an array";
    return kindOf.call(value) ? `a ${kindOf.call(value)} of ${bytesOf.call(value)} bytes` : "an object";
}

/** The message of an error of a text, or its bytes, that isn't JSON. */
export const noJson = (json) => mustBe("the text", "be JSON", json);

/** A number from 0 to 2^64 - 1 as a BigInt, from a BigInt or a safe integer. */
export function u64(value, what) {
    if (typeof value !== "bigint" && !Number.isSafeInteger(value)) throw wrongType(what, "be a BigInt or a safe integer", value);
    const number = BigInt(value);
    if (number < 0n || number > MAX) throw new RangeError(mustBe(what, "be a number from 0 to 2^64 - 1", value));
    return number;
}

export function truth(value, what) {
    if (typeof value !== "boolean") throw wrongType(what, "be true or false", value);
    return value;
}

/** The bytes of a Uint8Array, of this realm or another, as a plain view of them. */
export function bytes(value, what, kinds = "a Uint8Array") {
    if (kindOf.call(value) !== "Uint8Array") throw wrongType(what, `be ${kinds}`, value);
    return new Uint8Array(bufferOf.call(value), offsetOf.call(value), lengthOf.call(value));
}

/** The bytes of data, which is a Uint8Array or an ArrayBuffer, of this realm or another, as a plain view of them. */
export function dataOf(value, what) {
    // Most data is a Uint8Array, and to ask that is fast. What isn't one makes the getter of a buffer's length throw, which is slow.
    if (kindOf.call(value) === undefined && isBuffer(value)) return new Uint8Array(value);
    return bytes(value, what, "a Uint8Array or an ArrayBuffer");
}

/** Whether a value is an ArrayBuffer: the getter throws for anything else, also for shared memory. */
function isBuffer(value) {
    try {
        lengthOfBuffer.call(value);
        return true;
    } catch {
        return false;
    }
}

/** A value that is a string. */
export function string(value, what) {
    if (typeof value !== "string") throw wrongType(what, "be a string", value);
    return value;
}

/** The UTF-8 bytes of a text. */
export const text = (value, what) => encoder.encode(string(value, what));

/** A number from 0 to 2^64 - 1 as a BigInt, from its decimal digits. */
export function decimal(value, what) {
    if (typeof value !== "string" || !/^(0|[1-9][0-9]{0,19})$/.test(value)) throw wrongType(what, "be a text of decimal digits", value);
    return u64(BigInt(value), what);
}

/** The two members of a pair, which is an array. `kind` says of what. */
export function pairOf(value, what, kind) {
    if (!Array.isArray(value) || value.length !== 2) throw wrongType(what, `be a pair of ${kind}`, value);
    return [value[0], value[1]];
}
