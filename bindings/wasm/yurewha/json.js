// JSON texts, and what JSON.stringify writes as such a text.

import { noJson, string } from "./arguments.js";
import { HEX_LENGTH } from "./constants.js";
import { InvalidText } from "./errors.js";

/** The value of a JSON text. */
export function valueOf(json) {
    try {
        return JSON.parse(string(json, "JSON"));
    } catch (error) {
        throw error instanceof SyntaxError ? new InvalidText(noJson(json)) : error;
    }
}

/**
 * What JSON.stringify writes as a compact text that the module wrote. Its numbers are integers of up to 2^64 - 1, and its strings hex texts.
 * A number that may be too great for a Number is read as a string first.
 */
export function forStringify(json) {
    const quoted = json.replace(/([:[,])(\d{16,})/g, '$1"$2"');
    return JSON.parse(quoted, (_, value) => (typeof value === "string" && value.length < HEX_LENGTH ? integer(value) : value));
}

/** What JSON.stringify writes as some digits. */
function integer(digits) {
    const number = Number(digits);
    if (Number.isSafeInteger(number)) return number;
    if (JSON.rawJSON) return JSON.rawJSON(digits);
    throw new RangeError(`this engine's JSON.stringify writes no number of 2^53 or more, got ${digits}: use jsonText()`);
}
