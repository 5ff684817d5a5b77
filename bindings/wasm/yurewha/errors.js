// The errors. They have the names of the library's.

import { ERROR_NAMES, STATUS } from "./constants.js";

export { STATUS };

export class YurewhaError extends Error {}
export class InvalidArguments extends YurewhaError {}
export class SizeOverflow extends YurewhaError {}
export class OutOfMemory extends YurewhaError {}
export class InvalidText extends YurewhaError {}
export class EmptyHandle extends YurewhaError {}
export class ProofMismatch extends YurewhaError {}
export class ProofTooLong extends ProofMismatch {}
export class Trapped extends YurewhaError {}
export class SessionError extends YurewhaError {}
export class SessionOverlap extends SessionError {}
export class SessionPositions extends SessionError {}
export class SessionSizes extends SessionError {}
export class SessionGap extends SessionError {}

export class BrokenRule extends YurewhaError {
    constructor(rule, message) {
        super(message);
        this.rule = rule;
    }
}

export class InvalidJson extends BrokenRule {}
export class InvalidLists extends BrokenRule {}
export class InvalidProof extends BrokenRule {}

// A minifier renames classes, but not members.
const NAMED = {
    BrokenRule,
    EmptyHandle,
    InvalidArguments,
    InvalidJson,
    InvalidLists,
    InvalidProof,
    InvalidText,
    OutOfMemory,
    ProofMismatch,
    ProofTooLong,
    SessionError,
    SessionGap,
    SessionOverlap,
    SessionPositions,
    SessionSizes,
    SizeOverflow,
    Trapped,
    YurewhaError,
};
for (const [value, kind] of Object.entries(NAMED)) {
    Object.defineProperty(kind.prototype, "name", { value, writable: true, configurable: true });
}

/** How many rules the values of a subtree, a range proof and a session have. Their statuses are `RULE` and its like plus the rule. */
const RULES = 13;
const PROOF_RULES = 8;
const SESSION_RULES = 7;
export const LAST_STATUS = STATUS.SESSION_RULE + SESSION_RULES;

/** The errors of a session's rules. Those that aren't here are of the form of its JSON. */
const OF_SESSION = { 6: InvalidArguments, 7: SizeOverflow };

/** The messages of errors that aren't the library's text of the status. */
const MESSAGES = new Map([
    [STATUS.ARGUMENTS, (what) => what],
    [STATUS.MEMORY, () => "an allocation failed"],
    [STATUS.TEXT, (what) => what],
    [STATUS.EMPTY_HANDLE, () => "the object was freed"],
    [STATUS.MISMATCH, () => "the proof doesn't show this hash"],
    [STATUS.ELSEWHERE, (what) => what],
    [STATUS.TOO_FAR, (what) => what],
]);

/** The rule that a status names, of those that come after the status `before`; 0 if it names none of them. */
const ruleOf = (status, before, count) => (status > before && status <= before + count ? status - before : 0);

/**
 * The error of a status other than 0. `text` is what the status means, in the module's words, and `what` the message of
 * errors of which the caller knows more. `OfRule` is the error of a subtree's rule: the status doesn't say whether a JSON value or flat
 * lists break it, which the caller knows.
 */
export function errorOf(status, text, what, OfRule = InvalidJson) {
    const name = ERROR_NAMES[status];
    if (name) return new NAMED[name](MESSAGES.get(status)?.(what) ?? text);
    const rule = ruleOf(status, STATUS.RULE, RULES);
    if (rule) return new OfRule(rule, text);
    const proofRule = ruleOf(status, STATUS.PROOF_RULE, PROOF_RULES);
    if (proofRule) return new InvalidProof(proofRule, text);
    const sessionRule = ruleOf(status, STATUS.SESSION_RULE, SESSION_RULES);
    if (sessionRule) return new (OF_SESSION[sessionRule] ?? InvalidText)(text);
    return new YurewhaError(`the library returned status ${status}`);
}

export const outOfMemory = () => errorOf(STATUS.MEMORY);
export const emptyHandle = () => errorOf(STATUS.EMPTY_HANDLE);
export const sessionSizes = () => new SessionSizes("the sizes of all chunks add up to more than 2^64 - 1");
