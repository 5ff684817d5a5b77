// Made of bindings/include/yurewha.h by bindings/check_exports --write.

/** The statuses of the library. */
export const STATUS = {
    DONE: 0,
    ARGUMENTS: 1,
    SIZES: 2,
    MEMORY: 3,
    TEXT: 4,
    ROOM: 5,
    EMPTY_HANDLE: 6,
    MISMATCH: 7,
    RULE: 16,
    SESSION_OVERLAP: 33,
    SESSION_POSITIONS: 34,
    SESSION_GAP: 37,
    ELSEWHERE: 38,
    TOO_FAR: 39,
    PROOF_RULE: 48,
    SESSION_RULE: 64,
};

/** The names of the errors that statuses mean. The error of a broken rule isn't among them. */
export const ERROR_NAMES = {
    1: "InvalidArguments",
    2: "SizeOverflow",
    3: "OutOfMemory",
    4: "InvalidText",
    6: "EmptyHandle",
    7: "ProofMismatch",
    33: "SessionOverlap",
    34: "SessionPositions",
    37: "SessionGap",
    38: "ProofMismatch",
    39: "ProofMismatch",
};

/** The lengths of a hash as hex text and as base64 text, and the greatest length of a status's text. */
export const HEX_LENGTH = 64;
export const BASE64_LENGTH = 43;
export const STATUS_TEXT_LENGTH = 96;
