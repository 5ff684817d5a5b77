// The package `yurewha`: index.d.ts says what each call is for.

import { loader } from "./load.js";

export {
    BrokenRule,
    EmptyHandle,
    InvalidArguments,
    InvalidJson,
    InvalidLists,
    InvalidProof,
    InvalidText,
    OutOfMemory,
    ProofMismatch,
    ProofTooLong,
    SessionError,
    SessionGap,
    SessionOverlap,
    SessionPositions,
    SessionSizes,
    SizeOverflow,
    Trapped,
    YurewhaError,
} from "./errors.js";

// Only a file is read by Node, so a browser runs this entry too.
export const load = loader(async (url) => (await import("node:fs/promises")).readFile(url));
