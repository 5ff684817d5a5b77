// The package `yurewha` for bundlers that make code for browsers: nothing in it names a module of Node.

import { loader } from "./load.js";

export {
    BrokenRule,
    EmptyHandle,
    InvalidArguments,
    InvalidJson,
    InvalidLists,
    InvalidProof,
    InvalidText,
    OutOfMemory,
    ProofMismatch,
    ProofTooLong,
    SessionError,
    SessionGap,
    SessionOverlap,
    SessionPositions,
    SessionSizes,
    SizeOverflow,
    Trapped,
    YurewhaError,
} from "./errors.js";

export const load = loader(null);
