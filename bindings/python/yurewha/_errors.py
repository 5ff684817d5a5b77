"""The exceptions. They have the names of the library's errors."""

from __future__ import annotations

import ctypes
from typing import Dict, Optional, Type

from ._declarations import LENGTHS, STATUSES
from ._library import short

__all__ = [
    "BrokenRule",
    "EmptyHandle",
    "InUseAtFork",
    "InvalidArguments",
    "InvalidJson",
    "InvalidLists",
    "InvalidProof",
    "InvalidText",
    "OutOfMemory",
    "ProofMismatch",
    "ProofTooLong",
    "ReentrantCall",
    "SessionError",
    "SessionGap",
    "SessionOverlap",
    "SessionPositions",
    "SessionSizes",
    "SizeOverflow",
    "YurewhaError",
]

#: The rules for the forms of a subtree.
_RULES = range(1, 14)

#: The rules for the forms of a range proof.
_PROOF_RULES = range(1, 9)

def status_text(status: int) -> str:
    """Returns what a status means, in the library's words.

    >>> status_text(33), status_text(8)
    ('a position is taken', 'unknown status')
    """
    text, length = ctypes.create_string_buffer(LENGTHS["YUREWHA_STATUS_TEXT_LENGTH"]), ctypes.c_size_t()
    short.yurewha_status_text(status, text, len(text), length)
    return text.raw[:length.value].decode("ascii")


def counted(count: int, noun: str) -> str:
    """A number with its noun, which has an s unless there is one.

    >>> counted(1, "byte"), counted(0, "byte")
    ('1 byte', '0 bytes')
    """
    return f"{count} {noun}{'' if count == 1 else 's'}"


def but_got(rule: str, got: object) -> str:
    """Returns the text of an error: what must be so, and what came instead. A long number is told by its bits.

    >>> but_got("size must be a whole number from 0 to 2^64 - 1", -3)
    'size must be a whole number from 0 to 2^64 - 1, got -3'
    """
    if isinstance(got, int) and got.bit_length() > 128:
        got = f"a number of {got.bit_length()} bits"
    return f"{rule}, got {got}"


def told_type(value: object) -> str:
    """Returns how an error names the type of a value. It says so if the value stands for none in a column.

    >>> told_type(None), told_type(float("nan")), told_type(0.5)
    ('NoneType: it is null', 'float: it is null', 'float')
    """
    name = type(value).__name__
    is_null = value is None or name in ("NAType", "NaTType") or isinstance(value, float) and value != value
    return name + ": it is null" * is_null


def told_items(value: object) -> str:
    """Returns how an error names the type of a value that may have another number of items than it must have.

    >>> told_items((1, 2, 3)), told_items(7)
    ('tuple of 3', 'int')
    """
    return told_type(value) + (f" of {len(value)}" if isinstance(value, (tuple, list)) else "")


def told_text(text: str) -> str:
    """Returns how an error shows a text: a long one by its first characters.

    >>> told_text("abc"), told_text(200 * "a") == repr(64 * "a") + ".."
    ("'abc'", True)
    """
    return repr(text) if len(text) <= 64 else repr(text[:64]) + ".."


class YurewhaError(Exception):
    """The base class of all errors of this package.

    >>> issubclass(InvalidText, YurewhaError)
    True
    """


class InvalidArguments(YurewhaError, ValueError):
    """The arguments don't fit together, or one is outside its range.

    >>> issubclass(InvalidArguments, ValueError)
    True
    """


class DivisionByZero(InvalidArguments, ZeroDivisionError):
    """The divisor is 0. This is also an `InvalidArguments`.

    >>> issubclass(DivisionByZero, InvalidArguments)
    True
    """


class SizeOverflow(YurewhaError, OverflowError, ValueError):
    """Sizes or lengths add up to more than 2^64 - 1.

    >>> issubclass(SizeOverflow, OverflowError)
    True
    """


class OutOfMemory(YurewhaError, MemoryError):
    """An allocation failed. Nothing has changed.

    >>> issubclass(OutOfMemory, MemoryError)
    True
    """


class InvalidText(YurewhaError, ValueError):
    """A text doesn't have the expected form.

    >>> issubclass(InvalidText, ValueError)
    True
    """


class BrokenRule(YurewhaError, ValueError):
    """The base class of `InvalidJson`, `InvalidLists` and `InvalidProof`. `rule` is the lowest rule that is broken.

    >>> issubclass(InvalidLists, BrokenRule) and not issubclass(InvalidLists, InvalidJson)
    True
    """

    def __init__(self, rule: int) -> None:
        super().__init__(rule)
        self.rule = rule


class InvalidJson(BrokenRule):
    """A JSON value doesn't describe a subtree. `rule` is the lowest rule, from 1 to 13, that it breaks.

    >>> InvalidJson(5).rule
    5
    """

    def __str__(self) -> str:
        return f"invalid JSON: {_broken_rule('YUREWHA_RULE', _RULES, self.rule)}"


class InvalidLists(BrokenRule):
    """Flat lists don't describe a subtree. `rule` is the lowest rule, from 5 to 13, that they break.

    >>> print(InvalidLists(5))
    invalid flat lists: rule 5: there is no level
    """

    def __str__(self) -> str:
        return f"invalid flat lists: {_broken_rule('YUREWHA_RULE', _RULES, self.rule)}"


class InvalidProof(BrokenRule):
    """A JSON value, flat lists or bytes don't describe a range proof. `rule` is the lowest of 8 rules that they break.

    >>> print(InvalidProof(5))
    invalid range proof: rule 5: there is no chunk
    """

    def __str__(self) -> str:
        return f"invalid range proof: {_broken_rule('YUREWHA_PROOF_RULE', _PROOF_RULES, self.rule)}"


def _broken_rule(before: str, rules: range, rule: int) -> str:
    """Returns the text of a rule. `before` is the name of the status before that of rule 1."""
    return status_text(STATUSES[before] + rule) if rule in rules else f"rule {rule}: no such rule"


class ProofMismatch(YurewhaError, ValueError):
    """A range proof doesn't show the hash that it was opened with, or data isn't that of the file.

    `chunk` is the number of the first chunk that is wrong, as an `OpenedRange` numbers those of its range, and `place` is where in the file
    it begins. `path` is that of the file, if it was read by a `VerifiedFileSystem`. What isn't known is None.

    It isn't an `OSError`, because programs take those for troubles of a device or a network: some would try again, and `zipfile`
    would say that the file isn't a ZIP.

    >>> issubclass(ProofMismatch, ValueError)
    True
    >>> ProofMismatch("this isn't the data of chunk 3 of the range", chunk=3, place=4096).place
    4096
    """

    def __init__(self, *told: object, chunk: Optional[int] = None, place: Optional[int] = None, path: Optional[str] = None) -> None:
        super().__init__(*told)
        self.chunk, self.place, self.path = chunk, place, path


class ProofTooLong(ProofMismatch):
    """A range proof has more bytes than are allowed. It wasn't read.

    >>> issubclass(ProofTooLong, ProofMismatch)
    True
    """


class EmptyHandle(YurewhaError, ValueError):
    """The object is empty. No call of this package made it, or it was freed by hand.

    >>> issubclass(EmptyHandle, ValueError)
    True
    """


class InUseAtFork(YurewhaError, RuntimeError):
    """This process was forked while another thread used the object. It may be half changed: make a new one.

    >>> issubclass(InUseAtFork, RuntimeError)
    True
    """


class ReentrantCall(YurewhaError, RuntimeError):
    """A signal handler called `update` of a hasher during a long `update` of the same hasher in the same thread.

    >>> issubclass(ReentrantCall, RuntimeError)
    True
    """


class SessionError(YurewhaError, ValueError):
    """The base class of a session's errors, except `OutOfMemory`.

    >>> issubclass(SessionGap, SessionError)
    True
    """


class SessionOverlap(SessionError):
    """A position is taken.

    >>> issubclass(SessionOverlap, ValueError)
    True
    """


class SessionPositions(SessionError):
    """The first position plus the number of chunks is more than 2^64 - 1.

    >>> issubclass(SessionPositions, ValueError)
    True
    """


class SessionSizes(SessionError):
    """The sizes of all chunks add up to more than 2^64 - 1.

    >>> issubclass(SessionSizes, ValueError)
    True
    """


class SessionGap(SessionError):
    """The taken positions aren't exactly those below the total. `position` is the first one below it that isn't taken. If all are taken,
    it is the first one from the total on that is taken, too.

    >>> issubclass(SessionGap, ValueError)
    True
    """

    position: Optional[int] = None


#: The faults of a session alone.
_SESSION_ERRORS: Dict[int, Type[SessionError]] = {
    STATUSES["YUREWHA_SESSION_OVERLAP"]: SessionOverlap,
    STATUSES["YUREWHA_SESSION_POSITIONS"]: SessionPositions,
    STATUSES["YUREWHA_SESSION_GAP"]: SessionGap,
}


#: The errors of the rules for the JSON of a session. In place of the fifth, a status says which rule a subtree breaks.
_SESSION_RULES: Dict[int, Type[YurewhaError]] = {
    1: InvalidText, 2: InvalidText, 3: InvalidText, 4: InvalidText, 6: InvalidArguments, 7: SizeOverflow}

#: A proof, or data, isn't what was asked for.
_MISMATCHES = {STATUSES[f"YUREWHA_{name}"] for name in ("MISMATCH", "ELSEWHERE", "TOO_FAR")}

# Made in advance, since there may be no memory for it later.
_MEMORY = f"{status_text(STATUSES['YUREWHA_MEMORY'])}: an allocation failed"


def error_of(status: int, what: str = "invalid arguments", of_rule: Type[BrokenRule] = InvalidJson) -> YurewhaError:
    """Returns the exception for a status other than 0.

    `what` is the text of `InvalidArguments`, `InvalidText` and `ProofMismatch`. `of_rule` is for a rule of subtrees: its status
    doesn't say whether a JSON value or flat lists break it, which the caller knows.

    >>> error_of(2)
    SizeOverflow('size overflow: sizes or lengths add up to more than 2^64 - 1')
    """
    if status == STATUSES["YUREWHA_ARGUMENTS"]:
        return InvalidArguments(what)
    if status == STATUSES["YUREWHA_SIZES"]:
        return SizeOverflow(f"size overflow: {status_text(status)}")
    if status == STATUSES["YUREWHA_MEMORY"]:
        return OutOfMemory(_MEMORY)
    if status == STATUSES["YUREWHA_TEXT"]:
        return InvalidText(what)
    if status == STATUSES["YUREWHA_EMPTY_HANDLE"]:
        return EmptyHandle("the object is empty: no call of this package made it, or it was freed")
    if status in _MISMATCHES:
        return ProofMismatch(what)
    if status in _SESSION_ERRORS:
        return _SESSION_ERRORS[status](status_text(status))
    rule = status - STATUSES["YUREWHA_RULE"]
    if rule in _RULES:
        return of_rule(rule)
    proof_rule = status - STATUSES["YUREWHA_PROOF_RULE"]
    if proof_rule in _PROOF_RULES:
        return InvalidProof(proof_rule)
    session_rule = status - STATUSES["YUREWHA_SESSION_RULE"]
    if session_rule in _SESSION_RULES:
        return _SESSION_RULES[session_rule](f"invalid JSON of a session: {status_text(status)}")
    return YurewhaError(f"the library returned status {status} ({status_text(status)}), which this call doesn't have")
