"""Errors to plant that no message below 64 KiB meets. Each one changes an argument where a function starts, or before it is called, or does
something else there; so it needs no register of a compiler's choice, and is the same at all levels of a system."""

from __future__ import annotations

import re
from abc import ABC, abstractmethod
from typing import ClassVar, List

from course import COUNT, DEPTH, HASHER_SIZE
from layout import inner
from planted import Plant
from source import ADD
from widths import of_width


class Writer(ABC):
    """Writes what is wrong with the arguments of a call, by their places: in the function that is called, or before the call."""

    #: A pattern of what a function starts with, the instruction of a call, and the name of a register that a function has to keep.
    START: ClassVar[str]
    CALL: ClassVar[str]
    KEPT: ClassVar[str]

    def __init__(self, is_inside: bool) -> None:
        self.is_inside = is_inside

    @abstractmethod
    def cut(self, place: int) -> str:
        """Cuts an argument to 32 bits."""

    @abstractmethod
    def clear(self, place: int) -> str:
        """Makes an argument 0."""

    @abstractmethod
    def add(self, place: int, number: int) -> str:
        """Adds a small number to an argument."""

    @abstractmethod
    def if_large(self, place: int, bits: int, then: str, offset: int = -1) -> str:
        """Does something if an argument, or else what it has at an offset, is at least 2 to the power of some bits."""

    @abstractmethod
    def lose(self) -> str:
        """Changes the register that is to be kept."""

    @abstractmethod
    def write(self, place: int, offset: int) -> str:
        """Writes a byte at an offset from an argument."""

    @abstractmethod
    def read(self, place: int, offset: int) -> str:
        """Reads a byte there."""


def rare(lanes: int, kind: "type[Writer]") -> List[Plant]:
    """The errors of a level with so many lanes."""
    its, before = kind(True), kind(False)
    absorb, apart, chunks = (
        of_width(name, lanes) for name in ("tree::Tree::absorb_subtrees", "subtrees::neighbour_values", "chunks::chunk_values"))
    update, finalize = "hasher::Hasher::update", "hasher::Hasher::finalize"
    lost, written = f"it leaves another value in {kind.KEPT}", "write of 1 bytes"

    def start(what: str, function: str, by: str, numbers: str, reason: str = "") -> Plant:
        return Plant(what, function, kind.START, rf"\g<0>{by}", 0, reason or f"{numbers}: ", numbers)

    def call(what: str, function: str, called: str, by: str, numbers: str, reason: str) -> Plant:
        return Plant(what, function, rf'\t{kind.CALL}\t"{re.escape(inner(called))}"', rf"{by}\g<0>", 0, reason, numbers)

    add, of_one, up_to, a_round = "add_subtree_value", f"absorb_subtrees of 1 chunks in {lanes} lanes", "update, up to its loop", "update, a round"
    return [
        start("the number of a subtree cut to 32 bits", ADD, its.cut(2), add),
        start("the root joined too early after 2^40 subtrees", ADD, its.if_large(2, 40, its.clear(4)), add),
        start("a byte behind the values after 2^50 subtrees", ADD, its.if_large(2, 50, its.write(0, 32 * DEPTH)), add, written),
        start("another number in lanes of 2^20 chunks", apart, its.if_large(4, 20, its.add(5, 1)), "neighbour_values of 1048576 chunks"),
        start("a register that lanes of 2^40 chunks lose", apart, its.if_large(4, 40, its.lose()), "neighbour_values of 1099511627776 chunks", lost),
        start("a byte before the message in lanes of 2^10 chunks", apart, its.if_large(4, 10, its.read(2, -1)), "neighbour_values of 1024 chunks", "read of 1 bytes"),
        start("the number of a chunk cut to 32 bits", chunks, its.cut(4), "", "differ from the definition"),
        start("the number of a chunk cut to 32 bits", absorb, its.cut(1), of_one, "the values of subtrees"),
        start("a register lost after 2^40 chunks", absorb, its.if_large(1, 40, its.lose()), of_one, lost),
        start("a byte behind the hasher after 2^50 chunks", absorb, its.if_large(1, 50, its.write(0, HASHER_SIZE)), of_one, written),
        call("another number of a subtree from 2^40 on", absorb, ADD, before.if_large(2, 40, before.add(2, 1)), of_one, "the calls that change"),
        start("the length of a piece cut to 32 bits", update, its.cut(2), up_to),
        start("a byte less after 2^60 bytes", update, its.if_large(0, 60, its.add(2, -1), COUNT), up_to),
        start("a register lost after 2^63 bytes", update, its.if_large(0, 63, its.lose(), COUNT), up_to),
        call("the number of a chunk cut to 32 bits", update, absorb, before.cut(1), a_round, "chunks are taken in as if"),
        call("chunks from another place after 2^40", update, absorb, before.if_large(1, 40, before.add(4, 64)), a_round, "chunks are taken in at"),
        call("a subtree too few of 2^40 bytes", update, absorb, before.if_large(5, 40, before.add(3, -1)), a_round, "subtrees of"),
        start("another hasher after 2^50 bytes", finalize, its.if_large(1, 50, its.add(1, 4), COUNT), "finalize"),
        start("a register lost after 2^63 bytes", finalize, its.if_large(1, 63, its.lose(), COUNT), "finalize", lost),
        start("a length cut to 32 bits", "keyed_hash", its.cut(3), "keyed_hash", "the calls of a hasher"),
        start("a byte behind the hash of 2^40 bytes", "keyed_hash", its.if_large(3, 40, its.write(0, 32)), "keyed_hash", written),
        start("a length cut to 32 bits", "keyed_hash_two", its.cut(2), "keyed_hash_two", "the calls of keyed_hash"),
        start("a byte before a message of 2^40 bytes", "keyed_hash_two", its.if_large(2, 40, its.read(1, -1)), "keyed_hash_two", "read of 1 bytes"),
    ]
