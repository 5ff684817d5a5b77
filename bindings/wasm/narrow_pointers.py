#!/usr/bin/env python3
"""Rewrites the text of an LLVM module for wasm64 to one for wasm32.

    narrow_pointers.py FROM TO

Code that was compiled for 64 bits lays its structs out with pointers of 8 bytes, by offsets that are numbers by then. So a
pointer in memory keeps its 8 bytes, of which the high 4 are zeros: each load and store of a pointer becomes one of an `i64`. Any
form that may have a pointer in memory and isn't known here ends the program.
"""

import re
import sys
from typing import List

PLACE = r"ptr [^ ,]+, align \d+"
METADATA = r"(?:, ![a-z.]+ ![\d]+)*"
LOAD = re.compile(rf"  (%\S+) = load ptr, ({PLACE})({METADATA})")
STORE = re.compile(rf"  store ptr (\S+), ({PLACE})({METADATA})")
ALLOCA = re.compile(r"  (%\S+) = alloca ptr, align 8")
LOAD_PAIR = re.compile(rf"  (%\S+) = load \{{ (\w+), (\w+) \}}, ({PLACE})")
#: A pointer within a type that is laid out in memory: of what is loaded, stored, reserved, stepped over, passed or global.
UNKNOWN = re.compile(
    r"\b(?:load|store|alloca|getelementptr)\b(?: \w+)*? (?:ptr\b(?! [%@])|[{\[<][^%@]*\bptr\b[^%@]*[}\]>])"
    r"|\b(?:cmpxchg|atomicrmw)\b.*, ptr\b|\bva_arg\b.*, .*\bptr\b"
    r"|\b(?:sret|byval|inalloca|preallocated|elementtype)\([^)]*\bptr\b"
    r"|^[%@].* (?:type|global|constant) .*\bptr\b"
)
LAYOUT = 'target datalayout = "e-m:e-p:32:32-p10:8:8-p20:8:8-i64:64-i128:128-n32:64-S128-ni:1:10:20"'


def narrowed_pair(result: str, types: List[str], place: str, number: int) -> List[str]:
    """The lines for a load of two values, one or both of which are pointers."""
    wide = ["i64" if kind == "ptr" else kind for kind in types]
    loaded = f"{{ {wide[0]}, {wide[1]} }}"
    lines = [f"  %load.{number} = load {loaded}, {place}"]
    made = "poison"
    for index, kind in enumerate(types):
        part = f"%part.{number}.{index}"
        lines.append(f"  {part} = extractvalue {loaded} %load.{number}, {index}")
        if kind == "ptr":
            lines.append(f"  %ptr.{number}.{index} = inttoptr i64 {part} to ptr")
            part = f"%ptr.{number}.{index}"
        to = result if index else f"%half.{number}"
        lines.append(f"  {to} = insertvalue {{ {types[0]}, {types[1]} }} {made}, {kind} {part}, {index}")
        made = to
    return lines


def narrowed(line: str, number: int) -> List[str]:
    """The lines that replace one line of the module."""
    if found := LOAD.fullmatch(line):
        # A pointer's metadata says nothing of an i64, but that it isn't undefined.
        kept = "".join(re.findall(r", !noundef !\d+", found[3]))
        return [f"  %load.{number} = load i64, {found[2]}{kept}", f"  {found[1]} = inttoptr i64 %load.{number} to ptr"]
    if found := STORE.fullmatch(line):
        return [f"  %store.{number} = ptrtoint ptr {found[1]} to i64", f"  store i64 %store.{number}, {found[2]}"]
    if found := ALLOCA.fullmatch(line):
        return [f"  {found[1]} = alloca i64, align 8"]
    if (found := LOAD_PAIR.fullmatch(line)) and "ptr" in found.group(2, 3):
        return narrowed_pair(found[1], [found[2], found[3]], found[4], number)
    if UNKNOWN.search(line):
        sys.exit(f"narrow_pointers.py: line {number} has a form that isn't known: {line}")
    return [line.replace(" ptrtoaddr ptr ", " ptrtoint ptr ")]


def main() -> None:
    source, target = sys.argv[1:]
    with open(source, encoding="utf-8") as file:
        lines = [new for number, line in enumerate(file.read().split("\n"), 1) for new in narrowed(line, number)]
    text = "\n".join(lines)
    text = re.sub(r"(?m)^target datalayout = .*", LAYOUT, text)
    text = re.sub(r"(?m)^target triple = .*", 'target triple = "wasm32-unknown-unknown"', text)
    with open(target, "w", encoding="utf-8") as file:
        file.write(text)


if __name__ == "__main__":
    main()
