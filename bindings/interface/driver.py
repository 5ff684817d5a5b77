"""The calls of the header as the test program in bindings/c/driver makes them: each with all its arguments in one array."""
from __future__ import annotations

import re
import textwrap
from collections.abc import Iterator

import memory
from header import FOR_C, Export, Header, Unreadable

#: The call that returns a text. Like the one that is for C alone, it has no arguments that a line could have.
TELLS_TEXT = "yurewha_processor_level"
#: The calls that change their first handle, hasher or chunker. The others leave what they read unchanged.
CHANGES_FIRST = ("yurewha_hasher_update", "yurewha_subtree_merge_into", "yurewha_subtree_merge_into_counted", "yurewha_session_put",
                 "yurewha_session_put_range", "yurewha_session_join", "yurewha_session_push_run", "yurewha_session_keep_hashes",
                 "yurewha_reader_read", "yurewha_reader_keep_at_most", "yurewha_reader_take", "yurewha_part_check",
                 "yurewha_hash_index_insert", "yurewha_chunker_next_boundary", "yurewha_file_hasher_update")
#: The calls that read their last handle, and those that empty it. Any other call that has one makes it.
READS_LAST = ("yurewha_subtree_merge_into", "yurewha_session_push_run", "yurewha_session_put_range", "yurewha_session_join")
EMPTIES_LAST = ("yurewha_reader_take",)
#: The calls that ask for memory and can do without it.
SPARES_MEMORY = ("yurewha_reader_read", "yurewha_reader_take", "yurewha_part_check")
#: The calls that change their handle whatever they return.
CHANGES_ANYWAY = ("yurewha_part_check",)
#: The calls that fill the front of an array of any length.
FILLS_FRONT = ("yurewha_reader_read",)
TYPES = {"char": "BYTE", "uint8_t": "BYTE", "bool": "TRUTH", "uint32_t": "NUMBER", "uint64_t": "NUMBER", "size_t": "NUMBER",
         "yurewha_status": "NUMBER", "yurewha_hash": "HASH", "yurewha_bytes": "KEY", "yurewha_chunk": "CHUNK", "yurewha_level": "LEVEL"}
ANSWERS = {"void": "NOTHING", "yurewha_status": "STATUS", "int32_t": "SIGNED", "uint32_t": "COUNT", "uint64_t": "COUNT"}
LENGTH = re.compile(r"(?:\w+_)?(?:count|length|room)")
HEAD = '''\
/* {made}
 *
 * Each call with all its arguments in one array, and what each of them is for. An array is one argument with its length. */
#include "driver.h"

'''


def is_length(export: Export, i: int) -> bool:
    """Whether a parameter is the length of the array before it."""
    parameters = export.parameters
    return 0 < i < len(parameters) and parameters[i].type == "size_t" and parameters[i - 1].type.endswith("*") \
        and LENGTH.fullmatch(parameters[i].name) is not None


def has_room(export: Export) -> bool:
    return any(it.type == "size_t" and it.name.endswith("room") for it in export.parameters)


def of_object(export: Export, i: int) -> str:
    """What a handle or a hasher is for."""
    if export.parameters[i].type.startswith("const "):
        return "READ"
    if is_length(export, i + 1):
        return "LIST"
    if export.name.endswith("_free"):
        return "FREED"
    if i == 0 and export.name in CHANGES_FIRST:
        return "CHANGED"
    if i == len(export.parameters) - 1 and export.name in EMPTIES_LAST:
        return "EMPTIED"
    is_made = "_begin_" in export.name or i == len(export.parameters) - 1 and export.name not in READS_LAST
    return "MADE" if is_made else "READ"


def purpose(export: Export, i: int) -> str:
    """What a parameter is for, and its type, as driver.h names them."""
    it = export.parameters[i]
    target = it.type.removeprefix("const ").removesuffix(" *")
    if target not in TYPES and target.startswith("yurewha_"):
        return f"{{{of_object(export, i)}, {target.removeprefix('yurewha_').upper()}}}"
    if target not in TYPES:
        raise Unreadable(f"{export.name}: bindings/c/driver knows no {it.type}")
    is_const, is_list = it.type.startswith("const "), is_length(export, i + 1)
    if is_list:
        role = "LIST" if is_const else "ROOM" if export.parameters[i + 1].name.endswith("room") else \
            "FRONT" if export.name in FILLS_FRONT else "EXACT"
    elif is_const or not it.type.endswith("*"):
        role = "GIVEN"
    else:
        role = "NEEDED" if target == "size_t" and has_room(export) else "OUT"
    return f"{{{role}, {TYPES[target]}}}"


def passed(export: Export) -> Iterator[str]:
    """The arguments of a call, out of the array `a`. Data is passed as characters, since the header takes an array of any type."""
    at = -1
    for i, it in enumerate(export.parameters):
        at += not is_length(export, i)
        if is_length(export, i):
            yield f"a[{at}].count"
        elif not it.type.endswith("*"):
            yield f"a[{at}].number != 0" if it.type == "bool" else f"({it.type})a[{at}].number"
        else:
            c_type = "const char *" if it.type == "const uint8_t *" else it.type
            yield f"({c_type})a[{at}].data"


def wrapped(text: str, indent: str) -> str:
    """Lines of a text, which is broken after a comma that no bracket of a purpose or of a cast holds."""
    kept = re.sub(r"\{\w+, \w+\}|\([\w ]+\*?\)a", lambda it: it[0].replace(" ", "\0"), text)
    lines = textwrap.wrap(kept, 120, initial_indent=indent, subsequent_indent=indent + "    ", break_long_words=False)
    return "\n".join(lines).replace("\0", " ") + "\n"


def function(export: Export) -> str:
    call = f"{export.name}({', '.join(passed(export))});"
    if export.answer == "int32_t":
        call = f"(uint64_t){call}"
    body = [call, "return 0;"] if export.answer == "void" else [f"return {call}"]
    lines = "".join(wrapped(it, "    ") for it in body)
    return f"static uint64_t call_{export.name.removeprefix('yurewha_')}(const struct argument *a)\n{{\n{lines}}}\n\n"


def row(export: Export, takes_memory: bool) -> str:
    name = export.name.removeprefix("yurewha_")
    purposes = [purpose(export, i) for i in range(len(export.parameters)) if not is_length(export, i)]
    memory_of = "REFUSES" if takes_memory else "SPARES" if export.name in SPARES_MEMORY else "ASKS_NONE"
    changes = "true" if export.name in CHANGES_ANYWAY else "false"
    words = [f'"{name}"', f"call_{name}", ANSWERS[export.answer], memory_of, changes, str(len(purposes))]
    return wrapped(f"{{{', '.join(words)}, {{{', '.join(purposes)}}}}},", "    ")


def calls(header: Header, made: str) -> str:
    exports = [it for it in header.exports if it.name not in (FOR_C, TELLS_TEXT)]
    in_memory = set(memory.out_of_memory(header))
    rows = "".join(row(it, it.name.removeprefix("yurewha_") in in_memory) for it in exports)
    statuses = "".join(f'    {{"{name.removeprefix("YUREWHA_")}", {name}}},\n' for name in header.statuses
                       if not name.startswith("YUREWHA_VERSION"))
    return (HEAD.format(made=made) + "".join(map(function, exports))
            + f"const struct call calls[] = {{\n{rows}}};\nconst size_t call_count = LENGTH(calls);\n\n"
            + f"const struct named_status statuses[] = {{\n{statuses}}};\nconst size_t status_count = LENGTH(statuses);\n")
