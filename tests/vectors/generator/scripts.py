"""Scripts: tests of which each is a list of calls of the library with their answers."""

from __future__ import annotations

import dataclasses
from typing import Any, Iterable, Optional, Union

from .files import VERSION, compact

Step = list[Any]
#: What is left out of an answer, as null may stand in one.
NOTHING: Any = object()

#: Each call with the kinds of its arguments. The names are those of the C library, without `yurewha_`.
CALLS = {
    # The hashes of data, and hashes themselves.
    "data_hash": "data", "data_hashes": "data numbers", "internal_node_hash": "data", "hmac": "hash hash", "random_from_seed": "number",
    "hash_to_bytes": "hash", "hash_from_bytes": "bytes", "compare": "hash hash", "remainder": "hash number",
    "hex": "hash", "from_hex": "text", "base64": "hash", "from_base64": "text",
    "hasher_begin_data": "", "hasher_begin_internal": "", "hasher_begin_keyed": "bytes", "hasher_count": "hasher", "hasher_update": "hasher data",
    "hasher_finalize": "hasher",
    # Files.
    "chunker_begin": "", "chunker_next_boundary": "chunker data", "chunker_taken": "chunker", "file_hasher_new": "",
    "file_hasher_update": "file_hasher data", "file_hasher_size": "file_hasher", "file_hasher_root": "file_hasher",
    "file_hasher_finish": "file_hasher", "file_hasher_finish_with_salt": "file_hasher bytes",
    # Lists of chunks.
    "chunks": "chunks", "xorb_hash": "chunks", "file_hash": "chunks", "file_hash_with_salt": "chunks bytes",
    "find_stable_start": "chunks", "find_stable_end": "chunks",
    # Subtrees.
    "subtree_from_chunks": "bool chunks bool", "subtree_clone": "subtree", "subtree_equal": "subtree subtree",
    "subtree_marks": "subtree", "subtree_levels": "subtree", "subtree_num_levels": "subtree", "subtree_num_nodes": "subtree",
    "subtree_nodes": "subtree", "subtree_total_size": "subtree", "subtree_merge_into": "subtree subtree",
    "subtree_merge_into_counted": "subtree subtree", "subtree_merge": "subtrees", "subtree_final_hash": "subtree",
    "subtree_file_hash": "subtree bytes", "subtree_to_json": "subtree", "subtree_from_json": "text",
    "subtree_from_flat": "bool levels chunks bool",
    # Sessions.
    "session_new": "", "session_new_without_hashes": "", "session_keeps_hashes": "session", "session_put": "session number chunks", "session_taken": "session number",
    "session_num_chunks": "session", "session_total_size": "session", "session_num_runs": "session",
    "session_run": "session number", "session_run_from": "session number", "session_next_gap": "session number number",
    "session_gaps": "session number", "session_root": "session number", "session_finish": "session number",
    "session_finish_with_salt": "session number bytes", "session_copy": "session",
    "session_put_range": "session number number subtree", "session_join": "session session",
    "session_push_run": "session number number subtree", "session_keep_hashes": "session hashes",
    "session_num_known_hashes": "session", "session_known_hashes": "session", "session_knows": "session hash",
    "session_knows_each": "session hashes", "session_to_json": "session", "session_from_json": "text",
    # Range proofs.
    "hash_tree_from_chunks": "chunks", "hash_tree_root": "hash_tree", "hash_tree_file_hash": "hash_tree bytes",
    "hash_tree_num_chunks": "hash_tree", "hash_tree_total_size": "hash_tree", "hash_tree_chunks_at": "hash_tree number number",
    "hash_tree_bytes_of": "hash_tree number number", "hash_tree_proof": "hash_tree number number",
    "hash_tree_common_prefix": "hash_tree hash_tree", "hash_tree_common_suffix": "hash_tree hash_tree number",
    "hash_tree_diff": "hash_tree hash_tree",
    "range_proof_from_chunks": "chunks number number", "range_proof_levels": "range_proof", "range_proof_nodes": "range_proof",
    "range_proof_to_json": "range_proof", "range_proof_from_json": "text", "range_proof_from_flat": "levels chunks",
    "range_proof_to_bytes": "range_proof", "range_proof_from_bytes": "data",
    "range_proof_open": "range_proof hash bytes", "range_proof_open_root": "range_proof hash",
    "opened_range_file_size": "opened_range", "opened_range_num_chunks": "opened_range",
    "opened_range_bytes_of": "opened_range number", "opened_range_check": "opened_range number data",
    "opened_range_read": "opened_range number number data",
    # Indexes of hashes.
    "hash_index_new": "", "hash_index_insert": "hash_index hashes numbers", "hash_index_find": "hash_index hashes",
    "hash_index_entries": "hash_index", "hash_index_len": "hash_index",
}


def number(value: int) -> Union[int, str]:
    """A whole number as a script says it: a text if a double can't have it."""
    return value if value < 2**53 else str(value)


def call(name: str, *given: Any, makes: Optional[str] = None, gives: Any = NOTHING, hash: Optional[str] = None) -> Step:
    """A call that succeeds: it makes an object, gives a value, or gives a text of which a script says only the data hash."""
    answer = {**({} if makes is None else {"as": makes}), **({} if gives is NOTHING else {"is": gives}),
              **({} if hash is None else {"hash": hash})}
    return [*_call(name, given), *([answer] if answer else [])]


def refused(name: str, *given: Any, error: str, **facts: Any) -> Step:
    """A call that is refused with an error, of which some facts are told."""
    return [*_call(name, given), {"error": error, **facts}]


def _call(name: str, given: tuple[Any, ...]) -> Step:
    if len(given) != len(CALLS[name].split()):
        raise ValueError(f"{name} takes {CALLS[name]!r}")
    return [name, list(given)]


@dataclasses.dataclass
class Script:
    """A file of scripts: a line that says what they have in common, and a line for each test."""

    name: str
    header: list[str]
    notes: dict[str, str]
    tests: list[dict[str, Any]]

    def text(self) -> str:
        """The file's text."""
        called = {step[0] for test in self.tests for step in test["steps"]}
        head = {"script": self.name, "version": VERSION, "numberOfTests": len(self.tests), "header": self.header, "notes": self.notes,
                "calls": {name: kinds.split() for name, kinds in CALLS.items() if name in called}}
        numbered = ({"test": f"{count} {test['test']}", **{key: it for key, it in test.items() if key != "test"}}
                    for count, test in enumerate(self.tests, 1))
        return "".join(compact(line) + "\n" for line in (head, *numbered))


def a_test(comment: str, steps: Iterable[Step], *flags: str, **told: Any) -> dict[str, Any]:
    """A test: its steps, its flags, and what else is told of it."""
    return {"test": comment, **({"flags": list(flags)} if flags else {}), **told, "steps": list(steps)}
