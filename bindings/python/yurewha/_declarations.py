# Made of bindings/include/yurewha.h by bindings/check_exports --write.
"""The library's calls: the name, return type and argument types of each, as in the C header.

They are plain data, and importing them loads no library. `_library.py` makes the ctypes declarations from them.
"""

from __future__ import annotations

from typing import Dict, Tuple

#: The return type, and the types of the arguments in order.
Declaration = Tuple[str, Tuple[str, ...]]
#: The name of a member of a struct, its type, and how many of it there are.
Member = Tuple[str, str, int]

DECLARATIONS: Dict[str, Declaration] = {
    # The library's version, and the texts of statuses
    "yurewha_version": ("yurewha_status", ("char *", "size_t", "size_t *")),
    "yurewha_status_text": ("yurewha_status", ("yurewha_status", "char *", "size_t", "size_t *")),
    "yurewha_processor_level": ("const char *", ()),
    # Hashes
    "yurewha_data_hash": ("void", ("const uint8_t *", "size_t", "yurewha_hash *")),
    "yurewha_internal_node_hash": ("void", ("const uint8_t *", "size_t", "yurewha_hash *")),
    "yurewha_hmac": ("void", ("const yurewha_hash *", "const yurewha_hash *", "yurewha_hash *")),
    "yurewha_random_from_seed": ("void", ("uint64_t", "yurewha_hash *")),
    "yurewha_hash_to_bytes": ("void", ("const yurewha_hash *", "yurewha_bytes *")),
    "yurewha_hash_from_bytes": ("void", ("const yurewha_bytes *", "yurewha_hash *")),
    "yurewha_compare": ("int32_t", ("const yurewha_hash *", "const yurewha_hash *")),
    "yurewha_remainder": ("yurewha_status", ("const yurewha_hash *", "uint64_t", "uint64_t *")),
    "yurewha_data_hashes": (
        "yurewha_status", ("const uint8_t *", "size_t", "const size_t *", "size_t", "yurewha_hash *", "size_t")),
    "yurewha_hex": ("yurewha_status", ("const yurewha_hash *", "char *", "size_t", "size_t *")),
    "yurewha_from_hex": ("yurewha_status", ("const char *", "size_t", "yurewha_hash *")),
    "yurewha_base64": ("yurewha_status", ("const yurewha_hash *", "char *", "size_t", "size_t *")),
    "yurewha_from_base64": ("yurewha_status", ("const char *", "size_t", "yurewha_hash *")),
    # The streaming hasher
    "yurewha_hasher_begin_data": ("void", ("yurewha_hasher *",)),
    "yurewha_hasher_begin_internal": ("void", ("yurewha_hasher *",)),
    "yurewha_hasher_begin_keyed": ("void", ("yurewha_hasher *", "const yurewha_bytes *")),
    "yurewha_hasher_count": ("uint64_t", ("const yurewha_hasher *",)),
    "yurewha_hasher_update": ("yurewha_status", ("yurewha_hasher *", "const uint8_t *", "size_t")),
    "yurewha_hasher_finalize": ("void", ("const yurewha_hasher *", "yurewha_hash *")),
    # The chunker
    "yurewha_chunker_begin": ("void", ("yurewha_chunker *",)),
    "yurewha_chunker_next_boundary": ("uint64_t", ("yurewha_chunker *", "const uint8_t *", "size_t")),
    "yurewha_chunker_taken": ("uint64_t", ("const yurewha_chunker *",)),
    # Hashers of files
    "yurewha_file_hasher_new": ("yurewha_status", ("yurewha_file_hasher *",)),
    "yurewha_file_hasher_update": ("yurewha_status", ("yurewha_file_hasher *", "const uint8_t *", "size_t")),
    "yurewha_file_hasher_size": ("yurewha_status", ("yurewha_file_hasher *", "uint64_t *")),
    "yurewha_file_hasher_root": ("yurewha_status", ("yurewha_file_hasher *", "yurewha_hash *")),
    "yurewha_file_hasher_finish": ("yurewha_status", ("yurewha_file_hasher *", "yurewha_hash *")),
    "yurewha_file_hasher_finish_with_salt": (
        "yurewha_status", ("yurewha_file_hasher *", "const yurewha_bytes *", "yurewha_hash *")),
    "yurewha_file_hasher_free": ("void", ("yurewha_file_hasher *",)),
    # Roots
    "yurewha_xorb_hash": ("yurewha_status", ("const yurewha_chunk *", "size_t", "yurewha_hash *")),
    "yurewha_file_hash": ("yurewha_status", ("const yurewha_chunk *", "size_t", "yurewha_hash *")),
    "yurewha_file_hash_with_salt": (
        "yurewha_status", ("const yurewha_chunk *", "size_t", "const yurewha_bytes *", "yurewha_hash *")),
    "yurewha_find_stable_start": ("yurewha_status", ("const yurewha_chunk *", "size_t", "size_t *")),
    "yurewha_find_stable_end": ("yurewha_status", ("const yurewha_chunk *", "size_t", "size_t *")),
    # Subtrees
    "yurewha_subtree_from_chunks": (
        "yurewha_status", ("bool", "const yurewha_chunk *", "size_t", "bool", "yurewha_subtree *")),
    "yurewha_subtree_clone": ("yurewha_status", ("yurewha_subtree *", "yurewha_subtree *")),
    "yurewha_subtree_equal": ("yurewha_status", ("yurewha_subtree *", "yurewha_subtree *", "bool *")),
    "yurewha_subtree_marks": ("yurewha_status", ("yurewha_subtree *", "bool *", "bool *")),
    "yurewha_subtree_total_size": ("yurewha_status", ("yurewha_subtree *", "uint64_t *")),
    "yurewha_subtree_num_nodes": ("yurewha_status", ("yurewha_subtree *", "size_t *")),
    "yurewha_subtree_num_levels": ("yurewha_status", ("yurewha_subtree *", "size_t *")),
    "yurewha_subtree_final_hash": ("yurewha_status", ("yurewha_subtree *", "yurewha_hash *")),
    "yurewha_subtree_merge_into": ("yurewha_status", ("yurewha_subtree *", "yurewha_subtree *")),
    "yurewha_subtree_merge_into_counted": (
        "yurewha_status", ("yurewha_subtree *", "yurewha_subtree *", "uint64_t *")),
    "yurewha_subtree_merge": ("yurewha_status", ("yurewha_subtree *", "size_t", "yurewha_subtree *")),
    "yurewha_subtree_to_json": ("yurewha_status", ("yurewha_subtree *", "char *", "size_t", "size_t *")),
    "yurewha_subtree_from_json": ("yurewha_status", ("const char *", "size_t", "yurewha_subtree *")),
    "yurewha_subtree_from_flat": (
        "yurewha_status",
        ("bool", "const yurewha_level *", "size_t", "const yurewha_chunk *", "size_t", "bool", "yurewha_subtree *")),
    "yurewha_subtree_to_flat": (
        "yurewha_status",
        ("yurewha_subtree *", "yurewha_level *", "size_t", "yurewha_chunk *", "size_t", "size_t *", "size_t *")),
    "yurewha_subtree_free": ("void", ("yurewha_subtree *",)),
    # Sessions
    "yurewha_session_new": ("yurewha_status", ("yurewha_session *",)),
    "yurewha_session_new_without_hashes": ("yurewha_status", ("yurewha_session *",)),
    "yurewha_session_put": (
        "yurewha_status", ("yurewha_session *", "uint64_t", "const yurewha_chunk *", "size_t", "uint64_t *")),
    "yurewha_session_taken": ("yurewha_status", ("yurewha_session *", "uint64_t", "bool *")),
    "yurewha_session_root": ("yurewha_status", ("yurewha_session *", "uint64_t", "yurewha_hash *")),
    "yurewha_session_finish": ("yurewha_status", ("yurewha_session *", "uint64_t", "yurewha_hash *")),
    "yurewha_session_copy": ("yurewha_status", ("yurewha_session *", "yurewha_session *")),
    "yurewha_session_num_chunks": ("yurewha_status", ("yurewha_session *", "uint64_t *")),
    "yurewha_session_total_size": ("yurewha_status", ("yurewha_session *", "uint64_t *")),
    "yurewha_session_next_gap": (
        "yurewha_status", ("yurewha_session *", "uint64_t", "uint64_t", "uint64_t *", "uint64_t *")),
    "yurewha_session_knows": ("yurewha_status", ("yurewha_session *", "const yurewha_hash *", "bool *")),
    "yurewha_session_knows_each": (
        "yurewha_status", ("yurewha_session *", "const yurewha_hash *", "size_t", "uint8_t *", "size_t")),
    "yurewha_session_finish_with_salt": (
        "yurewha_status", ("yurewha_session *", "uint64_t", "const yurewha_bytes *", "yurewha_hash *")),
    "yurewha_session_num_runs": ("yurewha_status", ("yurewha_session *", "size_t *")),
    "yurewha_session_run": (
        "yurewha_status", ("yurewha_session *", "size_t", "uint64_t *", "yurewha_subtree *")),
    "yurewha_session_run_from": (
        "yurewha_status", ("yurewha_session *", "uint64_t", "uint64_t *", "uint64_t *", "yurewha_subtree *")),
    "yurewha_session_free": ("void", ("yurewha_session *",)),
    # Joining what many machines hashed
    "yurewha_session_put_range": (
        "yurewha_status", ("yurewha_session *", "uint64_t", "uint64_t", "yurewha_subtree *")),
    "yurewha_session_join": ("yurewha_status", ("yurewha_session *", "yurewha_session *", "uint64_t *")),
    # Saving a session
    "yurewha_session_push_run": (
        "yurewha_status", ("yurewha_session *", "uint64_t", "uint64_t", "yurewha_subtree *")),
    "yurewha_session_keep_hashes": ("yurewha_status", ("yurewha_session *", "const yurewha_hash *", "size_t")),
    "yurewha_session_keeps_hashes": ("yurewha_status", ("yurewha_session *", "bool *")),
    "yurewha_session_num_known_hashes": ("yurewha_status", ("yurewha_session *", "size_t *")),
    "yurewha_session_known_hashes": ("yurewha_status", ("yurewha_session *", "yurewha_hash *", "size_t")),
    "yurewha_session_to_json": ("yurewha_status", ("yurewha_session *", "bool", "char *", "size_t", "size_t *")),
    "yurewha_session_from_json": ("yurewha_status", ("const char *", "size_t", "bool", "yurewha_session *")),
    # Hash trees
    "yurewha_hash_tree_from_chunks": (
        "yurewha_status", ("const yurewha_chunk *", "size_t", "yurewha_hash_tree *")),
    "yurewha_hash_tree_root": ("yurewha_status", ("yurewha_hash_tree *", "yurewha_hash *")),
    "yurewha_hash_tree_file_hash": (
        "yurewha_status", ("yurewha_hash_tree *", "const yurewha_bytes *", "yurewha_hash *")),
    "yurewha_hash_tree_num_chunks": ("yurewha_status", ("yurewha_hash_tree *", "size_t *")),
    "yurewha_hash_tree_total_size": ("yurewha_status", ("yurewha_hash_tree *", "uint64_t *")),
    "yurewha_hash_tree_chunks_at": (
        "yurewha_status", ("yurewha_hash_tree *", "uint64_t", "uint64_t", "size_t *", "size_t *")),
    "yurewha_hash_tree_bytes_of": (
        "yurewha_status", ("yurewha_hash_tree *", "size_t", "size_t", "uint64_t *", "uint64_t *")),
    "yurewha_hash_tree_proof": (
        "yurewha_status",
        ("yurewha_hash_tree *", "size_t", "size_t", "yurewha_level *", "size_t", "yurewha_chunk *", "size_t", "size_t *", "size_t *")),
    "yurewha_hash_tree_common_prefix": (
        "yurewha_status", ("yurewha_hash_tree *", "yurewha_hash_tree *", "size_t *")),
    "yurewha_hash_tree_common_suffix": (
        "yurewha_status", ("yurewha_hash_tree *", "yurewha_hash_tree *", "size_t", "size_t *")),
    "yurewha_hash_tree_free": ("void", ("yurewha_hash_tree *",)),
    # Range proofs
    "yurewha_range_proof_to_json": (
        "yurewha_status",
        ("const yurewha_level *", "size_t", "const yurewha_chunk *", "size_t", "char *", "size_t", "size_t *")),
    "yurewha_range_proof_from_json": (
        "yurewha_status",
        ("const char *", "size_t", "yurewha_level *", "size_t", "yurewha_chunk *", "size_t", "size_t *", "size_t *")),
    "yurewha_range_proof_to_bytes": (
        "yurewha_status",
        ("const yurewha_level *", "size_t", "const yurewha_chunk *", "size_t", "uint8_t *", "size_t", "size_t *")),
    "yurewha_range_proof_from_bytes": (
        "yurewha_status",
        ("const uint8_t *", "size_t", "yurewha_level *", "size_t", "yurewha_chunk *", "size_t", "size_t *", "size_t *")),
    "yurewha_range_proof_check": (
        "yurewha_status", ("const yurewha_level *", "size_t", "const yurewha_chunk *", "size_t")),
    "yurewha_range_proof_open": (
        "yurewha_status",
        ("const yurewha_level *", "size_t", "const yurewha_chunk *", "size_t", "const yurewha_hash *", "const yurewha_bytes *", "yurewha_opened_range *")),
    "yurewha_range_proof_open_root": (
        "yurewha_status",
        ("const yurewha_level *", "size_t", "const yurewha_chunk *", "size_t", "const yurewha_hash *", "yurewha_opened_range *")),
    "yurewha_opened_range_file_size": ("yurewha_status", ("yurewha_opened_range *", "uint64_t *")),
    "yurewha_opened_range_num_chunks": ("yurewha_status", ("yurewha_opened_range *", "size_t *")),
    "yurewha_opened_range_bytes_of": (
        "yurewha_status", ("yurewha_opened_range *", "size_t", "uint64_t *", "uint64_t *")),
    "yurewha_opened_range_check": (
        "yurewha_status", ("yurewha_opened_range *", "size_t", "const uint8_t *", "size_t", "uint64_t *")),
    "yurewha_opened_range_read": (
        "yurewha_status",
        ("yurewha_opened_range *", "uint64_t", "uint64_t", "const uint8_t *", "size_t", "size_t *")),
    "yurewha_opened_range_free": ("void", ("yurewha_opened_range *",)),
    # Parts of a file that is somewhere else
    "yurewha_reader_new": (
        "yurewha_status", ("const yurewha_hash *", "const yurewha_bytes *", "uint64_t", "yurewha_reader *")),
    "yurewha_reader_read": (
        "yurewha_status",
        ("yurewha_reader *", "uint64_t", "uint8_t *", "size_t", "uint64_t", "size_t *", "uint64_t *")),
    "yurewha_reader_needs": (
        "yurewha_status", ("yurewha_reader *", "uint64_t", "uint64_t", "uint64_t", "uint64_t *", "uint64_t *")),
    "yurewha_reader_piece": (
        "yurewha_status", ("yurewha_reader *", "uint64_t", "uint64_t", "uint64_t *", "uint64_t *")),
    "yurewha_reader_size": ("yurewha_status", ("yurewha_reader *", "uint64_t *")),
    "yurewha_reader_counted": ("yurewha_status", ("yurewha_reader *", "uint64_t *")),
    "yurewha_reader_keep_at_most": ("yurewha_status", ("yurewha_reader *", "uint64_t")),
    "yurewha_reader_take": ("yurewha_status", ("yurewha_reader *", "yurewha_part *")),
    "yurewha_part_open": (
        "yurewha_status",
        ("const yurewha_level *", "size_t", "const yurewha_chunk *", "size_t", "const yurewha_hash *", "const yurewha_bytes *", "uint64_t", "uint64_t", "uint64_t", "uint64_t *", "uint64_t *", "yurewha_part *")),
    "yurewha_part_check": (
        "yurewha_status", ("yurewha_part *", "const uint8_t *", "size_t", "bool", "size_t *", "size_t *")),
    "yurewha_part_file_size": ("yurewha_status", ("yurewha_part *", "uint64_t *")),
    "yurewha_part_checked": ("yurewha_status", ("yurewha_part *", "size_t *", "uint64_t *")),
    "yurewha_reader_free": ("void", ("yurewha_reader *",)),
    "yurewha_part_free": ("void", ("yurewha_part *",)),
    # Indexes of hashes
    "yurewha_hash_index_new": ("yurewha_status", ("yurewha_hash_index *",)),
    "yurewha_hash_index_insert": (
        "yurewha_status",
        ("yurewha_hash_index *", "const yurewha_hash *", "size_t", "const uint64_t *", "size_t", "size_t *")),
    "yurewha_hash_index_find": (
        "yurewha_status",
        ("yurewha_hash_index *", "const yurewha_hash *", "size_t", "uint8_t *", "size_t", "uint64_t *", "size_t")),
    "yurewha_hash_index_entries": (
        "yurewha_status", ("yurewha_hash_index *", "yurewha_hash *", "size_t", "uint64_t *", "size_t")),
    "yurewha_hash_index_len": ("yurewha_status", ("yurewha_hash_index *", "size_t *")),
    "yurewha_hash_index_free": ("void", ("yurewha_hash_index *",)),
}

#: The statuses, by their names in the header.
STATUSES: Dict[str, int] = {
    "YUREWHA_DONE": 0,
    "YUREWHA_ARGUMENTS": 1,
    "YUREWHA_SIZES": 2,
    "YUREWHA_MEMORY": 3,
    "YUREWHA_TEXT": 4,
    "YUREWHA_ROOM": 5,
    "YUREWHA_EMPTY_HANDLE": 6,
    "YUREWHA_MISMATCH": 7,
    "YUREWHA_ELSEWHERE": 38,
    "YUREWHA_TOO_FAR": 39,
    "YUREWHA_RULE": 16,
    "YUREWHA_PROOF_RULE": 48,
    "YUREWHA_SESSION_RULE": 64,
    "YUREWHA_SESSION_OVERLAP": 33,
    "YUREWHA_SESSION_POSITIONS": 34,
    "YUREWHA_SESSION_GAP": 37,
}

#: The lengths of a hash as hex text and as base64 text, and the greatest length of a status's text, by their names in the header.
LENGTHS: Dict[str, int] = {
    "YUREWHA_HEX_LENGTH": 64,
    "YUREWHA_BASE64_LENGTH": 43,
    "YUREWHA_STATUS_TEXT_LENGTH": 96,
}

#: The members of each struct: the name, the type, and how many of it there are.
MEMBERS: Dict[str, Tuple[Member, ...]] = {
    "yurewha_hash": (("words", "uint64_t", 4),),
    "yurewha_bytes": (("bytes", "uint8_t", 32),),
    "yurewha_chunk": (("hash", "yurewha_hash", 1), ("size", "uint64_t", 1)),
    "yurewha_level": (("left", "size_t", 1), ("right", "size_t", 1)),
    "yurewha_hasher": (("state", "uint64_t", 256),),
    "yurewha_chunker": (("size", "size_t", 1), ("gear", "uint64_t", 1)),
    "yurewha_subtree": (("at", "uint8_t *", 1),),
    "yurewha_session": (("at", "uint8_t *", 1),),
    "yurewha_hash_tree": (("at", "uint8_t *", 1),),
    "yurewha_opened_range": (("at", "uint8_t *", 1),),
    "yurewha_part": (("at", "uint8_t *", 1),),
    "yurewha_reader": (("at", "uint8_t *", 1),),
    "yurewha_hash_index": (("at", "uint8_t *", 1),),
    "yurewha_file_hasher": (("at", "uint8_t *", 1),),
}

#: The structs that calls use, and their sizes in bytes.
STRUCTS: Dict[str, int] = {
    "yurewha_hash": 32,
    "yurewha_bytes": 32,
    "yurewha_chunk": 40,
    "yurewha_level": 16,
    "yurewha_hasher": 2048,
    "yurewha_chunker": 16,
    "yurewha_subtree": 8,
    "yurewha_session": 8,
    "yurewha_hash_tree": 8,
    "yurewha_opened_range": 8,
    "yurewha_part": 8,
    "yurewha_reader": 8,
    "yurewha_hash_index": 8,
    "yurewha_file_hasher": 8,
}
