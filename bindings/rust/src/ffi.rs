// Made of bindings/include/yurewha.h by bindings/check_exports --write.

//! The exports of the library, as `bindings/include/yurewha.h` declares them. All are declared, even if no enabled feature uses them.

#![allow(dead_code, non_camel_case_types)]

use std::ffi::c_char;
use std::mem::{align_of, size_of};
use std::ptr;

pub type yurewha_status = u32;

pub const YUREWHA_DONE: yurewha_status = 0;
pub const YUREWHA_ARGUMENTS: yurewha_status = 1;
pub const YUREWHA_SIZES: yurewha_status = 2;
pub const YUREWHA_MEMORY: yurewha_status = 3;
pub const YUREWHA_TEXT: yurewha_status = 4;
pub const YUREWHA_ROOM: yurewha_status = 5;
pub const YUREWHA_EMPTY_HANDLE: yurewha_status = 6;
pub const YUREWHA_MISMATCH: yurewha_status = 7;
pub const YUREWHA_ELSEWHERE: yurewha_status = 38;
pub const YUREWHA_TOO_FAR: yurewha_status = 39;
pub const YUREWHA_RULE: yurewha_status = 16;
pub const YUREWHA_PROOF_RULE: yurewha_status = 48;
pub const YUREWHA_SESSION_RULE: yurewha_status = 64;
pub const YUREWHA_SESSION_OVERLAP: yurewha_status = 33;
pub const YUREWHA_SESSION_POSITIONS: yurewha_status = 34;
pub const YUREWHA_SESSION_GAP: yurewha_status = 37;

pub const YUREWHA_HEX_LENGTH: usize = 64;
pub const YUREWHA_BASE64_LENGTH: usize = 43;
pub const YUREWHA_STATUS_TEXT_LENGTH: usize = 96;

#[repr(C)]
#[derive(Clone, Copy, Default)]
pub struct yurewha_hash {
    pub words: [u64; 4],
}

#[repr(C)]
#[derive(Clone, Copy, Default)]
pub struct yurewha_bytes {
    pub bytes: [u8; 32],
}

#[repr(C)]
#[derive(Clone, Copy, Default)]
pub struct yurewha_chunk {
    pub hash: yurewha_hash,
    pub size: u64,
}

#[repr(C)]
#[derive(Clone, Copy, Default)]
pub struct yurewha_level {
    pub left: usize,
    pub right: usize,
}

#[repr(C)]
#[derive(Clone, Copy)]
pub struct yurewha_hasher {
    pub state: [u64; 256],
}

#[repr(C)]
#[derive(Clone, Copy, Default)]
pub struct yurewha_chunker {
    pub size: usize,
    pub gear: u64,
}

#[repr(C)]
pub struct yurewha_subtree {
    pub at: *mut u8,
}

#[repr(C)]
pub struct yurewha_session {
    pub at: *mut u8,
}

#[repr(C)]
pub struct yurewha_hash_tree {
    pub at: *mut u8,
}

#[repr(C)]
pub struct yurewha_opened_range {
    pub at: *mut u8,
}

#[repr(C)]
pub struct yurewha_part {
    pub at: *mut u8,
}

#[repr(C)]
pub struct yurewha_reader {
    pub at: *mut u8,
}

#[repr(C)]
pub struct yurewha_hash_index {
    pub at: *mut u8,
}

#[repr(C)]
pub struct yurewha_file_hasher {
    pub at: *mut u8,
}

impl yurewha_hasher {
    // Room for one, which must be begun before use.
    pub const ROOM: Self = yurewha_hasher { state: [0; 256] };
}

impl Default for yurewha_subtree {
    // The empty handle.
    fn default() -> Self {
        yurewha_subtree { at: ptr::null_mut() }
    }
}

impl Default for yurewha_session {
    // The empty handle.
    fn default() -> Self {
        yurewha_session { at: ptr::null_mut() }
    }
}

impl Default for yurewha_hash_tree {
    // The empty handle.
    fn default() -> Self {
        yurewha_hash_tree { at: ptr::null_mut() }
    }
}

impl Default for yurewha_opened_range {
    // The empty handle.
    fn default() -> Self {
        yurewha_opened_range { at: ptr::null_mut() }
    }
}

impl Default for yurewha_part {
    // The empty handle.
    fn default() -> Self {
        yurewha_part { at: ptr::null_mut() }
    }
}

impl Default for yurewha_reader {
    // The empty handle.
    fn default() -> Self {
        yurewha_reader { at: ptr::null_mut() }
    }
}

impl Default for yurewha_hash_index {
    // The empty handle.
    fn default() -> Self {
        yurewha_hash_index { at: ptr::null_mut() }
    }
}

impl Default for yurewha_file_hasher {
    // The empty handle.
    fn default() -> Self {
        yurewha_file_hasher { at: ptr::null_mut() }
    }
}

const fn assert_layout<T>(size: usize, align: usize) {
    assert!(size_of::<T>() == size && align_of::<T>() == align);
}

#[cfg(target_pointer_width = "64")]
const _: () = {
    assert_layout::<yurewha_hash>(32, 8);
    assert_layout::<yurewha_bytes>(32, 1);
    assert_layout::<yurewha_chunk>(40, 8);
    assert_layout::<yurewha_level>(16, 8);
    assert_layout::<yurewha_hasher>(2048, 8);
    assert_layout::<yurewha_chunker>(16, 8);
    assert_layout::<yurewha_subtree>(8, 8);
    assert_layout::<yurewha_session>(8, 8);
    assert_layout::<yurewha_hash_tree>(8, 8);
    assert_layout::<yurewha_opened_range>(8, 8);
    assert_layout::<yurewha_part>(8, 8);
    assert_layout::<yurewha_reader>(8, 8);
    assert_layout::<yurewha_hash_index>(8, 8);
    assert_layout::<yurewha_file_hasher>(8, 8);
};

extern "C" {
    pub fn yurewha_version(text: *mut c_char, room: usize, length: *mut usize) -> yurewha_status;
    pub fn yurewha_status_text(
        status: yurewha_status,
        text: *mut c_char,
        room: usize,
        length: *mut usize,
    ) -> yurewha_status;
    pub fn yurewha_processor_level() -> *const c_char;
    pub fn yurewha_data_hash(bytes: *const u8, length: usize, hash: *mut yurewha_hash);
    pub fn yurewha_internal_node_hash(bytes: *const u8, length: usize, hash: *mut yurewha_hash);
    pub fn yurewha_hmac(hash: *const yurewha_hash, key: *const yurewha_hash, result: *mut yurewha_hash);
    pub fn yurewha_random_from_seed(seed: u64, hash: *mut yurewha_hash);
    pub fn yurewha_hash_to_bytes(hash: *const yurewha_hash, bytes: *mut yurewha_bytes);
    pub fn yurewha_hash_from_bytes(bytes: *const yurewha_bytes, hash: *mut yurewha_hash);
    pub fn yurewha_compare(first: *const yurewha_hash, second: *const yurewha_hash) -> i32;
    pub fn yurewha_remainder(hash: *const yurewha_hash, divisor: u64, remainder: *mut u64) -> yurewha_status;
    pub fn yurewha_data_hashes(
        bytes: *const u8,
        length: usize,
        offsets: *const usize,
        offset_count: usize,
        hashes: *mut yurewha_hash,
        count: usize,
    ) -> yurewha_status;
    pub fn yurewha_hex(hash: *const yurewha_hash, text: *mut c_char, room: usize, length: *mut usize)
        -> yurewha_status;
    pub fn yurewha_from_hex(text: *const c_char, length: usize, hash: *mut yurewha_hash) -> yurewha_status;
    pub fn yurewha_base64(
        hash: *const yurewha_hash,
        text: *mut c_char,
        room: usize,
        length: *mut usize,
    ) -> yurewha_status;
    pub fn yurewha_from_base64(text: *const c_char, length: usize, hash: *mut yurewha_hash) -> yurewha_status;
    pub fn yurewha_hasher_begin_data(hasher: *mut yurewha_hasher);
    pub fn yurewha_hasher_begin_internal(hasher: *mut yurewha_hasher);
    pub fn yurewha_hasher_begin_keyed(hasher: *mut yurewha_hasher, key: *const yurewha_bytes);
    pub fn yurewha_hasher_count(hasher: *const yurewha_hasher) -> u64;
    pub fn yurewha_hasher_update(hasher: *mut yurewha_hasher, piece: *const u8, length: usize) -> yurewha_status;
    pub fn yurewha_hasher_finalize(hasher: *const yurewha_hasher, hash: *mut yurewha_hash);
    pub fn yurewha_chunker_begin(chunker: *mut yurewha_chunker);
    pub fn yurewha_chunker_next_boundary(chunker: *mut yurewha_chunker, piece: *const u8, length: usize) -> u64;
    pub fn yurewha_chunker_taken(chunker: *const yurewha_chunker) -> u64;
    pub fn yurewha_file_hasher_new(hasher: *mut yurewha_file_hasher) -> yurewha_status;
    pub fn yurewha_file_hasher_update(
        hasher: *mut yurewha_file_hasher,
        piece: *const u8,
        length: usize,
    ) -> yurewha_status;
    pub fn yurewha_file_hasher_size(hasher: *mut yurewha_file_hasher, size: *mut u64) -> yurewha_status;
    pub fn yurewha_file_hasher_root(hasher: *mut yurewha_file_hasher, root: *mut yurewha_hash) -> yurewha_status;
    pub fn yurewha_file_hasher_finish(hasher: *mut yurewha_file_hasher, hash: *mut yurewha_hash) -> yurewha_status;
    pub fn yurewha_file_hasher_finish_with_salt(
        hasher: *mut yurewha_file_hasher,
        salt: *const yurewha_bytes,
        hash: *mut yurewha_hash,
    ) -> yurewha_status;
    pub fn yurewha_file_hasher_free(hasher: *mut yurewha_file_hasher);
    pub fn yurewha_xorb_hash(chunks: *const yurewha_chunk, count: usize, root: *mut yurewha_hash) -> yurewha_status;
    pub fn yurewha_file_hash(chunks: *const yurewha_chunk, count: usize, hash: *mut yurewha_hash) -> yurewha_status;
    pub fn yurewha_file_hash_with_salt(
        chunks: *const yurewha_chunk,
        count: usize,
        salt: *const yurewha_bytes,
        hash: *mut yurewha_hash,
    ) -> yurewha_status;
    pub fn yurewha_find_stable_start(nodes: *const yurewha_chunk, count: usize, point: *mut usize) -> yurewha_status;
    pub fn yurewha_find_stable_end(nodes: *const yurewha_chunk, count: usize, point: *mut usize) -> yurewha_status;
    pub fn yurewha_subtree_from_chunks(
        at_start: bool,
        chunks: *const yurewha_chunk,
        count: usize,
        at_end: bool,
        subtree: *mut yurewha_subtree,
    ) -> yurewha_status;
    pub fn yurewha_subtree_clone(subtree: *mut yurewha_subtree, copy: *mut yurewha_subtree) -> yurewha_status;
    pub fn yurewha_subtree_equal(
        first: *mut yurewha_subtree,
        second: *mut yurewha_subtree,
        equal: *mut bool,
    ) -> yurewha_status;
    pub fn yurewha_subtree_marks(
        subtree: *mut yurewha_subtree,
        at_start: *mut bool,
        at_end: *mut bool,
    ) -> yurewha_status;
    pub fn yurewha_subtree_total_size(subtree: *mut yurewha_subtree, size: *mut u64) -> yurewha_status;
    pub fn yurewha_subtree_num_nodes(subtree: *mut yurewha_subtree, count: *mut usize) -> yurewha_status;
    pub fn yurewha_subtree_num_levels(subtree: *mut yurewha_subtree, count: *mut usize) -> yurewha_status;
    pub fn yurewha_subtree_final_hash(subtree: *mut yurewha_subtree, hash: *mut yurewha_hash) -> yurewha_status;
    pub fn yurewha_subtree_merge_into(subtree: *mut yurewha_subtree, other: *mut yurewha_subtree) -> yurewha_status;
    pub fn yurewha_subtree_merge_into_counted(
        subtree: *mut yurewha_subtree,
        other: *mut yurewha_subtree,
        parents: *mut u64,
    ) -> yurewha_status;
    pub fn yurewha_subtree_merge(
        ranges: *mut yurewha_subtree,
        count: usize,
        merged: *mut yurewha_subtree,
    ) -> yurewha_status;
    pub fn yurewha_subtree_to_json(
        subtree: *mut yurewha_subtree,
        text: *mut c_char,
        room: usize,
        length: *mut usize,
    ) -> yurewha_status;
    pub fn yurewha_subtree_from_json(
        text: *const c_char,
        length: usize,
        subtree: *mut yurewha_subtree,
    ) -> yurewha_status;
    pub fn yurewha_subtree_from_flat(
        at_start: bool,
        levels: *const yurewha_level,
        level_count: usize,
        nodes: *const yurewha_chunk,
        node_count: usize,
        at_end: bool,
        subtree: *mut yurewha_subtree,
    ) -> yurewha_status;
    pub fn yurewha_subtree_to_flat(
        subtree: *mut yurewha_subtree,
        levels: *mut yurewha_level,
        level_room: usize,
        nodes: *mut yurewha_chunk,
        node_room: usize,
        level_count: *mut usize,
        node_count: *mut usize,
    ) -> yurewha_status;
    pub fn yurewha_subtree_free(subtree: *mut yurewha_subtree);
    pub fn yurewha_session_new(session: *mut yurewha_session) -> yurewha_status;
    pub fn yurewha_session_new_without_hashes(session: *mut yurewha_session) -> yurewha_status;
    pub fn yurewha_session_put(
        session: *mut yurewha_session,
        first: u64,
        chunks: *const yurewha_chunk,
        count: usize,
        new_hashes: *mut u64,
    ) -> yurewha_status;
    pub fn yurewha_session_taken(session: *mut yurewha_session, position: u64, taken: *mut bool) -> yurewha_status;
    pub fn yurewha_session_root(session: *mut yurewha_session, total: u64, root: *mut yurewha_hash) -> yurewha_status;
    pub fn yurewha_session_finish(session: *mut yurewha_session, total: u64, hash: *mut yurewha_hash)
        -> yurewha_status;
    pub fn yurewha_session_copy(session: *mut yurewha_session, copy: *mut yurewha_session) -> yurewha_status;
    pub fn yurewha_session_num_chunks(session: *mut yurewha_session, count: *mut u64) -> yurewha_status;
    pub fn yurewha_session_total_size(session: *mut yurewha_session, size: *mut u64) -> yurewha_status;
    pub fn yurewha_session_next_gap(
        session: *mut yurewha_session,
        position: u64,
        total: u64,
        first: *mut u64,
        end: *mut u64,
    ) -> yurewha_status;
    pub fn yurewha_session_knows(
        session: *mut yurewha_session,
        hash: *const yurewha_hash,
        known: *mut bool,
    ) -> yurewha_status;
    pub fn yurewha_session_knows_each(
        session: *mut yurewha_session,
        hashes: *const yurewha_hash,
        count: usize,
        known: *mut u8,
        known_count: usize,
    ) -> yurewha_status;
    pub fn yurewha_session_finish_with_salt(
        session: *mut yurewha_session,
        total: u64,
        salt: *const yurewha_bytes,
        hash: *mut yurewha_hash,
    ) -> yurewha_status;
    pub fn yurewha_session_num_runs(session: *mut yurewha_session, count: *mut usize) -> yurewha_status;
    pub fn yurewha_session_run(
        session: *mut yurewha_session,
        index: usize,
        first: *mut u64,
        range: *mut yurewha_subtree,
    ) -> yurewha_status;
    pub fn yurewha_session_run_from(
        session: *mut yurewha_session,
        position: u64,
        first: *mut u64,
        end: *mut u64,
        range: *mut yurewha_subtree,
    ) -> yurewha_status;
    pub fn yurewha_session_free(session: *mut yurewha_session);
    pub fn yurewha_session_put_range(
        session: *mut yurewha_session,
        first: u64,
        count: u64,
        range: *mut yurewha_subtree,
    ) -> yurewha_status;
    pub fn yurewha_session_join(
        session: *mut yurewha_session,
        other: *mut yurewha_session,
        new_hashes: *mut u64,
    ) -> yurewha_status;
    pub fn yurewha_session_push_run(
        session: *mut yurewha_session,
        first: u64,
        end: u64,
        range: *mut yurewha_subtree,
    ) -> yurewha_status;
    pub fn yurewha_session_keep_hashes(
        session: *mut yurewha_session,
        hashes: *const yurewha_hash,
        count: usize,
    ) -> yurewha_status;
    pub fn yurewha_session_keeps_hashes(session: *mut yurewha_session, keeps: *mut bool) -> yurewha_status;
    pub fn yurewha_session_num_known_hashes(session: *mut yurewha_session, count: *mut usize) -> yurewha_status;
    pub fn yurewha_session_known_hashes(
        session: *mut yurewha_session,
        hashes: *mut yurewha_hash,
        count: usize,
    ) -> yurewha_status;
    pub fn yurewha_session_to_json(
        session: *mut yurewha_session,
        with_hashes: bool,
        text: *mut c_char,
        room: usize,
        length: *mut usize,
    ) -> yurewha_status;
    pub fn yurewha_session_from_json(
        text: *const c_char,
        length: usize,
        keep_hashes: bool,
        session: *mut yurewha_session,
    ) -> yurewha_status;
    pub fn yurewha_hash_tree_from_chunks(
        chunks: *const yurewha_chunk,
        count: usize,
        tree: *mut yurewha_hash_tree,
    ) -> yurewha_status;
    pub fn yurewha_hash_tree_root(tree: *mut yurewha_hash_tree, root: *mut yurewha_hash) -> yurewha_status;
    pub fn yurewha_hash_tree_file_hash(
        tree: *mut yurewha_hash_tree,
        salt: *const yurewha_bytes,
        hash: *mut yurewha_hash,
    ) -> yurewha_status;
    pub fn yurewha_hash_tree_num_chunks(tree: *mut yurewha_hash_tree, count: *mut usize) -> yurewha_status;
    pub fn yurewha_hash_tree_total_size(tree: *mut yurewha_hash_tree, size: *mut u64) -> yurewha_status;
    pub fn yurewha_hash_tree_chunks_at(
        tree: *mut yurewha_hash_tree,
        from: u64,
        to: u64,
        first: *mut usize,
        end: *mut usize,
    ) -> yurewha_status;
    pub fn yurewha_hash_tree_bytes_of(
        tree: *mut yurewha_hash_tree,
        first: usize,
        end: usize,
        from: *mut u64,
        to: *mut u64,
    ) -> yurewha_status;
    pub fn yurewha_hash_tree_proof(
        tree: *mut yurewha_hash_tree,
        first: usize,
        end: usize,
        levels: *mut yurewha_level,
        level_room: usize,
        nodes: *mut yurewha_chunk,
        node_room: usize,
        level_count: *mut usize,
        node_count: *mut usize,
    ) -> yurewha_status;
    pub fn yurewha_hash_tree_common_prefix(
        first: *mut yurewha_hash_tree,
        second: *mut yurewha_hash_tree,
        count: *mut usize,
    ) -> yurewha_status;
    pub fn yurewha_hash_tree_common_suffix(
        first: *mut yurewha_hash_tree,
        second: *mut yurewha_hash_tree,
        most: usize,
        count: *mut usize,
    ) -> yurewha_status;
    pub fn yurewha_hash_tree_free(tree: *mut yurewha_hash_tree);
    pub fn yurewha_range_proof_to_json(
        levels: *const yurewha_level,
        level_count: usize,
        nodes: *const yurewha_chunk,
        node_count: usize,
        text: *mut c_char,
        room: usize,
        length: *mut usize,
    ) -> yurewha_status;
    pub fn yurewha_range_proof_from_json(
        text: *const c_char,
        length: usize,
        levels: *mut yurewha_level,
        level_room: usize,
        nodes: *mut yurewha_chunk,
        node_room: usize,
        level_count: *mut usize,
        node_count: *mut usize,
    ) -> yurewha_status;
    pub fn yurewha_range_proof_to_bytes(
        levels: *const yurewha_level,
        level_count: usize,
        nodes: *const yurewha_chunk,
        node_count: usize,
        bytes: *mut u8,
        byte_room: usize,
        byte_count: *mut usize,
    ) -> yurewha_status;
    pub fn yurewha_range_proof_from_bytes(
        bytes: *const u8,
        length: usize,
        levels: *mut yurewha_level,
        level_room: usize,
        nodes: *mut yurewha_chunk,
        node_room: usize,
        level_count: *mut usize,
        node_count: *mut usize,
    ) -> yurewha_status;
    pub fn yurewha_range_proof_check(
        levels: *const yurewha_level,
        level_count: usize,
        nodes: *const yurewha_chunk,
        node_count: usize,
    ) -> yurewha_status;
    pub fn yurewha_range_proof_open(
        levels: *const yurewha_level,
        level_count: usize,
        nodes: *const yurewha_chunk,
        node_count: usize,
        file_hash: *const yurewha_hash,
        salt: *const yurewha_bytes,
        range: *mut yurewha_opened_range,
    ) -> yurewha_status;
    pub fn yurewha_range_proof_open_root(
        levels: *const yurewha_level,
        level_count: usize,
        nodes: *const yurewha_chunk,
        node_count: usize,
        root: *const yurewha_hash,
        range: *mut yurewha_opened_range,
    ) -> yurewha_status;
    pub fn yurewha_opened_range_file_size(range: *mut yurewha_opened_range, size: *mut u64) -> yurewha_status;
    pub fn yurewha_opened_range_num_chunks(range: *mut yurewha_opened_range, count: *mut usize) -> yurewha_status;
    pub fn yurewha_opened_range_bytes_of(
        range: *mut yurewha_opened_range,
        chunk: usize,
        from: *mut u64,
        to: *mut u64,
    ) -> yurewha_status;
    pub fn yurewha_opened_range_check(
        range: *mut yurewha_opened_range,
        chunk: usize,
        data: *const u8,
        length: usize,
        place: *mut u64,
    ) -> yurewha_status;
    pub fn yurewha_opened_range_read(
        range: *mut yurewha_opened_range,
        from: u64,
        to: u64,
        data: *const u8,
        length: usize,
        start: *mut usize,
    ) -> yurewha_status;
    pub fn yurewha_opened_range_free(range: *mut yurewha_opened_range);
    pub fn yurewha_reader_new(
        file_hash: *const yurewha_hash,
        salt: *const yurewha_bytes,
        most: u64,
        reader: *mut yurewha_reader,
    ) -> yurewha_status;
    pub fn yurewha_reader_read(
        reader: *mut yurewha_reader,
        from: u64,
        bytes: *mut u8,
        count: usize,
        piece: u64,
        filled: *mut usize,
        end: *mut u64,
    ) -> yurewha_status;
    pub fn yurewha_reader_needs(
        reader: *mut yurewha_reader,
        from: u64,
        to: u64,
        piece: u64,
        first: *mut u64,
        end: *mut u64,
    ) -> yurewha_status;
    pub fn yurewha_reader_piece(
        reader: *mut yurewha_reader,
        place: u64,
        piece: u64,
        begin: *mut u64,
        end: *mut u64,
    ) -> yurewha_status;
    pub fn yurewha_reader_size(reader: *mut yurewha_reader, size: *mut u64) -> yurewha_status;
    pub fn yurewha_reader_counted(reader: *mut yurewha_reader, counted: *mut u64) -> yurewha_status;
    pub fn yurewha_reader_keep_at_most(reader: *mut yurewha_reader, most: u64) -> yurewha_status;
    pub fn yurewha_reader_take(reader: *mut yurewha_reader, part: *mut yurewha_part) -> yurewha_status;
    pub fn yurewha_part_open(
        levels: *const yurewha_level,
        level_count: usize,
        nodes: *const yurewha_chunk,
        node_count: usize,
        file_hash: *const yurewha_hash,
        salt: *const yurewha_bytes,
        from: u64,
        to: u64,
        beyond: u64,
        begin: *mut u64,
        end: *mut u64,
        part: *mut yurewha_part,
    ) -> yurewha_status;
    pub fn yurewha_part_check(
        part: *mut yurewha_part,
        data: *const u8,
        length: usize,
        keep: bool,
        start: *mut usize,
        count: *mut usize,
    ) -> yurewha_status;
    pub fn yurewha_part_file_size(part: *mut yurewha_part, size: *mut u64) -> yurewha_status;
    pub fn yurewha_part_checked(part: *mut yurewha_part, chunks: *mut usize, place: *mut u64) -> yurewha_status;
    pub fn yurewha_reader_free(reader: *mut yurewha_reader);
    pub fn yurewha_part_free(part: *mut yurewha_part);
    pub fn yurewha_hash_index_new(index: *mut yurewha_hash_index) -> yurewha_status;
    pub fn yurewha_hash_index_insert(
        index: *mut yurewha_hash_index,
        hashes: *const yurewha_hash,
        count: usize,
        numbers: *const u64,
        number_count: usize,
        new_hashes: *mut usize,
    ) -> yurewha_status;
    pub fn yurewha_hash_index_find(
        index: *mut yurewha_hash_index,
        hashes: *const yurewha_hash,
        count: usize,
        found: *mut u8,
        found_count: usize,
        numbers: *mut u64,
        number_count: usize,
    ) -> yurewha_status;
    pub fn yurewha_hash_index_entries(
        index: *mut yurewha_hash_index,
        hashes: *mut yurewha_hash,
        count: usize,
        numbers: *mut u64,
        number_count: usize,
    ) -> yurewha_status;
    pub fn yurewha_hash_index_len(index: *mut yurewha_hash_index, count: *mut usize) -> yurewha_status;
    pub fn yurewha_hash_index_free(index: *mut yurewha_hash_index);
}

#[cfg(test)]
mod tests;
