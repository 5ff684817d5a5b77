/* Made of bindings/include/yurewha.h by bindings/check_exports --write.
 *
 * Each call with all its arguments in one array, and what each of them is for. An array is one argument with its length. */
#include "driver.h"

static uint64_t call_version(const struct argument *a)
{
    return yurewha_version((char *)a[0].data, a[0].count, (size_t *)a[1].data);
}

static uint64_t call_status_text(const struct argument *a)
{
    return yurewha_status_text((yurewha_status)a[0].number, (char *)a[1].data, a[1].count, (size_t *)a[2].data);
}

static uint64_t call_data_hash(const struct argument *a)
{
    yurewha_data_hash((const char *)a[0].data, a[0].count, (yurewha_hash *)a[1].data);
    return 0;
}

static uint64_t call_internal_node_hash(const struct argument *a)
{
    yurewha_internal_node_hash((const char *)a[0].data, a[0].count, (yurewha_hash *)a[1].data);
    return 0;
}

static uint64_t call_hmac(const struct argument *a)
{
    yurewha_hmac((const yurewha_hash *)a[0].data, (const yurewha_hash *)a[1].data, (yurewha_hash *)a[2].data);
    return 0;
}

static uint64_t call_random_from_seed(const struct argument *a)
{
    yurewha_random_from_seed((uint64_t)a[0].number, (yurewha_hash *)a[1].data);
    return 0;
}

static uint64_t call_hash_to_bytes(const struct argument *a)
{
    yurewha_hash_to_bytes((const yurewha_hash *)a[0].data, (yurewha_bytes *)a[1].data);
    return 0;
}

static uint64_t call_hash_from_bytes(const struct argument *a)
{
    yurewha_hash_from_bytes((const yurewha_bytes *)a[0].data, (yurewha_hash *)a[1].data);
    return 0;
}

static uint64_t call_compare(const struct argument *a)
{
    return (uint64_t)yurewha_compare((const yurewha_hash *)a[0].data, (const yurewha_hash *)a[1].data);
}

static uint64_t call_remainder(const struct argument *a)
{
    return yurewha_remainder((const yurewha_hash *)a[0].data, (uint64_t)a[1].number, (uint64_t *)a[2].data);
}

static uint64_t call_data_hashes(const struct argument *a)
{
    return yurewha_data_hashes((const char *)a[0].data, a[0].count, (const size_t *)a[1].data, a[1].count,
        (yurewha_hash *)a[2].data, a[2].count);
}

static uint64_t call_hex(const struct argument *a)
{
    return yurewha_hex((const yurewha_hash *)a[0].data, (char *)a[1].data, a[1].count, (size_t *)a[2].data);
}

static uint64_t call_from_hex(const struct argument *a)
{
    return yurewha_from_hex((const char *)a[0].data, a[0].count, (yurewha_hash *)a[1].data);
}

static uint64_t call_base64(const struct argument *a)
{
    return yurewha_base64((const yurewha_hash *)a[0].data, (char *)a[1].data, a[1].count, (size_t *)a[2].data);
}

static uint64_t call_from_base64(const struct argument *a)
{
    return yurewha_from_base64((const char *)a[0].data, a[0].count, (yurewha_hash *)a[1].data);
}

static uint64_t call_hasher_begin_data(const struct argument *a)
{
    yurewha_hasher_begin_data((yurewha_hasher *)a[0].data);
    return 0;
}

static uint64_t call_hasher_begin_internal(const struct argument *a)
{
    yurewha_hasher_begin_internal((yurewha_hasher *)a[0].data);
    return 0;
}

static uint64_t call_hasher_begin_keyed(const struct argument *a)
{
    yurewha_hasher_begin_keyed((yurewha_hasher *)a[0].data, (const yurewha_bytes *)a[1].data);
    return 0;
}

static uint64_t call_hasher_count(const struct argument *a)
{
    return yurewha_hasher_count((const yurewha_hasher *)a[0].data);
}

static uint64_t call_hasher_update(const struct argument *a)
{
    return yurewha_hasher_update((yurewha_hasher *)a[0].data, (const char *)a[1].data, a[1].count);
}

static uint64_t call_hasher_finalize(const struct argument *a)
{
    yurewha_hasher_finalize((const yurewha_hasher *)a[0].data, (yurewha_hash *)a[1].data);
    return 0;
}

static uint64_t call_chunker_begin(const struct argument *a)
{
    yurewha_chunker_begin((yurewha_chunker *)a[0].data);
    return 0;
}

static uint64_t call_chunker_next_boundary(const struct argument *a)
{
    return yurewha_chunker_next_boundary((yurewha_chunker *)a[0].data, (const char *)a[1].data, a[1].count);
}

static uint64_t call_chunker_taken(const struct argument *a)
{
    return yurewha_chunker_taken((const yurewha_chunker *)a[0].data);
}

static uint64_t call_file_hasher_new(const struct argument *a)
{
    return yurewha_file_hasher_new((yurewha_file_hasher *)a[0].data);
}

static uint64_t call_file_hasher_update(const struct argument *a)
{
    return yurewha_file_hasher_update((yurewha_file_hasher *)a[0].data, (const char *)a[1].data, a[1].count);
}

static uint64_t call_file_hasher_size(const struct argument *a)
{
    return yurewha_file_hasher_size((yurewha_file_hasher *)a[0].data, (uint64_t *)a[1].data);
}

static uint64_t call_file_hasher_root(const struct argument *a)
{
    return yurewha_file_hasher_root((yurewha_file_hasher *)a[0].data, (yurewha_hash *)a[1].data);
}

static uint64_t call_file_hasher_finish(const struct argument *a)
{
    return yurewha_file_hasher_finish((yurewha_file_hasher *)a[0].data, (yurewha_hash *)a[1].data);
}

static uint64_t call_file_hasher_finish_with_salt(const struct argument *a)
{
    return yurewha_file_hasher_finish_with_salt((yurewha_file_hasher *)a[0].data, (const yurewha_bytes *)a[1].data,
        (yurewha_hash *)a[2].data);
}

static uint64_t call_file_hasher_free(const struct argument *a)
{
    yurewha_file_hasher_free((yurewha_file_hasher *)a[0].data);
    return 0;
}

static uint64_t call_xorb_hash(const struct argument *a)
{
    return yurewha_xorb_hash((const yurewha_chunk *)a[0].data, a[0].count, (yurewha_hash *)a[1].data);
}

static uint64_t call_file_hash(const struct argument *a)
{
    return yurewha_file_hash((const yurewha_chunk *)a[0].data, a[0].count, (yurewha_hash *)a[1].data);
}

static uint64_t call_file_hash_with_salt(const struct argument *a)
{
    return yurewha_file_hash_with_salt((const yurewha_chunk *)a[0].data, a[0].count, (const yurewha_bytes *)a[1].data,
        (yurewha_hash *)a[2].data);
}

static uint64_t call_find_stable_start(const struct argument *a)
{
    return yurewha_find_stable_start((const yurewha_chunk *)a[0].data, a[0].count, (size_t *)a[1].data);
}

static uint64_t call_find_stable_end(const struct argument *a)
{
    return yurewha_find_stable_end((const yurewha_chunk *)a[0].data, a[0].count, (size_t *)a[1].data);
}

static uint64_t call_subtree_from_chunks(const struct argument *a)
{
    return yurewha_subtree_from_chunks(a[0].number != 0, (const yurewha_chunk *)a[1].data, a[1].count, a[2].number != 0,
        (yurewha_subtree *)a[3].data);
}

static uint64_t call_subtree_clone(const struct argument *a)
{
    return yurewha_subtree_clone((yurewha_subtree *)a[0].data, (yurewha_subtree *)a[1].data);
}

static uint64_t call_subtree_equal(const struct argument *a)
{
    return yurewha_subtree_equal((yurewha_subtree *)a[0].data, (yurewha_subtree *)a[1].data, (bool *)a[2].data);
}

static uint64_t call_subtree_marks(const struct argument *a)
{
    return yurewha_subtree_marks((yurewha_subtree *)a[0].data, (bool *)a[1].data, (bool *)a[2].data);
}

static uint64_t call_subtree_total_size(const struct argument *a)
{
    return yurewha_subtree_total_size((yurewha_subtree *)a[0].data, (uint64_t *)a[1].data);
}

static uint64_t call_subtree_num_nodes(const struct argument *a)
{
    return yurewha_subtree_num_nodes((yurewha_subtree *)a[0].data, (size_t *)a[1].data);
}

static uint64_t call_subtree_num_levels(const struct argument *a)
{
    return yurewha_subtree_num_levels((yurewha_subtree *)a[0].data, (size_t *)a[1].data);
}

static uint64_t call_subtree_final_hash(const struct argument *a)
{
    return yurewha_subtree_final_hash((yurewha_subtree *)a[0].data, (yurewha_hash *)a[1].data);
}

static uint64_t call_subtree_merge_into(const struct argument *a)
{
    return yurewha_subtree_merge_into((yurewha_subtree *)a[0].data, (yurewha_subtree *)a[1].data);
}

static uint64_t call_subtree_merge_into_counted(const struct argument *a)
{
    return yurewha_subtree_merge_into_counted((yurewha_subtree *)a[0].data, (yurewha_subtree *)a[1].data,
        (uint64_t *)a[2].data);
}

static uint64_t call_subtree_merge(const struct argument *a)
{
    return yurewha_subtree_merge((yurewha_subtree *)a[0].data, a[0].count, (yurewha_subtree *)a[1].data);
}

static uint64_t call_subtree_to_json(const struct argument *a)
{
    return yurewha_subtree_to_json((yurewha_subtree *)a[0].data, (char *)a[1].data, a[1].count, (size_t *)a[2].data);
}

static uint64_t call_subtree_from_json(const struct argument *a)
{
    return yurewha_subtree_from_json((const char *)a[0].data, a[0].count, (yurewha_subtree *)a[1].data);
}

static uint64_t call_subtree_from_flat(const struct argument *a)
{
    return yurewha_subtree_from_flat(a[0].number != 0, (const yurewha_level *)a[1].data, a[1].count,
        (const yurewha_chunk *)a[2].data, a[2].count, a[3].number != 0, (yurewha_subtree *)a[4].data);
}

static uint64_t call_subtree_to_flat(const struct argument *a)
{
    return yurewha_subtree_to_flat((yurewha_subtree *)a[0].data, (yurewha_level *)a[1].data, a[1].count,
        (yurewha_chunk *)a[2].data, a[2].count, (size_t *)a[3].data, (size_t *)a[4].data);
}

static uint64_t call_subtree_free(const struct argument *a)
{
    yurewha_subtree_free((yurewha_subtree *)a[0].data);
    return 0;
}

static uint64_t call_session_new(const struct argument *a)
{
    return yurewha_session_new((yurewha_session *)a[0].data);
}

static uint64_t call_session_new_without_hashes(const struct argument *a)
{
    return yurewha_session_new_without_hashes((yurewha_session *)a[0].data);
}

static uint64_t call_session_put(const struct argument *a)
{
    return yurewha_session_put((yurewha_session *)a[0].data, (uint64_t)a[1].number, (const yurewha_chunk *)a[2].data,
        a[2].count, (uint64_t *)a[3].data);
}

static uint64_t call_session_taken(const struct argument *a)
{
    return yurewha_session_taken((yurewha_session *)a[0].data, (uint64_t)a[1].number, (bool *)a[2].data);
}

static uint64_t call_session_root(const struct argument *a)
{
    return yurewha_session_root((yurewha_session *)a[0].data, (uint64_t)a[1].number, (yurewha_hash *)a[2].data);
}

static uint64_t call_session_finish(const struct argument *a)
{
    return yurewha_session_finish((yurewha_session *)a[0].data, (uint64_t)a[1].number, (yurewha_hash *)a[2].data);
}

static uint64_t call_session_copy(const struct argument *a)
{
    return yurewha_session_copy((yurewha_session *)a[0].data, (yurewha_session *)a[1].data);
}

static uint64_t call_session_num_chunks(const struct argument *a)
{
    return yurewha_session_num_chunks((yurewha_session *)a[0].data, (uint64_t *)a[1].data);
}

static uint64_t call_session_total_size(const struct argument *a)
{
    return yurewha_session_total_size((yurewha_session *)a[0].data, (uint64_t *)a[1].data);
}

static uint64_t call_session_next_gap(const struct argument *a)
{
    return yurewha_session_next_gap((yurewha_session *)a[0].data, (uint64_t)a[1].number, (uint64_t)a[2].number,
        (uint64_t *)a[3].data, (uint64_t *)a[4].data);
}

static uint64_t call_session_knows(const struct argument *a)
{
    return yurewha_session_knows((yurewha_session *)a[0].data, (const yurewha_hash *)a[1].data, (bool *)a[2].data);
}

static uint64_t call_session_knows_each(const struct argument *a)
{
    return yurewha_session_knows_each((yurewha_session *)a[0].data, (const yurewha_hash *)a[1].data, a[1].count,
        (uint8_t *)a[2].data, a[2].count);
}

static uint64_t call_session_finish_with_salt(const struct argument *a)
{
    return yurewha_session_finish_with_salt((yurewha_session *)a[0].data, (uint64_t)a[1].number,
        (const yurewha_bytes *)a[2].data, (yurewha_hash *)a[3].data);
}

static uint64_t call_session_num_runs(const struct argument *a)
{
    return yurewha_session_num_runs((yurewha_session *)a[0].data, (size_t *)a[1].data);
}

static uint64_t call_session_run(const struct argument *a)
{
    return yurewha_session_run((yurewha_session *)a[0].data, (size_t)a[1].number, (uint64_t *)a[2].data,
        (yurewha_subtree *)a[3].data);
}

static uint64_t call_session_run_from(const struct argument *a)
{
    return yurewha_session_run_from((yurewha_session *)a[0].data, (uint64_t)a[1].number, (uint64_t *)a[2].data,
        (uint64_t *)a[3].data, (yurewha_subtree *)a[4].data);
}

static uint64_t call_session_free(const struct argument *a)
{
    yurewha_session_free((yurewha_session *)a[0].data);
    return 0;
}

static uint64_t call_session_put_range(const struct argument *a)
{
    return yurewha_session_put_range((yurewha_session *)a[0].data, (uint64_t)a[1].number, (uint64_t)a[2].number,
        (yurewha_subtree *)a[3].data);
}

static uint64_t call_session_join(const struct argument *a)
{
    return yurewha_session_join((yurewha_session *)a[0].data, (yurewha_session *)a[1].data, (uint64_t *)a[2].data);
}

static uint64_t call_session_push_run(const struct argument *a)
{
    return yurewha_session_push_run((yurewha_session *)a[0].data, (uint64_t)a[1].number, (uint64_t)a[2].number,
        (yurewha_subtree *)a[3].data);
}

static uint64_t call_session_keep_hashes(const struct argument *a)
{
    return yurewha_session_keep_hashes((yurewha_session *)a[0].data, (const yurewha_hash *)a[1].data, a[1].count);
}

static uint64_t call_session_keeps_hashes(const struct argument *a)
{
    return yurewha_session_keeps_hashes((yurewha_session *)a[0].data, (bool *)a[1].data);
}

static uint64_t call_session_num_known_hashes(const struct argument *a)
{
    return yurewha_session_num_known_hashes((yurewha_session *)a[0].data, (size_t *)a[1].data);
}

static uint64_t call_session_known_hashes(const struct argument *a)
{
    return yurewha_session_known_hashes((yurewha_session *)a[0].data, (yurewha_hash *)a[1].data, a[1].count);
}

static uint64_t call_session_to_json(const struct argument *a)
{
    return yurewha_session_to_json((yurewha_session *)a[0].data, a[1].number != 0, (char *)a[2].data, a[2].count,
        (size_t *)a[3].data);
}

static uint64_t call_session_from_json(const struct argument *a)
{
    return yurewha_session_from_json((const char *)a[0].data, a[0].count, a[1].number != 0,
        (yurewha_session *)a[2].data);
}

static uint64_t call_hash_tree_from_chunks(const struct argument *a)
{
    return yurewha_hash_tree_from_chunks((const yurewha_chunk *)a[0].data, a[0].count, (yurewha_hash_tree *)a[1].data);
}

static uint64_t call_hash_tree_root(const struct argument *a)
{
    return yurewha_hash_tree_root((yurewha_hash_tree *)a[0].data, (yurewha_hash *)a[1].data);
}

static uint64_t call_hash_tree_file_hash(const struct argument *a)
{
    return yurewha_hash_tree_file_hash((yurewha_hash_tree *)a[0].data, (const yurewha_bytes *)a[1].data,
        (yurewha_hash *)a[2].data);
}

static uint64_t call_hash_tree_num_chunks(const struct argument *a)
{
    return yurewha_hash_tree_num_chunks((yurewha_hash_tree *)a[0].data, (size_t *)a[1].data);
}

static uint64_t call_hash_tree_total_size(const struct argument *a)
{
    return yurewha_hash_tree_total_size((yurewha_hash_tree *)a[0].data, (uint64_t *)a[1].data);
}

static uint64_t call_hash_tree_chunks_at(const struct argument *a)
{
    return yurewha_hash_tree_chunks_at((yurewha_hash_tree *)a[0].data, (uint64_t)a[1].number, (uint64_t)a[2].number,
        (size_t *)a[3].data, (size_t *)a[4].data);
}

static uint64_t call_hash_tree_bytes_of(const struct argument *a)
{
    return yurewha_hash_tree_bytes_of((yurewha_hash_tree *)a[0].data, (size_t)a[1].number, (size_t)a[2].number,
        (uint64_t *)a[3].data, (uint64_t *)a[4].data);
}

static uint64_t call_hash_tree_proof(const struct argument *a)
{
    return yurewha_hash_tree_proof((yurewha_hash_tree *)a[0].data, (size_t)a[1].number, (size_t)a[2].number,
        (yurewha_level *)a[3].data, a[3].count, (yurewha_chunk *)a[4].data, a[4].count, (size_t *)a[5].data,
        (size_t *)a[6].data);
}

static uint64_t call_hash_tree_common_prefix(const struct argument *a)
{
    return yurewha_hash_tree_common_prefix((yurewha_hash_tree *)a[0].data, (yurewha_hash_tree *)a[1].data,
        (size_t *)a[2].data);
}

static uint64_t call_hash_tree_common_suffix(const struct argument *a)
{
    return yurewha_hash_tree_common_suffix((yurewha_hash_tree *)a[0].data, (yurewha_hash_tree *)a[1].data,
        (size_t)a[2].number, (size_t *)a[3].data);
}

static uint64_t call_hash_tree_free(const struct argument *a)
{
    yurewha_hash_tree_free((yurewha_hash_tree *)a[0].data);
    return 0;
}

static uint64_t call_range_proof_to_json(const struct argument *a)
{
    return yurewha_range_proof_to_json((const yurewha_level *)a[0].data, a[0].count, (const yurewha_chunk *)a[1].data,
        a[1].count, (char *)a[2].data, a[2].count, (size_t *)a[3].data);
}

static uint64_t call_range_proof_from_json(const struct argument *a)
{
    return yurewha_range_proof_from_json((const char *)a[0].data, a[0].count, (yurewha_level *)a[1].data, a[1].count,
        (yurewha_chunk *)a[2].data, a[2].count, (size_t *)a[3].data, (size_t *)a[4].data);
}

static uint64_t call_range_proof_to_bytes(const struct argument *a)
{
    return yurewha_range_proof_to_bytes((const yurewha_level *)a[0].data, a[0].count, (const yurewha_chunk *)a[1].data,
        a[1].count, (uint8_t *)a[2].data, a[2].count, (size_t *)a[3].data);
}

static uint64_t call_range_proof_from_bytes(const struct argument *a)
{
    return yurewha_range_proof_from_bytes((const char *)a[0].data, a[0].count, (yurewha_level *)a[1].data, a[1].count,
        (yurewha_chunk *)a[2].data, a[2].count, (size_t *)a[3].data, (size_t *)a[4].data);
}

static uint64_t call_range_proof_check(const struct argument *a)
{
    return yurewha_range_proof_check((const yurewha_level *)a[0].data, a[0].count, (const yurewha_chunk *)a[1].data,
        a[1].count);
}

static uint64_t call_range_proof_open(const struct argument *a)
{
    return yurewha_range_proof_open((const yurewha_level *)a[0].data, a[0].count, (const yurewha_chunk *)a[1].data,
        a[1].count, (const yurewha_hash *)a[2].data, (const yurewha_bytes *)a[3].data,
        (yurewha_opened_range *)a[4].data);
}

static uint64_t call_range_proof_open_root(const struct argument *a)
{
    return yurewha_range_proof_open_root((const yurewha_level *)a[0].data, a[0].count, (const yurewha_chunk *)a[1].data,
        a[1].count, (const yurewha_hash *)a[2].data, (yurewha_opened_range *)a[3].data);
}

static uint64_t call_opened_range_file_size(const struct argument *a)
{
    return yurewha_opened_range_file_size((yurewha_opened_range *)a[0].data, (uint64_t *)a[1].data);
}

static uint64_t call_opened_range_num_chunks(const struct argument *a)
{
    return yurewha_opened_range_num_chunks((yurewha_opened_range *)a[0].data, (size_t *)a[1].data);
}

static uint64_t call_opened_range_bytes_of(const struct argument *a)
{
    return yurewha_opened_range_bytes_of((yurewha_opened_range *)a[0].data, (size_t)a[1].number, (uint64_t *)a[2].data,
        (uint64_t *)a[3].data);
}

static uint64_t call_opened_range_check(const struct argument *a)
{
    return yurewha_opened_range_check((yurewha_opened_range *)a[0].data, (size_t)a[1].number, (const char *)a[2].data,
        a[2].count, (uint64_t *)a[3].data);
}

static uint64_t call_opened_range_read(const struct argument *a)
{
    return yurewha_opened_range_read((yurewha_opened_range *)a[0].data, (uint64_t)a[1].number, (uint64_t)a[2].number,
        (const char *)a[3].data, a[3].count, (size_t *)a[4].data);
}

static uint64_t call_opened_range_free(const struct argument *a)
{
    yurewha_opened_range_free((yurewha_opened_range *)a[0].data);
    return 0;
}

static uint64_t call_reader_new(const struct argument *a)
{
    return yurewha_reader_new((const yurewha_hash *)a[0].data, (const yurewha_bytes *)a[1].data, (uint64_t)a[2].number,
        (yurewha_reader *)a[3].data);
}

static uint64_t call_reader_read(const struct argument *a)
{
    return yurewha_reader_read((yurewha_reader *)a[0].data, (uint64_t)a[1].number, (uint8_t *)a[2].data, a[2].count,
        (uint64_t)a[3].number, (size_t *)a[4].data, (uint64_t *)a[5].data);
}

static uint64_t call_reader_needs(const struct argument *a)
{
    return yurewha_reader_needs((yurewha_reader *)a[0].data, (uint64_t)a[1].number, (uint64_t)a[2].number,
        (uint64_t)a[3].number, (uint64_t *)a[4].data, (uint64_t *)a[5].data);
}

static uint64_t call_reader_piece(const struct argument *a)
{
    return yurewha_reader_piece((yurewha_reader *)a[0].data, (uint64_t)a[1].number, (uint64_t)a[2].number,
        (uint64_t *)a[3].data, (uint64_t *)a[4].data);
}

static uint64_t call_reader_size(const struct argument *a)
{
    return yurewha_reader_size((yurewha_reader *)a[0].data, (uint64_t *)a[1].data);
}

static uint64_t call_reader_counted(const struct argument *a)
{
    return yurewha_reader_counted((yurewha_reader *)a[0].data, (uint64_t *)a[1].data);
}

static uint64_t call_reader_keep_at_most(const struct argument *a)
{
    return yurewha_reader_keep_at_most((yurewha_reader *)a[0].data, (uint64_t)a[1].number);
}

static uint64_t call_reader_take(const struct argument *a)
{
    return yurewha_reader_take((yurewha_reader *)a[0].data, (yurewha_part *)a[1].data);
}

static uint64_t call_part_open(const struct argument *a)
{
    return yurewha_part_open((const yurewha_level *)a[0].data, a[0].count, (const yurewha_chunk *)a[1].data, a[1].count,
        (const yurewha_hash *)a[2].data, (const yurewha_bytes *)a[3].data, (uint64_t)a[4].number, (uint64_t)a[5].number,
        (uint64_t)a[6].number, (uint64_t *)a[7].data, (uint64_t *)a[8].data, (yurewha_part *)a[9].data);
}

static uint64_t call_part_check(const struct argument *a)
{
    return yurewha_part_check((yurewha_part *)a[0].data, (const char *)a[1].data, a[1].count, a[2].number != 0,
        (size_t *)a[3].data, (size_t *)a[4].data);
}

static uint64_t call_part_file_size(const struct argument *a)
{
    return yurewha_part_file_size((yurewha_part *)a[0].data, (uint64_t *)a[1].data);
}

static uint64_t call_part_checked(const struct argument *a)
{
    return yurewha_part_checked((yurewha_part *)a[0].data, (size_t *)a[1].data, (uint64_t *)a[2].data);
}

static uint64_t call_reader_free(const struct argument *a)
{
    yurewha_reader_free((yurewha_reader *)a[0].data);
    return 0;
}

static uint64_t call_part_free(const struct argument *a)
{
    yurewha_part_free((yurewha_part *)a[0].data);
    return 0;
}

static uint64_t call_hash_index_new(const struct argument *a)
{
    return yurewha_hash_index_new((yurewha_hash_index *)a[0].data);
}

static uint64_t call_hash_index_insert(const struct argument *a)
{
    return yurewha_hash_index_insert((yurewha_hash_index *)a[0].data, (const yurewha_hash *)a[1].data, a[1].count,
        (const uint64_t *)a[2].data, a[2].count, (size_t *)a[3].data);
}

static uint64_t call_hash_index_find(const struct argument *a)
{
    return yurewha_hash_index_find((yurewha_hash_index *)a[0].data, (const yurewha_hash *)a[1].data, a[1].count,
        (uint8_t *)a[2].data, a[2].count, (uint64_t *)a[3].data, a[3].count);
}

static uint64_t call_hash_index_entries(const struct argument *a)
{
    return yurewha_hash_index_entries((yurewha_hash_index *)a[0].data, (yurewha_hash *)a[1].data, a[1].count,
        (uint64_t *)a[2].data, a[2].count);
}

static uint64_t call_hash_index_len(const struct argument *a)
{
    return yurewha_hash_index_len((yurewha_hash_index *)a[0].data, (size_t *)a[1].data);
}

static uint64_t call_hash_index_free(const struct argument *a)
{
    yurewha_hash_index_free((yurewha_hash_index *)a[0].data);
    return 0;
}

const struct call calls[] = {
    {"version", call_version, STATUS, ASKS_NONE, false, 2, {{ROOM, BYTE}, {NEEDED, NUMBER}}},
    {"status_text", call_status_text, STATUS, ASKS_NONE, false, 3, {{GIVEN, NUMBER}, {ROOM, BYTE}, {NEEDED, NUMBER}}},
    {"data_hash", call_data_hash, NOTHING, ASKS_NONE, false, 2, {{LIST, BYTE}, {OUT, HASH}}},
    {"internal_node_hash", call_internal_node_hash, NOTHING, ASKS_NONE, false, 2, {{LIST, BYTE}, {OUT, HASH}}},
    {"hmac", call_hmac, NOTHING, ASKS_NONE, false, 3, {{GIVEN, HASH}, {GIVEN, HASH}, {OUT, HASH}}},
    {"random_from_seed", call_random_from_seed, NOTHING, ASKS_NONE, false, 2, {{GIVEN, NUMBER}, {OUT, HASH}}},
    {"hash_to_bytes", call_hash_to_bytes, NOTHING, ASKS_NONE, false, 2, {{GIVEN, HASH}, {OUT, KEY}}},
    {"hash_from_bytes", call_hash_from_bytes, NOTHING, ASKS_NONE, false, 2, {{GIVEN, KEY}, {OUT, HASH}}},
    {"compare", call_compare, SIGNED, ASKS_NONE, false, 2, {{GIVEN, HASH}, {GIVEN, HASH}}},
    {"remainder", call_remainder, STATUS, ASKS_NONE, false, 3, {{GIVEN, HASH}, {GIVEN, NUMBER}, {OUT, NUMBER}}},
    {"data_hashes", call_data_hashes, STATUS, ASKS_NONE, false, 3, {{LIST, BYTE}, {LIST, NUMBER}, {EXACT, HASH}}},
    {"hex", call_hex, STATUS, ASKS_NONE, false, 3, {{GIVEN, HASH}, {ROOM, BYTE}, {NEEDED, NUMBER}}},
    {"from_hex", call_from_hex, STATUS, ASKS_NONE, false, 2, {{LIST, BYTE}, {OUT, HASH}}},
    {"base64", call_base64, STATUS, ASKS_NONE, false, 3, {{GIVEN, HASH}, {ROOM, BYTE}, {NEEDED, NUMBER}}},
    {"from_base64", call_from_base64, STATUS, REFUSES, false, 2, {{LIST, BYTE}, {OUT, HASH}}},
    {"hasher_begin_data", call_hasher_begin_data, NOTHING, ASKS_NONE, false, 1, {{MADE, HASHER}}},
    {"hasher_begin_internal", call_hasher_begin_internal, NOTHING, ASKS_NONE, false, 1, {{MADE, HASHER}}},
    {"hasher_begin_keyed", call_hasher_begin_keyed, NOTHING, ASKS_NONE, false, 2, {{MADE, HASHER}, {GIVEN, KEY}}},
    {"hasher_count", call_hasher_count, COUNT, ASKS_NONE, false, 1, {{READ, HASHER}}},
    {"hasher_update", call_hasher_update, STATUS, ASKS_NONE, false, 2, {{CHANGED, HASHER}, {LIST, BYTE}}},
    {"hasher_finalize", call_hasher_finalize, NOTHING, ASKS_NONE, false, 2, {{READ, HASHER}, {OUT, HASH}}},
    {"chunker_begin", call_chunker_begin, NOTHING, ASKS_NONE, false, 1, {{MADE, CHUNKER}}},
    {"chunker_next_boundary", call_chunker_next_boundary, COUNT, ASKS_NONE, false, 2, {{CHANGED, CHUNKER},
        {LIST, BYTE}}},
    {"chunker_taken", call_chunker_taken, COUNT, ASKS_NONE, false, 1, {{READ, CHUNKER}}},
    {"file_hasher_new", call_file_hasher_new, STATUS, REFUSES, false, 1, {{MADE, FILE_HASHER}}},
    {"file_hasher_update", call_file_hasher_update, STATUS, REFUSES, false, 2, {{CHANGED, FILE_HASHER}, {LIST, BYTE}}},
    {"file_hasher_size", call_file_hasher_size, STATUS, ASKS_NONE, false, 2, {{READ, FILE_HASHER}, {OUT, NUMBER}}},
    {"file_hasher_root", call_file_hasher_root, STATUS, REFUSES, false, 2, {{READ, FILE_HASHER}, {OUT, HASH}}},
    {"file_hasher_finish", call_file_hasher_finish, STATUS, REFUSES, false, 2, {{READ, FILE_HASHER}, {OUT, HASH}}},
    {"file_hasher_finish_with_salt", call_file_hasher_finish_with_salt, STATUS, REFUSES, false, 3, {{READ, FILE_HASHER},
        {GIVEN, KEY}, {OUT, HASH}}},
    {"file_hasher_free", call_file_hasher_free, NOTHING, ASKS_NONE, false, 1, {{FREED, FILE_HASHER}}},
    {"xorb_hash", call_xorb_hash, STATUS, REFUSES, false, 2, {{LIST, CHUNK}, {OUT, HASH}}},
    {"file_hash", call_file_hash, STATUS, REFUSES, false, 2, {{LIST, CHUNK}, {OUT, HASH}}},
    {"file_hash_with_salt", call_file_hash_with_salt, STATUS, REFUSES, false, 3, {{LIST, CHUNK}, {GIVEN, KEY},
        {OUT, HASH}}},
    {"find_stable_start", call_find_stable_start, STATUS, ASKS_NONE, false, 2, {{LIST, CHUNK}, {OUT, NUMBER}}},
    {"find_stable_end", call_find_stable_end, STATUS, ASKS_NONE, false, 2, {{LIST, CHUNK}, {OUT, NUMBER}}},
    {"subtree_from_chunks", call_subtree_from_chunks, STATUS, REFUSES, false, 4, {{GIVEN, TRUTH}, {LIST, CHUNK},
        {GIVEN, TRUTH}, {MADE, SUBTREE}}},
    {"subtree_clone", call_subtree_clone, STATUS, REFUSES, false, 2, {{READ, SUBTREE}, {MADE, SUBTREE}}},
    {"subtree_equal", call_subtree_equal, STATUS, ASKS_NONE, false, 3, {{READ, SUBTREE}, {READ, SUBTREE},
        {OUT, TRUTH}}},
    {"subtree_marks", call_subtree_marks, STATUS, ASKS_NONE, false, 3, {{READ, SUBTREE}, {OUT, TRUTH}, {OUT, TRUTH}}},
    {"subtree_total_size", call_subtree_total_size, STATUS, ASKS_NONE, false, 2, {{READ, SUBTREE}, {OUT, NUMBER}}},
    {"subtree_num_nodes", call_subtree_num_nodes, STATUS, ASKS_NONE, false, 2, {{READ, SUBTREE}, {OUT, NUMBER}}},
    {"subtree_num_levels", call_subtree_num_levels, STATUS, ASKS_NONE, false, 2, {{READ, SUBTREE}, {OUT, NUMBER}}},
    {"subtree_final_hash", call_subtree_final_hash, STATUS, ASKS_NONE, false, 2, {{READ, SUBTREE}, {OUT, HASH}}},
    {"subtree_merge_into", call_subtree_merge_into, STATUS, REFUSES, false, 2, {{CHANGED, SUBTREE}, {READ, SUBTREE}}},
    {"subtree_merge_into_counted", call_subtree_merge_into_counted, STATUS, REFUSES, false, 3, {{CHANGED, SUBTREE},
        {READ, SUBTREE}, {OUT, NUMBER}}},
    {"subtree_merge", call_subtree_merge, STATUS, REFUSES, false, 2, {{LIST, SUBTREE}, {MADE, SUBTREE}}},
    {"subtree_to_json", call_subtree_to_json, STATUS, REFUSES, false, 3, {{READ, SUBTREE}, {ROOM, BYTE},
        {NEEDED, NUMBER}}},
    {"subtree_from_json", call_subtree_from_json, STATUS, REFUSES, false, 2, {{LIST, BYTE}, {MADE, SUBTREE}}},
    {"subtree_from_flat", call_subtree_from_flat, STATUS, REFUSES, false, 5, {{GIVEN, TRUTH}, {LIST, LEVEL},
        {LIST, CHUNK}, {GIVEN, TRUTH}, {MADE, SUBTREE}}},
    {"subtree_to_flat", call_subtree_to_flat, STATUS, ASKS_NONE, false, 5, {{READ, SUBTREE}, {ROOM, LEVEL},
        {ROOM, CHUNK}, {NEEDED, NUMBER}, {NEEDED, NUMBER}}},
    {"subtree_free", call_subtree_free, NOTHING, ASKS_NONE, false, 1, {{FREED, SUBTREE}}},
    {"session_new", call_session_new, STATUS, REFUSES, false, 1, {{MADE, SESSION}}},
    {"session_new_without_hashes", call_session_new_without_hashes, STATUS, REFUSES, false, 1, {{MADE, SESSION}}},
    {"session_put", call_session_put, STATUS, REFUSES, false, 4, {{CHANGED, SESSION}, {GIVEN, NUMBER}, {LIST, CHUNK},
        {OUT, NUMBER}}},
    {"session_taken", call_session_taken, STATUS, ASKS_NONE, false, 3, {{READ, SESSION}, {GIVEN, NUMBER},
        {OUT, TRUTH}}},
    {"session_root", call_session_root, STATUS, REFUSES, false, 3, {{READ, SESSION}, {GIVEN, NUMBER}, {OUT, HASH}}},
    {"session_finish", call_session_finish, STATUS, REFUSES, false, 3, {{READ, SESSION}, {GIVEN, NUMBER}, {OUT, HASH}}},
    {"session_copy", call_session_copy, STATUS, REFUSES, false, 2, {{READ, SESSION}, {MADE, SESSION}}},
    {"session_num_chunks", call_session_num_chunks, STATUS, ASKS_NONE, false, 2, {{READ, SESSION}, {OUT, NUMBER}}},
    {"session_total_size", call_session_total_size, STATUS, ASKS_NONE, false, 2, {{READ, SESSION}, {OUT, NUMBER}}},
    {"session_next_gap", call_session_next_gap, STATUS, ASKS_NONE, false, 5, {{READ, SESSION}, {GIVEN, NUMBER},
        {GIVEN, NUMBER}, {OUT, NUMBER}, {OUT, NUMBER}}},
    {"session_knows", call_session_knows, STATUS, ASKS_NONE, false, 3, {{READ, SESSION}, {GIVEN, HASH}, {OUT, TRUTH}}},
    {"session_knows_each", call_session_knows_each, STATUS, ASKS_NONE, false, 3, {{READ, SESSION}, {LIST, HASH},
        {EXACT, BYTE}}},
    {"session_finish_with_salt", call_session_finish_with_salt, STATUS, REFUSES, false, 4, {{READ, SESSION},
        {GIVEN, NUMBER}, {GIVEN, KEY}, {OUT, HASH}}},
    {"session_num_runs", call_session_num_runs, STATUS, ASKS_NONE, false, 2, {{READ, SESSION}, {OUT, NUMBER}}},
    {"session_run", call_session_run, STATUS, REFUSES, false, 4, {{READ, SESSION}, {GIVEN, NUMBER}, {OUT, NUMBER},
        {MADE, SUBTREE}}},
    {"session_run_from", call_session_run_from, STATUS, REFUSES, false, 5, {{READ, SESSION}, {GIVEN, NUMBER},
        {OUT, NUMBER}, {OUT, NUMBER}, {MADE, SUBTREE}}},
    {"session_free", call_session_free, NOTHING, ASKS_NONE, false, 1, {{FREED, SESSION}}},
    {"session_put_range", call_session_put_range, STATUS, REFUSES, false, 4, {{CHANGED, SESSION}, {GIVEN, NUMBER},
        {GIVEN, NUMBER}, {READ, SUBTREE}}},
    {"session_join", call_session_join, STATUS, REFUSES, false, 3, {{CHANGED, SESSION}, {READ, SESSION},
        {OUT, NUMBER}}},
    {"session_push_run", call_session_push_run, STATUS, REFUSES, false, 4, {{CHANGED, SESSION}, {GIVEN, NUMBER},
        {GIVEN, NUMBER}, {READ, SUBTREE}}},
    {"session_keep_hashes", call_session_keep_hashes, STATUS, REFUSES, false, 2, {{CHANGED, SESSION}, {LIST, HASH}}},
    {"session_keeps_hashes", call_session_keeps_hashes, STATUS, ASKS_NONE, false, 2, {{READ, SESSION}, {OUT, TRUTH}}},
    {"session_num_known_hashes", call_session_num_known_hashes, STATUS, ASKS_NONE, false, 2, {{READ, SESSION},
        {OUT, NUMBER}}},
    {"session_known_hashes", call_session_known_hashes, STATUS, REFUSES, false, 2, {{READ, SESSION}, {EXACT, HASH}}},
    {"session_to_json", call_session_to_json, STATUS, REFUSES, false, 4, {{READ, SESSION}, {GIVEN, TRUTH}, {ROOM, BYTE},
        {NEEDED, NUMBER}}},
    {"session_from_json", call_session_from_json, STATUS, REFUSES, false, 3, {{LIST, BYTE}, {GIVEN, TRUTH},
        {MADE, SESSION}}},
    {"hash_tree_from_chunks", call_hash_tree_from_chunks, STATUS, REFUSES, false, 2, {{LIST, CHUNK},
        {MADE, HASH_TREE}}},
    {"hash_tree_root", call_hash_tree_root, STATUS, ASKS_NONE, false, 2, {{READ, HASH_TREE}, {OUT, HASH}}},
    {"hash_tree_file_hash", call_hash_tree_file_hash, STATUS, ASKS_NONE, false, 3, {{READ, HASH_TREE}, {GIVEN, KEY},
        {OUT, HASH}}},
    {"hash_tree_num_chunks", call_hash_tree_num_chunks, STATUS, ASKS_NONE, false, 2, {{READ, HASH_TREE},
        {OUT, NUMBER}}},
    {"hash_tree_total_size", call_hash_tree_total_size, STATUS, ASKS_NONE, false, 2, {{READ, HASH_TREE},
        {OUT, NUMBER}}},
    {"hash_tree_chunks_at", call_hash_tree_chunks_at, STATUS, ASKS_NONE, false, 5, {{READ, HASH_TREE}, {GIVEN, NUMBER},
        {GIVEN, NUMBER}, {OUT, NUMBER}, {OUT, NUMBER}}},
    {"hash_tree_bytes_of", call_hash_tree_bytes_of, STATUS, ASKS_NONE, false, 5, {{READ, HASH_TREE}, {GIVEN, NUMBER},
        {GIVEN, NUMBER}, {OUT, NUMBER}, {OUT, NUMBER}}},
    {"hash_tree_proof", call_hash_tree_proof, STATUS, REFUSES, false, 7, {{READ, HASH_TREE}, {GIVEN, NUMBER},
        {GIVEN, NUMBER}, {ROOM, LEVEL}, {ROOM, CHUNK}, {NEEDED, NUMBER}, {NEEDED, NUMBER}}},
    {"hash_tree_common_prefix", call_hash_tree_common_prefix, STATUS, ASKS_NONE, false, 3, {{READ, HASH_TREE},
        {READ, HASH_TREE}, {OUT, NUMBER}}},
    {"hash_tree_common_suffix", call_hash_tree_common_suffix, STATUS, ASKS_NONE, false, 4, {{READ, HASH_TREE},
        {READ, HASH_TREE}, {GIVEN, NUMBER}, {OUT, NUMBER}}},
    {"hash_tree_free", call_hash_tree_free, NOTHING, ASKS_NONE, false, 1, {{FREED, HASH_TREE}}},
    {"range_proof_to_json", call_range_proof_to_json, STATUS, REFUSES, false, 4, {{LIST, LEVEL}, {LIST, CHUNK},
        {ROOM, BYTE}, {NEEDED, NUMBER}}},
    {"range_proof_from_json", call_range_proof_from_json, STATUS, REFUSES, false, 5, {{LIST, BYTE}, {ROOM, LEVEL},
        {ROOM, CHUNK}, {NEEDED, NUMBER}, {NEEDED, NUMBER}}},
    {"range_proof_to_bytes", call_range_proof_to_bytes, STATUS, REFUSES, false, 4, {{LIST, LEVEL}, {LIST, CHUNK},
        {ROOM, BYTE}, {NEEDED, NUMBER}}},
    {"range_proof_from_bytes", call_range_proof_from_bytes, STATUS, REFUSES, false, 5, {{LIST, BYTE}, {ROOM, LEVEL},
        {ROOM, CHUNK}, {NEEDED, NUMBER}, {NEEDED, NUMBER}}},
    {"range_proof_check", call_range_proof_check, STATUS, ASKS_NONE, false, 2, {{LIST, LEVEL}, {LIST, CHUNK}}},
    {"range_proof_open", call_range_proof_open, STATUS, REFUSES, false, 5, {{LIST, LEVEL}, {LIST, CHUNK}, {GIVEN, HASH},
        {GIVEN, KEY}, {MADE, OPENED_RANGE}}},
    {"range_proof_open_root", call_range_proof_open_root, STATUS, REFUSES, false, 4, {{LIST, LEVEL}, {LIST, CHUNK},
        {GIVEN, HASH}, {MADE, OPENED_RANGE}}},
    {"opened_range_file_size", call_opened_range_file_size, STATUS, ASKS_NONE, false, 2, {{READ, OPENED_RANGE},
        {OUT, NUMBER}}},
    {"opened_range_num_chunks", call_opened_range_num_chunks, STATUS, ASKS_NONE, false, 2, {{READ, OPENED_RANGE},
        {OUT, NUMBER}}},
    {"opened_range_bytes_of", call_opened_range_bytes_of, STATUS, ASKS_NONE, false, 4, {{READ, OPENED_RANGE},
        {GIVEN, NUMBER}, {OUT, NUMBER}, {OUT, NUMBER}}},
    {"opened_range_check", call_opened_range_check, STATUS, ASKS_NONE, false, 4, {{READ, OPENED_RANGE}, {GIVEN, NUMBER},
        {LIST, BYTE}, {OUT, NUMBER}}},
    {"opened_range_read", call_opened_range_read, STATUS, ASKS_NONE, false, 5, {{READ, OPENED_RANGE}, {GIVEN, NUMBER},
        {GIVEN, NUMBER}, {LIST, BYTE}, {OUT, NUMBER}}},
    {"opened_range_free", call_opened_range_free, NOTHING, ASKS_NONE, false, 1, {{FREED, OPENED_RANGE}}},
    {"reader_new", call_reader_new, STATUS, REFUSES, false, 4, {{GIVEN, HASH}, {GIVEN, KEY}, {GIVEN, NUMBER},
        {MADE, READER}}},
    {"reader_read", call_reader_read, STATUS, SPARES, false, 6, {{CHANGED, READER}, {GIVEN, NUMBER}, {FRONT, BYTE},
        {GIVEN, NUMBER}, {OUT, NUMBER}, {OUT, NUMBER}}},
    {"reader_needs", call_reader_needs, STATUS, ASKS_NONE, false, 6, {{READ, READER}, {GIVEN, NUMBER}, {GIVEN, NUMBER},
        {GIVEN, NUMBER}, {OUT, NUMBER}, {OUT, NUMBER}}},
    {"reader_piece", call_reader_piece, STATUS, ASKS_NONE, false, 5, {{READ, READER}, {GIVEN, NUMBER}, {GIVEN, NUMBER},
        {OUT, NUMBER}, {OUT, NUMBER}}},
    {"reader_size", call_reader_size, STATUS, ASKS_NONE, false, 2, {{READ, READER}, {OUT, NUMBER}}},
    {"reader_counted", call_reader_counted, STATUS, ASKS_NONE, false, 2, {{READ, READER}, {OUT, NUMBER}}},
    {"reader_keep_at_most", call_reader_keep_at_most, STATUS, ASKS_NONE, false, 2, {{CHANGED, READER},
        {GIVEN, NUMBER}}},
    {"reader_take", call_reader_take, STATUS, SPARES, false, 2, {{CHANGED, READER}, {EMPTIED, PART}}},
    {"part_open", call_part_open, STATUS, REFUSES, false, 10, {{LIST, LEVEL}, {LIST, CHUNK}, {GIVEN, HASH},
        {GIVEN, KEY}, {GIVEN, NUMBER}, {GIVEN, NUMBER}, {GIVEN, NUMBER}, {OUT, NUMBER}, {OUT, NUMBER}, {MADE, PART}}},
    {"part_check", call_part_check, STATUS, SPARES, true, 5, {{CHANGED, PART}, {LIST, BYTE}, {GIVEN, TRUTH},
        {OUT, NUMBER}, {OUT, NUMBER}}},
    {"part_file_size", call_part_file_size, STATUS, ASKS_NONE, false, 2, {{READ, PART}, {OUT, NUMBER}}},
    {"part_checked", call_part_checked, STATUS, ASKS_NONE, false, 3, {{READ, PART}, {OUT, NUMBER}, {OUT, NUMBER}}},
    {"reader_free", call_reader_free, NOTHING, ASKS_NONE, false, 1, {{FREED, READER}}},
    {"part_free", call_part_free, NOTHING, ASKS_NONE, false, 1, {{FREED, PART}}},
    {"hash_index_new", call_hash_index_new, STATUS, REFUSES, false, 1, {{MADE, HASH_INDEX}}},
    {"hash_index_insert", call_hash_index_insert, STATUS, REFUSES, false, 4, {{CHANGED, HASH_INDEX}, {LIST, HASH},
        {LIST, NUMBER}, {OUT, NUMBER}}},
    {"hash_index_find", call_hash_index_find, STATUS, ASKS_NONE, false, 4, {{READ, HASH_INDEX}, {LIST, HASH},
        {EXACT, BYTE}, {EXACT, NUMBER}}},
    {"hash_index_entries", call_hash_index_entries, STATUS, ASKS_NONE, false, 3, {{READ, HASH_INDEX}, {EXACT, HASH},
        {EXACT, NUMBER}}},
    {"hash_index_len", call_hash_index_len, STATUS, ASKS_NONE, false, 2, {{READ, HASH_INDEX}, {OUT, NUMBER}}},
    {"hash_index_free", call_hash_index_free, NOTHING, ASKS_NONE, false, 1, {{FREED, HASH_INDEX}}},
};
const size_t call_count = LENGTH(calls);

const struct named_status statuses[] = {
    {"DONE", YUREWHA_DONE},
    {"ARGUMENTS", YUREWHA_ARGUMENTS},
    {"SIZES", YUREWHA_SIZES},
    {"MEMORY", YUREWHA_MEMORY},
    {"TEXT", YUREWHA_TEXT},
    {"ROOM", YUREWHA_ROOM},
    {"EMPTY_HANDLE", YUREWHA_EMPTY_HANDLE},
    {"MISMATCH", YUREWHA_MISMATCH},
    {"ELSEWHERE", YUREWHA_ELSEWHERE},
    {"TOO_FAR", YUREWHA_TOO_FAR},
    {"RULE", YUREWHA_RULE},
    {"PROOF_RULE", YUREWHA_PROOF_RULE},
    {"SESSION_RULE", YUREWHA_SESSION_RULE},
    {"SESSION_OVERLAP", YUREWHA_SESSION_OVERLAP},
    {"SESSION_POSITIONS", YUREWHA_SESSION_POSITIONS},
    {"SESSION_GAP", YUREWHA_SESSION_GAP},
};
const size_t status_count = LENGTH(statuses);
