/* Calls on sessions. */
#include "calls.h"

namespace {

constexpr size_t MOST_CHUNKS = 400;

/* Positions near the beginning, and sometimes anywhere. */
uint64_t drawn_position(Input &input)
{
    const uint8_t kind = input.byte();
    return kind < 0xC0 ? kind : drawn_number(input);
}

}  // namespace

Sessions::~Sessions()
{
    for (yurewha_session &handle : handles) {
        begin_call();
        yurewha_session_free(&handle);
        yurewha_session_free(&handle);
        EXPECT(end_call() == 0 && handle.at == nullptr);
    }
}

void Sessions::call(Input &input, Ranges &ranges)
{
    const size_t which = input.below(COUNT);
    switch (input.below(9)) {
    case 0:
        make(which);
        break;
    case 1:
        compare_taken(which, drawn_position(input));
        break;
    case 2:
        run(which, input, ranges);
        break;
    case 3:
        hash(which, input, true);
        break;
    case 4:
        hash(which, input, false);
        break;
    case 5:
        if (input.below(4) == 0) {
            begin_call();
            yurewha_session_free(&handles[which]);
            EXPECT(end_call() == 0);
            kept[which].reset();
        } else {
            std::swap(handles[0], handles[1]);
            std::swap(kept[0], kept[1]);
        }
        break;
    default:
        put(which, input);
    }
    compare(which);
}

void Sessions::make(size_t which)
{
    if (is_done(YUREWHA_DONE, YUREWHA_MEMORY, [&] { return yurewha_session_new(&handles[which]); }))
        kept[which] = Chunks();
}

yurewha_status Sessions::refusal_of(const Chunks &chunks, uint64_t first, const second::Nodes &nodes)
{
    if (nodes.empty())
        return YUREWHA_DONE;
    const auto next = chunks.placed.lower_bound(first);
    if (next != chunks.placed.end() && next->first - first < nodes.size())
        return YUREWHA_SESSION_OVERLAP;
    if (first > UINT64_MAX - nodes.size())
        return YUREWHA_SESSION_POSITIONS;
#ifdef PLANTED_SIZE_TWICE
    const std::optional<uint64_t> size = second::sum(second::total_size(nodes), nodes[0].size);
#else
    const std::optional<uint64_t> size = second::total_size(nodes);
#endif
    return second::sum(chunks.size, size) ? YUREWHA_DONE : YUREWHA_SIZES;
}

void Sessions::put(size_t which, Input &input)
{
    const uint64_t first = drawn_position(input);
    const second::Nodes nodes = drawn_nodes(input);
    if (kept[which] && kept[which]->placed.size() + nodes.size() > MOST_CHUNKS)
        return;
    const yurewha_status wanted = kept[which] ? refusal_of(*kept[which], first, nodes) : YUREWHA_EMPTY_HANDLE;
    const yurewha_chunk *chunks = fenced_chunks(0, nodes);
    Out<uint64_t> new_hashes;
    if (!is_done(wanted, YUREWHA_MEMORY,
                 [&] { return yurewha_session_put(&handles[which], first, chunks, nodes.size(), &new_hashes); })) {
        EXPECT(new_hashes.is_untouched());
        return;
    }
    Chunks &there = *kept[which];
    const size_t known = there.hashes.size();
    for (size_t i = 0; i < nodes.size(); i++) {
        there.placed[first + i] = nodes[i];
        there.hashes.insert(nodes[i].hash);
        there.size += nodes[i].size;
    }
    seen(NEW_HASHES, *new_hashes);
    EXPECT(*new_hashes == there.hashes.size() - known);
    compare_taken(which, first);
    compare_taken(which, first + nodes.size());
}

Sessions::Runs Sessions::runs_of(const Chunks &chunks)
{
    Runs runs;
    for (const auto &[position, node] : chunks.placed) {
        if (runs.empty() || runs.back().first + runs.back().second.size() != position)
            runs.push_back({position, {}});
        runs.back().second.push_back(node);
    }
    return runs;
}

/* A run, as a subtree that another handle then holds. */
void Sessions::run(size_t which, Input &input, Ranges &ranges)
{
    const size_t index = input.below(8), to = input.below(Ranges::COUNT);
    const Runs runs = kept[which] ? runs_of(*kept[which]) : Runs();
    const yurewha_status wanted = !kept[which] ? YUREWHA_EMPTY_HANDLE : index < runs.size() ? YUREWHA_DONE : YUREWHA_ARGUMENTS;
    Out<uint64_t> first;
    if (is_done(wanted, YUREWHA_MEMORY,
                [&] { return yurewha_session_run(&handles[which], index, &first, ranges.handle(to)); })) {
        EXPECT(*first == runs[index].first);
        ranges.hold(to, {second::canonical(runs[index].second, false, false), runs[index].second});
    } else {
        EXPECT(first.is_untouched());
    }
    ranges.compare(to);
}

void Sessions::hash(size_t which, Input &input, bool is_root)
{
    const uint8_t kind = input.byte();
    second::Nodes nodes;
    bool is_whole = false;
    uint64_t total = kind;
    if (kept[which]) {
        const auto &placed = kept[which]->placed;
        total = kind < 0xC0 ? placed.size() : kind < 0xE0 ? kind - 0xC0u : drawn_number(input);
        for (const auto &[position, node] : placed)
            nodes.push_back(node);
        is_whole = total == placed.size() && (placed.empty() || placed.rbegin()->first == placed.size() - 1);
    }
    const yurewha_status wanted = !kept[which] ? YUREWHA_EMPTY_HANDLE : is_whole ? YUREWHA_DONE : YUREWHA_SESSION_GAP;
    Out<yurewha_hash> hash;
    if (is_done(wanted, YUREWHA_MEMORY, [&] {
            return is_root ? yurewha_session_root(&handles[which], total, &hash)
                           : yurewha_session_finish(&handles[which], total, &hash);
        }))
        EXPECT(hash_from_c(*hash) == (is_root ? second::root_of(nodes) : second::file_hash_of(nodes, {})));
    else
        EXPECT(hash.is_untouched());
    const yurewha_bytes salt = {{kind, 1, 2}};
    yurewha_hash key = {};
    yurewha_hash_from_bytes(&salt, &key);
    Out<yurewha_hash> salted;
    if (is_done(wanted, YUREWHA_MEMORY,
                [&] { return yurewha_session_finish_with_salt(&handles[which], total, &salt, &salted); }))
        EXPECT(hash_from_c(*salted) == second::file_hash_of(nodes, hash_from_c(key)));
    else
        EXPECT(salted.is_untouched());
}

void Sessions::compare_taken(size_t which, uint64_t position)
{
    Out<bool> taken;
    if (is_done_without_memory(kept[which] ? YUREWHA_DONE : YUREWHA_EMPTY_HANDLE,
                               [&] { return yurewha_session_taken(&handles[which], position, &taken); }))
        EXPECT(*taken == (kept[which]->placed.count(position) != 0));
    else
        EXPECT(taken.is_untouched());
}

void Sessions::compare(size_t which)
{
    Out<size_t> count;
    if (is_done_without_memory(kept[which] ? YUREWHA_DONE : YUREWHA_EMPTY_HANDLE,
                               [&] { return yurewha_session_num_runs(&handles[which], &count); })) {
        seen(RUNS, *count);
        EXPECT(*count == runs_of(*kept[which]).size());
    } else {
        EXPECT(count.is_untouched());
    }
    compare_counts(which);
    compare_gap(which);
}

void Sessions::compare_counts(size_t which)
{
    const yurewha_status wanted = kept[which] ? YUREWHA_DONE : YUREWHA_EMPTY_HANDLE;
    Out<uint64_t> chunks, size;
    if (is_done_without_memory(wanted, [&] { return yurewha_session_num_chunks(&handles[which], &chunks); }))
        EXPECT(*chunks == kept[which]->placed.size());
    else
        EXPECT(chunks.is_untouched());
    if (is_done_without_memory(wanted, [&] { return yurewha_session_total_size(&handles[which], &size); })) {
        uint64_t sum = 0;
        for (const auto &[position, node] : kept[which]->placed)
            sum += node.size;
        EXPECT(*size == sum);
    } else {
        EXPECT(size.is_untouched());
    }
}

/* The first gap behind the first taken position, and the end of the positions that may be taken. */
void Sessions::compare_gap(size_t which)
{
    const uint64_t position = kept[which] && !kept[which]->placed.empty() ? kept[which]->placed.begin()->first : 0;
    uint64_t free_from = position, free_to = UINT64_MAX;
    while (kept[which] && kept[which]->placed.count(free_from) != 0)
        free_from++;
    if (kept[which] && kept[which]->placed.lower_bound(free_from) != kept[which]->placed.end())
        free_to = kept[which]->placed.lower_bound(free_from)->first;
    const yurewha_status wanted = !kept[which] ? YUREWHA_EMPTY_HANDLE : free_from < free_to ? YUREWHA_DONE : YUREWHA_ARGUMENTS;
    Out<uint64_t> first, end;
    if (is_done_without_memory(
            wanted, [&] { return yurewha_session_next_gap(&handles[which], position, UINT64_MAX, &first, &end); }))
        EXPECT(*first == free_from && *end == free_to);
    else
        EXPECT(first.is_untouched() && end.is_untouched());
}

/* Pushes each run to another session, and what would be adjacent to it, which is refused. */
void Sessions::push_runs(size_t which, yurewha_session *restored)
{
    yurewha_subtree range = {};
    uint64_t position = 0;
    for (size_t i = runs_of(*kept[which]).size(); i > 0; i--) {
        Out<uint64_t> first, end;
        is_done(YUREWHA_DONE, YUREWHA_MEMORY,
                [&] { return yurewha_session_run_from(&handles[which], position, &first, &end, &range); });
        is_done(YUREWHA_DONE, YUREWHA_MEMORY, [&] { return yurewha_session_push_run(restored, *first, *end, &range); });
        is_done(YUREWHA_ARGUMENTS, YUREWHA_MEMORY, [&] { return yurewha_session_push_run(restored, *end, *end + 1, &range); });
        position = *end;
    }
    begin_call();
    yurewha_subtree_free(&range);
    end_call();
}

/* The hashes that are known, each once. */
std::vector<yurewha_hash> Sessions::known_hashes(size_t which)
{
    Out<size_t> count;
    is_done_without_memory(YUREWHA_DONE, [&] { return yurewha_session_num_known_hashes(&handles[which], &count); });
    EXPECT(*count == kept[which]->hashes.size());
    std::vector<yurewha_hash> hashes(*count);
    is_done(YUREWHA_DONE, YUREWHA_MEMORY,
            [&] { return yurewha_session_known_hashes(&handles[which], hashes.data(), hashes.size()); });
    std::set<second::Hash> known;
    for (const yurewha_hash &hash : hashes)
        known.insert(hash_from_c(hash));
    EXPECT(known == kept[which]->hashes);
    std::vector<uint8_t> each(hashes.size());
    is_done_without_memory(YUREWHA_DONE, [&] {
        return yurewha_session_knows_each(&handles[which], hashes.data(), hashes.size(), each.data(), each.size());
    });
    EXPECT(each == std::vector<uint8_t>(hashes.size(), 1));
    const yurewha_hash other = {{hashes.empty() ? 1 : hashes[0].words[0], 2, 3, 4}};
    Out<bool> knows;
    is_done_without_memory(YUREWHA_DONE, [&] { return yurewha_session_knows(&handles[which], &other, &knows); });
    EXPECT(*knows == (kept[which]->hashes.count(hash_from_c(other)) != 0));
    return hashes;
}

/* Puts a session of the same runs and hashes in the place of another, so that it is compared from then on. */
void Sessions::restore(size_t which)
{
    const std::vector<yurewha_hash> hashes = known_hashes(which);
    yurewha_session restored = {};
    is_done(YUREWHA_DONE, YUREWHA_MEMORY, [&] { return yurewha_session_new(&restored); });
    push_runs(which, &restored);
    is_done(YUREWHA_DONE, YUREWHA_MEMORY,
            [&] { return yurewha_session_keep_hashes(&restored, hashes.data(), hashes.size()); });
    std::swap(handles[which], restored);
    begin_call();
    yurewha_session_free(&restored);
    end_call();
    known_hashes(which);
    Input nothing(nullptr, 0);
    hash(which, nothing, true);
}

/* Each run, and whether the positions next to it are taken, after the session was restored. */
void Sessions::compare_all()
{
    for (size_t which = 0; which < COUNT; which++) {
        compare(which);
        if (!kept[which])
            continue;
        restore(which);
        const Runs runs = runs_of(*kept[which]);
        uint64_t position = 0;
        for (size_t i = 0; i < runs.size(); i++) {
            Out<uint64_t> first, start, end;
            yurewha_subtree range = {};
            is_done(YUREWHA_DONE, YUREWHA_MEMORY, [&] { return yurewha_session_run(&handles[which], i, &first, &range); });
            EXPECT(*first == runs[i].first);
            is_done(YUREWHA_DONE, YUREWHA_MEMORY,
                    [&] { return yurewha_session_run_from(&handles[which], position, &start, &end, &range); });
            EXPECT(*start == *first && *end == *first + runs[i].second.size());
            position = *end;
            const second::Subtree wanted = second::canonical(runs[i].second, false, false);
            Out<size_t> levels, nodes;
            EXPECT(yurewha_subtree_num_levels(&range, &levels) == YUREWHA_DONE && *levels == wanted.levels.size());
            EXPECT(yurewha_subtree_num_nodes(&range, &nodes) == YUREWHA_DONE && *nodes == second::node_count(wanted));
            begin_call();
            yurewha_subtree_free(&range);
            end_call();
            compare_taken(which, runs[i].first);
            compare_taken(which, runs[i].first - 1);
            compare_taken(which, runs[i].first + runs[i].second.size());
        }
    }
}
