/* Calls on subtrees. */
#include "../second/json.h"
#include "calls.h"

namespace {

constexpr size_t MOST_NODES = 700;

/* A list whose canonical subtree this is, where all of its nodes are there. */
std::optional<second::Nodes> list_of(const second::Subtree &subtree)
{
    const second::Nodes &nodes = subtree.levels[0].left;
    if (subtree.levels.size() == 1 && second::canonical(nodes, subtree.at_start, subtree.at_end) == subtree)
        return nodes;
    return {};
}

std::vector<std::pair<uint64_t, uint64_t>> counts_of(const second::Subtree &subtree)
{
    std::vector<std::pair<uint64_t, uint64_t>> counts;
    for (const second::Level &level : subtree.levels)
        counts.push_back({level.left.size(), level.right.size()});
    return counts;
}

uint64_t size_of(const Range &range) { return *second::total_size(range.subtree); }

/* What a merge of adjacent ranges should answer, and make: its levels are known where each range has a list. How many nodes the
 * ranges keep grows without end where one has none, and is merged with itself again and again. */
struct Merging {
    yurewha_status status = YUREWHA_DONE;
    Range merged = {{true, true, {}}, second::Nodes()};
    uint64_t size = 0;
    size_t nodes = 0;
    bool is_too_long() const { return (merged.list ? merged.list->size() : nodes) > MOST_NODES; }
};

Merging merging_of(const std::vector<const std::optional<Range> *> &ranges)
{
    Merging found;
    std::optional<uint64_t> size = 0;
    bool has_mark_between = false;
    for (size_t i = 0; i < ranges.size(); i++) {
        if (!*ranges[i])
            return {YUREWHA_EMPTY_HANDLE, {}, 0, 0};
        const Range &range = **ranges[i];
        has_mark_between |= (i > 0 && range.subtree.at_start) || (i + 1 < ranges.size() && range.subtree.at_end);
        size = second::sum(size, size_of(range));
        found.nodes += second::node_count(range.subtree);
        std::optional<second::Nodes> &list = found.merged.list;
        list = list && range.list ? std::optional(second::joined(*list, *range.list)) : std::nullopt;
    }
    if (has_mark_between || !size)
        return {has_mark_between ? YUREWHA_ARGUMENTS : YUREWHA_SIZES, {}, 0, 0};
    found.size = *size;
    second::Subtree &subtree = found.merged.subtree;
    subtree.at_start = ranges.empty() || (*ranges.front())->subtree.at_start;
    subtree.at_end = ranges.empty() || (*ranges.back())->subtree.at_end;
    if (found.merged.list && !found.is_too_long())
        subtree = second::canonical(*found.merged.list, subtree.at_start, subtree.at_end);
    return found;
}

/* How many parents a merge hashed: of lists it is known, and it is bounded for all. */
void compare_parents(const Range &front, const Range &back, const Range &merged, uint64_t parents)
{
    seen(PARENTS, parents);
    const size_t nodes = second::node_count(front.subtree) + second::node_count(back.subtree);
    EXPECT(2 * parents <= nodes + 2 * merged.subtree.levels.size());
    const bool at_start = front.subtree.at_start, at_end = back.subtree.at_end;
    if (merged.list)
        EXPECT(parents == second::work(*merged.list, at_start, at_end) - second::work(*front.list, at_start, false)
                              - second::work(*back.list, false, at_end));
}

/* The marks and flat lists of a subtree, with some changes. */
struct FlatLists {
    bool at_start, at_end;
    std::vector<std::pair<uint64_t, uint64_t>> counts;
    second::Nodes nodes;

    void change(Input &input)
    {
        const uint8_t kind = input.byte();
        const size_t where = input.byte();
        const uint64_t more = kind / 6;
        if (kind % 6 == 0)
            (kind & 8 ? at_start : at_end) ^= true;
        else if (kind % 6 == 1 && !counts.empty())
            (kind & 8 ? counts[where % counts.size()].first : counts[where % counts.size()].second) += kind & 16 ? 1 : -1ull;
        else if (kind % 6 == 2 && !nodes.empty())
            nodes[where % nodes.size()].hash[3] = more;
        else if (kind % 6 == 3)
            nodes.insert(nodes.begin() + static_cast<ptrdiff_t>(where % (nodes.size() + 1)), {{where, 0, 0, more}, kind});
        else if (kind % 6 == 4 && !nodes.empty())
            nodes[where % nodes.size()].size = drawn_number(input);
        else
            counts.insert(counts.begin() + static_cast<ptrdiff_t>(where % (counts.size() + 1)), {more % 3, where % 3});
    }
};

}  // namespace

Ranges::~Ranges()
{
    for (yurewha_subtree &handle : handles) {
        begin_call();
        yurewha_subtree_free(&handle);
        yurewha_subtree_free(&handle);
        EXPECT(end_call() == 0 && handle.at == nullptr);
    }
}

void Ranges::call(Input &input)
{
    switch (input.below(13)) {
    case 0:
    case 1:
        return from_chunks(input);
    case 2:
        return clone(input);
    case 3:
        return equal(input);
    case 4:
    case 5:
        return merge_into(input, false);
    case 6:
        return merge_into(input, true);
    case 7:
        return merge(input);
    case 8:
        return to_json(input);
    case 9:
        return from_json(input);
    case 10:
        return to_flat(input);
    case 11:
        return from_flat(input);
    default:
        return input.flag() ? move(input) : free(input);
    }
}

void Ranges::hold(size_t which, Range range)
{
    seen_subtree(range.subtree);
    kept[which] = std::move(range);
}

/* All that the library returns of a subtree is what the target keeps of it. */
void Ranges::compare(size_t which)
{
    compare_marks(which);
    compare_numbers(which);
    if (kept[which])
        EXPECT(read(which) == kept[which]->subtree);
}

void Ranges::compare_all()
{
    for (size_t which = 0; which < COUNT; which++)
        compare(which);
}

void Ranges::compare_marks(size_t which)
{
    const yurewha_status status = kept[which] ? YUREWHA_DONE : YUREWHA_EMPTY_HANDLE;
    Out<bool> at_start, at_end;
    Out<yurewha_hash> hash;
    const std::optional<second::Hash> wanted = kept[which] ? second::final_hash(kept[which]->subtree) : std::nullopt;
    if (is_done_without_memory(status, [&] { return yurewha_subtree_marks(&handles[which], &at_start, &at_end); }))
        EXPECT(*at_start == kept[which]->subtree.at_start && *at_end == kept[which]->subtree.at_end);
    else
        EXPECT(at_start.is_untouched() && at_end.is_untouched());
    if (is_done_without_memory(kept[which] && !wanted ? YUREWHA_ARGUMENTS : status,
                               [&] { return yurewha_subtree_final_hash(&handles[which], &hash); }))
        EXPECT(hash_from_c(*hash) == wanted);
    else
        EXPECT(hash.is_untouched());
}

void Ranges::compare_numbers(size_t which)
{
    const yurewha_status status = kept[which] ? YUREWHA_DONE : YUREWHA_EMPTY_HANDLE;
    Out<uint64_t> size;
    Out<size_t> nodes, levels;
    if (is_done_without_memory(status, [&] { return yurewha_subtree_total_size(&handles[which], &size); }))
        EXPECT(*size == size_of(*kept[which]));
    else
        EXPECT(size.is_untouched());
    if (is_done_without_memory(status, [&] { return yurewha_subtree_num_nodes(&handles[which], &nodes); }))
        EXPECT(*nodes == second::node_count(kept[which]->subtree));
    else
        EXPECT(nodes.is_untouched());
    if (is_done_without_memory(status, [&] { return yurewha_subtree_num_levels(&handles[which], &levels); }))
        EXPECT(*levels == kept[which]->subtree.levels.size());
    else
        EXPECT(levels.is_untouched());
}

/* A subtree by its flat lists, which are written to rooms of just their lengths. */
second::Subtree Ranges::read(size_t which)
{
    Out<size_t> level_count, node_count;
    Out<bool> at_start, at_end;
    yurewha_subtree *const handle = &handles[which];
    EXPECT(yurewha_subtree_marks(handle, &at_start, &at_end) == YUREWHA_DONE);
    EXPECT(yurewha_subtree_to_flat(handle, nullptr, 0, nullptr, 0, &level_count, &node_count) == YUREWHA_ROOM);
    yurewha_level *levels = fence(2).array<yurewha_level>(*level_count);
    yurewha_chunk *nodes = fence(3).array<yurewha_chunk>(*node_count);
    is_done_without_memory(YUREWHA_DONE, [&] {
        return yurewha_subtree_to_flat(handle, levels, *level_count, nodes, *node_count, &level_count, &node_count);
    });
    EXPECT(fence(2).is_untouched(*level_count * sizeof *levels) && fence(3).is_untouched(*node_count * sizeof *nodes));
    std::vector<std::pair<uint64_t, uint64_t>> counts;
    for (size_t i = 0; i < *level_count; i++)
        counts.push_back({levels[i].left, levels[i].right});
    second::Subtree subtree;
    EXPECT(second::read_flat(*at_start, counts, nodes_from_c(nodes, *node_count), *at_end, subtree) == 0);
    return subtree;
}

void Ranges::from_chunks(Input &input)
{
    const size_t which = input.below(COUNT);
    const uint8_t marks = input.byte();
    const bool at_start = marks & 1, at_end = marks & 2;
    const second::Nodes nodes = drawn_nodes(input);
    const yurewha_chunk *chunks = fenced_chunks(0, nodes);
    const yurewha_status status = second::total_size(nodes) ? YUREWHA_DONE : YUREWHA_SIZES;
    if (is_done(status, YUREWHA_MEMORY, [&] {
            return yurewha_subtree_from_chunks(at_start, chunks, nodes.size(), at_end, handle(which));
        }))
        hold(which, {second::canonical(nodes, at_start, at_end), nodes});
    compare(which);
}

void Ranges::clone(Input &input)
{
    const size_t from = input.below(COUNT), to = (from + 1 + input.below(COUNT - 1)) % COUNT;
    if (is_done(kept[from] ? YUREWHA_DONE : YUREWHA_EMPTY_HANDLE, YUREWHA_MEMORY,
                [&] { return yurewha_subtree_clone(handle(from), handle(to)); }))
        kept[to] = kept[from];
    compare(from);
    compare(to);
}

void Ranges::equal(Input &input)
{
    const size_t first = input.below(COUNT), other = (first + 1 + input.below(COUNT - 1)) % COUNT;
    const bool are_there = kept[first] && kept[other];
    Out<bool> equal;
    if (is_done_without_memory(are_there ? YUREWHA_DONE : YUREWHA_EMPTY_HANDLE,
                               [&] { return yurewha_subtree_equal(handle(first), handle(other), &equal); }))
        EXPECT(*equal == (kept[first]->subtree == kept[other]->subtree));
    else
        EXPECT(equal.is_untouched());
}

/* Takes over what a merge left. Of lists it is known, and else it keeps its marks, its size and the rules. */
void Ranges::take_merged(size_t which, const Range &wanted, uint64_t size)
{
    const second::Subtree found = read(which);
    EXPECT(found.at_start == wanted.subtree.at_start && found.at_end == wanted.subtree.at_end);
    EXPECT(second::total_size(found) == size);
    EXPECT(!wanted.list || found == wanted.subtree);
    hold(which, {found, wanted.list});
}

void Ranges::merge_into(Input &input, bool is_counted)
{
    const size_t front = input.below(COUNT), back = (front + 1 + input.below(COUNT - 1)) % COUNT;
    const Merging wanted = merging_of({&kept[front], &kept[back]});
    if (wanted.is_too_long())
        return;
    Out<uint64_t> parents;
    const bool done = is_done(wanted.status, YUREWHA_MEMORY, [&] {
        return is_counted ? yurewha_subtree_merge_into_counted(handle(front), handle(back), &parents)
                          : yurewha_subtree_merge_into(handle(front), handle(back));
    });
    EXPECT((done && is_counted) || parents.is_untouched());
    if (done) {
        const Range before = *kept[front];
        take_merged(front, wanted.merged, wanted.size);
        if (is_counted)
            compare_parents(before, *kept[back], *kept[front], *parents);
    }
    compare(front);
    compare(back);
}

/* Merges adjacent handles to one that isn't among them. */
void Ranges::merge(Input &input)
{
    const size_t first = input.below(COUNT - 1), count = input.below(COUNT - first), to = first + count;
    std::vector<const std::optional<Range> *> ranges;
    for (size_t i = first; i < to; i++)
        ranges.push_back(&kept[i]);
    const Merging wanted = merging_of(ranges);
    if (wanted.is_too_long())
        return;
    if (is_done(wanted.status, YUREWHA_MEMORY,
                [&] { return yurewha_subtree_merge(count == 0 ? nullptr : &handles[first], count, handle(to)); })) {
        take_merged(to, wanted.merged, wanted.size);
        EXPECT(count != 1 || kept[to]->subtree == kept[first]->subtree);
    }
    compare_all();
}

/* Writes the text to more room than it needs, to just enough, or to less. */
void Ranges::to_json(Input &input)
{
    const size_t which = input.below(COUNT);
    const int more = static_cast<int>(input.below(5)) - 2;
    const std::string wanted = kept[which] ? second::json_text(kept[which]->subtree) : "";
    const size_t room = more < 0 && wanted.empty() ? 0 : wanted.size() + static_cast<size_t>(more);
    char *text = fence(0).array<char>(room);
    Out<size_t> length;
    const yurewha_status status = !kept[which] ? YUREWHA_EMPTY_HANDLE : more < 0 ? YUREWHA_ROOM : YUREWHA_DONE;
    yurewha_status found = YUREWHA_DONE;
    if (is_done(status, YUREWHA_MEMORY,
                [&] { return found = yurewha_subtree_to_json(handle(which), text, room, &length); })) {
        EXPECT(*length == wanted.size() && wanted == std::string_view(text, *length));
        EXPECT(fence(0).is_untouched(*length));
    } else {
        EXPECT(fence(0).is_untouched());
        EXPECT(found == YUREWHA_ROOM ? *length == wanted.size() : length.is_untouched());
    }
    compare(which);
}

/* Reads the text of another subtree. */
void Ranges::from_json(Input &input)
{
    const size_t from = input.below(COUNT), to = input.below(COUNT);
    const std::string text = kept[from] ? second::json_text(kept[from]->subtree) : "null";
    const char *copy = fenced_text(0, text);
    if (is_done(kept[from] ? YUREWHA_DONE : YUREWHA_RULE + 1, YUREWHA_MEMORY,
                [&] { return yurewha_subtree_from_json(copy, text.size(), handle(to)); }))
        kept[to] = kept[from];
    compare(to);
}

void Ranges::to_flat(Input &input)
{
    const size_t which = input.below(COUNT);
    const bool is_lacking[2] = {input.flag(), input.flag()};
    const size_t level_count = kept[which] ? kept[which]->subtree.levels.size() : 1;
    const size_t node_count = kept[which] ? second::node_count(kept[which]->subtree) : 1;
    const bool lacks = is_lacking[0] || (is_lacking[1] && node_count > 0);
    const size_t level_room = level_count - is_lacking[0], node_room = node_count - (is_lacking[1] && node_count > 0);
    yurewha_level *levels = fence(2).array<yurewha_level>(level_room);
    yurewha_chunk *nodes = fence(3).array<yurewha_chunk>(node_room);
    Out<size_t> levels_told, nodes_told;
    if (is_done_without_memory(!kept[which] ? YUREWHA_EMPTY_HANDLE : lacks ? YUREWHA_ROOM : YUREWHA_DONE, [&] {
            return yurewha_subtree_to_flat(handle(which), levels, level_room, nodes, node_room, &levels_told, &nodes_told);
        }))
        EXPECT(nodes_from_c(nodes, node_room) == second::flat_nodes(kept[which]->subtree));
    else
        EXPECT(fence(2).is_untouched() && fence(3).is_untouched());
    if (kept[which])
        EXPECT(*levels_told == level_count && *nodes_told == node_count);
    else
        EXPECT(levels_told.is_untouched() && nodes_told.is_untouched());
    compare(which);
}

/* Reads the lists of another subtree, with some changes. */
void Ranges::from_flat(Input &input)
{
    const size_t from = input.below(COUNT), to = input.below(COUNT);
    const second::Subtree subtree = kept[from] ? kept[from]->subtree : second::Subtree{};
    FlatLists lists = {subtree.at_start, subtree.at_end, counts_of(subtree), second::flat_nodes(subtree)};
    for (size_t changes = input.below(5); changes > 0; changes--)
        lists.change(input);
    const yurewha_chunk *nodes = fenced_chunks(0, lists.nodes);
    yurewha_level *levels = fence(1).array<yurewha_level>(lists.counts.size());
    for (size_t i = 0; i < lists.counts.size(); i++)
        levels[i] = {lists.counts[i].first, lists.counts[i].second};
    second::Subtree wanted;
    const unsigned rule = second::read_flat(lists.at_start, lists.counts, lists.nodes, lists.at_end, wanted);
    if (is_done(rule == 0 ? YUREWHA_DONE : YUREWHA_RULE + rule, YUREWHA_MEMORY, [&] {
            return yurewha_subtree_from_flat(lists.at_start, levels, lists.counts.size(), nodes, lists.nodes.size(),
                                             lists.at_end, handle(to));
        }))
        hold(to, {wanted, kept[from] && wanted == subtree ? kept[from]->list : list_of(wanted)});
    compare(to);
}

/* A handle may be moved by copying its bytes. */
void Ranges::move(Input &input)
{
    const size_t first = input.below(COUNT), other = input.below(COUNT);
    std::swap(handles[first], handles[other]);
    std::swap(kept[first], kept[other]);
}

void Ranges::free(Input &input)
{
    const size_t which = input.below(COUNT);
    begin_call();
    yurewha_subtree_free(handle(which));
    EXPECT(end_call() == 0 && handles[which].at == nullptr);
    kept[which].reset();
    compare(which);
}
