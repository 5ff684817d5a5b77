/* Groups, roots, stable points and canonical subtrees. */
#include "merkle.h"

#include <algorithm>
#include <unordered_map>

namespace second {
namespace {

constexpr size_t SHORTEST_GROUP = 3, LONGEST_GROUP = 9, SHORTEST_GAP = 3;
#ifdef PLANTED_LONG_GAP
constexpr size_t LONGEST_GAP = 8;
#else
constexpr size_t LONGEST_GAP = 7;
#endif

#ifdef PLANTED_CUT
constexpr uint64_t CUT = 1;
#else
constexpr uint64_t CUT = 0;
#endif

bool is_cut(const Node &node) { return node.hash[3] % 4 == CUT; }

/* How many nodes from `first` on are a group. */
size_t group_length(const Nodes &nodes, size_t first)
{
    const size_t most = std::min(LONGEST_GROUP, nodes.size() - first);
    for (size_t length = SHORTEST_GROUP; length < most; length++)
        if (is_cut(nodes[first + length - 1]))
            return length;
    return most;
}

/* The hash of a text. It is remembered, because the same groups are hashed many times. */
Hash hash_of_group(const std::string &text)
{
    static std::unordered_map<std::string, Hash> told;
    if (told.size() > 20000)
        told.clear();
    const auto found = told.find(text);
    return found != told.end() ? found->second : told[text] = internal_node_hash(text);
}

Node parent_of(const Nodes &nodes, size_t first, size_t length)
{
    std::string text;
    uint64_t size = 0;
    for (size_t i = first; i < first + length; i++) {
        text += hex_of(nodes[i].hash) + " : " + std::to_string(nodes[i].size) + "\n";
        size += nodes[i].size;
    }
    return {hash_of_group(text), size};
}

struct Triple {
    size_t a, b, c;
    size_t point() const { return b + 1; }
};

std::vector<size_t> cuts_of(const Nodes &nodes)
{
    std::vector<size_t> cuts;
    for (size_t i = 0; i < nodes.size(); i++)
        if (is_cut(nodes[i]))
            cuts.push_back(i);
    return cuts;
}

bool is_stable_gap(size_t from, size_t to) { return SHORTEST_GAP <= to - from && to - from <= LONGEST_GAP; }

/* Three natural cuts, without one between them. */
std::vector<Triple> stable_triples(const Nodes &nodes)
{
    const std::vector<size_t> cuts = cuts_of(nodes);
    std::vector<Triple> found;
    for (size_t i = 2; i < cuts.size(); i++)
        if (is_stable_gap(cuts[i - 2], cuts[i - 1]) && is_stable_gap(cuts[i - 1], cuts[i]))
            found.push_back({cuts[i - 2], cuts[i - 1], cuts[i]});
    return found;
}

/* Where the middle begins and ends. */
std::optional<std::pair<size_t, size_t>> split(const Nodes &nodes, bool at_start, bool at_end)
{
    if (nodes.size() < 2)
        return {};
    const std::vector<Triple> triples = stable_triples(nodes);
    if (triples.empty() && !(at_start && at_end))
        return {};
    const size_t from = at_start ? 0 : triples.front().point();
    if (at_end)
        return {{from, nodes.size()}};
    for (size_t i = triples.size(); i > 0; i--)
        if (triples[i - 1].a >= from)
            return {{from, triples[i - 1].point()}};
    return {};
}

/* Rule 12, of one level: the side ends as before a first stable point, and has none. */
bool left_side_is_lawful(const Nodes &side)
{
    const std::vector<size_t> cuts = cuts_of(side);
    const size_t count = cuts.size();
    return count >= 2 && cuts[count - 1] == side.size() - 1 && is_stable_gap(cuts[count - 2], cuts[count - 1])
           && stable_triples(side).empty();
}

/* Rule 13, of one level: the side begins as after a last stable point, and has none after a natural cut. */
bool right_side_is_lawful(const Nodes &side)
{
#ifdef PLANTED_RULE
    const Nodes front;
#else
    const Nodes front = {{{0, 0, 0, CUT}, 0}};
#endif
    const std::vector<size_t> cuts = cuts_of(side);
    return !cuts.empty() && is_stable_gap(0, cuts[0] + 1) && stable_triples(joined(front, side)).empty();
}

/* The least broken rule of the levels of a subtree, which has a level; 0 if there is none. */
unsigned broken_level_rule(const Subtree &subtree)
{
    const Level &top = subtree.levels.back();
    const auto below = subtree.levels.end() - 1;
    const auto some_below = [&](auto &&holds) { return std::any_of(subtree.levels.begin(), below, holds); };
    if (!top.right.empty() || (subtree.at_end && some_below([](const Level &it) { return !it.right.empty(); })))
        return 8;
    if (subtree.at_start && some_below([](const Level &it) { return !it.left.empty(); }))
        return 9;
    if (subtree.at_start && subtree.at_end && top.left.size() > 1)
        return 10;
    if (subtree.levels.size() > 1 && top.left.empty())
        return 11;
    if (!subtree.at_start && some_below([](const Level &it) { return !left_side_is_lawful(it.left); }))
        return 12;
    if (!subtree.at_end && some_below([](const Level &it) { return !right_side_is_lawful(it.right); }))
        return 13;
    return 0;
}

}  // namespace

bool operator==(const Node &first, const Node &second) { return first.hash == second.hash && first.size == second.size; }

bool operator==(const Level &first, const Level &second) { return first.left == second.left && first.right == second.right; }

bool operator==(const Subtree &first, const Subtree &second)
{
    return first.at_start == second.at_start && first.at_end == second.at_end && first.levels == second.levels;
}

Nodes joined(Nodes first, const Nodes &second)
{
    first.insert(first.end(), second.begin(), second.end());
    return first;
}

std::optional<uint64_t> sum(std::optional<uint64_t> first, std::optional<uint64_t> second)
{
    if (!first || !second || *second > UINT64_MAX - *first)
        return {};
    return *first + *second;
}

std::optional<uint64_t> total_size(const Nodes &nodes)
{
    std::optional<uint64_t> total = 0;
    for (const Node &node : nodes)
        total = sum(total, node.size);
    return total;
}

std::optional<uint64_t> total_size(const Subtree &subtree) { return total_size(flat_nodes(subtree)); }

size_t node_count(const Subtree &subtree)
{
    size_t count = 0;
    for (const Level &level : subtree.levels)
        count += level.left.size() + level.right.size();
    return count;
}

Nodes part(const Nodes &nodes, size_t from, size_t to)
{
    return Nodes(nodes.begin() + static_cast<ptrdiff_t>(from), nodes.begin() + static_cast<ptrdiff_t>(to));
}

std::vector<size_t> group_bounds(const Nodes &nodes)
{
    std::vector<size_t> bounds = {0};
    while (bounds.back() < nodes.size())
        bounds.push_back(bounds.back() + group_length(nodes, bounds.back()));
    return bounds;
}

Nodes parents_of(const Nodes &nodes)
{
    const std::vector<size_t> bounds = group_bounds(nodes);
    Nodes parents;
    for (size_t i = 1; i < bounds.size(); i++)
        parents.push_back(parent_of(nodes, bounds[i - 1], bounds[i] - bounds[i - 1]));
    return parents;
}

Hash root_of(const Nodes &nodes)
{
    if (nodes.empty())
        return {};
    return nodes.size() == 1 ? nodes[0].hash : root_of(parents_of(nodes));
}

Hash file_hash_of(const Nodes &nodes, const Hash &salt) { return nodes.empty() ? Hash{} : hmac(root_of(nodes), salt); }

std::optional<size_t> first_stable_point(const Nodes &nodes)
{
    const std::vector<Triple> triples = stable_triples(nodes);
    return triples.empty() ? std::nullopt : std::optional(triples.front().point());
}

std::optional<size_t> last_stable_point(const Nodes &nodes)
{
    const std::vector<Triple> triples = stable_triples(nodes);
    return triples.empty() ? std::nullopt : std::optional(triples.back().point());
}

Subtree canonical(const Nodes &nodes, bool at_start, bool at_end)
{
    Subtree subtree = {at_start, at_end, {}};
    Nodes level = nodes;
    while (const auto middle = split(level, at_start, at_end)) {
        const auto [from, to] = *middle;
        subtree.levels.push_back({part(level, 0, from), part(level, to, level.size())});
        level = parents_of(part(level, from, to));
    }
    subtree.levels.push_back({level, {}});
    return subtree;
}

uint64_t work(const Nodes &nodes, bool at_start, bool at_end)
{
    uint64_t made = 0;
    Nodes level = nodes;
    while (const auto middle = split(level, at_start, at_end)) {
        level = parents_of(part(level, middle->first, middle->second));
        made += level.size();
    }
    return made;
}

std::optional<Hash> final_hash(const Subtree &subtree)
{
    if (!subtree.at_start || !subtree.at_end)
        return {};
    const Nodes &top = subtree.levels.back().left;
    return top.empty() ? Hash{} : top[0].hash;
}

Nodes flat_nodes(const Subtree &subtree)
{
    Nodes flat;
    for (const Level &level : subtree.levels)
        flat.insert(flat.end(), level.left.begin(), level.left.end());
    for (size_t i = subtree.levels.size(); i > 0; i--)
        flat.insert(flat.end(), subtree.levels[i - 1].right.begin(), subtree.levels[i - 1].right.end());
    return flat;
}

unsigned read_flat(bool at_start, const std::vector<std::pair<uint64_t, uint64_t>> &counts, const Nodes &nodes, bool at_end,
                   Subtree &subtree)
{
    if (counts.empty())
        return 5;
    std::optional<uint64_t> all = 0;
    for (const auto &[left, right] : counts)
        all = sum(sum(all, left), right);
    if (all != nodes.size())
        return 6;
    subtree = {at_start, at_end, std::vector<Level>(counts.size())};
    size_t at = 0;
    for (size_t i = 0; i < counts.size(); at += counts[i++].first)
        subtree.levels[i].left = part(nodes, at, at + counts[i].first);
    for (size_t i = counts.size(); i > 0; at += counts[--i].second)
        subtree.levels[i - 1].right = part(nodes, at, at + counts[i - 1].second);
    return broken_rule(subtree);
}

unsigned broken_rule(const Subtree &subtree)
{
    if (subtree.levels.empty())
        return 5;
    if (!total_size(subtree))
        return 7;
    return broken_level_rule(subtree);
}

}  // namespace second
