/* Range proofs. */
#include "proof.h"

#include "json_value.h"

#include <algorithm>

namespace second {
namespace {

constexpr size_t MOST_LEVELS = 64;
#ifdef PLANTED_NINTH_NODE
constexpr size_t LONGEST_SIDE = 9;
#else
constexpr size_t LONGEST_SIDE = 8;
#endif

uint64_t size_of(const Nodes &nodes) { return *total_size(nodes); }

/* The rules 1 to 4, of a value. */
unsigned read_value(const Value &value, Proof &proof)
{
    if (value.kind != Value::OBJECT)
        return 1;
    const Value *chunks = member(value, "chunks", Value::ARRAY), *levels = member(value, "levels", Value::ARRAY);
    if (!chunks || !levels)
        return 2;
    for (const Value &level : levels->items)
        if (level.kind != Value::OBJECT || !member(level, "left", Value::ARRAY) || !member(level, "right", Value::ARRAY))
            return 3;
    if (!read_nodes(*chunks, proof.chunks))
        return 4;
    for (const Value &level : levels->items) {
        proof.levels.emplace_back();
        if (!read_nodes(*member(level, "left", Value::ARRAY), proof.levels.back().left)
            || !read_nodes(*member(level, "right", Value::ARRAY), proof.levels.back().right))
            return 4;
    }
    return broken_rule(proof);
}

}  // namespace

bool operator==(const Proof &first, const Proof &second)
{
    return first.chunks == second.chunks && first.levels == second.levels;
}

Proof prove(const Nodes &nodes, size_t first, size_t end)
{
    Proof proof = {part(nodes, first, end), {}};
    for (Nodes level = nodes; level.size() > 1; level = parents_of(level)) {
        const std::vector<size_t> bounds = group_bounds(level);
        const auto from = std::upper_bound(bounds.begin(), bounds.end(), first) - 1;
        const auto to = std::lower_bound(bounds.begin(), bounds.end(), end);
        proof.levels.push_back({part(level, *from, first), part(level, end, *to)});
        first = static_cast<size_t>(from - bounds.begin());
        end = static_cast<size_t>(to - bounds.begin());
    }
    return proof;
}

std::optional<std::pair<size_t, size_t>> chunks_at(const Nodes &nodes, uint64_t from, uint64_t to)
{
    std::optional<std::pair<size_t, size_t>> found;
    uint64_t begin = 0;
    for (size_t i = 0; i < nodes.size(); i++) {
        const uint64_t end = begin + nodes[i].size;
        if (std::max(begin, from) < std::min(end, to))
            found = {found ? found->first : i, i + 1};
        begin = end;
    }
    return found;
}

unsigned broken_rule(const Proof &proof)
{
    const auto is_long = [](const Level &it) { return it.left.size() > LONGEST_SIDE || it.right.size() > LONGEST_SIDE; };
    if (proof.chunks.empty())
        return 5;
    if (proof.levels.size() > MOST_LEVELS)
        return 6;
    if (std::any_of(proof.levels.begin(), proof.levels.end(), is_long))
        return 7;
    return total_size(flat_nodes(proof)) ? 0 : 8;
}

Nodes flat_nodes(const Proof &proof)
{
    Nodes flat;
    for (const Level &level : proof.levels)
        flat = joined(std::move(flat), level.left);
    flat = joined(std::move(flat), proof.chunks);
    for (size_t i = proof.levels.size(); i > 0; i--)
        flat = joined(std::move(flat), proof.levels[i - 1].right);
    return flat;
}

unsigned read_flat(const std::vector<std::pair<uint64_t, uint64_t>> &counts, const Nodes &nodes, Proof &proof)
{
    std::optional<uint64_t> all = 0;
    for (const auto &[left, right] : counts)
        all = sum(sum(all, left), right);
    if (!all || *all >= nodes.size())
        return 5;
    size_t from = 0, to = nodes.size();
    for (const auto &[left, right] : counts) {
        proof.levels.push_back({part(nodes, from, from + left), part(nodes, to - right, to)});
        from += left;
        to -= right;
    }
    proof.chunks = part(nodes, from, to);
    return broken_rule(proof);
}

ProofReading read_proof(std::string_view text)
{
    ProofReading reading;
    const std::optional<Value> value = read_json(text);
    reading.is_json = value.has_value();
    if (value)
        reading.rule = read_value(*value, reading.proof);
    return reading;
}

std::string json_text(const Proof &proof)
{
    std::string text = "{\"chunks\":" + nodes_text(proof.chunks) + ",\"levels\":[";
    const char *between = "";
    for (const Level &level : proof.levels) {
        text += between + ("{\"left\":" + nodes_text(level.left)) + ",\"right\":" + nodes_text(level.right) + "}";
        between = ",";
    }
    return text + "]}";
}

std::optional<Hash> top(const Proof &proof)
{
    Nodes path = proof.chunks;
    for (const Level &level : proof.levels)
        path = parents_of(joined(joined(level.left, path), level.right));
#ifdef PLANTED_FIRST_AT_TOP
    return path[0].hash;
#else
    return path.size() == 1 ? std::optional(path[0].hash) : std::nullopt;
#endif
}

bool shows_root(const Proof &proof, const Hash &root) { return root != Hash{} && top(proof) == root; }

bool shows(const Proof &proof, const Hash &file_hash, const Hash &salt)
{
    const std::optional<Hash> root = top(proof);
    return root && file_hash != Hash{} && hmac(*root, salt) == file_hash;
}

uint64_t begins(const Proof &proof, size_t chunk)
{
    uint64_t place = size_of(part(proof.chunks, 0, chunk));
    for (const Level &level : proof.levels)
        place += size_of(level.left);
    return place;
}

uint64_t file_size(const Proof &proof) { return size_of(flat_nodes(proof)); }

std::optional<uint64_t> check(const Proof &proof, size_t chunk, std::string_view data)
{
    if (chunk >= proof.chunks.size() || !(proof.chunks[chunk] == Node{data_hash(data), data.size()}))
        return {};
    return begins(proof, chunk);
}

std::optional<size_t> read(const Proof &proof, uint64_t from, uint64_t to, std::string_view data)
{
    for (const Node &node : proof.chunks) {
        if (data.size() < node.size || data_hash(data.substr(0, node.size)) != node.hash)
            return {};
        data.remove_prefix(node.size);
    }
    const uint64_t begin = begins(proof, 0), end = begins(proof, proof.chunks.size());
    if (!data.empty() || from < begin || to < from || end < to)
        return {};
    return from - begin;
}

}  // namespace second
