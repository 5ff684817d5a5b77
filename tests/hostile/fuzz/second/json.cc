/* Subtrees as JSON. */
#include "json.h"

#include "json_value.h"

namespace second {
namespace {

/* Rule 4, of one level. */
bool read_counts(const Value &value, std::pair<uint64_t, uint64_t> &counts)
{
    if (value.kind != Value::ARRAY || value.items.size() != 2 || value.items[0].kind != Value::WHOLE
        || value.items[1].kind != Value::WHOLE)
        return false;
    counts = {value.items[0].whole, value.items[1].whole};
    return true;
}

/* The least rule that a value breaks, or 0 and the subtree. */
unsigned read_value(const Value &value, Subtree &subtree)
{
    if (value.kind != Value::OBJECT)
        return 1;
    const Value *at_start = member(value, "at_start", Value::TRUTH), *at_end = member(value, "at_end", Value::TRUTH);
    const Value *levels = member(value, "levels", Value::ARRAY), *nodes = member(value, "nodes", Value::ARRAY);
    if (!at_start || !at_end || !levels || !nodes)
        return 2;
    Nodes flat;
    if (!read_nodes(*nodes, flat))
        return 3;
    std::vector<std::pair<uint64_t, uint64_t>> counts(levels->items.size());
    for (size_t i = 0; i < counts.size(); i++)
        if (!read_counts(levels->items[i], counts[i]))
            return 4;
    return read_flat(at_start->truth, counts, flat, at_end->truth, subtree);
}

const char *truth_text(bool truth) { return truth ? "true" : "false"; }

}  // namespace

Reading read_subtree(std::string_view text)
{
    Reading reading;
    const std::optional<Value> value = read_json(text);
    reading.is_json = value.has_value();
    if (value)
        reading.rule = read_value(*value, reading.subtree);
    return reading;
}

std::string json_text(const Subtree &subtree)
{
    std::string text = "{\"at_end\":";
    text += truth_text(subtree.at_end);
    text += ",\"at_start\":";
    text += truth_text(subtree.at_start);
    text += ",\"levels\":[";
    const char *between = "";
    for (const Level &level : subtree.levels) {
        text += between + ("[" + std::to_string(level.left.size())) + "," + std::to_string(level.right.size()) + "]";
        between = ",";
    }
    return text + "],\"nodes\":" + nodes_text(flat_nodes(subtree)) + "}";
}

}  // namespace second
