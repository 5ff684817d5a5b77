/* Lines of pairs, and lines of ranges. */
#include "lines.h"

#include <algorithm>

namespace second {
namespace {

constexpr unsigned BAD_LINE = 1, SIZES = 2, OVERLAP = 6, GAP = 7, BAD_RANGE = 8;

/* The contents of the lines; a last piece without a newline is one where it isn't empty. */
std::vector<std::string_view> lines_of(std::string_view text)
{
    std::vector<std::string_view> lines;
    while (!text.empty()) {
        const size_t length = std::min(text.find('\n'), text.size());
        lines.push_back(text.substr(0, length));
        text.remove_prefix(std::min(length + 1, text.size()));
    }
    return lines;
}

/* A number below 2^64 without a sign or leading zeros. */
std::optional<uint64_t> decimal(std::string_view text)
{
#ifdef PLANTED_LEADING_ZERO
    if (text.empty())
#else
    if (text.empty() || (text[0] == '0' && text.size() > 1))
#endif
        return {};
    uint64_t number = 0;
    for (const char c : text) {
        if (c < '0' || '9' < c)
            return {};
        const uint64_t digit = static_cast<uint64_t>(c - '0');
        if (number > (UINT64_MAX - digit) / 10)
            return {};
        number = 10 * number + digit;
    }
    return number;
}

/* The pair of a pair line or of a chunk line. */
std::optional<Node> pair_of(std::string_view line)
{
    if (!line.empty() && line[0] == '+')
        return Node{data_hash(line.substr(1)), line.size() - 1};
    if (line.size() < 66 || line[64] != ' ')
        return {};
    const std::optional<Hash> hash = from_hex(line.substr(0, 64));
    const std::optional<uint64_t> size = decimal(line.substr(65));
    return hash && size ? std::optional(Node{*hash, *size}) : std::nullopt;
}

std::string output_of(const Nodes &nodes)
{
    return "xorb " + hex_of(root_of(nodes)) + "\nfile " + hex_of(file_hash_of(nodes, {})) + "\n";
}

Answer fault(const char *program, unsigned number, size_t line = 0, unsigned rule = 0)
{
    Answer answer;
    answer.status = number;
    answer.printed = std::string(program) + ": fault " + std::to_string(number);
    if (line != 0)
        answer.printed += " at line " + std::to_string(line);
    if (rule != 0)
        answer.printed += ": rule " + std::to_string(rule);
    answer.printed += "\n";
    return answer;
}

Answer answer_with(std::string written)
{
    Answer answer;
    answer.written = std::move(written);
    return answer;
}

/* Some ranges one after the other: their size, and their list where each has one. */
struct Ranges {
    std::optional<Nodes> list = Nodes();
    uint64_t size = 0;
};

/* What the lines of ranges say, or the fault of the first faulty one. */
std::optional<Answer> read_ranges(std::string_view text, const Lists &lists, Ranges &ranges)
{
    size_t number = 0;
    for (const std::string_view line : lines_of(text)) {
        number++;
        const Reading read = read_subtree(line);
        if (!read.says_subtree() || read.subtree.at_start || read.subtree.at_end)
            return fault("xetrange", BAD_RANGE, number, read.is_json ? read.rule : 0);
        const std::optional<uint64_t> size = sum(ranges.size, total_size(read.subtree));
        if (!size)
            return fault("xetrange", SIZES, number);
        ranges.size = *size;
        const std::optional<Nodes> list = lists.list_of(read.subtree);
        ranges.list = ranges.list && list ? std::optional(joined(*ranges.list, *list)) : std::nullopt;
    }
    return {};
}

}  // namespace

std::string Lists::line_of(const Nodes &nodes)
{
    const std::string text = json_text(canonical(nodes, false, false));
    known[text] = nodes;
    return text + "\n";
}

std::optional<Nodes> Lists::list_of(const Subtree &subtree) const
{
    /* One level that is the whole list. */
    if (subtree.levels.size() == 1 && canonical(subtree.levels[0].left, false, false) == subtree)
        return subtree.levels[0].left;
    const auto found = known.find(json_text(subtree));
    return found != known.end() ? std::optional(found->second) : std::nullopt;
}

Answer answer_of_xetroot(std::string_view text)
{
    std::map<uint64_t, Node> placed;
    uint64_t next = 0, sizes = 0;
    size_t number = 0;
    for (const std::string_view line : lines_of(text)) {
        number++;
        if (line == "--")
            continue;
        if (!line.empty() && line[0] == '@') {
            const std::optional<uint64_t> position = decimal(line.substr(1));
            if (!position)
                return fault("xetroot", BAD_LINE, number);
            next = *position;
            continue;
        }
        const std::optional<Node> pair = pair_of(line);
#ifdef PLANTED_LAST_POSITION
        if (!pair)
#else
        if (!pair || next == UINT64_MAX)
#endif
            return fault("xetroot", BAD_LINE, number);
        if (placed.count(next) != 0)
            return fault("xetroot", OVERLAP, number);
        if (pair->size > UINT64_MAX - sizes)
            return fault("xetroot", SIZES, number);
        sizes += pair->size;
        placed[next++] = *pair;
    }
    Nodes nodes;
    for (const auto &[position, node] : placed) {
        if (position != nodes.size())
            return fault("xetroot", GAP);
        nodes.push_back(node);
    }
    return answer_with(output_of(nodes));
}

Answer answer_of_make(std::string_view text)
{
    Nodes nodes;
    size_t number = 0;
    for (const std::string_view line : lines_of(text)) {
        number++;
        if (line == "--")
            continue;
        const std::optional<Node> pair = pair_of(line);
        if (!pair)
            return fault("xetrange", BAD_LINE, number);
        nodes.push_back(*pair);
        if (!total_size(nodes))
            return fault("xetrange", SIZES, number);
    }
    return answer_with(json_text(canonical(nodes, false, false)) + "\n");
}

Answer answer_of_join(std::string_view text, const Lists &lists)
{
    Ranges ranges;
    if (const std::optional<Answer> found = read_ranges(text, lists, ranges))
        return *found;
    Answer answer = answer_with(ranges.list ? json_text(canonical(*ranges.list, false, false)) + "\n" : "");
    answer.is_known = ranges.list.has_value();
    answer.size = ranges.size;
    return answer;
}

Answer answer_of_root(std::string_view text, const Lists &lists)
{
    Ranges ranges;
    if (const std::optional<Answer> found = read_ranges(text, lists, ranges))
        return *found;
    Answer answer = answer_with(ranges.list ? output_of(*ranges.list) : "");
    answer.is_known = ranges.list.has_value();
    answer.size = ranges.size;
    return answer;
}

}  // namespace second
