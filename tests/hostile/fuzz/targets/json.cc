/* JSON texts of subtrees. */
#include "../second/json.h"
#include "spelling.h"

namespace {

class SubtreeSpelling : Spelling {
public:
    using Spelling::Spelling;

    std::string text()
    {
        const uint8_t marks = input.byte();
        const second::Subtree subtree = some_subtree(marks & 1, marks & 2);
        std::string levels;
        for (const second::Level &level : subtree.levels)
            levels += (levels.empty() ? "" : ",") + array(number(level.left.size()) + "," + number(level.right.size()));
        const std::string nodes = spelled_nodes(second::flat_nodes(subtree));
        std::string members = member("at_end", truth(marks & 2)) + "," + member("at_start", truth(marks & 1));
        members += "," + member("levels", array(levels)) + "," + member("nodes", array(nodes));
        if (odd())
            members += "," + member("at_end", truth(input.flag()));
        if (odd())
            members = member("more", nested()) + "," + members;
        return space() + "{" + members + "}" + space();
    }

private:
    /* A canonical one, or one of random levels; in either some nodes may be changed. */
    second::Subtree some_subtree(bool at_start, bool at_end)
    {
        second::Subtree subtree = {at_start, at_end, {}};
        if (input.flag())
            subtree = second::canonical(list_that_fits(), at_start, at_end);
        else
            for (size_t levels = 1 + input.below(4); levels > 0; levels--)
                subtree.levels.push_back({at_start && levels > 1 ? second::Nodes() : drawn_nodes(input),
                                          at_end || levels == 1 ? second::Nodes() : drawn_nodes(input)});
        for (size_t changes = input.below(3); changes > 0; changes--)
            change(subtree.levels[input.below(subtree.levels.size())]);
        return subtree;
    }

    second::Nodes list_that_fits()
    {
        const second::Nodes nodes = drawn_nodes(input);
        return second::total_size(nodes) ? nodes : second::Nodes();
    }

    void change(second::Level &level)
    {
        second::Nodes &side = input.flag() ? level.left : level.right;
        const size_t where = input.below(side.size() + 1);
        const uint64_t word = input.byte();
        if (where == side.size())
            side.push_back({{word, 0, 0, word % 8}, word});
        else if (word < 0x80)
            side[where].hash[3] = word;
        else if (word < 0xC0)
            side.erase(side.begin() + static_cast<ptrdiff_t>(where));
        else
            side[where].size = drawn_number(input);
    }
};

/* The handle holds a subtree that was read. All that the library returns of it is what the second reading has. */
void compare_subtree(yurewha_subtree &handle, const second::Subtree &wanted)
{
    const std::string text = second::json_text(wanted);
    char *room = fence(1).array<char>(text.size());
    Out<size_t> length, levels, nodes;
    is_done(YUREWHA_DONE, YUREWHA_MEMORY, [&] { return yurewha_subtree_to_json(&handle, room, text.size(), &length); });
    EXPECT(*length == text.size() && text == std::string_view(room, *length) && fence(1).is_untouched(*length));
    Out<uint64_t> size;
    EXPECT(yurewha_subtree_total_size(&handle, &size) == YUREWHA_DONE && *size == second::total_size(wanted));
    EXPECT(yurewha_subtree_num_levels(&handle, &levels) == YUREWHA_DONE && *levels == wanted.levels.size());
    EXPECT(yurewha_subtree_num_nodes(&handle, &nodes) == YUREWHA_DONE && *nodes == second::node_count(wanted));
    Out<yurewha_hash> hash;
    const std::optional<second::Hash> final_hash = second::final_hash(wanted);
    if (is_done_without_memory(final_hash ? YUREWHA_DONE : YUREWHA_ARGUMENTS,
                               [&] { return yurewha_subtree_final_hash(&handle, &hash); }))
        EXPECT(hash_from_c(*hash) == final_hash);
    seen_subtree(wanted);
}

void compare(std::string_view text, yurewha_subtree &handle, second::Subtree &kept)
{
    const second::Reading read = second::read_subtree(text);
    const yurewha_status status = !read.is_json ? YUREWHA_TEXT : read.rule != 0 ? YUREWHA_RULE + read.rule : YUREWHA_DONE;
    const char *copy = fenced_text(0, text);
    if (is_done(status, YUREWHA_MEMORY, [&] { return yurewha_subtree_from_json(copy, text.size(), &handle); }))
        kept = read.subtree;
    compare_subtree(handle, kept);
}

}  // namespace

/* The first byte says whether the others are a text, or spell one, and which request is refused. */
extern "C" int LLVMFuzzerTestOneInput(const uint8_t *data, size_t size)
{
    Input input(data, size);
    const uint8_t kind = input.byte();
    const std::string text = kind & 1 ? SubtreeSpelling(input).text() : std::string(input.rest());
    second::Subtree kept = second::canonical({{{7, 7, 7, 7}, 7}}, true, false);
    const yurewha_chunk chunk = {{{7, 7, 7, 7}}, 7};
    yurewha_subtree handle = {};
    EXPECT(is_done(YUREWHA_DONE, YUREWHA_MEMORY, [&] { return yurewha_subtree_from_chunks(true, &chunk, 1, false, &handle); }));
    if (kind >= 0xC0)
        refuse_next(1 + kind / 4 % 16, kind & 2);
    compare(text, handle, kept);
    begin_call();
    yurewha_subtree_free(&handle);
    end_call();
    EXPECT(live_blocks() == 0);
    return 0;
}
