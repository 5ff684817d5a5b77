/* Range proofs from a stranger: JSON texts and flat lists, the hashes that they are opened with, and the data that is checked. */
#include "../second/proof.h"
#include "spelling.h"

namespace {

using Counts = std::vector<std::pair<uint64_t, uint64_t>>;

/* A file of short chunks, whose data is known, or a list of nodes without data; and the proof of a range of it, with some changes. */
struct Given {
    std::vector<std::string> data;
    second::Nodes list;
    size_t first = 0;
    second::Proof proof;
};

second::Nodes *side_of(second::Proof &proof, Input &input)
{
    const size_t which = input.below(1 + 2 * proof.levels.size());
    if (which == 0)
        return &proof.chunks;
    second::Level &level = proof.levels[(which - 1) / 2];
    return which % 2 ? &level.left : &level.right;
}

void change(second::Proof &proof, Input &input)
{
    second::Nodes &side = *side_of(proof, input);
    const size_t where = input.below(side.size() + 1);
    const auto level = proof.levels.begin() + static_cast<ptrdiff_t>(input.below(proof.levels.size() + 1));
    const uint8_t how = input.byte();
    if (how < 0x20)
        side.insert(side.begin() + static_cast<ptrdiff_t>(where), {{how, 0, 0, how}, how});
    else if (how < 0x30)
        proof.levels.insert(level, how & 1, second::Level());
    else if (how < 0x40 && level != proof.levels.end())
        proof.levels.erase(level);
    else if (where == side.size())
        side.insert(side.end(), how % 10, {{7, 0, 0, 7}, how});
    else if (how < 0x80)
        side[where].hash[how % 4] ^= 1;
    else if (how < 0xC0)
        side.erase(side.begin() + static_cast<ptrdiff_t>(where));
    else
        side[where].size = drawn_number(input);
}

Given drawn_proof(Input &input)
{
    Given given;
    const uint8_t kind = input.byte();
    if (kind & 1) {
        for (size_t count = 1 + input.below(60), i = 0; i < count; i++)
            given.data.push_back(std::to_string(i % (1 + kind / 4)) + std::string(i % 3, ' '));
        for (const std::string &data : given.data)
            given.list.push_back({second::data_hash(data), data.size()});
    } else {
        given.list = drawn_nodes(input);
    }
    if (given.list.empty() || !second::total_size(given.list))
        return given;
    given.first = input.below(given.list.size());
    const size_t end = given.first + 1 + input.below(given.list.size() - given.first);
    given.proof = second::prove(given.list, given.first, end);
    for (size_t changes = kind & 2 ? 0 : input.below(4); changes > 0; changes--)
        change(given.proof, input);
    return given;
}

class ProofSpelling : Spelling {
public:
    using Spelling::Spelling;

    std::string text(const second::Proof &proof)
    {
        std::string levels;
        for (const second::Level &level : proof.levels)
            levels += (levels.empty() ? "" : ",") + spelled_level(level);
        const std::string chunks = spelled_nodes(proof.chunks);
        std::string members = member("chunks", array(chunks));
        members += "," + member("levels", array(levels));
        if (odd())
            members += "," + member("chunks", array(""));
        if (odd())
            members = member("more", nested()) + "," + members;
        return odd() ? array(members) : space() + "{" + members + "}" + space();
    }

private:
    std::string spelled_level(const second::Level &level)
    {
        if (odd())
            return array(spelled_nodes(level.left));
        const std::string left = member("left", array(spelled_nodes(level.left)));
        return "{" + left + "," + member("right", array(spelled_nodes(level.right))) + "}";
    }
};

Counts counts_of(const second::Proof &proof)
{
    Counts counts;
    for (const second::Level &level : proof.levels)
        counts.push_back({level.left.size(), level.right.size()});
    return counts;
}

Counts counts_from_c(const yurewha_level *levels, size_t count)
{
    Counts counts;
    for (size_t i = 0; i < count; i++)
        counts.push_back({levels[i].left, levels[i].right});
    return counts;
}

/* Rooms for a proof's lists, each of which may be one too small. */
class Rooms {
public:
    Rooms(const second::Proof &wanted, Input &input) : level_count(wanted.levels.size()), nodes_wanted(second::flat_nodes(wanted))
    {
        const uint8_t lacks = input.byte();
        level_room = level_count - (level_count > 0 && lacks % 8 == 1);
        node_room = nodes_wanted.size() - (!nodes_wanted.empty() && lacks % 8 == 2);
        levels = fence(2).array<yurewha_level>(level_room);
        nodes = fence(3).array<yurewha_chunk>(node_room);
        counts_wanted = counts_of(wanted);
    }

    bool are_enough() const { return level_room == level_count && node_room == nodes_wanted.size(); }

    template <class Call> void write(yurewha_status status, Call &&call)
    {
        const bool fails_first = status != YUREWHA_DONE;
        if (is_done(fails_first || are_enough() ? status : YUREWHA_ROOM, YUREWHA_MEMORY, [&] {
                return call(levels, level_room, nodes, node_room, &levels_told, &nodes_told);
            })) {
            EXPECT(*levels_told == level_count && *nodes_told == nodes_wanted.size());
            EXPECT(counts_from_c(levels, level_count) == counts_wanted && nodes_from_c(nodes, node_room) == nodes_wanted);
            return;
        }
        EXPECT(fence(2).is_untouched() && fence(3).is_untouched());
        if (fails_first || was_refused())
            EXPECT(levels_told.is_untouched() && nodes_told.is_untouched());
        else
            EXPECT(*levels_told == level_count && *nodes_told == nodes_wanted.size());
    }

private:
    size_t level_count, level_room, node_room;
    second::Nodes nodes_wanted;
    Counts counts_wanted;
    yurewha_level *levels;
    yurewha_chunk *nodes;
    Out<size_t> levels_told, nodes_told;
};

/* The status of a rule that is broken, or of success. */
yurewha_status status_of(unsigned rule) { return rule == 0 ? YUREWHA_DONE : YUREWHA_PROOF_RULE + rule; }

void compare_from_json(std::string_view text, const second::ProofReading &read, Input &input)
{
    const char *copy = fenced_text(0, text);
    Rooms rooms(read.is_json && read.rule == 0 ? read.proof : second::Proof(), input);
    rooms.write(read.is_json ? status_of(read.rule) : YUREWHA_TEXT, [&](auto... room) {
        return yurewha_range_proof_from_json(copy, text.size(), room...);
    });
}

/* Flat lists before fences, which a call reads. */
struct Lists {
    const yurewha_level *levels;
    size_t level_count;
    const yurewha_chunk *nodes;
    size_t node_count;

    Lists(const Counts &counts, const second::Nodes &flat) : level_count(counts.size()), node_count(flat.size())
    {
        yurewha_level *copies = fence(2).array<yurewha_level>(counts.size());
        for (size_t i = 0; i < counts.size(); i++)
            copies[i] = {counts[i].first, counts[i].second};
        levels = copies;
        nodes = fenced_chunks(3, flat);
    }

    template <class Call> yurewha_status call(Call &&call) const { return call(levels, level_count, nodes, node_count); }
};

void compare_to_json(const Lists &lists, unsigned rule, const second::Proof &proof)
{
    const std::string text = rule == 0 ? second::json_text(proof) : "";
    char *room = fence(1).array<char>(text.size());
    Out<size_t> length;
    if (is_done(status_of(rule), YUREWHA_MEMORY, [&] {
            return lists.call([&](auto... of_lists) { return yurewha_range_proof_to_json(of_lists..., room, text.size(), &length); });
        }))
        EXPECT(*length == text.size() && text == std::string_view(room, *length));
    else
        EXPECT(length.is_untouched() && fence(1).is_untouched());
}

/* The data of a chunk of the list, or of one after another; some of it is changed, cut off or left over. */
std::string some_data(const Given &given, size_t first, size_t count, Input &input)
{
    std::string data;
    for (size_t i = first; i < first + count && i < given.data.size(); i++)
        data += given.data[i];
    const uint8_t how = input.byte();
    if (how >= 0xC0)
        data.push_back('x');
    else if (how >= 0xA0 && !data.empty())
        data[how % data.size()] ^= 1;
    else if (how >= 0x90 && !data.empty())
        data.pop_back();
    return data;
}

const uint8_t *fenced_data(const std::string &data) { return reinterpret_cast<const uint8_t *>(fenced_text(0, data)); }

void compare_places(yurewha_opened_range &range, const second::Proof &proof)
{
    Out<uint64_t> size, begin, end;
    Out<size_t> count;
    is_done_without_memory(YUREWHA_DONE, [&] { return yurewha_opened_range_file_size(&range, &size); });
    is_done_without_memory(YUREWHA_DONE, [&] { return yurewha_opened_range_num_chunks(&range, &count); });
    EXPECT(*size == second::file_size(proof) && *count == proof.chunks.size());
    for (size_t chunk = 0; chunk <= *count; chunk++)
        if (is_done_without_memory(chunk < *count ? YUREWHA_DONE : YUREWHA_ARGUMENTS,
                                   [&] { return yurewha_opened_range_bytes_of(&range, chunk, &begin, &end); }))
            EXPECT(*begin == second::begins(proof, chunk) && *end == second::begins(proof, chunk + 1));
}

void compare_check(yurewha_opened_range &range, const second::Proof &proof, const Given &given, Input &input)
{
    const size_t chunk = input.below(proof.chunks.size() + 2);
    const std::string data = some_data(given, given.first + chunk, 1, input);
    const std::optional<uint64_t> wanted = second::check(proof, chunk, data);
    Out<uint64_t> place;
    if (is_done_without_memory(wanted ? YUREWHA_DONE : YUREWHA_MISMATCH, [&] {
            return yurewha_opened_range_check(&range, chunk, fenced_data(data), data.size(), &place);
        }))
        EXPECT(*place == wanted);
    else
        EXPECT(place.is_untouched());
}

void compare_read(yurewha_opened_range &range, const second::Proof &proof, const Given &given, Input &input)
{
    const uint64_t begin = second::begins(proof, 0);
    const std::string data = some_data(given, given.first, proof.chunks.size(), input);
    const uint64_t from = begin + input.byte() % 16 - (input.byte() >= 0xC0), to = from + input.byte() - (input.byte() >= 0xC0);
    const std::optional<size_t> wanted = second::read(proof, from, to, data);
    Out<size_t> start;
    if (is_done_without_memory(wanted ? YUREWHA_DONE : YUREWHA_MISMATCH, [&] {
            return yurewha_opened_range_read(&range, from, to, fenced_data(data), data.size(), &start);
        }))
        EXPECT(*start == wanted);
    else
        EXPECT(start.is_untouched());
}

/* The bytes of a hash, such as a salt. */
yurewha_bytes bytes_to_c(const second::Hash &hash)
{
    yurewha_bytes of_c;
    const second::Bytes32 bytes = second::bytes_of(hash);
    std::memcpy(of_c.bytes, bytes.data(), bytes.size());
    return of_c;
}

/* A hash that the proof shows, or another one. */
second::Hash some_hash(const second::Proof &proof, bool is_root, const second::Hash &salt, Input &input)
{
    const second::Hash root = second::top(proof).value_or(proof.chunks[0].hash);
    switch (input.byte()) {
    case 0xFF:
        return {};
    case 0xFE:
        return is_root ? second::hmac(root, salt) : root;
    case 0xFD:
        return proof.chunks[0].hash;
    default:
        return is_root ? root : second::hmac(root, salt);
    }
}

void compare_open(const Lists &lists, unsigned rule, const second::Proof &proof, const Given &given, Input &input)
{
    const bool is_root = input.flag();
    second::Hash salt = {input.flag(), 0, 0, 0};
    const second::Hash hash = rule == 0 ? some_hash(proof, is_root, salt, input) : second::Hash{1, 2, 3, 4};
    salt[1] = input.byte() >= 0xF0;
    const yurewha_hash of_c = hash_to_c(hash);
    const yurewha_bytes salt_of_c = bytes_to_c(salt);
    const bool is_shown = rule == 0 && (is_root ? second::shows_root(proof, hash) : second::shows(proof, hash, salt));
    yurewha_opened_range range = {};
    if (is_done(rule != 0 ? status_of(rule) : is_shown ? YUREWHA_DONE : YUREWHA_MISMATCH, YUREWHA_MEMORY, [&] {
            return lists.call([&](auto... of_lists) {
                return is_root ? yurewha_range_proof_open_root(of_lists..., &of_c, &range)
                               : yurewha_range_proof_open(of_lists..., &of_c, &salt_of_c, &range);
            });
        })) {
        compare_places(range, proof);
        for (size_t calls = input.below(4); calls > 0; calls--)
            input.flag() ? compare_check(range, proof, given, input) : compare_read(range, proof, given, input);
    } else {
        EXPECT(range.at == nullptr);
    }
    begin_call();
    yurewha_opened_range_free(&range);
    end_call();
}

/* The flat lists of a proof, of which some counts may be others. */
void compare_lists(const second::Proof &proof, const Given &given, Input &input)
{
    Counts counts = counts_of(proof);
    if (input.byte() >= 0xE0 && !counts.empty()) {
        auto &[left, right] = counts[input.below(counts.size())];
        (input.flag() ? left : right) = drawn_number(input);
    }
    second::Proof read;
    const second::Nodes flat = second::flat_nodes(proof);
    const unsigned rule = second::read_flat(counts, flat, read);
    const Lists lists(counts, flat);
    is_done_without_memory(status_of(rule), [&] { return lists.call(yurewha_range_proof_check); });
    compare_to_json(lists, rule, read);
    compare_open(lists, rule, read, given, input);
}

void compare_tree_hashes(yurewha_hash_tree &tree, const second::Nodes &list)
{
    const second::Hash salt = {7, 0, 0, 0};
    const yurewha_bytes salt_of_c = bytes_to_c(salt);
    Out<yurewha_hash> root, file_hash;
    Out<size_t> count;
    Out<uint64_t> size;
    is_done_without_memory(YUREWHA_DONE, [&] { return yurewha_hash_tree_root(&tree, &root); });
    is_done_without_memory(YUREWHA_DONE, [&] { return yurewha_hash_tree_file_hash(&tree, &salt_of_c, &file_hash); });
    is_done_without_memory(YUREWHA_DONE, [&] { return yurewha_hash_tree_num_chunks(&tree, &count); });
    is_done_without_memory(YUREWHA_DONE, [&] { return yurewha_hash_tree_total_size(&tree, &size); });
    EXPECT(hash_from_c(*root) == second::root_of(list) && hash_from_c(*file_hash) == second::file_hash_of(list, salt));
    EXPECT(*count == list.size() && *size == second::total_size(list));
}

void compare_tree_places(yurewha_hash_tree &tree, const second::Nodes &list, Input &input)
{
    const uint64_t from = drawn_number(input), to = drawn_number(input);
    const auto chunks = second::chunks_at(list, from, to);
    Out<size_t> first, end;
    if (is_done_without_memory(chunks ? YUREWHA_DONE : YUREWHA_ARGUMENTS,
                               [&] { return yurewha_hash_tree_chunks_at(&tree, from, to, &first, &end); }))
        EXPECT(std::pair(*first, *end) == chunks);
    const size_t begin = input.below(list.size() + 2), stop = input.below(list.size() + 2);
    const bool is_range = begin < stop && stop <= list.size();
    const yurewha_status status = is_range ? YUREWHA_DONE : YUREWHA_ARGUMENTS;
    Out<uint64_t> first_byte, end_byte;
    if (is_done_without_memory(status, [&] { return yurewha_hash_tree_bytes_of(&tree, begin, stop, &first_byte, &end_byte); }))
        EXPECT(*first_byte == second::total_size(second::part(list, 0, begin)) && *end_byte == second::total_size(second::part(list, 0, stop)));
    Rooms rooms(is_range ? second::prove(list, begin, stop) : second::Proof(), input);
    rooms.write(status, [&](auto... room) { return yurewha_hash_tree_proof(&tree, begin, stop, room...); });
}

void compare_tree(const second::Nodes &list, Input &input)
{
    const yurewha_chunk *chunks = fenced_chunks(3, list);
    yurewha_hash_tree tree = {};
    if (is_done(second::total_size(list) ? YUREWHA_DONE : YUREWHA_SIZES, YUREWHA_MEMORY,
                [&] { return yurewha_hash_tree_from_chunks(chunks, list.size(), &tree); })) {
        compare_tree_hashes(tree, list);
        compare_tree_places(tree, list, input);
    }
    begin_call();
    yurewha_hash_tree_free(&tree);
    end_call();
}

void seen_proof(const second::Proof &proof)
{
    seen(LEVELS, proof.levels.size());
    seen(NODES, second::flat_nodes(proof).size());
    seen(TOP, proof.chunks.size());
}

}  // namespace

/* The first byte says whether the others are a text, or what is done with a proof, and which request is refused. */
extern "C" int LLVMFuzzerTestOneInput(const uint8_t *data, size_t size)
{
    Input input(data, size);
    const uint8_t kind = input.byte();
    const auto maybe_refuse = [&] {
        if (kind >= 0xC0)
            refuse_next(1 + kind / 4 % 16, kind & 2);
    };
    if (kind % 4 == 0) {
        const second::ProofReading read = second::read_proof(input.rest());
        maybe_refuse();
        compare_from_json(input.rest(), read, input);
    } else {
        const Given given = drawn_proof(input);
        const std::string text = kind % 4 == 1 ? ProofSpelling(input).text(given.proof) : "";
        const second::ProofReading read = second::read_proof(text);
        seen_proof(given.proof);
        maybe_refuse();
        if (kind % 4 == 1)
            compare_from_json(text, read, input);
        else if (kind % 4 == 2)
            compare_lists(given.proof, given, input);
        else
            compare_tree(given.list, input);
    }
    refuse_next(0, false);
    EXPECT(live_blocks() == 0);
    return 0;
}
