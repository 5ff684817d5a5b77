/* Compares the second reading with the test vectors of tests/vectors/, without the library: the lines of make_lines, and range_proofs.json,
 * in the files that are named. */
#include "json.h"
#include "json_value.h"
#include "proof.h"

#include <cstdio>
#include <fstream>
#include <iterator>

#include "yurewha.h"

namespace {

size_t checks, failures;

std::vector<std::string> parts_of(const std::string &text, char between)
{
    std::vector<std::string> parts;
    size_t at = 0;
    for (size_t end; (end = text.find(between, at)) != std::string::npos; at = end + 1)
        parts.push_back(text.substr(at, end - at));
    parts.push_back(text.substr(at));
    return parts;
}

/* A line: the file and number of its test, what it asks for, and its fields. */
struct Line {
    std::vector<std::string> parts;

    const std::string &kind() const { return parts.at(1); }
    const std::string &text(size_t i) const { return parts.at(2 + i); }
    bool has(size_t i) const { return text(i) != "-"; }
    uint64_t number(size_t i) const { return std::stoull(text(i)); }
    bool truth(size_t i) const { return number(i) != 0; }

    void expect(bool holds, const char *what) const
    {
        checks++;
        if (!holds) {
            failures++;
            std::printf("%s, %s: %s\n", parts[0].c_str(), kind().c_str(), what);
        }
    }
};

second::Hash hash(const std::string &hex) { return *second::from_hex(hex); }

std::string bytes_of(const std::string &hex)
{
    std::string bytes;
    for (size_t i = 0; hex != "-" && i < hex.size(); i += 2)
        bytes += static_cast<char>(std::stoul(hex.substr(i, 2), nullptr, 16));
    return bytes;
}

second::Bytes32 key_of(const std::string &hex)
{
    const std::string bytes = bytes_of(hex);
    second::Bytes32 key;
    for (size_t i = 0; i < key.size(); i++)
        key[i] = static_cast<uint8_t>(bytes.at(i));
    return key;
}

second::Node node_of_seed(uint64_t seed, uint64_t size)
{
    return {seed == 0 && size == 0 ? second::Hash{} : second::random_from_seed(seed), size};
}

/* The list that a field says. */
second::Nodes list_of(const std::string &said)
{
    const std::string rest = said.substr(1);
    second::Nodes nodes;
    if (said[0] == 'p') {
        for (uint64_t i = 1; i <= rest.size(); i++)
            nodes.push_back({{i, 2 * i, 3 * i, 4 * i + (rest[i - 1] != '|')}, 100 * i - 93});
    } else if (said[0] == 'd') {
        const std::vector<std::string> parts = parts_of(rest, ',');
        for (uint64_t i = 0; i < std::stoull(parts.at(1)); i++)
            nodes.push_back({second::random_from_seed(std::stoull(parts.at(0)) + i), 100 + 977 * i % 9901});
    } else if (!rest.empty()) {
        for (const std::string &part : parts_of(rest, ','))
            nodes.push_back(said[0] == 's' ? node_of_seed(std::stoull(part), 100 * std::stoull(part))
                                           : second::Node{hash(part.substr(0, 64)), std::stoull(part.substr(65))});
    }
    return nodes;
}

std::string counts_of(const second::Subtree &subtree)
{
    std::string text;
    for (const second::Level &level : subtree.levels)
        text += (text.empty() ? "" : " ") + std::to_string(level.left.size()) + "," + std::to_string(level.right.size());
    return text;
}

/* Levels, size, final hash and hash of the JSON text are four fields from this one on. */
void expect_subtree(const Line &it, size_t first, const second::Subtree &subtree)
{
    const std::string text = second::json_text(subtree);
    const std::optional<second::Hash> root = second::final_hash(subtree);
    const second::Reading read = second::read_subtree(text);
    it.expect(counts_of(subtree) == it.text(first), "the levels");
    it.expect(second::total_size(subtree) == it.number(first + 1), "the size");
    it.expect(it.has(first + 2) ? root == hash(it.text(first + 2)) : !root, "the final hash");
    it.expect(second::data_hash(text) == hash(it.text(first + 3)), "the text");
    it.expect(read.says_subtree() && read.subtree == subtree, "the subtree read from its text");
}

void message(const Line &it)
{
    std::string data;
    for (uint64_t i = 0; i < it.number(2); i++)
        data += static_cast<char>(i % 251);
    const second::Hash keyed = second::hash_of(second::keyed_blake3(key_of(it.text(1)), data));
    it.expect(keyed == hash(it.text(3)) && second::bytes_of(keyed) == key_of(it.text(4)), "the keyed hash");
    if (it.text(0) == "data")
        it.expect(second::data_hash(data) == keyed, "the data hash");
    if (it.text(0) == "internal")
        it.expect(second::internal_node_hash(data) == keyed, "the internal hash");
}

void forms(const Line &it)
{
    second::Hash value;
    for (size_t i = 0; i < value.size(); i++)
        value[i] = std::stoull(parts_of(it.text(0), ',').at(i));
    it.expect(second::bytes_of(value) == key_of(it.text(1)), "the bytes");
    it.expect(second::hex_of(value) == it.text(2), "the hex text");
    it.expect(second::base64_of(value) == it.text(3), "the base64 text");
}

void expect_read(const Line &it, std::optional<second::Hash> read)
{
    it.expect(it.has(1) ? read == hash(it.text(1)) : !read, "the hash that is read");
}

void roots(const Line &it)
{
    if (it.number(1) != YUREWHA_DONE)
        return;
    const second::Nodes nodes = list_of(it.text(0));
    it.expect(second::root_of(nodes) == hash(it.text(2)), "the root");
    it.expect(second::file_hash_of(nodes, {}) == hash(it.text(3)), "the file hash");
    for (const std::string &row : it.has(4) ? parts_of(it.text(4), ',') : std::vector<std::string>{})
        it.expect(second::file_hash_of(nodes, second::hash_of(key_of(row.substr(0, 64)))) == hash(row.substr(65)), "a salted hash");
}

void points(const Line &it)
{
    const second::Nodes nodes = list_of(it.text(0));
    const std::optional<size_t> found[] = {second::first_stable_point(nodes), second::last_stable_point(nodes)};
    for (size_t i = 0; i < 2; i++)
        it.expect(it.has(1 + i) ? found[i] == it.number(1 + i) : !found[i], "a stable point");
}

void merge(const Line &it)
{
    const second::Nodes all = list_of(it.text(0));
    const auto cut = all.begin() + static_cast<ptrdiff_t>(it.number(1));
    const second::Nodes front(all.begin(), cut), back(cut, all.end());
    const uint64_t parents = second::work(all, it.truth(2), it.truth(3)) - second::work(front, it.truth(2), false)
                             - second::work(back, false, it.truth(3));
    it.expect(parents == it.number(4), "the parents of a merge");
    expect_subtree(it, 5, second::canonical(all, it.truth(2), it.truth(3)));
}

/* The rule that a status names. */
unsigned rule_of(uint64_t status) { return status > YUREWHA_RULE ? static_cast<unsigned>(status - YUREWHA_RULE) : 0; }

void json(const Line &it)
{
    const second::Reading read = second::read_subtree(bytes_of(it.text(0)));
    it.expect(read.is_json == (it.number(1) != YUREWHA_TEXT) && read.rule == rule_of(it.number(1)), "the rule");
    if (read.says_subtree())
        it.expect(second::json_text(read.subtree) == bytes_of(it.text(it.has(2) ? 2 : 0)), "the text that is written");
}

void flat(const Line &it)
{
    std::vector<std::pair<uint64_t, uint64_t>> counts;
    for (const std::string &level : it.has(2) ? parts_of(it.text(2), ' ') : std::vector<std::string>{})
        counts.push_back({std::stoull(level), std::stoull(level.substr(level.find(',') + 1))});
    second::Subtree subtree;
    it.expect(second::read_flat(it.truth(0), counts, list_of(it.text(3)), it.truth(1), subtree) == rule_of(it.number(4)),
              "the rule of flat lists");
}

void check(const Line &it)
{
    if (it.kind() == "message")
        message(it);
    else if (it.kind() == "seed")
        it.expect(second::random_from_seed(it.number(0)) == hash(it.text(1)), "the hash of a seed");
    else if (it.kind() == "hmac")
        it.expect(second::hmac(hash(it.text(0)), hash(it.text(1))) == hash(it.text(2)), "the hash under a hash");
    else if (it.kind() == "internal")
        it.expect(second::internal_node_hash(bytes_of(it.text(0))) == hash(it.text(1)), "the internal hash");
    else if (it.kind() == "forms")
        forms(it);
    else if (it.kind() == "hex")
        expect_read(it, second::from_hex(bytes_of(it.text(0))));
    else if (it.kind() == "base64")
        expect_read(it, second::from_base64(bytes_of(it.text(0))));
    else if (it.kind() == "roots")
        roots(it);
    else if (it.kind() == "xorb")
        it.expect(second::root_of(list_of(it.text(0))) == hash(it.text(1)), "the root");
    else if (it.kind() == "points")
        points(it);
    else if (it.kind() == "subtree" && it.number(3) == YUREWHA_DONE)
        expect_subtree(it, 4, second::canonical(list_of(it.text(0)), it.truth(1), it.truth(2)));
    else if (it.kind() == "merge")
        merge(it);
    else if (it.kind() == "json")
        json(it);
    else if (it.kind() == "flat")
        flat(it);
}

/* A test of range_proofs.json. */
struct Test {
    const second::Value &value;

    bool has(const char *name) const { return value.members.count(name) != 0; }
    const second::Value &at(const char *name) const { return value.members.at(name); }
    const std::string &text(const char *name) const { return at(name).string; }
    bool is_valid() const { return text("result") == "valid"; }
    unsigned rule() const { return has("rule") ? static_cast<unsigned>(at("rule").whole) : 0; }
    bool is_told(const char *name) const { return at(name).kind == second::Value::STRING; }

    void expect(bool holds, const char *what) const
    {
        checks++;
        if (!holds) {
            failures++;
            std::printf("range_proofs.json:%llu: %s\n", static_cast<unsigned long long>(at("tcId").whole), what);
        }
    }
};

/* A list that a vector gives without seeds, or nothing. */
std::optional<second::Nodes> list_of(const second::Value &said)
{
    second::Nodes nodes;
    const auto data = [&](const std::string &data) { nodes.push_back({second::data_hash(data), data.size()}); };
    const auto &[rule, of_rule] = *said.members.begin();
    if (rule == "chunkBytes") {
        for (const second::Value &item : of_rule.items)
            data(bytes_of(item.string));
    } else if (rule == "numbers") {
        const std::vector<second::Value> &lengths = of_rule.members.at("lengths").items;
        for (uint64_t i = 0; i < of_rule.members.at("count").whole; i++) {
            const uint64_t length = lengths[i % lengths.size()].whole;
            std::string text;
            while (text.size() < length)
                text += std::to_string(of_rule.members.at("first").whole + i) + " ";
            data(text.substr(0, length));
        }
    } else if (rule == "counted") {
        const uint64_t every = of_rule.members.at("cutEvery").whole;
        for (uint64_t i = 0; i < of_rule.members.at("count").whole; i++)
            nodes.push_back({{i, 0, 0, !(every > 0 && i % every == every - 1)}, 1});
    } else {
        return {};
    }
    return nodes;
}

void proof_of_list(const Test &it, const second::Nodes &nodes)
{
    const second::Proof proof = second::prove(nodes, it.at("first").whole, it.at("end").whole);
    it.expect(second::data_hash(second::json_text(proof)) == hash(it.text("jsonHash")), "the text of a proof");
    const std::vector<second::Value> &places = it.at("places").items;
    for (size_t k = 0; k < places.size(); k++)
        it.expect(second::begins(proof, k) == std::stoull(places[k].string), "a place");
    it.expect(second::shows_root(proof, second::root_of(nodes)), "the root");
    it.expect(second::shows(proof, second::file_hash_of(nodes, {}), {}), "the file hash");
}

void hash_tree(const Test &it)
{
    const std::optional<second::Nodes> nodes = list_of(it.at("list"));
    if (!nodes || !it.is_valid())
        return;
    it.expect(second::root_of(*nodes) == hash(it.text("root")), "the root");
    for (const second::Value &row : it.at("chunksAt").items) {
        const auto found = second::chunks_at(*nodes, std::stoull(row.members.at("start").string), std::stoull(row.members.at("stop").string));
        const second::Value &wanted = row.members.at("chunks");
        it.expect(wanted.items.empty() ? !found : found == std::pair<size_t, size_t>(wanted.items[0].whole, wanted.items[1].whole),
                  "the chunks at some bytes");
    }
    for (second::Value row : it.at("proofs").items) {
        row.members["tcId"] = it.at("tcId");
        proof_of_list({row}, *nodes);
    }
}

void open_proof(const Test &it)
{
    const second::ProofReading read = second::read_proof(it.text("text"));
    it.expect(read.is_json && read.rule == 0, "the proof");
    const bool is_shown = it.has("root") ? second::shows_root(read.proof, hash(it.text("root")))
                                         : second::shows(read.proof, hash(it.text("fileHash")), second::hash_of(key_of(it.text("saltBytes"))));
    it.expect(is_shown == it.is_valid(), "what it shows");
    if (!it.is_valid())
        return;
    it.expect(second::file_size(read.proof) == std::stoull(it.text("fileSize")), "the size of the file");
    for (const second::Value &value : it.at("checks").items) {
        const Test row = {value};
        const auto place = second::check(read.proof, row.at("number").whole, bytes_of(row.text("dataBytes")));
        it.expect(row.is_told("place") ? place == std::stoull(row.text("place")) : !place, "the place of a chunk");
    }
    for (const second::Value &value : it.at("reads").items) {
        const Test row = {value};
        const std::string data = bytes_of(row.text("dataBytes"));
        const uint64_t from = std::stoull(row.text("start")), to = std::stoull(row.text("stop"));
        const auto start = second::read(read.proof, from, to, data);
        it.expect(row.is_told("readBytes") ? start && data.substr(*start, to - from) == bytes_of(row.text("readBytes")) : !start,
                  "the bytes that are read");
    }
}

void proof_json(const Test &it)
{
    const second::ProofReading read = second::read_proof(it.text("text"));
    it.expect(read.is_json == (it.is_valid() || it.text("error") != "NotJson") && read.rule == it.rule(), "the rule");
    if (it.is_valid())
        it.expect(second::json_text(read.proof) == it.text(it.has("written") ? "written" : "text"), "the text that is written");
}

/* Whether a number has 64 bits. */
bool fits(const std::string &digits)
{
    const std::string greatest = std::to_string(UINT64_MAX);
    return digits.size() < greatest.size() || (digits.size() == greatest.size() && digits <= greatest);
}

void flat_proof(const Test &it)
{
    std::vector<std::pair<uint64_t, uint64_t>> counts;
    for (const second::Value &level : it.at("levels").items) {
        const std::string &left = level.items[0].string, &right = level.items[1].string;
        if (!fits(left) || !fits(right))
            return;
        counts.push_back({std::stoull(left), std::stoull(right)});
    }
    second::Nodes nodes;
    for (const second::Value &node : it.at("nodes").items)
        nodes.push_back({hash(node.members.at("hash").string), std::stoull(node.members.at("size").string)});
    second::Proof proof;
    it.expect(second::read_flat(counts, nodes, proof) == it.rule(), "the rule of flat lists");
    if (it.is_valid())
        it.expect(second::json_text(proof) == it.text("json") && second::flat_nodes(proof) == nodes, "the proof of flat lists");
}

void check_proofs(const second::Value &file)
{
    for (const second::Value &group : file.members.at("testGroups").items) {
        const std::string &type = group.members.at("type").string;
        for (const second::Value &value : group.members.at("tests").items) {
            const Test it = {value};
            if (type == "HashTree")
                hash_tree(it);
            else if (type == "OpenProof")
                open_proof(it);
            else if (type == "ProofJson")
                proof_json(it);
            else if (type == "FlatProof")
                flat_proof(it);
        }
    }
}

}  // namespace

int main(int, char **names)
{
    std::ifstream file(names[1]), proofs(names[2]);
    for (std::string text; std::getline(file, text);)
        check({parts_of(text, '\t')});
    const std::string text((std::istreambuf_iterator<char>(proofs)), {});
    check_proofs(*second::read_json(text));
    std::printf("%zu checks of the second reading, %zu failed\n", checks, failures);
    return failures != 0 || checks == 0;
}
