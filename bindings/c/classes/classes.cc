// Each function of yurewha.hpp: what it returns beside the call in C, what it throws, and that objects free what they own.
#include <yurewha.hpp>

#include <algorithm>
#include <array>
#include <cstdio>
#include <cstdlib>
#include <cstring>
#include <iomanip>
#include <set>
#include <sstream>
#include <sys/mman.h>
#include <unordered_set>

using namespace std::literals;
namespace yu = yurewha;

static unsigned long checked, failed;
static void must(bool is_right, const char *what, int line)
{
    checked++;
    if (!is_right && failed++ < 10)
        std::fprintf(stderr, "classes.cc:%d: %s\n", line, what);
}
#define MUST(...) must((__VA_ARGS__), #__VA_ARGS__, __LINE__)

// The status that a function throws, or YUREWHA_DONE.
template <class Function> static yurewha_status thrown(const Function &function)
{
    try {
        function();
    } catch (const yu::error &error) {
        MUST(error.what() == yu::error::text_of(error.status()) && error.status() != YUREWHA_MEMORY);
        return error.status();
    } catch (const std::bad_alloc &) {
        return YUREWHA_MEMORY;
    }
    return YUREWHA_DONE;
}
#define THROWS(status, ...) MUST(thrown([&] { (void)(__VA_ARGS__); }) == (status))

// The memory of the library: how many blocks it has, and whether each request is refused.
static long live;
static bool refuses;
static void *allocate(std::size_t size) noexcept
{
    void *block = refuses ? nullptr : std::malloc(size);
    live += block != nullptr;
    return block;
}
static void *reallocate(void *block, std::size_t size) noexcept { return refuses ? nullptr : std::realloc(block, size); }
static void release(void *block) noexcept
{
    live--;
    std::free(block);
}

static std::vector<yu::chunk> chunks_from(std::uint64_t seed, std::size_t count)
{
    std::vector<yu::chunk> chunks;
    for (std::size_t i = 0; i < count; i++)
        chunks.push_back({yu::random_from_seed(seed + i), 100 + i});
    return chunks;
}
static std::vector<yu::chunk> some(const std::vector<yu::chunk> &chunks, std::size_t first, std::size_t end)
{
    return {chunks.begin() + static_cast<std::ptrdiff_t>(first), chunks.begin() + static_cast<std::ptrdiff_t>(end)};
}
static const std::vector<yu::chunk> huge = {{{{1, 2, 3, 4}}, UINT64_MAX}, {{{1, 2, 3, 5}}, 1}};

// An object in a page to which nobody may write while it lives.
template <class Object> class read_only {
public:
    explicit read_only(Object object) : at_(mmap(nullptr, 4096, PROT_READ | PROT_WRITE, MAP_PRIVATE | MAP_ANONYMOUS, -1, 0))
    {
        new (at_) Object(std::move(object));
        mprotect(at_, 4096, PROT_READ);
    }
    read_only(const read_only &) = delete;
    read_only &operator=(const read_only &) = delete;
    ~read_only()
    {
        mprotect(at_, 4096, PROT_READ | PROT_WRITE);
        static_cast<Object *>(at_)->~Object();
        munmap(at_, 4096);
    }
    const Object &operator*() const { return *static_cast<const Object *>(at_); }
    const Object *operator->() const { return static_cast<const Object *>(at_); }

private:
    void *at_;
};

static void values()
{
    const yu::hash low = {{1, 2, 3, 4}}, high = {{1, 2, 3, 5}};
    MUST(low == low && !(low == high) && low != high && !(low != low));
    MUST(low < high && !(high < low) && high > low && !(low > low) && low <= low && !(high <= low) && low >= low && !(low >= high));
    const yu::chunk chunk = {low, 7};
    MUST(chunk == yu::chunk{low, 7} && !(chunk == yu::chunk{low, 8}) && chunk != yu::chunk{high, 7} && !(chunk != chunk));
    MUST(yu::level{1, 2} == yu::level{1, 2} && !(yu::level{1, 2} == yu::level{1, 3}) && yu::level{1, 2} != yu::level{2, 2});
    yu::bytes first{}, second{};
    MUST(first == second && !(first != second));
    second.bytes[31] = 1;
    MUST(first != second && !(first == second));
    const yu::interval<int> interval = {1, 2};
    MUST(interval == yu::interval<int>{1, 2} && interval != yu::interval<int>{1, 3} && interval != yu::interval<int>{2, 2});
    // Algorithms and containers of std find the operators.
    std::vector<yu::hash> hashes = {high, low, high};
    MUST(std::find(hashes.begin(), hashes.end(), low) == hashes.begin() + 1);
    std::sort(hashes.begin(), hashes.end());
    MUST(hashes == std::vector<yu::hash>{low, high, high} && std::set<yu::hash>(hashes.begin(), hashes.end()).size() == 2);
    MUST(std::vector<yu::chunk>{chunk} == std::vector<yu::chunk>{chunk} && std::optional(low) == std::optional(low));
    MUST(std::pair(low, 1) < std::pair(high, 1));
    MUST(std::unordered_set<yu::hash>(hashes.begin(), hashes.end()).size() == 2 && std::hash<yu::hash>()(low) == 1);
    MUST(std::hash<yu::hash>()({{UINT64_MAX, 2, 3, 4}}) == UINT64_MAX);
    std::ostringstream text;
    text << low << ' ' << std::setw(66) << std::setfill('.') << high << std::left << std::setw(66) << low;
    MUST(text.str() == yu::hex(low) + " .." + yu::hex(high) + yu::hex(low) + "..");
}

static void texts()
{
    yu::hash wanted;
    yurewha_data_hash("a chunk", 7, &wanted);
    const unsigned char numbers[] = {'a', ' ', 'c', 'h', 'u', 'n', 'k'};
    std::vector<std::byte> bytes(7);
    std::memcpy(bytes.data(), numbers, 7);
    MUST(yu::data_hash("a chunk"sv) == wanted && yu::data_hash("a chunk"s) == wanted && yu::data_hash(numbers) == wanted);
    MUST(yu::data_hash(bytes) == wanted && yu::data_hash({"a chunk", 7}) == wanted && yu::data_hash(std::array<char, 1>()) != wanted);
    static_assert(!std::is_constructible_v<yu::data_view, const char(&)[8]> && !std::is_constructible_v<yu::data_view, char *>);
    static_assert(!std::is_constructible_v<yu::data_view, std::vector<int>> &&
                  !std::is_constructible_v<yu::view<yu::chunk>, std::vector<yu::hash>>);
    yurewha_internal_node_hash("a chunk", 7, &wanted);
    MUST(yu::internal_node_hash("a chunk"sv) == wanted);
    const std::vector<std::size_t> offsets = {0, 7, 14};
    MUST(yu::data_hashes("a chunkanother"sv, offsets) == std::vector<yu::hash>{yu::data_hash("a chunk"sv), yu::data_hash("another"sv)});
    MUST(yu::data_hashes("a chunk"sv, std::vector<std::size_t>{0}).empty());
    THROWS(YUREWHA_ARGUMENTS, yu::data_hashes("a chunk"sv, {}));
    THROWS(YUREWHA_ARGUMENTS, yu::data_hashes("a chunk"sv, offsets));

    const yu::hash one = yu::random_from_seed(1), two = yu::random_from_seed(2);
    yurewha_random_from_seed(1, &wanted);
    MUST(one == wanted);
    yurewha_hmac(&one, &two, &wanted);
    MUST(yu::hmac(one, two) == wanted && yu::hmac(two, one) != wanted);
    yu::bytes of_one;
    yurewha_hash_to_bytes(&one, &of_one);
    MUST(yu::hash_to_bytes(one) == of_one && yu::hash_from_bytes(of_one) == one);
    MUST(yu::remainder(one, 1000) == one.words[3] % 1000);
    THROWS(YUREWHA_ARGUMENTS, yu::remainder(one, 0));
    MUST(yu::hex(yu::data_hash("a chunk"sv)) == "fc2d9e764137e94a0c4d7bdc0b584e73a34945fbf4efeef155acc8927c1399ff");
    MUST(yu::from_hex(yu::hex(one)) == one && yu::base64(one).size() == 43 && yu::from_base64(yu::base64(one)) == one);
    THROWS(YUREWHA_TEXT, yu::from_hex("a"));
    THROWS(YUREWHA_TEXT, yu::from_base64("a"));
    MUST(yu::version() == YUREWHA_VERSION && yu::processor_level() == yurewha_processor_level());
    MUST(yu::error::text_of(YUREWHA_TEXT) != yu::error::text_of(YUREWHA_SIZES) && !yu::error::text_of(YUREWHA_TEXT).empty());

    yu::hasher hasher = yu::hasher::begin_data();
    hasher.update("a ch"sv);
    yu::hasher copy = hasher;
    MUST(hasher.update("unk"sv).count() == 7 && hasher.finalize() == yu::data_hash("a chunk"sv));
    MUST(copy.count() == 4 && copy.finalize() == yu::data_hash("a ch"sv));
    MUST(yu::hasher::begin_internal().update("a chunk"sv).finalize() == yu::internal_node_hash("a chunk"sv));
    MUST(yu::hasher::begin_keyed(of_one).update(yu::hash_to_bytes(two).bytes).finalize() == yu::hmac(two, one));
    // No test can add 2^64 bytes, so the count is written by hand: it is the only word that says how long a message is.
    static_assert(std::is_trivially_copyable_v<yu::hasher> && sizeof(yu::hasher) == sizeof(yurewha_hasher));
    yurewha_hasher longest;
    const yu::hasher long_one = yu::hasher::begin_data().update(std::string(70001, 'a'));
    std::memcpy(&longest, &long_one, sizeof longest);
    *std::find(std::begin(longest.state), std::end(longest.state), 70001u) = UINT64_MAX - 3;
    std::memcpy(static_cast<void *>(&hasher), &longest, sizeof longest);
    THROWS(YUREWHA_SIZES, hasher.update("four"sv));
    MUST(hasher.count() == UINT64_MAX - 3);
}

static void roots()
{
    const std::vector<yu::chunk> chunks = chunks_from(1, 100);
    yu::bytes salt{};
    salt.bytes[0] = 1;
    yu::hash wanted;
    MUST(yurewha_xorb_hash(chunks.data(), chunks.size(), &wanted) == YUREWHA_DONE && yu::xorb_hash(chunks) == wanted);
    MUST(yurewha_file_hash(chunks.data(), chunks.size(), &wanted) == YUREWHA_DONE && yu::file_hash(chunks) == wanted);
    MUST(yu::file_hash_with_salt(chunks, {}) == wanted && yu::file_hash_with_salt(chunks, salt) != wanted);
    MUST(yu::xorb_hash({chunks.data(), 1}) == chunks[0].hash && yu::xorb_hash({}) == yu::hash{});
    THROWS(YUREWHA_SIZES, yu::xorb_hash(huge));
    THROWS(YUREWHA_SIZES, yu::file_hash(huge));
    THROWS(YUREWHA_SIZES, yu::file_hash_with_salt(huge, salt));
    std::size_t start = 0, end = 0;
    MUST(yurewha_find_stable_start(chunks.data(), chunks.size(), &start) == YUREWHA_DONE && yu::find_stable_start(chunks) == start);
    MUST(yurewha_find_stable_end(chunks.data(), chunks.size(), &end) == YUREWHA_DONE && yu::find_stable_end(chunks) == end);
    MUST(start < end && !yu::find_stable_start({}) && !yu::find_stable_end({}));
}

static void subtrees()
{
    const std::vector<yu::chunk> chunks = chunks_from(1, 300);
    yu::subtree file(true, some(chunks, 0, 100), false);
    const read_only<yu::subtree> middle(yu::subtree(false, some(chunks, 100, 200), false)), back({false, some(chunks, 200, 300), true});
    MUST(file.at_start() && !file.at_end() && !back->at_start() && back->at_end());
    MUST(!file.final_hash() && middle->total_size() == 24950 && middle->num_nodes() > 2 && middle->num_levels() > 1);
    std::vector<yu::subtree> ranges;
    ranges.push_back(file);
    ranges.push_back(*middle);
    ranges.push_back(*back);
    MUST(yu::subtree::merge(ranges).final_hash() == yu::xorb_hash(chunks) && yu::subtree::merge({}).final_hash() == yu::hash{});
    file.merge_into(*middle);
    THROWS(YUREWHA_ARGUMENTS, yu::subtree(*back).merge_into(*middle));
    yu::subtree counted = file;
    std::uint64_t parents = 0;
    yu::subtree other = file, last = *back;
    MUST(yurewha_subtree_merge_into_counted(other.get(), last.get(), &parents) == YUREWHA_DONE);
    MUST(counted.merge_into_counted(*back) == parents && parents > 0 && counted.final_hash() == yu::xorb_hash(chunks));
    MUST(file != counted && !(file == counted) && counted == other && !(counted != other) && counted == counted);
    file.merge_into(*back);
    MUST(file == counted);
    // A range merged into itself is that range twice.
    yu::subtree twice = *middle, again = *middle;
    twice.merge_into(twice);
    MUST(again.merge_into_counted(again) > 0 && twice == again && twice.total_size() == 49900);
    // Texts of more than the first room, and lists.
    const std::string text = twice.to_json();
    MUST(text.size() > 4096 && yu::subtree::from_json(text) == twice && yu::subtree::from_json(middle->to_json()) == *middle);
    THROWS(YUREWHA_TEXT, yu::subtree::from_json("{"));
    THROWS(YUREWHA_RULE + 1, yu::subtree::from_json("1"));
    const yu::flat_lists lists = middle->to_flat();
    MUST(lists.levels.size() == middle->num_levels() && lists.nodes.size() == middle->num_nodes());
    MUST(yu::subtree::from_flat(false, lists.levels, lists.nodes, false) == *middle);
    THROWS(YUREWHA_RULE + 5, yu::subtree::from_flat(false, {}, {}, false));
    THROWS(YUREWHA_SIZES, yu::subtree(true, huge, true));
    // Copies are independent, and a moved object is empty.
    yu::subtree first(true, some(chunks, 0, 10), false), second = first;
    second.merge_into(*back);
    MUST(first.num_nodes() == 10 && second != first);
    second = first;
    MUST(second == first);
    yu::subtree &same = second;
    second = same;
    MUST(second == first);
    second = std::move(same);
    MUST(second == first);
    const yu::subtree third = std::move(second);
    MUST(third == first);
    THROWS(YUREWHA_EMPTY_HANDLE, second.num_nodes());
    THROWS(YUREWHA_EMPTY_HANDLE, yu::subtree(second));
    second = yu::subtree(true, {}, true);
    MUST(second.final_hash() == yu::hash{});
}

static void sessions()
{
    const std::vector<yu::chunk> chunks = chunks_from(1, 300);
    yu::bytes salt{};
    salt.bytes[0] = 1;
    yu::session session;
    MUST(session.put(200, some(chunks, 200, 300)) == 100 && session.put(0, some(chunks, 0, 100)) == 100);
    THROWS(YUREWHA_SESSION_OVERLAP, session.put(99, some(chunks, 0, 2)));
    THROWS(YUREWHA_SESSION_POSITIONS, session.put(UINT64_MAX, some(chunks, 0, 2)));
    yu::session full = session;
    {
        const read_only<yu::session> part(session);
        MUST(part->taken(99) && !part->taken(100) && part->num_chunks() == 200 && part->total_size() == 14950 + 34950 &&
             part->num_runs() == 2);
        MUST(part->next_gap(0, 400) == yu::interval<std::uint64_t>{100, 200} &&
             part->next_gap(200, 400) == yu::interval<std::uint64_t>{300, 400});
        MUST(!part->next_gap(0, 100));
        THROWS(YUREWHA_SESSION_GAP, part->root(300));
        THROWS(YUREWHA_SESSION_GAP, part->finish(300));
        THROWS(YUREWHA_SESSION_GAP, part->finish_with_salt(300, salt));
        const auto run = part->run(1);
        MUST(run && run->first == 200 && run->second == yu::subtree(false, some(chunks, 200, 300), false) && !part->run(2));
        const auto next = part->run_from(100);
        MUST(next && next->positions == yu::interval<std::uint64_t>{200, 300} && next->chunks == run->second && !part->run_from(300));
        MUST(part->knows(chunks[0].hash) && !part->knows(chunks[100].hash) && part->keeps_hashes() && part->num_known_hashes() == 200);
        MUST(part->knows_each(std::vector<yu::hash>{chunks[100].hash, chunks[0].hash}) == std::vector<std::uint8_t>{0, 1});
        std::vector<yu::hash> known = part->known_hashes(), wanted;
        for (const yu::chunk &chunk : chunks)
            if (chunk.size < 200 || chunk.size >= 300)
                wanted.push_back(chunk.hash);
        std::sort(known.begin(), known.end());
        std::sort(wanted.begin(), wanted.end());
        MUST(known == wanted);
        // Saving, by JSON and by runs and hashes.
        const std::string text = part->to_json();
        MUST(text.size() > 4096 && text == part->to_json(true) && part->to_json(false).size() < text.size());
        MUST(yu::session::from_json(text).to_json() == text && !yu::session::from_json(text, false).keeps_hashes());
        THROWS(YUREWHA_TEXT, yu::session::from_json("{"));
        THROWS(YUREWHA_SESSION_RULE + 1, yu::session::from_json("1"));
        yu::session restored;
        restored.push_run(0, 100, part->run(0)->second);
        restored.push_run(200, 300, run->second);
        restored.keep_hashes(known);
        MUST(restored.to_json() == text);
        THROWS(YUREWHA_ARGUMENTS, restored.push_run(250, 251, run->second));
    }
    MUST(full.put(100, some(chunks, 100, 200)) == 100 && session.num_chunks() == 200);
    MUST(full.root(300) == yu::xorb_hash(chunks) && full.finish(300) == yu::file_hash(chunks));
    MUST(full.finish_with_salt(300, salt) == yu::file_hash_with_salt(chunks, salt));
    yu::session light = yu::session::without_hashes();
    MUST(light.put(0, chunks) == 300 && !light.keeps_hashes() && light.finish(300) == full.finish(300));
    THROWS(YUREWHA_ARGUMENTS, light.keep_hashes(std::vector<yu::hash>{chunks[0].hash}));
    // Ranges and sessions of parts are put together in any order.
    const read_only<yu::subtree> range(yu::subtree(false, some(chunks, 100, 130), false));
    const read_only<yu::session> two_parts(yu::session{session});
    yu::session parts;
    parts.put_range(100, 30, *range);
    MUST(parts.num_known_hashes() == 0 && parts.run_from(0)->positions == yu::interval<std::uint64_t>{100, 130});
    THROWS(YUREWHA_SESSION_OVERLAP, parts.put_range(90, 30, *range));
    THROWS(YUREWHA_SESSION_POSITIONS, parts.put_range(UINT64_MAX, 30, *range));
    THROWS(YUREWHA_ARGUMENTS, parts.put_range(130, 0, *range));
    MUST(parts.put(130, some(chunks, 130, 200)) == 70);
    parts.keep_hashes(std::vector<yu::hash>{chunks[0].hash});
    MUST(parts.join(*two_parts) == 199 && parts.num_known_hashes() == 270 && two_parts->num_chunks() == 200);
    MUST(parts.num_runs() == 1 && parts.finish(300) == full.finish(300));
    THROWS(YUREWHA_SESSION_OVERLAP, parts.join(*two_parts));
    // Joined with itself, a session without chunks is as before.
    yu::session no_chunks;
    no_chunks.keep_hashes(std::vector<yu::hash>{chunks[0].hash});
    THROWS(YUREWHA_SESSION_OVERLAP, parts.join(parts));
    MUST(no_chunks.join(no_chunks) == 0 && no_chunks.num_known_hashes() == 1 && parts.num_chunks() == 300);
    light = full;
    MUST(light.keeps_hashes());
    const yu::session moved = std::move(light);
    MUST(moved.num_chunks() == 300);
    THROWS(YUREWHA_EMPTY_HANDLE, light.num_chunks());
    THROWS(YUREWHA_EMPTY_HANDLE, light.put_range(0, 30, *range));
    THROWS(YUREWHA_EMPTY_HANDLE, no_chunks.join(light));
    light = yu::session();
    MUST(light.num_chunks() == 0);
}

static void range_proofs()
{
    std::string data;
    std::vector<yu::chunk> chunks;
    for (std::size_t i = 0; i < 3000; i++) {
        const std::string text = std::to_string(i) + " is the number of a chunk";
        chunks.push_back({yu::data_hash(text), text.size()});
        data += text;
    }
    yu::bytes salt{};
    salt.bytes[0] = 1;
    const read_only<yu::hash_tree> tree{yu::hash_tree(chunks)};
    MUST(tree->root() == yu::xorb_hash(chunks) && tree->file_hash() == yu::file_hash(chunks) && tree->num_chunks() == 3000);
    MUST(tree->file_hash(salt) == yu::file_hash_with_salt(chunks, salt) && tree->total_size() == data.size());
    const yu::interval<std::uint64_t> place = tree->bytes_of(10, 12);
    MUST(place.first == 260 && place.end == place.first + 54 && data.substr(place.first, 2) == "10");
    MUST(tree->chunks_at(place.first, place.end) == yu::interval<std::size_t>{10, 12} && !tree->chunks_at(5, 5));
    std::vector<yu::chunk> fewer = some(chunks, 0, 2000);
    fewer.insert(fewer.end(), chunks.begin() + 2001, chunks.end());
    const read_only<yu::hash_tree> without{yu::hash_tree(fewer)};
    MUST(tree->common_prefix(*without) == 2000 && tree->common_suffix(*without, 9999) == 999 && tree->common_suffix(*without, 7) == 7);
    MUST(tree->common_prefix(*tree) == 3000 && tree->common_suffix(*tree, 3001) == 3000);
    THROWS(YUREWHA_ARGUMENTS, tree->bytes_of(1, 1));
    THROWS(YUREWHA_ARGUMENTS, tree->proof(1, 1));
    // Lists and texts of more than the first room, too.
    const yu::range_proof proof = tree->proof(10, 12), all = tree->proof(0, 3000);
    MUST(all.nodes.size() == 3000 && all.nodes == chunks && proof == tree->proof(10, 12) && proof != all && !(proof == all));
    proof.check();
    THROWS(YUREWHA_PROOF_RULE + 5, yu::range_proof().check());
    MUST(proof.to_json().size() > 1000 && yu::range_proof::from_json(proof.to_json()) == proof);
    MUST(yu::range_proof::from_json(all.to_json()) == all && yu::range_proof::from_bytes(all.to_bytes()) == all);
    MUST(proof.to_bytes().size() == 1 + 2 * proof.levels.size() + 40 * proof.nodes.size());
    MUST(yu::range_proof::from_bytes(proof.to_bytes()) == proof);
    THROWS(YUREWHA_TEXT, yu::range_proof::from_json("{"));
    THROWS(YUREWHA_PROOF_RULE + 1, yu::range_proof::from_bytes(""sv));
    yu::range_proof longer = proof;
    longer.levels.back().left++;
    MUST(longer != proof);

    const std::string sent = data.substr(place.first, place.end - place.first);
    const read_only<yu::opened_range> opened{yu::opened_range(proof, tree->file_hash())};
    MUST(opened->file_size() == data.size() && opened->num_chunks() == 2 && opened->bytes_of(0) == tree->bytes_of(10, 11));
    MUST(opened->bytes_of(1) == tree->bytes_of(11, 12) && opened->check(1, sent.substr(27)) == place.first + 27);
    MUST(opened->read(place.first + 30, place.end - 1, sent) == 30);
    THROWS(YUREWHA_ARGUMENTS, opened->bytes_of(2));
    THROWS(YUREWHA_MISMATCH, opened->check(0, sent));
    THROWS(YUREWHA_MISMATCH, opened->read(place.first, place.end, "another"sv));
    THROWS(YUREWHA_MISMATCH, yu::opened_range(proof, tree->root()));
    MUST(yu::opened_range(proof, tree->file_hash(salt), salt).num_chunks() == 2);
    MUST(yu::opened_range::open_root(proof, tree->root()).num_chunks() == 2);
    THROWS(YUREWHA_MISMATCH, yu::opened_range::open_root(proof, tree->file_hash()));

    yu::reader reader(tree->file_hash(salt), salt, 10000);
    std::array<std::uint8_t, 4> room{};
    MUST(!reader.size() && reader.counted() == 0);
    const auto nothing = reader.read(place.first, room.data(), 4, 100);
    MUST(nothing.filled == 0 && nothing.end == place.first + 4);
    yu::part part(proof, tree->file_hash(salt), salt, place.first + 1, place.end - 1, 1);
    MUST(part.place() == place && part.file_size() == data.size() && part.checked().chunks == 0 && part.checked().place == place.first);
    THROWS(YUREWHA_MISMATCH, part.check(sent.substr(0, 27)));
    MUST(part.checked().chunks == 1 && part.checked().place == place.first + 27);
    const auto found = part.check(sent);
    MUST(found.start == 1 && found.count == sent.size() - 2 && part.checked().chunks == 2);
    yu::part whole(proof, tree->file_hash(), {}, place.first, place.end, 0);
    MUST(whole.place() == place && whole.check(sent, false).start == 0);
    THROWS(YUREWHA_ARGUMENTS, reader.take(std::move(whole)));
    MUST(whole.file_size() == data.size());
    MUST(reader.needs(place.first, place.end, 10) == yu::interval<std::uint64_t>{place.first, place.first + 10});
    MUST(reader.piece(25, 10) == yu::interval<std::uint64_t>{20, 30} && !reader.piece(25, 0));
    reader.take(std::move(part));
    THROWS(YUREWHA_EMPTY_HANDLE, part.file_size());
    MUST(reader.size() == data.size() && reader.counted() == 54 + 2 * 128 && !reader.needs(place.first, place.end, 10));
    const auto kept = reader.read(place.first + 51, room.data(), 4, 100);
    MUST(kept.filled == 3 && kept.end == place.first + 55 && std::memcmp(room.data(), sent.data() + 51, 3) == 0);
    {
        const read_only<yu::reader> shared(std::move(reader));
        MUST(shared->size() == data.size() && shared->counted() == 310 && !shared->needs(place.first, place.end, 10));
        reader = yu::reader(tree->file_hash(), {}, 10);
        const read_only<yu::part> unchecked(std::move(whole));
        MUST(unchecked->file_size() == data.size() && unchecked->checked().chunks == 2 && unchecked->place() == place);
    }
    yu::part kept_part(proof, tree->file_hash(), {}, place.first, place.end, 0);
    (void)kept_part.check(sent);
    reader.keep_at_most(200);
    reader.take(std::move(kept_part));
    MUST(reader.counted() == 155);
    reader.keep_at_most(0);
    MUST(reader.counted() == 0);
    // Why a part isn't opened, and where the range of the proof is.
    try {
        (void)yu::part(proof, tree->file_hash(), {}, place.first - 1, place.end, 0);
        MUST(false);
    } catch (const yu::misplaced_range &error) {
        MUST(error.status() == YUREWHA_ELSEWHERE && error.place() == place);
    }
    try {
        (void)yu::part(proof, tree->file_hash(), {}, place.first + 2, place.end, 1);
        MUST(false);
    } catch (const yu::misplaced_range &error) {
        MUST(error.status() == YUREWHA_TOO_FAR && error.place() == place);
    }
    THROWS(YUREWHA_MISMATCH, yu::part(proof, tree->root(), {}, place.first, place.end, 0));
}

// With each request refused, what allocates throws std::bad_alloc, and leaves its object as it was.
static void refusals()
{
    const std::vector<yu::chunk> chunks = chunks_from(1, 300);
    yu::subtree front(true, some(chunks, 0, 100), false);
    const yu::subtree back(false, some(chunks, 100, 300), true), before = front, range(false, chunks, false);
    yu::session session, other, far;
    (void)session.put(0, chunks);
    (void)other.put(7, chunks);
    (void)far.put(2000, chunks);
    const std::string text = session.to_json();
    const yu::hash_tree tree(chunks);
    const yu::range_proof proof = tree.proof(1, 2);
    refuses = true;
    THROWS(YUREWHA_MEMORY, yu::xorb_hash(chunks));
    THROWS(YUREWHA_MEMORY, yu::subtree(true, chunks, true));
    THROWS(YUREWHA_MEMORY, yu::subtree(front));
    THROWS(YUREWHA_MEMORY, front.merge_into(back));
    THROWS(YUREWHA_MEMORY, front = back);
    THROWS(YUREWHA_MEMORY, yu::session());
    THROWS(YUREWHA_MEMORY, yu::session(session));
    THROWS(YUREWHA_MEMORY, session = other);
    THROWS(YUREWHA_MEMORY, session.run(0));
    THROWS(YUREWHA_MEMORY, session.put(1000, chunks));
    THROWS(YUREWHA_MEMORY, session.put_range(1000, 300, range));
    THROWS(YUREWHA_MEMORY, session.join(far));
    THROWS(YUREWHA_MEMORY, session.join(session)); // of which it makes a copy
    THROWS(YUREWHA_MEMORY, yu::hash_tree(chunks));
    THROWS(YUREWHA_MEMORY, yu::opened_range(proof, tree.file_hash()));
    refuses = false;
    MUST(front == before && session.to_json() == text);
}

// A file whose first chunks have 8193 bytes, since three bytes end the first one after 3 * 2731, and whose last one is short.
static void files()
{
    std::string data(20000, '\0');
    for (std::size_t i = 0; i < data.size(); i++)
        data[i] = "\0\x94\x8f"[i % 3];
    const std::vector<yu::chunk> chunks = {
        {yu::data_hash(data.substr(0, 8193)), 8193}, {yu::data_hash(data.substr(0, 8193)), 8193}, {yu::data_hash(data.substr(16386)), 3614}};
    yu::bytes salt{};
    salt.bytes[0] = 1;

    yu::chunker chunker;
    MUST(chunker.taken() == 0 && !chunker.next_boundary({}) && chunker.taken() == 0);
    MUST(!chunker.next_boundary(data.substr(0, 8190)) && !chunker.next_boundary({}) && chunker.taken() == 8190);
    yu::chunker copy = chunker;
    static_assert(std::is_trivially_copyable_v<yu::chunker> && sizeof(yu::chunker) == sizeof(yurewha_chunker));
    // A chunk ends in a piece, and with it.
    MUST(chunker.next_boundary(data.substr(8190)) == 3 && chunker.taken() == 0 && copy.taken() == 8190);
    MUST(copy.next_boundary(data.substr(8190, 3)) == 3 && copy.next_boundary(data.substr(8193)) == 8193);
    MUST(!copy.next_boundary(data.substr(16386)) && copy.taken() == 3614);
    copy = yu::chunker();
    MUST(copy.taken() == 0);
    // A piece of more than 4 GiB, whose pages nobody reads, and the longest chunk of one byte alone.
    const std::size_t long_size = (std::size_t{1} << 32) + 1;
    void *zeros = mmap(nullptr, long_size, PROT_READ, MAP_PRIVATE | MAP_ANONYMOUS | MAP_NORESERVE, -1, 0);
    MUST(zeros != MAP_FAILED && copy.next_boundary({zeros, long_size}) == 131072);
    munmap(zeros, long_size);
    MUST(!copy.next_boundary(std::string(131071, '\a')) && copy.taken() == 131071 && copy.next_boundary("\a"sv) == 1);

    yu::file_hasher hasher;
    MUST(hasher.size() == 0 && hasher.root() == yu::hash{} && hasher.finish() == yu::hash{} && hasher.finish_with_salt(salt) == yu::hash{});
    MUST(&hasher.update(data.substr(0, 7)) == &hasher && hasher.update({}).update(data.substr(7)).size() == 20000);
    refuses = true;
    THROWS(YUREWHA_MEMORY, hasher.root());
    THROWS(YUREWHA_MEMORY, hasher.update(std::string(1 << 20, 'a')));
    THROWS(YUREWHA_MEMORY, yu::file_hasher());
    refuses = false;
    yu::file_hasher moved = std::move(hasher);
    THROWS(YUREWHA_EMPTY_HANDLE, hasher.size());
    THROWS(YUREWHA_EMPTY_HANDLE, hasher.update(data));
    THROWS(YUREWHA_EMPTY_HANDLE, hasher.finish());
    hasher = yu::file_hasher();
    MUST(hasher.size() == 0 && moved.size() == 20000);
    static_assert(!std::is_copy_constructible_v<yu::file_hasher> && !std::is_copy_assignable_v<yu::file_hasher>);
    const read_only<yu::file_hasher> kept(std::move(moved));
    MUST(kept->root() == yu::xorb_hash(chunks) && kept->finish() == yu::file_hash(chunks) && kept->size() == 20000);
    MUST(kept->finish_with_salt(salt) == yu::file_hash_with_salt(chunks, salt) && kept->finish_with_salt({}) == kept->finish());
}

static void hash_indexes()
{
    const std::vector<yu::hash> hashes = {yu::random_from_seed(1), yu::random_from_seed(2), yu::random_from_seed(1)};
    const std::vector<std::uint64_t> numbers = {0, UINT64_MAX, 30};
    yu::hash_index index;
    MUST(index.insert(hashes, numbers) == 2 && index.insert(hashes, numbers) == 0);
    THROWS(YUREWHA_ARGUMENTS, index.insert(hashes, {}));
    yu::hash_index moved = std::move(index);
    THROWS(YUREWHA_EMPTY_HANDLE, index.len());
    THROWS(YUREWHA_EMPTY_HANDLE, index.entries());
    THROWS(YUREWHA_EMPTY_HANDLE, index.insert(hashes, numbers));
    refuses = true;
    THROWS(YUREWHA_MEMORY, moved.insert(std::vector<yu::hash>{yu::random_from_seed(3)}, std::vector<std::uint64_t>{1}));
    refuses = false;
    const read_only<yu::hash_index> kept(std::move(moved));
    const std::vector<std::optional<std::uint64_t>> wanted = {UINT64_MAX, std::nullopt, 0};
    MUST(kept->len() == 2 && kept->find({}).empty());
    MUST(kept->find(std::vector<yu::hash>{hashes[1], yu::random_from_seed(3), hashes[0]}) == wanted);
    const std::vector<std::pair<yu::hash, std::uint64_t>> entries = kept->entries();
    const std::set<std::pair<yu::hash, std::uint64_t>> all = {{hashes[0], 0}, {hashes[1], UINT64_MAX}};
    MUST(entries.size() == 2 && std::set(entries.begin(), entries.end()) == all && yu::hash_index().entries().empty());
}

int main()
{
    if (yurewha_set_allocator(allocate, reallocate, release) != YUREWHA_DONE)
        return 1;
    values();
    texts();
    roots();
    subtrees();
    sessions();
    range_proofs();
    hash_indexes();
    files();
    refusals();
    MUST(live == 0);
    std::printf("classes: %lu checks, %lu failed\n", checked, failed);
    return failed != 0;
}
