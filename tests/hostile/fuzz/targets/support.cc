#include "support.h"

#include <algorithm>
#include <cstdio>
#include <cstdlib>
#include <sys/mman.h>
#include <unistd.h>

extern "C" {
void *__real_malloc(size_t size);
void *__real_realloc(void *old, size_t size);
void __real_free(void *old);
void *__wrap_malloc(size_t size);
void *__wrap_realloc(void *old, size_t size);
void __wrap_free(void *old);
}

namespace {

constexpr uint8_t FILL = 0xA5;
constexpr size_t CLASSES = 64, KINDS = 16, FENCES = 4, FENCE_ROOM = 1 << 18, KEPT_BEFORE = 64;

__attribute__((section("__libfuzzer_extra_counters"), used)) uint8_t counters[KINDS * CLASSES];

struct {
    unsigned refused_number = 0;
    bool refuses_all = false;
    bool is_calling = false;
    unsigned requests = 0;
    bool was_refused = false;
    long live = 0;
} heap;

bool is_refused()
{
    if (!heap.is_calling)
        return false;
    heap.requests++;
    const unsigned number = heap.refused_number;
    const bool refused = number != 0 && (heap.refuses_all ? heap.requests >= number : heap.requests == number);
    heap.was_refused = heap.was_refused || refused;
    return refused;
}

}  // namespace

/* The linker puts these before malloc, realloc and free, by --wrap. */
void *__wrap_malloc(size_t size)
{
    void *found = is_refused() ? nullptr : __real_malloc(size);
    heap.live += heap.is_calling && found != nullptr;
    return found;
}

void *__wrap_realloc(void *old, size_t size)
{
    void *found = is_refused() ? nullptr : __real_realloc(old, size);
    heap.live += heap.is_calling && old == nullptr && found != nullptr;
    return found;
}

void __wrap_free(void *old)
{
    heap.live -= heap.is_calling && old != nullptr;
    __real_free(old);
}

void refuse_next(unsigned number, bool all)
{
    heap.refused_number = number;
    heap.refuses_all = all;
}

void begin_call()
{
    heap.requests = 0;
    heap.was_refused = false;
    heap.is_calling = true;
}

unsigned end_call()
{
    heap.is_calling = false;
    heap.refused_number = 0;
    return heap.requests;
}

bool was_refused() { return heap.was_refused; }
long live_blocks() { return heap.live; }

void differ(const char *what, const char *file, int line)
{
    std::fprintf(stderr, "%s:%d: DIFFERENCE: not %s\n", file, line, what);
    std::abort();
}

void seen(Seen what, uint64_t number)
{
    size_t bits = 0;
    for (uint64_t rest = number; rest != 0; rest >>= 1)
        bits++;
    const size_t number_class = number < 32 ? number : std::min<size_t>(CLASSES - 1, 26 + bits);
    counters[what * CLASSES + number_class] = 1;
}

void seen_subtree(const second::Subtree &subtree)
{
    seen(LEVELS, subtree.levels.size());
    seen(NODES, second::node_count(subtree));
    seen(TOP, subtree.levels.back().left.size());
}

Fence::Fence(size_t wanted) : room(wanted)
{
    const size_t page = static_cast<size_t>(sysconf(_SC_PAGESIZE));
    void *found = mmap(nullptr, room + page, PROT_READ | PROT_WRITE, MAP_PRIVATE | MAP_ANONYMOUS, -1, 0);
    if (found == MAP_FAILED || mprotect(static_cast<uint8_t *>(found) + room, page, PROT_NONE) != 0)
        std::abort();
    end = static_cast<uint8_t *>(found) + room;
}

uint8_t *Fence::last(size_t wanted)
{
    if (wanted + KEPT_BEFORE > room)
        std::abort();
    length = wanted;
    std::memset(end - length - KEPT_BEFORE, FILL, length + KEPT_BEFORE);
    return end - length;
}

bool Fence::is_untouched(size_t from) const
{
    for (const uint8_t *at = end - length - KEPT_BEFORE; at != end - length; at++)
        if (*at != FILL)
            return false;
    for (const uint8_t *at = end - length + from; at < end; at++)
        if (*at != FILL)
            return false;
    return true;
}

Fence &fence(size_t number)
{
    static Fence fences[FENCES] = {Fence(FENCE_ROOM), Fence(FENCE_ROOM), Fence(FENCE_ROOM), Fence(FENCE_ROOM)};
    return fences[number];
}

const char *fenced_text(size_t number, std::string_view text)
{
    char *copy = fence(number).array<char>(text.size());
    text.copy(copy, text.size());
    return copy;
}

const yurewha_chunk *fenced_chunks(size_t number, const second::Nodes &nodes)
{
    if (nodes.empty())
        return nullptr;
    yurewha_chunk *chunks = fence(number).array<yurewha_chunk>(nodes.size());
    for (size_t i = 0; i < nodes.size(); i++)
        chunks[i] = {hash_to_c(nodes[i].hash), nodes[i].size};
    return chunks;
}

yurewha_hash hash_to_c(const second::Hash &hash) { return {{hash[0], hash[1], hash[2], hash[3]}}; }

second::Hash hash_from_c(const yurewha_hash &hash)
{
    return {hash.words[0], hash.words[1], hash.words[2], hash.words[3]};
}

second::Nodes nodes_from_c(const yurewha_chunk *nodes, size_t count)
{
    second::Nodes read;
    for (size_t i = 0; i < count; i++)
        read.push_back({hash_from_c(nodes[i].hash), nodes[i].size});
    return read;
}

namespace {

/* A node for each byte: its low half is word 3, which says whether it is a natural cut, and its high half word 0. */
second::Nodes spelled_nodes(Input &input)
{
    second::Nodes nodes;
    for (size_t left = input.below(64); left > 0; left--) {
        const uint64_t byte = input.byte();
        nodes.push_back({{byte >> 4, 0, 0, byte & 15}, byte >> 4});
    }
    return nodes;
}

/* Natural cuts at equal distances. */
second::Nodes periodic_nodes(Input &input)
{
    const size_t period = 1 + input.below(10), offset = input.below(12), count = input.below(200);
    second::Nodes nodes;
    for (size_t i = 0; i < count; i++)
        nodes.push_back({{i, 0, 0, i % period == offset ? i % 3 * 4 : 1 + i % 3}, 1 + i % 7});
    return nodes;
}

second::Nodes random_nodes(Input &input)
{
    const uint64_t seed = input.byte();
    second::Nodes nodes;
    for (size_t i = 0, count = input.below(120); i < count; i++)
        nodes.push_back({second::random_from_seed(1000 * seed + i), 100 + 977 * i % 9901});
    return nodes;
}

}  // namespace

uint64_t drawn_number(Input &input)
{
    const uint8_t kind = input.byte();
    const uint64_t byte = input.byte();
    switch (kind % 8) {
    case 0:
        return UINT64_MAX - byte;
    case 1:
        return UINT64_MAX / 2 + byte;
    case 2:
        return byte << 32;
    case 3:
        return byte << (kind / 8 + 24);
    default:
        return byte;
    }
}

second::Nodes drawn_nodes(Input &input)
{
    const uint8_t kind = input.byte();
    second::Nodes nodes = kind % 4 == 0 ? periodic_nodes(input) : kind % 4 == 1 ? random_nodes(input) : spelled_nodes(input);
    if (kind >= 0xC0 && !nodes.empty())
        nodes[input.below(nodes.size())].size = drawn_number(input);
    return nodes;
}
