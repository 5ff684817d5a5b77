/* What the targets share: bytes of an input, memory that a call can't go past, refused requests, and observations. */
#ifndef SUPPORT_H
#define SUPPORT_H

#include "../second/merkle.h"
#include "yurewha.h"

#include <cstring>

/* Prints a difference between the library and the second reading, and ends the process: libFuzzer then keeps the input. */
[[noreturn]] void differ(const char *what, const char *file, int line);
#define EXPECT(condition) ((condition) ? void() : differ(#condition, __FILE__, __LINE__))

/* Counts that something was seen, which libFuzzer takes for coverage: the library's own code isn't instrumented. A number is
 * one of 64 classes: up to 31 each by itself, and then by its length in bits. */
enum Seen { STATUS, LEVELS, NODES, TOP, PARENTS, RUNS, NEW_HASHES, LENGTH, REFUSED, FAULT_LENGTH, EXIT /* and one more for each command */ };
void seen(Seen what, uint64_t number);
void seen_subtree(const second::Subtree &subtree);

/* The bytes of an input, and 0 once they are used up. */
class Input {
public:
    Input(const uint8_t *data, size_t size) : at(data), end(data + size) {}
    bool is_empty() const { return at == end; }
    uint8_t byte() { return is_empty() ? 0 : *at++; }
    size_t below(size_t bound) { return byte() % bound; }
    bool flag() { return byte() & 1; }
    std::string_view rest() const { return {reinterpret_cast<const char *>(at), static_cast<size_t>(end - at)}; }

private:
    const uint8_t *at;
    const uint8_t *end;
};

/* Memory before a page that can be neither read nor written. What is handed out ends there, and is filled with one byte, as is
 * what stands before it. */
class Fence {
public:
    explicit Fence(size_t room);
    /* The last bytes before the page. */
    uint8_t *last(size_t length);
    template <class T> T *array(size_t count) { return reinterpret_cast<T *>(last(count * sizeof(T))); }
    /* Whether the bytes that were handed out, from an offset on, and those before them are still filled. */
    bool is_untouched(size_t from = 0) const;

private:
    uint8_t *end;
    size_t room;
    size_t length = 0;
};

/* Fences that are made once. */
Fence &fence(size_t number);
/* A copy of a text, or of a list, before a fence; a null pointer or the fence itself where it is empty. */
const char *fenced_text(size_t number, std::string_view text);
const yurewha_chunk *fenced_chunks(size_t number, const second::Nodes &nodes);

/* An out parameter between two words that a call doesn't write. */
template <class T> class Out {
public:
    Out() { std::memset(this, FILL, sizeof *this); }
    T *operator&() { return &value; }
    const T &operator*() const
    {
        EXPECT(is_filled(&before, sizeof before) && is_filled(&after, sizeof after));
        return value;
    }
    bool is_untouched() const { return is_filled(this, sizeof *this); }

private:
    static constexpr uint8_t FILL = 0xA5;
    uint64_t before;
    T value;
    uint64_t after;

    static bool is_filled(const void *object, size_t size)
    {
        const uint8_t *bytes = static_cast<const uint8_t *>(object);
        for (size_t i = 0; i < size; i++)
            if (bytes[i] != FILL)
                return false;
        return true;
    }
};

/* Refuses a request for memory of the next call: that number alone, or all from it on; none for 0. */
void refuse_next(unsigned number, bool all);
void begin_call();
/* How many requests the call made. */
unsigned end_call();
bool was_refused();
/* Blocks that calls have taken and not freed. */
long live_blocks();

/* Makes a call that should answer this status, or that of refused memory where a request was refused. Answers whether it did
 * what it is for. */
template <class Call> bool is_done(yurewha_status wanted, yurewha_status memory, Call &&call)
{
    begin_call();
    const yurewha_status found = call();
    end_call();
    seen(STATUS, found);
    seen(REFUSED, was_refused());
    if (found == memory && was_refused())
        return false;
    EXPECT(found == wanted);
    return found == YUREWHA_DONE;
}

/* Makes a call that takes no memory. */
template <class Call> bool is_done_without_memory(yurewha_status wanted, Call &&call)
{
    begin_call();
    const yurewha_status found = call();
    EXPECT(end_call() == 0);
    seen(STATUS, found);
    EXPECT(found == wanted);
    return found == YUREWHA_DONE;
}

/* Values of C, and their second reading. */
yurewha_hash hash_to_c(const second::Hash &hash);
second::Hash hash_from_c(const yurewha_hash &hash);
second::Nodes nodes_from_c(const yurewha_chunk *nodes, size_t count);

/* A list and a size, as the next bytes say. */
second::Nodes drawn_nodes(Input &input);
uint64_t drawn_number(Input &input);

#endif
