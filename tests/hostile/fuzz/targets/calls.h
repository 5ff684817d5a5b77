/* Handles of the library, and what the second reading says that they hold. */
#ifndef CALLS_H
#define CALLS_H

#include "support.h"

#include <map>
#include <set>

/* What a subtree stands for: the list that it is the canonical subtree of, where there is one. */
struct Range {
    second::Subtree subtree;
    std::optional<second::Nodes> list;
};

/* Subtrees by their number. */
class Ranges {
public:
    static constexpr size_t COUNT = 6;
    ~Ranges();
    /* Makes the call that the next bytes say. */
    void call(Input &input);
    void compare_all();
    /* Another call has a handle written, which now holds this, where it was done. */
    yurewha_subtree *handle(size_t which) { return &handles[which]; }
    void hold(size_t which, Range range);
    void compare(size_t which);

private:
    yurewha_subtree handles[COUNT] = {};
    std::optional<Range> kept[COUNT];

    void from_chunks(Input &input);
    void clone(Input &input);
    void equal(Input &input);
    void merge_into(Input &input, bool is_counted);
    void merge(Input &input);
    void to_json(Input &input);
    void from_json(Input &input);
    void to_flat(Input &input);
    void from_flat(Input &input);
    void move(Input &input);
    void free(Input &input);
    void compare_numbers(size_t which);
    void compare_marks(size_t which);
    void take_merged(size_t which, const Range &wanted, uint64_t size);
    second::Subtree read(size_t which);
};

/* Sessions by their number. */
class Sessions {
public:
    static constexpr size_t COUNT = 2;
    ~Sessions();
    void call(Input &input, Ranges &ranges);
    void compare_all();

private:
    struct Chunks {
        std::map<uint64_t, second::Node> placed;
        std::set<second::Hash> hashes;
        uint64_t size = 0;
    };
    using Runs = std::vector<std::pair<uint64_t, second::Nodes>>;
    yurewha_session handles[COUNT] = {};
    std::optional<Chunks> kept[COUNT];

    void make(size_t which);
    void put(size_t which, Input &input);
    void run(size_t which, Input &input, Ranges &ranges);
    void hash(size_t which, Input &input, bool is_root);
    void compare(size_t which);
    void compare_taken(size_t which, uint64_t position);
    void compare_counts(size_t which);
    void compare_gap(size_t which);
    void push_runs(size_t which, yurewha_session *restored);
    std::vector<yurewha_hash> known_hashes(size_t which);
    void restore(size_t which);
    static Runs runs_of(const Chunks &chunks);
    static yurewha_status refusal_of(const Chunks &chunks, uint64_t first, const second::Nodes &nodes);
};

/* Streaming hashers by their number. */
class Hashers {
public:
    static constexpr size_t COUNT = 2;
    void call(Input &input);

private:
    struct Message {
        second::Bytes32 key;
        std::string text;
    };
    yurewha_hasher hashers[COUNT];
    std::optional<Message> kept[COUNT];

    void begin(size_t which, Input &input);
    void update(size_t which, Input &input);
    void compare(size_t which);
};

/* Calls on hashes and on lists, which keep nothing. */
void call_on_hashes(Input &input);
void call_on_lists(Input &input);

#endif
