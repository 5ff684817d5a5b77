/* Calls that keep nothing, on hashes and on lists; and streaming hashers. */
#include "calls.h"

namespace {

constexpr size_t LONGEST_MESSAGE = 9000;

std::string drawn_text(Input &input)
{
    const uint8_t kind = input.byte(), step = input.byte();
    size_t length = kind;
    if (kind % 4 == 0)
        length = (kind / 4 % 5) * 1024 + (kind >= 128) - (kind % 8 == 0);
    else if (kind % 4 == 1)
        length = kind / 4 % 20 * 64 + (kind >= 128) - (kind % 8 == 1);
    if (length > LONGEST_MESSAGE)
        length = 0;
    std::string text;
    for (size_t i = 0; i < length; i++)
        text += static_cast<char>(i * step + kind);
    return text;
}

const uint8_t *bytes(const char *text) { return reinterpret_cast<const uint8_t *>(text); }

second::Hash drawn_hash(Input &input)
{
    second::Hash hash = {};
    for (uint64_t &word : hash)
        word = drawn_number(input);
    return hash;
}

/* A call that can't fail and takes no memory. */
template <class Call> void make_call(Call &&call)
{
    begin_call();
    call();
    EXPECT(end_call() == 0);
}

void expect_hash(const Out<yurewha_hash> &found, const second::Hash &wanted) { EXPECT(hash_from_c(*found) == wanted); }

void compare_messages(Input &input)
{
    const std::string text = drawn_text(input);
    const uint8_t *copy = bytes(fenced_text(0, text));
    Out<yurewha_hash> data, internal, seeded;
    make_call([&] { yurewha_data_hash(copy, text.size(), &data); });
    make_call([&] { yurewha_internal_node_hash(copy, text.size(), &internal); });
    expect_hash(data, second::data_hash(text));
    expect_hash(internal, second::internal_node_hash(text));
    const uint64_t seed = drawn_number(input);
    make_call([&] { yurewha_random_from_seed(seed, &seeded); });
    expect_hash(seeded, second::random_from_seed(seed));
}

void compare_forms(Input &input)
{
    const second::Hash hash = drawn_hash(input);
    const yurewha_hash given = hash_to_c(hash);
    Out<yurewha_bytes> bytes;
    Out<yurewha_hash> again;
    make_call([&] { yurewha_hash_to_bytes(&given, &bytes); });
    const second::Bytes32 wanted = second::bytes_of(hash);
    EXPECT(std::memcmp((*bytes).bytes, wanted.data(), wanted.size()) == 0);
    make_call([&] { yurewha_hash_from_bytes(&bytes, &again); });
    expect_hash(again, hash);
    const uint64_t divisor = drawn_number(input);
    Out<uint64_t> remainder;
    if (is_done_without_memory(divisor == 0 ? YUREWHA_ARGUMENTS : YUREWHA_DONE,
                               [&] { return yurewha_remainder(&given, divisor, &remainder); }))
        EXPECT(*remainder == hash[3] % divisor);
    else
        EXPECT(remainder.is_untouched());
}

void compare_two(Input &input)
{
    const second::Hash first = drawn_hash(input);
    second::Hash other = first;
    if (input.flag())
        other[input.below(4)] = drawn_number(input);
    const yurewha_hash first_c = hash_to_c(first), other_c = hash_to_c(other);
    Out<yurewha_hash> hash;
    make_call([&] { yurewha_hmac(&first_c, &other_c, &hash); });
    expect_hash(hash, second::hmac(first, other));
    begin_call();
    const int32_t order = yurewha_compare(&first_c, &other_c);
    EXPECT(end_call() == 0 && order == (first < other ? -1 : other < first ? 1 : 0));
}

void compare_point(const std::optional<size_t> &wanted, yurewha_status (*find)(const yurewha_chunk *, size_t, size_t *),
                   const second::Nodes &nodes)
{
    const yurewha_chunk *chunks = fenced_chunks(0, nodes);
    Out<size_t> point;
    if (is_done(wanted ? YUREWHA_DONE : YUREWHA_ARGUMENTS, YUREWHA_MEMORY,
                [&] { return find(chunks, nodes.size(), &point); }))
        EXPECT(*point == wanted);
    else
        EXPECT(point.is_untouched());
}

}  // namespace

void call_on_hashes(Input &input)
{
    switch (input.below(3)) {
    case 0:
        return compare_messages(input);
    case 1:
        return compare_forms(input);
    default:
        return compare_two(input);
    }
}

void call_on_lists(Input &input)
{
    const uint8_t kind = input.byte();
    const second::Nodes nodes = drawn_nodes(input);
    if (kind % 5 == 3)
        return compare_point(second::first_stable_point(nodes), yurewha_find_stable_start, nodes);
    if (kind % 5 == 4)
        return compare_point(second::last_stable_point(nodes), yurewha_find_stable_end, nodes);
    const second::Hash salt = kind % 5 == 2 ? drawn_hash(input) : second::Hash{};
    yurewha_bytes salt_c;
    const second::Bytes32 salt_bytes = second::bytes_of(salt);
    std::memcpy(salt_c.bytes, salt_bytes.data(), salt_bytes.size());
    const yurewha_chunk *chunks = fenced_chunks(0, nodes);
    Out<yurewha_hash> hash;
    if (is_done(second::total_size(nodes) ? YUREWHA_DONE : YUREWHA_SIZES, YUREWHA_MEMORY, [&] {
            return kind % 5 == 0   ? yurewha_xorb_hash(chunks, nodes.size(), &hash)
                   : kind % 5 == 1 ? yurewha_file_hash(chunks, nodes.size(), &hash)
                                   : yurewha_file_hash_with_salt(chunks, nodes.size(), &salt_c, &hash);
        }))
        expect_hash(hash, kind % 5 == 0 ? second::root_of(nodes) : second::file_hash_of(nodes, salt));
    else
        EXPECT(hash.is_untouched());
    EXPECT(nodes.size() > 1 || !was_refused());
}

void Hashers::call(Input &input)
{
    const size_t which = input.below(COUNT), what = input.below(5);
    if (!kept[which] || what == 0) {
        begin(which, input);
    } else if (what == 1) {
        hashers[1 - which] = hashers[which];
        kept[1 - which] = kept[which];
    } else {
        update(which, input);
    }
    for (size_t i = 0; i < COUNT; i++)
        compare(i);
}

void Hashers::begin(size_t which, Input &input)
{
    static constexpr second::Bytes32 KEYS[2] = {
        {102, 151, 245, 119, 91,  149, 80, 222, 49, 53,  203, 172, 165, 151, 24, 28,
         157, 228, 33,  16,  155, 235, 43, 88,  180, 208, 176, 75, 147, 173, 242, 41},
        {1,  126, 197, 199, 165, 71, 41, 150, 253, 148, 102, 102, 180, 138, 2, 230,
         93, 221, 83,  111, 55,  199, 109, 210, 248, 99, 82, 230, 74, 83, 113, 63}};
    const size_t kind = input.below(3);
    const second::Bytes32 key = kind < 2 ? KEYS[kind] : second::bytes_of(drawn_hash(input));
    yurewha_bytes key_c;
    std::memcpy(key_c.bytes, key.data(), key.size());
    make_call([&] {
        kind == 0   ? yurewha_hasher_begin_data(&hashers[which])
        : kind == 1 ? yurewha_hasher_begin_internal(&hashers[which])
                    : yurewha_hasher_begin_keyed(&hashers[which], &key_c);
    });
    kept[which] = Message{key, ""};
}

void Hashers::update(size_t which, Input &input)
{
    const std::string piece = drawn_text(input);
    if (kept[which]->text.size() + piece.size() > LONGEST_MESSAGE)
        return;
    const uint8_t *copy = bytes(fenced_text(0, piece));
    is_done_without_memory(YUREWHA_DONE, [&] { return yurewha_hasher_update(&hashers[which], copy, piece.size()); });
    kept[which]->text += piece;
}

void Hashers::compare(size_t which)
{
    if (!kept[which])
        return;
    const Message &message = *kept[which];
    Out<yurewha_hash> hash;
    make_call([&] { yurewha_hasher_finalize(&hashers[which], &hash); });
    expect_hash(hash, second::hash_of(second::keyed_blake3(message.key, message.text)));
    begin_call();
    const uint64_t count = yurewha_hasher_count(&hashers[which]);
    EXPECT(end_call() == 0 && count == message.text.size());
    seen(LENGTH, count);
}
