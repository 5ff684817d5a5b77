/* Hashers that get a message in pieces. driver/ has the other calls with hashes. */
#include "harness.h"

static void begin(yurewha_hasher *hasher, size_t key)
{
    yurewha_bytes bytes;
    for (size_t i = 0; i < 32; i++)
        bytes.bytes[i] = (uint8_t)i;
    if (key == 0)
        yurewha_hasher_begin_data(hasher);
    else if (key == 1)
        yurewha_hasher_begin_internal(hasher);
    else
        yurewha_hasher_begin_keyed(hasher, &bytes);
}

/* The hash of a message that comes in one piece. */
static yurewha_hash hash_of_whole(size_t key, const uint8_t *bytes, size_t length)
{
    yurewha_hasher hasher = {{0}};
    yurewha_hash hash, own;
    begin(&hasher, key);
    EXPECT_STATUS(YUREWHA_DONE, yurewha_hasher_update(&hasher, bytes, length));
    yurewha_hasher_finalize(&hasher, &hash);
    own = hash;
    if (key == 0)
        yurewha_data_hash(bytes, length, &own);
    else if (key == 1)
        yurewha_internal_node_hash(bytes, length, &own);
    EXPECT(same_hash(&hash, &own));
    return hash;
}

/* However a message is cut, a hasher gives the hash of the whole; a copy of it goes on by itself. */
static void pieces(void)
{
    static const size_t lengths[] = {0, 1, 3, 63, 64, 65, 128, 1023, 1024, 1025, 2048, 2049, 3073, 5000, 10241};
    static const size_t sizes[] = {1, 64, 65, 1000, 1023, 1024, 1025, 20000};
    for (size_t i = 0; i < LENGTH(lengths) * LENGTH(sizes) * 3; i++) {
        const size_t whole = lengths[i / (3 * LENGTH(sizes))], size = sizes[i / 3 % LENGTH(sizes)];
        uint8_t *bytes = message_of(whole);
        yurewha_hasher hasher = {{0}};
        yurewha_hash hash;
        row("%zu bytes by %zu, key %zu", whole, size, i % 3);
        const yurewha_hash wanted = hash_of_whole(i % 3, bytes, whole);
        begin(&hasher, i % 3);
        EXPECT(yurewha_hasher_count(&hasher) == 0);
        for (size_t at = 0; at < whole; at += size) {
            const size_t length = whole - at < size ? whole - at : size;
            EXPECT_STATUS(YUREWHA_DONE, yurewha_hasher_update(&hasher, bytes + at, length));
            EXPECT(yurewha_hasher_count(&hasher) == at + length);
        }
        yurewha_hasher copy = hasher;
        yurewha_hasher_finalize(&hasher, &hash);
        EXPECT(same_hash(&hash, &wanted));
        EXPECT(memcmp(&copy, &hasher, sizeof copy) == 0);
        EXPECT_STATUS(YUREWHA_DONE, yurewha_hasher_update(&hasher, "more", 4));
        yurewha_hasher_finalize(&hasher, &hash);
        EXPECT(!same_hash(&hash, &wanted));
        yurewha_hasher_finalize(&copy, &hash);
        EXPECT(same_hash(&hash, &wanted));
        free(bytes);
    }
}

/* Which word of a hasher is the length of its message: the one that is the length of this message. */
static size_t place_of_count(void)
{
    static const uint8_t message[12345] = {0};
    yurewha_hasher hasher = {{0}};
    size_t place = 0;
    yurewha_hasher_begin_data(&hasher);
    EXPECT_STATUS(YUREWHA_DONE, yurewha_hasher_update(&hasher, message, sizeof message));
    while (place < LENGTH(hasher.state) - 1 && hasher.state[place] != sizeof message)
        place++;
    return place;
}

/* No test can add 2^64 bytes, so the count is written by hand. A refused update looks at nothing else. */
static void full_hasher(void)
{
    static const uint8_t piece[8] = {0};
    const size_t count = place_of_count();
    for (size_t length = 4; length <= sizeof piece; length++) {
        yurewha_hasher hasher = {{0}}, before;
        yurewha_hasher_begin_data(&hasher);
        hasher.state[count] = UINT64_MAX - 3;
        before = hasher;
        row("%zu bytes to 2^64 - 4", length);
        EXPECT_STATUS(YUREWHA_SIZES, yurewha_hasher_update(&hasher, piece, length));
        EXPECT(memcmp(&before, &hasher, sizeof before) == 0);
        EXPECT(yurewha_hasher_count(&hasher) == UINT64_MAX - 3);
    }
}

void test_hasher(void)
{
    pieces();
    full_hasher();
}
