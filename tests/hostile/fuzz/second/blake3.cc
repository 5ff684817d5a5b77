/* Keyed BLAKE3, as its specification says it: a message is cut in two from the top until one chunk is left. */
#include "hash.h"

#include <algorithm>
#include <bitset>

namespace second {
namespace {

using Block = std::array<uint32_t, 16>;

constexpr uint32_t CHUNK_START = 1, CHUNK_END = 2, PARENT = 4, ROOT = 8, KEYED_HASH = 16;
constexpr size_t BLOCK = 64, CHUNK = 1024;

uint32_t rotated(uint32_t x, unsigned count) { return x >> count | x << (32 - count); }

void mix(Block &v, size_t a, size_t b, size_t c, size_t d, uint32_t x, uint32_t y)
{
    v[a] = v[a] + v[b] + x;
    v[d] = rotated(v[d] ^ v[a], 16);
    v[c] = v[c] + v[d];
    v[b] = rotated(v[b] ^ v[c], 12);
    v[a] = v[a] + v[b] + y;
    v[d] = rotated(v[d] ^ v[a], 8);
    v[c] = v[c] + v[d];
    v[b] = rotated(v[b] ^ v[c], 7);
}

Words compressed(const Words &h, Block m, uint64_t counter, uint32_t length, uint32_t flags)
{
    static constexpr size_t PERMUTATION[16] = {2, 6, 3, 10, 7, 0, 4, 13, 1, 11, 12, 5, 9, 14, 15, 8};
    Block v = {h[0], h[1], h[2], h[3], h[4], h[5], h[6], h[7], 0x6A09E667, 0xBB67AE85, 0x3C6EF372, 0xA54FF53A,
               static_cast<uint32_t>(counter), static_cast<uint32_t>(counter >> 32), length, flags};
    for (int round = 0; round < 7; round++) {
        if (round > 0) {
            const Block before = m;
            for (size_t i = 0; i < 16; i++)
                m[i] = before[PERMUTATION[i]];
        }
        mix(v, 0, 4, 8, 12, m[0], m[1]);
        mix(v, 1, 5, 9, 13, m[2], m[3]);
        mix(v, 2, 6, 10, 14, m[4], m[5]);
        mix(v, 3, 7, 11, 15, m[6], m[7]);
        mix(v, 0, 5, 10, 15, m[8], m[9]);
        mix(v, 1, 6, 11, 12, m[10], m[11]);
        mix(v, 2, 7, 8, 13, m[12], m[13]);
        mix(v, 3, 4, 9, 14, m[14], m[15]);
    }
    Words out;
    for (size_t i = 0; i < 8; i++)
        out[i] = v[i] ^ v[i + 8];
    return out;
}

uint32_t byte_at(std::string_view text, size_t i) { return i < text.size() ? static_cast<uint8_t>(text[i]) : 0; }

uint32_t word_at(std::string_view text, size_t i)
{
    return byte_at(text, i) | byte_at(text, i + 1) << 8 | byte_at(text, i + 2) << 16 | byte_at(text, i + 3) << 24;
}

Words value_of_chunk(const Words &key, uint64_t number, std::string_view chunk, uint32_t root)
{
    Words value = key;
    size_t at = 0;
    do {
        const std::string_view block = chunk.substr(at, BLOCK);
        Block words;
        for (size_t i = 0; i < 16; i++)
            words[i] = word_at(block, 4 * i);
        const bool is_last = at + BLOCK >= chunk.size();
        const uint32_t flags = KEYED_HASH | (at == 0 ? CHUNK_START : 0) | (is_last ? CHUNK_END | root : 0);
        value = compressed(value, words, number, static_cast<uint32_t>(block.size()), flags);
        at += BLOCK;
    } while (at < chunk.size());
    return value;
}

/* A message: the values of the complete subtrees of its first chunks, the largest first, and the bytes of the others. */
struct Message {
    uint64_t chunks;
    const std::vector<Words> &subtrees;
    std::string_view rest;
};

/* The value of `count` chunks from number `first` on. */
Words value_of(const Words &key, const Message &message, uint64_t first, uint64_t count, uint32_t root)
{
    if (first + count <= message.chunks)
        return message.subtrees[std::bitset<64>(first).count()];
    if (count == 1)
        return value_of_chunk(key, first, message.rest.substr((first - message.chunks) * CHUNK, CHUNK), root);
    uint64_t left = 1;
    while (2 * left < count)
        left *= 2;
    const Words parts[2] = {value_of(key, message, first, left, 0),
                            value_of(key, message, first + left, count - left, 0)};
    Block block;
    for (size_t i = 0; i < 16; i++)
        block[i] = parts[i / 8][i % 8];
    return compressed(key, block, 0, BLOCK, PARENT | KEYED_HASH | root);
}

}  // namespace

Bytes32 keyed_blake3_after(const Bytes32 &key, uint64_t chunks, const std::vector<Words> &subtrees, std::string_view rest)
{
    Words words;
    const std::string_view key_text(reinterpret_cast<const char *>(key.data()), key.size());
    for (size_t i = 0; i < 8; i++)
        words[i] = word_at(key_text, 4 * i);
    const uint64_t count = std::max<uint64_t>(chunks + (rest.size() + CHUNK - 1) / CHUNK, 1);
    const Words value = value_of(words, {chunks, subtrees, rest}, 0, count, ROOT);
    Bytes32 bytes;
    for (size_t i = 0; i < 32; i++)
        bytes[i] = static_cast<uint8_t>(value[i / 4] >> 8 * (i % 4));
    return bytes;
}

Bytes32 keyed_blake3(const Bytes32 &key, std::string_view message) { return keyed_blake3_after(key, 0, {}, message); }

}  // namespace second
