/* A second reading of the definitions of a hash: keyed BLAKE3, the two keys, and the forms of a hash. Nothing of the library is
 * used. */
#ifndef SECOND_HASH_H
#define SECOND_HASH_H

#include <array>
#include <cstddef>
#include <cstdint>
#include <optional>
#include <string>
#include <string_view>
#include <vector>

namespace second {

using Bytes32 = std::array<uint8_t, 32>;
using Hash = std::array<uint64_t, 4>;
using Words = std::array<uint32_t, 8>;

/* Keyed BLAKE3 of a message, by the tree over the whole of it. */
Bytes32 keyed_blake3(const Bytes32 &key, std::string_view message);

/* The same for a message that begins with so many whole chunks, of which the values of the complete subtrees are known, the
 * largest first, and that goes on with `rest`, which isn't empty. */
Bytes32 keyed_blake3_after(const Bytes32 &key, uint64_t chunks, const std::vector<Words> &subtrees, std::string_view rest);

/* The words in order, each little-endian. */
Bytes32 bytes_of(const Hash &hash);
Hash hash_of(const Bytes32 &bytes);

Hash data_hash(std::string_view message);
Hash internal_node_hash(std::string_view message);
Hash hmac(const Hash &hash, const Hash &key);

/* The first 32 bytes of Xoshiro256++, seeded by SplitMix64. */
Hash random_from_seed(uint64_t seed);

std::string hex_of(const Hash &hash);
std::optional<Hash> from_hex(std::string_view text);
std::string base64_of(const Hash &hash);
std::optional<Hash> from_base64(std::string_view text);

}  // namespace second

#endif
