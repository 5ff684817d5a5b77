/* Compares the library's hashes with a second reading of the definition: of every length up to 20,000, of lengths around all
 * multiples of 16,384 and some of 1024, 4096 and 8192 up to 2^20, of random messages that are cut into random pieces, and of messages
 * of about 2^32 chunks, from a state that is written into the hasher.
 *
 *     lengths [CUTTINGS]             how many messages are cut, 100,000 if it doesn't say
 *     lengths --cases CUTTINGS       writes the cases, each with its hash by the second implementation, for lengths.mjs */
#include "../fuzz/second/hash.h"
#include "yurewha.h"

#include <algorithm>
#include <bitset>
#include <cstdio>
#include <cstdlib>
#include <cstring>
#include <random>
#include <string>
#include <vector>

namespace {

constexpr size_t EVERY_LENGTH = 20'000, LONGEST = 1 << 20, CUTTINGS = 100'000;

size_t checks, failures;
/* Whether cases are written, and the library isn't called. */
bool is_written;

/* What a case is about: a message at once, one in pieces, or one in pieces after many chunks. */
enum Kind : uint32_t { WHOLE, PIECES, AFTER };

template <class T> void write(const T &value) { std::fwrite(&value, sizeof value, 1, stdout); }

template <class T> void write_all(const T *values, size_t count)
{
    write(static_cast<uint32_t>(count));
    std::fwrite(values, sizeof *values, count, stdout);
}

const uint8_t *bytes_of(std::string_view text) { return reinterpret_cast<const uint8_t *>(text.data()); }

void expect(const yurewha_hash &hash, const second::Hash &wanted, const char *what, size_t length)
{
    checks++;
    if (!std::equal(wanted.begin(), wanted.end(), hash.words) && ++failures <= 10)
        std::printf("%s: %zu bytes\n", what, length);
}

std::string drawn(std::mt19937_64 &random, size_t length)
{
    std::string message(length, '\0');
    for (char &byte : message)
        byte = static_cast<char>(random());
    return message;
}

void whole(std::string_view message)
{
    const second::Hash wanted = second::data_hash(message);
    if (is_written) {
        write(WHOLE);
        write(static_cast<uint32_t>(message.size()));
        return write(wanted);
    }
    yurewha_hash hash;
    yurewha_data_hash(bytes_of(message), message.size(), &hash);
    expect(hash, wanted, "whole", message.size());
}

/* Pieces of up to `longest` bytes of a message. */
std::vector<uint32_t> drawn_pieces(std::mt19937_64 &random, size_t length, size_t longest)
{
    std::vector<uint32_t> pieces;
    for (size_t done = 0; done < length; done += pieces.back())
        pieces.push_back(static_cast<uint32_t>(std::min<size_t>(random() % (longest + 1), length - done)));
    return pieces;
}

void update(yurewha_hasher *hasher, std::string_view piece)
{
    if (yurewha_hasher_update(hasher, bytes_of(piece), piece.size()) != YUREWHA_DONE)
        std::abort();
}

/* Cuts a message into pieces of up to `longest` bytes. Sometimes it asks for the hash of what came before. */
void cut(std::mt19937_64 &random, std::string_view message, size_t longest)
{
    const std::vector<uint32_t> pieces = drawn_pieces(random, message.size(), longest);
    yurewha_hasher hasher;
    yurewha_hasher_begin_data(&hasher);
    for (size_t count = 0, done = 0;; count++) {
        if (count == pieces.size() || random() % 64 == 0) {
            const second::Hash wanted = second::data_hash(message.substr(0, done));
            if (is_written) {
                write(PIECES);
                write_all(pieces.data(), count);
                write(wanted);
            } else {
                yurewha_hash hash;
                yurewha_hasher_finalize(&hasher, &hash);
                expect(hash, wanted, "in pieces", done);
            }
        }
        if (count == pieces.size())
            return;
        if (!is_written)
            update(&hasher, message.substr(done, pieces[count]));
        done += pieces[count];
    }
}

/* Hashes a message from a state in which so many chunks came before, no power of two. The state is private to the library: the
 * key, the value of the open chunk, room for 54 values of subtrees, the last block, and the count of bytes. */
void after(std::mt19937_64 &random, uint64_t chunks, std::string_view rest)
{
    yurewha_bytes key;
    second::Bytes32 same_key;
    for (size_t i = 0; i < same_key.size(); i++)
        key.bytes[i] = same_key[i] = static_cast<uint8_t>(random());
    std::vector<second::Words> subtrees(std::bitset<64>(chunks).count());
    for (second::Words &subtree : subtrees)
        for (uint32_t &word : subtree)
            word = static_cast<uint32_t>(random());
    const uint64_t count = chunks * 1024;
    /* Half of the messages have pieces of many chunks, which go side by side in all lanes. */
    const std::vector<uint32_t> pieces = drawn_pieces(random, rest.size(), random() % 2 ? 9000 : 90'000);
    const second::Hash wanted = second::hash_of(second::keyed_blake3_after(same_key, chunks, subtrees, rest));
    if (is_written) {
        write(AFTER);
        write(chunks);
        write(same_key);
        write_all(subtrees.data(), subtrees.size());
        write_all(pieces.data(), pieces.size());
        return write(wanted);
    }
    yurewha_hasher hasher;
    yurewha_hash hash;
    yurewha_hasher_begin_keyed(&hasher, &key);
    uint8_t *state = reinterpret_cast<uint8_t *>(&hasher);
    std::memcpy(state + 64, subtrees.data(), subtrees.size() * sizeof(second::Words));
    std::memcpy(state + 64 + 54 * 32 + 64, &count, sizeof count);
    size_t done = 0;
    for (const uint32_t piece : pieces) {
        update(&hasher, rest.substr(done, piece));
        done += piece;
    }
    if (yurewha_hasher_count(&hasher) != count + rest.size())
        std::abort();
    yurewha_hasher_finalize(&hasher, &hash);
    expect(hash, wanted, "after about 2^32 chunks", rest.size());
}

}  // namespace

int main(int count, char **words)
{
    is_written = count > 2 && words[1] == std::string_view("--cases");
    const size_t cuttings = count > 1 ? std::strtoul(words[count - 1], nullptr, 10) : CUTTINGS;
    std::mt19937_64 random(1);
    const std::string longest = drawn(random, LONGEST + 1);
    const std::string_view message = longest;
    if (is_written)
        write_all(message.data(), message.size());
    for (size_t length = 0; length <= EVERY_LENGTH; length++)
        whole(message.substr(0, length));
    /* Units, and how many of them there are at most from one multiple to the next. */
    constexpr size_t STEPS[][2] = {{1024, 16}, {4096, 16}, {8192, 16}, {16'384, 1}};
    for (const auto &[unit, farthest] : STEPS)
        for (size_t multiple = unit; multiple <= LONGEST; multiple += unit * (1 + random() % farthest))
            for (size_t length = multiple - 1; length <= multiple + 1; length++)
                whole(message.substr(0, length));
    constexpr size_t LONGEST_PIECES[] = {100, 1024, 1100, 2048, 5000, 16'384, 70'000};
    for (size_t i = 0; i < cuttings; i++) {
        const size_t length = random() % (i % 100 == 0 ? 300'000 : 40'000);
        cut(random, message.substr(0, length), LONGEST_PIECES[random() % std::size(LONGEST_PIECES)]);
    }
    constexpr uint64_t NEAR = UINT64_C(1) << 32;
    for (uint64_t chunks = NEAR - 40; chunks < NEAR + 40; chunks++)
        for (int i = 0; i < 50 && chunks != NEAR; i++)
            after(random, chunks, message.substr(0, 1 + random() % 100'000));
    if (!is_written)
        std::printf("%zu checks, %zu failed\n", checks, failures);
    return failures != 0;
}
