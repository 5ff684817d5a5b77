/* Texts of hashes: hex and base64, read and written. */
#include "support.h"

namespace {

using Read = yurewha_status (*)(const char *, size_t, yurewha_hash *);
using Write = yurewha_status (*)(const yurewha_hash *, char *, size_t, size_t *);

void compare_read(Read read, std::string_view text, const std::optional<second::Hash> &wanted)
{
    const char *copy = fenced_text(0, text);
    Out<yurewha_hash> hash;
    if (is_done(wanted ? YUREWHA_DONE : YUREWHA_TEXT, YUREWHA_MEMORY, [&] { return read(copy, text.size(), &hash); }))
        EXPECT(hash_from_c(*hash) == wanted);
    else
        EXPECT(hash.is_untouched());
}

/* Compares a text that is written to this much room. */
void compare_written(Write write, const second::Hash &hash, const std::string &wanted, size_t room)
{
    const yurewha_hash given = hash_to_c(hash);
    char *text = fence(0).array<char>(room);
    Out<size_t> length;
    const bool has_room = room >= wanted.size();
    yurewha_status found = YUREWHA_DONE;
    if (is_done(has_room ? YUREWHA_DONE : YUREWHA_ROOM, YUREWHA_MEMORY,
                [&] { return found = write(&given, text, room, &length); })) {
        EXPECT(wanted == std::string_view(text, *length) && fence(0).is_untouched(*length));
    } else {
        EXPECT(fence(0).is_untouched());
        EXPECT(found == YUREWHA_ROOM ? *length == wanted.size() : length.is_untouched());
    }
}

}  // namespace

/* The first byte says the room and whether a request is refused, and the others are the text. */
extern "C" int LLVMFuzzerTestOneInput(const uint8_t *data, size_t size)
{
    Input input(data, size);
    const uint8_t kind = input.byte();
    const std::string_view text = input.rest();
    const std::optional<second::Hash> hex = second::from_hex(text), base64 = second::from_base64(text);
    const unsigned refused = kind >= 0xC0 ? 1 : 0;
    compare_read(yurewha_from_hex, text, hex);
    refuse_next(refused, true);
    compare_read(yurewha_from_base64, text, base64);
    for (const auto &hash : {hex, base64}) {
        if (!hash)
            continue;
        compare_written(yurewha_hex, *hash, second::hex_of(*hash), kind % 80);
        refuse_next(refused, true);
        compare_written(yurewha_base64, *hash, second::base64_of(*hash), kind % 64);
    }
    EXPECT(live_blocks() == 0);
    return 0;
}
