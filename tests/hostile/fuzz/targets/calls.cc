/* Calls of the library, one after another, as the bytes of an input say. Each answer is compared with the second reading. */
#include "calls.h"

extern "C" int LLVMFuzzerTestOneInput(const uint8_t *data, size_t size)
{
    const long live = live_blocks();
    Input input(data, size);
    {
        Ranges ranges;
        Sessions sessions;
        Hashers hashers;
        while (!input.is_empty()) {
            const uint8_t what = input.byte();
            if (what >= 0xE0)
                refuse_next(what & 15u, what & 16u);
            else if (what % 8 < 4)
                ranges.call(input);
            else if (what % 8 < 6)
                sessions.call(input, ranges);
            else if (what % 8 == 6)
                what & 8 ? hashers.call(input) : call_on_hashes(input);
            else
                call_on_lists(input);
        }
        refuse_next(0, false);
        ranges.compare_all();
        sessions.compare_all();
    }
    EXPECT(live_blocks() == live);
    return 0;
}
