/* A target for libFuzzer: makes every call over an input, beside the second readers of reader.h and
 * records.h, as million.c does, whose comparisons these are. The input is what a call gets, so that
 * keys, certificates, points and texts can be inputs as they are. */
#define FUZZED
#include "million.c"

int LLVMFuzzerTestOneInput(const uint8_t *data, size_t len);

/* Sets where the numbers of draw.h begin, so that one input gives the same calls each time. */
static void begin_drawing(const uint8_t *data, size_t len)
{
    state = 0x9E3779B97F4A7C15;
    for (size_t i = 0; i < len; i++)
        state = (state ^ data[i]) * 0x100000001B3;
    state |= 1;
}

/* A length of field elements: mostly one at which the bytes might be a point. */
static size_t some_field(size_t len)
{
    switch (draw(4)) {
    case 0: return draw(70);
    case 1: return len ? len - 1 : 0;
    default: return len / 2;
    }
}

int LLVMFuzzerTestOneInput(const uint8_t *data, size_t len)
{
    static uint8_t other[MOST];
    if (len > MOST)
        return 0;
    if (!input_arena.begin)
        map_arenas();
    begin_drawing(data, len);
    at_end = draw(2) == 0;
    now.len = len;
    if (len) {
        memcpy(now.data, data, len);
        memcpy(other, data, len);
        other[draw((uint32_t)len)] += (uint8_t)(2 * draw(2));
    }
    check_calls(some_field(len), other, len);
    for (int call = 0; call < CALLS; call++)
        if (wrong[call])
            abort();
    return 0;
}
