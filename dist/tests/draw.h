/* Numbers that look random, the same in each run. */
#include <stdint.h>

static uint64_t state = 0x9E3779B97F4A7C15;

static uint32_t draw(uint32_t limit)
{
    state ^= state << 13;
    state ^= state >> 7;
    state ^= state << 17;
    return (uint32_t)(state >> 32) % limit;
}
