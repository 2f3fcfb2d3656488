/* What the benchmarks of calls make blocks with. */
#include <stdint.h>
#include <stddef.h>

static inline void two(uint8_t *to, unsigned n) { to[0] = (uint8_t)n, to[1] = (uint8_t)(n >> 8); }

/* A header whose CRC is wrong unless it is mended. */
static inline void header(uint8_t *to, unsigned number, unsigned length)
{
    two(to, 0x4024), two(to + 2, 0xffff), two(to + 4, number), two(to + 6, length);
}

/* Puts in the CRC of a block, by the rule on bits. */
static inline void mend(uint8_t *block, size_t length)
{
    unsigned c = 0;
    for (size_t i = 4; i < length; i++) {
        c ^= (unsigned)block[i] << 8;
        for (int bit = 0; bit < 8; bit++) c = (c << 1 ^ (c & 0x8000 ? 0x1021 : 0)) & 0xffff;
    }
    two(block + 2, c);
}
