/* Blocks written by hand, for bench/writer to compare with: one function a block, as a careful programmer writes it. It is given the
   same lists as Write, looks at every value (kind, range, Do-Not-Use) before it stores any, and knows offsets, types and marks by heart.
   The CRC goes through a table, a byte at a time. The answer is the length, or 0 where Write would refuse. */
#include <stdbool.h>
#include <stddef.h>
#include <stdint.h>

enum { U1 = 1, U2, U4, U8, I1, I2, I4, I8, F4, F8 };
enum { NONE, ONES, ZERO, MINUS, LEAST, SEED };
enum { SUB_BLOCK = 255 };

typedef struct {
    const uint8_t *kinds;
    const uint64_t *bits;
    size_t count, at;
} list;

static uint16_t remainders[256];

void baseline_prepare(void)
{
    for (unsigned k = 0; k < 256; k++) {
        unsigned c = k << 8;
        for (int bit = 0; bit < 8; bit++) c = (c << 1 ^ (c & 0x8000 ? 0x1021 : 0)) & 0xffff;
        remainders[k] = (uint16_t)c;
    }
}

/* The next value of the list, unset where it has ended. */
static inline unsigned next(list *l, uint64_t *x)
{
    if (l->at >= l->count || l->kinds[l->at] == SUB_BLOCK) return 0;
    *x = l->bits[l->at];
    return l->kinds[l->at++];
}

/* The bits of the next value; whether it may stand in a field of this type and mark. Both are known where it is called. */
static inline bool take(list *l, unsigned type, unsigned mark, uint64_t *x)
{
    static const unsigned sizes[] = {0, 1, 2, 4, 8, 1, 2, 4, 8, 4, 8};
    const unsigned width = 8 * sizes[type];
    const uint64_t all = width == 64 ? ~0ull : (1ull << width) - 1, half = 1ull << (width - 1);
    const uint64_t told = mark == ONES ? all : mark == MINUS ? (type == F4 ? 0xd09502f9 : 0xc212a05f20000000) : mark == LEAST ? half : 0;
    uint64_t v = 0;
    unsigned kind = next(l, &v);
    if (kind == 0) {
        *x = told;
        return mark != NONE;
    }
    if (type >= I1 && type <= I8) {
        if (kind != 2 || (width < 64 && v + half > all)) return false;
        v &= all;
    } else if (kind != (type <= U8 ? 1u : type == F4 ? 3u : 4u) || v > all) {
        return false;
    }
    *x = v;
    return mark == NONE || (mark == SEED ? v >> 13 != 0 : v != told);
}

/* Past the last row all is to be unset; the next sub-block begins there, or all has ended. */
static inline bool spent(list *l)
{
    while (l->at < l->count && l->kinds[l->at] == 0) l->at++;
    return l->at == l->count || l->kinds[l->at] == SUB_BLOCK;
}

static inline void store(uint8_t *to, unsigned size, uint64_t x)
{
    for (unsigned i = 0; i < size; i++) to[i] = (uint8_t)(x >> 8 * i);
}

static inline void begin(uint8_t *out, unsigned number, unsigned revision, size_t length, uint32_t tow, uint16_t wnc)
{
    store(out + 4, 2, number | revision << 13), store(out + 6, 2, length), store(out + 8, 4, tow), store(out + 12, 2, wnc);
}

static inline size_t sealed(uint8_t *out, size_t length)
{
    unsigned c = 0;
    for (size_t i = 4; i < length; i++) c = (c << 8 & 0xff00) ^ remainders[(c >> 8) ^ out[i]];
    out[0] = 0x24, out[1] = 0x40;
    store(out + 2, 2, c);
    return length;
}

static inline bool stamped(uint64_t tow, uint64_t wnc) { return tow < 0xffffffff && wnc < 0xffff; }

size_t baseline_endofatt(uint8_t *out, size_t room, uint64_t tow, uint64_t wnc, list l)
{
    if (!stamped(tow, wnc) || !spent(&l) || l.at < l.count || room < 16) return 0;
    begin(out, 5943, 0, 16, (uint32_t)tow, (uint16_t)wnc);
    store(out + 14, 2, 0);
    return sealed(out, 16);
}

size_t baseline_atteuler(uint8_t *out, size_t room, uint64_t tow, uint64_t wnc, list l)
{
    uint64_t v[10];
    bool ok = stamped(tow, wnc);
    ok &= take(&l, U1, ONES, v) && take(&l, U1, NONE, v + 1) && take(&l, U2, NONE, v + 2) && take(&l, U2, NONE, v + 3);
    for (unsigned i = 4; i < 10; i++) ok = ok && take(&l, F4, MINUS, v + i);
    if (!ok || !spent(&l) || l.at < l.count || room < 44) return 0;
    begin(out, 5938, 0, 44, (uint32_t)tow, (uint16_t)wnc);
    out[14] = (uint8_t)v[0], out[15] = (uint8_t)v[1];
    store(out + 16, 2, v[2]), store(out + 18, 2, v[3]);
    for (unsigned i = 4; i < 10; i++) store(out + 4 + 4 * i, 4, v[i]);
    return sealed(out, 44);
}

size_t baseline_pvtcartesian(uint8_t *out, size_t room, uint64_t tow, uint64_t wnc, list l)
{
    uint64_t v[26];
    bool ok = stamped(tow, wnc) && take(&l, U1, NONE, v) && take(&l, U1, NONE, v + 1);
    for (unsigned i = 2; i < 5; i++) ok = ok && take(&l, F8, MINUS, v + i);
    for (unsigned i = 5; i < 10; i++) ok = ok && take(&l, F4, MINUS, v + i);
    ok = ok && take(&l, F8, MINUS, v + 10) && take(&l, F4, MINUS, v + 11);
    for (unsigned i = 12; i < 15; i++) ok = ok && take(&l, U1, ONES, v + i);
    ok = ok && take(&l, U1, ZERO, v + 15) && take(&l, U2, ONES, v + 16) && take(&l, U2, ONES, v + 17) && take(&l, U4, ZERO, v + 18);
    ok = ok && take(&l, U1, ZERO, v + 19) && take(&l, U1, ZERO, v + 20) && take(&l, U2, SEED, v + 21);
    for (unsigned i = 22; i < 25; i++) ok = ok && take(&l, U2, ONES, v + i);
    ok = ok && take(&l, U1, NONE, v + 25);
    if (!ok || !spent(&l) || l.at < l.count || room < 96) return 0;
    begin(out, 4006, 2, 96, (uint32_t)tow, (uint16_t)wnc);
    out[14] = (uint8_t)v[0], out[15] = (uint8_t)v[1];
    for (unsigned i = 2; i < 5; i++) store(out + 8 * i, 8, v[i]);
    for (unsigned i = 5; i < 10; i++) store(out + 20 + 4 * i, 4, v[i]);
    store(out + 60, 8, v[10]), store(out + 68, 4, v[11]);
    for (unsigned i = 12; i < 16; i++) out[60 + i] = (uint8_t)v[i];
    store(out + 76, 2, v[16]), store(out + 78, 2, v[17]), store(out + 80, 4, v[18]);
    out[84] = (uint8_t)v[19], out[85] = (uint8_t)v[20];
    for (unsigned i = 21; i < 25; i++) store(out + 44 + 2 * i, 2, v[i]);
    out[94] = (uint8_t)v[25], out[95] = 0;
    return sealed(out, 96);
}

static bool base(list *l, uint8_t *to)
{
    uint64_t v[15];
    bool ok = true;
    for (unsigned i = 0; i < 4; i++) ok = ok && take(l, U1, NONE, v + i);
    for (unsigned i = 4; i < 7; i++) ok = ok && take(l, F8, MINUS, v + i);
    for (unsigned i = 7; i < 10; i++) ok = ok && take(l, F4, MINUS, v + i);
    ok = ok && take(l, U2, ONES, v + 10) && take(l, I2, LEAST, v + 11) && take(l, U2, NONE, v + 12) && take(l, U2, ONES, v + 13);
    ok = ok && take(l, U4, ZERO, v + 14) && spent(l);
    if (!ok || !to) return ok;
    for (unsigned i = 0; i < 4; i++) to[i] = (uint8_t)v[i];
    for (unsigned i = 4; i < 7; i++) store(to - 28 + 8 * i, 8, v[i]);
    for (unsigned i = 7; i < 10; i++) store(to + 4 * i, 4, v[i]);
    for (unsigned i = 10; i < 14; i++) store(to + 20 + 2 * i, 2, v[i]);
    store(to + 48, 4, v[14]);
    return true;
}

/* All sub-blocks are looked at before the first is stored. */
size_t baseline_basevectorcart(uint8_t *out, size_t room, uint64_t tow, uint64_t wnc, list l)
{
    if (!stamped(tow, wnc) || !spent(&l)) return 0;
    list again = l;
    size_t n = 0;
    for (; l.at < l.count; n++) {
        l.at++;
        if (!base(&l, NULL)) return 0;
    }
    size_t length = 16 + 52 * n;
    if (n > 255 || room < length) return 0;
    begin(out, 4043, 0, length, (uint32_t)tow, (uint16_t)wnc);
    out[14] = (uint8_t)n, out[15] = n ? 52 : 0;
    for (size_t k = 0; k < n; k++) {
        again.at++;
        base(&again, out + 16 + 52 * k);
    }
    return sealed(out, length);
}
