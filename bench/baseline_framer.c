/* A strong hand-written SBF framer in C: the yardstick for speed.
 *
 *   cc -O3 -DCRC=2 baseline_framer.c -o framer
 *   ./framer FILE [REPS [CHUNK [CEILING [f]]]]     f: also read fields of every known block
 *   with -DLIST every block is printed (CHUNK 0 only)
 *
 * CRC   1 table, a byte at a time      3 carry-less multiply (aarch64 PMULL), slicing below 64 bytes
 *       2 slicing by 8                 4 the shift formula, no table
 *       5 prefix CRC: one pass over the buffer, then every frame in constant time
 * CHUNK 0 reads the file in place; otherwise it is copied CHUNK bytes at a time
 *       through one buffer of 256 KiB, as a stream reader would.
 * CEILING is the greatest length of a frame, 65532 where it is not given.
 *
 * The rule: at each place test the frame; on success go on after it, else one byte on.
 * A frame is "$@", CRC, ID, length L (multiple of 4, 8 to CEILING, all present), and the
 * CRC-16/XMODEM of bytes 4..L-1 equals CRC.
 */
#include <stdint.h>
#include <stdio.h>
#include <stdlib.h>
#include <string.h>
#include <time.h>
#ifndef CRC
#define CRC 2
#endif
#if CRC == 3
#include <arm_neon.h>
#endif

static uint16_t T[8][256];

static void make_tables(void)
{
    for (int i = 0; i < 256; i++) {
        uint16_t c = i << 8;
        for (int k = 0; k < 8; k++) c = c & 0x8000 ? c << 1 ^ 0x1021 : c << 1;
        T[0][i] = c;
    }
    for (int k = 1; k < 8; k++)
        for (int i = 0; i < 256; i++) T[k][i] = T[k-1][i] << 8 ^ T[0][T[k-1][i] >> 8];
}

static inline uint16_t crc_bytes(uint16_t c, const uint8_t *p, size_t n)
{
    while (n--) c = c << 8 ^ T[0][c >> 8 ^ *p++];
    return c;
}

static inline uint16_t crc_shift(uint16_t c, const uint8_t *p, size_t n)
{
    while (n--) {
        uint16_t x = (c >> 8) ^ *p++;
        x ^= x >> 4;
        c = c << 8 ^ x << 12 ^ x << 5 ^ x;
    }
    return c;
}

static inline uint16_t crc_slice8(uint16_t c, const uint8_t *p, size_t n)
{
    for (; n >= 8; n -= 8, p += 8)
        c = T[7][p[0] ^ c >> 8] ^ T[6][p[1] ^ (c & 255)] ^ T[5][p[2]] ^ T[4][p[3]]
          ^ T[3][p[4]] ^ T[2][p[5]] ^ T[1][p[6]] ^ T[0][p[7]];
    return crc_bytes(c, p, n);
}

#if CRC == 3
static uint64_t K[4];                   /* x^512+64, x^512, x^128+64, x^128 mod P */

static uint16_t xpow(unsigned e)        /* x^e mod P */
{
    uint16_t c = 1;
    while (e--) c = c & 0x8000 ? c << 1 ^ 0x1021 : c << 1;
    return c;
}

static inline uint8x16_t load_be(const uint8_t *p)
{
    uint8x16_t v = vrev64q_u8(vld1q_u8(p));
    return vextq_u8(v, v, 8);           /* lane 1 holds the first eight bytes */
}

static inline uint8x16_t fold(uint8x16_t a, uint64_t khi, uint64_t klo)
{
    poly64x2_t p = vreinterpretq_p64_u8(a);
    uint8x16_t h = vreinterpretq_u8_p128(vmull_p64(vgetq_lane_p64(p, 1), khi));
    uint8x16_t l = vreinterpretq_u8_p128(vmull_p64(vgetq_lane_p64(p, 0), klo));
    return veorq_u8(h, l);
}

static uint16_t crc_pmull(const uint8_t *p, size_t n)
{
    if (n < 64) return crc_slice8(0, p, n);
    uint8x16_t a = load_be(p), b = load_be(p + 16), c = load_be(p + 32), d = load_be(p + 48);
    p += 64, n -= 64;
    for (; n >= 64; n -= 64, p += 64) {
        a = veorq_u8(fold(a, K[0], K[1]), load_be(p));
        b = veorq_u8(fold(b, K[0], K[1]), load_be(p + 16));
        c = veorq_u8(fold(c, K[0], K[1]), load_be(p + 32));
        d = veorq_u8(fold(d, K[0], K[1]), load_be(p + 48));
    }
    b = veorq_u8(fold(a, K[2], K[3]), b);
    c = veorq_u8(fold(b, K[2], K[3]), c);
    d = veorq_u8(fold(c, K[2], K[3]), d);
    for (; n >= 16; n -= 16, p += 16) d = veorq_u8(fold(d, K[2], K[3]), load_be(p));
    uint8_t last[16];
    uint8x16_t v = vextq_u8(d, d, 8);
    vst1q_u8(last, vrev64q_u8(v));
    return crc_slice8(crc_slice8(0, last, 16), p, n);
}
#endif

#if CRC == 5
static uint16_t POW8[32768];            /* x^(8m) mod P; x has order 32767 */
static uint16_t *PRE;                   /* PRE[i]: CRC of the buffer's first i bytes */

static uint16_t mulmod(uint32_t a, uint32_t b)
{
    uint32_t r = 0;
    for (int i = 0; i < 16; i++) r ^= b >> i & 1 ? a << i : 0;
    for (int i = 30; i >= 16; i--) if (r >> i & 1) r ^= 0x11021u << (i - 16);
    return r;
}
static inline uint16_t crc_prefix(size_t from, size_t to)
{
    return PRE[to] ^ mulmod(PRE[from], POW8[(to - from) % 32767]);
}
#endif

static inline uint16_t u2(const uint8_t *p) { uint16_t v; memcpy(&v, p, 2); return v; }
static inline uint32_t u4(const uint8_t *p) { uint32_t v; memcpy(&v, p, 4); return v; }
static inline double f4(const uint8_t *p) { float v; memcpy(&v, p, 4); return v; }
static inline double f8(const uint8_t *p) { double v; memcpy(&v, p, 8); return v; }

struct totals { uint64_t blocks, bytes, idsum, tries; double fields; };
static int want_fields;
static size_t ceiling = 65532;

/* Every field of the known blocks, summed so that nothing is optimised away. */
static double fields(const uint8_t *b, unsigned id, unsigned len)
{
    double s = 0;
    switch (id) {
    case 4006:
        if (len < 88) return 0;
        s = u4(b+8) + u2(b+12) + b[14] + b[15] + f8(b+16) + f8(b+24) + f8(b+32) + f4(b+40) + f4(b+44) + f4(b+48)
          + f4(b+52) + f4(b+56) + f8(b+60) + f4(b+68) + b[72] + b[73] + b[74] + b[75] + u2(b+76) + u2(b+78) + u4(b+80) + b[84];
        if (len >= 96) s += b[85] + u2(b+86) + u2(b+88) + u2(b+90) + b[92];
        return s;
    case 5938:
        if (len < 44) return 0;
        s = u4(b+8) + u2(b+12) + b[14] + b[15] + u2(b+16);
        for (int i = 20; i < 44; i += 4) s += f4(b+i);
        return s;
    case 5924:
        if (len < 28) return 0;
        s = u4(b+8) + u2(b+12) + b[14] + b[15] + f4(b+16) + f8(b+20);
        if (len >= 32) s += u2(b+28);
        return s;
    case 4043: {
        if (len < 16) return 0;
        unsigned n = b[14], sb = b[15];
        s = u4(b+8) + u2(b+12);
        if (sb < 52) return s;
        for (const uint8_t *q = b + 16; n-- && q + sb <= b + len; q += sb)
            s += q[0] + q[1] + q[2] + q[3] + f8(q+4) + f8(q+12) + f8(q+20) + f4(q+28) + f4(q+32) + f4(q+36)
               + u2(q+40) + (int16_t)u2(q+42) + u2(q+44) + u2(q+46) + u4(q+48);
        return s;
    }
    case 4027: {
        if (len < 20) return 0;
        unsigned n1 = b[14], s1 = b[15], s2 = b[16];
        const uint8_t *q = b + 20, *end = b + len;
        s = u4(b+8) + u2(b+12) + b[17] + b[18];
        if (s1 < 20) return s;
        while (n1-- && q + s1 <= end) {
            unsigned n2 = q[19];
            s += q[0] + q[1] + q[2] + q[3] + u4(q+4) + (int32_t)u4(q+8) + u2(q+12) + (int8_t)q[14] + q[15] + u2(q+16) + q[18];
            q += s1;
            if (s2 < 12 && n2) return s;
            for (; n2 && q + s2 <= end; n2--, q += s2)
                s += q[0] + q[1] + q[2] + q[3] + (int8_t)q[4] + q[5] + u2(q+6) + u2(q+8) + u2(q+10);
        }
        return s;
    }
    }
    return 0;
}

/* Read frames in p[0..n). Returns how many bytes are done with: a frame that may
 * still come is left for the next call unless LAST says that nothing follows. */
static size_t frames(const uint8_t *p, size_t n, int last, struct totals *t)
{
    size_t i = 0;
#if CRC == 5
    uint16_t c = 0;
    PRE[0] = 0;
    for (size_t k = 0; k < n; k++) PRE[k + 1] = c = c << 8 ^ T[0][c >> 8 ^ p[k]];
#endif
    while (i < n) {
        if (p[i] != '$') {
            const uint8_t *q = memchr(p + i, '$', n - i);
            if (!q) return n;
            i = q - p;
        }
        if (n - i < 8) {
            if (!last && (n - i < 2 || p[i+1] == '@')) return i;
            i++;
            continue;
        }
        if (p[i+1] != '@') { i++; continue; }
        size_t len = u2(p + i + 6);
        if (len < 8 || len & 3 || len > ceiling) { i++; continue; }
        if (len > n - i) {
            if (!last) return i;
            i++;
            continue;
        }
        t->tries++;
        const uint8_t *b = p + i;
#if CRC == 1
        uint16_t crc = crc_bytes(0, b + 4, len - 4);
#elif CRC == 2
        uint16_t crc = crc_slice8(0, b + 4, len - 4);
#elif CRC == 3
        uint16_t crc = crc_pmull(b + 4, len - 4);
#elif CRC == 4
        uint16_t crc = crc_shift(0, b + 4, len - 4);
#else
        uint16_t crc = crc_prefix(i + 4, i + len);
#endif
        if (crc != u2(b + 2)) { i++; continue; }
#ifdef LIST
        printf("block end=%zu id=%d len=%zu\n", i + len, u2(b + 4) & 0x1FFF, len);
#endif
        t->blocks++, t->bytes += len, t->idsum += u2(b + 4);
        if (want_fields) t->fields += fields(b, u2(b + 4) & 0x1FFF, len);
        i += len;
    }
    return i;
}

__attribute__((noinline)) struct totals work(const uint8_t *d, size_t n, size_t chunk)
{
    struct totals t = {0};
    if (!chunk) { frames(d, n, 1, &t); return t; }
    enum { CAP = 1 << 18 };
    static uint8_t buf[CAP];
    size_t have = 0, at = 0;
    while (at < n) {
        size_t k = n - at < chunk ? n - at : chunk;
        if (k > CAP - have) k = CAP - have;
        memcpy(buf + have, d + at, k);
        at += k, have += k;
        size_t done = frames(buf, have, at == n, &t);
        memmove(buf, buf + done, have - done);
        have -= done;
    }
    return t;
}

static double now(void)
{
    struct timespec t;
    clock_gettime(CLOCK_MONOTONIC, &t);
    return t.tv_sec + 1e-9 * t.tv_nsec;
}

int main(int argc, char **argv)
{
    FILE *f = argc > 1 ? fopen(argv[1], "rb") : 0;
    if (!f) return fprintf(stderr, "usage: framer FILE [REPS [CHUNK [CEILING [f]]]]\n"), 2;
    fseek(f, 0, SEEK_END);
    size_t n = ftell(f);
    rewind(f);
    uint8_t *d = malloc(n + 1);
    if (fread(d, 1, n, f) != n) return 1;
    int reps = argc > 2 ? atoi(argv[2]) : 1;
    size_t chunk = argc > 3 ? strtoul(argv[3], 0, 0) : 0;
    if (argc > 4) ceiling = strtoul(argv[4], 0, 0);
    want_fields = argc > 5;
    make_tables();
#if CRC == 3
    K[0] = xpow(576), K[1] = xpow(512), K[2] = xpow(192), K[3] = xpow(128);
#elif CRC == 5
    PRE = malloc(2 * (n + 1 > 1 << 18 ? n + 1 : (1 << 18) + 1));
    POW8[0] = 1;
    for (int m = 1; m < 32768; m++) POW8[m] = POW8[m-1] << 8 ^ T[0][POW8[m-1] >> 8];
#endif
    double best = 1e9;
    struct totals t = {0};
    for (int r = 0; r < reps; r++) {
        double s = now();
        t = work(d, n, chunk);
        s = now() - s;
        if (s < best) best = s;
    }
    printf("crc=%d chunk=%zu bytes=%zu blocks=%llu in_blocks=%llu tries=%llu idsum=%llu fields=%.6g best=%.4fs MB/s=%.1f\n",
           CRC, chunk, n, (unsigned long long)t.blocks, (unsigned long long)t.bytes, (unsigned long long)t.tries,
           (unsigned long long)t.idsum, t.fields, best, n / best / 1e6);
    return 0;
}
