/* One block written so many times, for bench/writer to count: writer BLOCK TIMES, and the bytes in hex. It is compiled three times:
   with -DBASELINE by hand (bench/baseline_writer.c), with -DCALL through alderflute_write, which checks the table each time, and else
   by the library's writer alone. The table is the one shipped. */
#include <stdio.h>
#include "alderflute.h"
#include "shipped-v1.table.h"

extern unsigned long strtoul(const char *text, char **end, int base);
extern int strcmp(const char *a, const char *b);

#define TOW 1000
#define WNC 2100
#define F4 3, 3, 3, 3, 3, 3

static const uint8_t euler_kinds[] = {1, 1, 1, 1, F4}, cartesian_kinds[] = {1, 1, 4, 4, 4, 3, 3, 3, 3, 3, 4, 3, 1, 1, 1, 1, 1, 1, 1, 1, 1, 1, 1, 1, 1, 1};
static const uint64_t euler_bits[] = {12, 0, 2, 0, 0x42f6e979, 0x3f800000, 0xbf800000, 1, 2, 3};
static const uint64_t cartesian_bits[] = {4, 0, 0x414e2f9a9fbe76c9, 0x4110d5e04189374c, 0x4153d9a5e353f7cf, 0x42400000, 1, 2, 3, 4, 5, 6, 0, 0, 12, 1, 33, 7, 5, 1, 2, 0x2003, 4, 5, 6, 7};
#define BASE ALDERFLUTE_GIVE_SUB_BLOCK, 1, 1, 1, 1, 4, 4, 4, 3, 3, 3, 1, 2, 1, 1, 1
#define BASE_BITS 0, 9, 0, 4, 0, 0x4024000000000000, 0xc024000000000000, 0x3ff0000000000000, 1, 2, 3, 4500, (uint64_t)-700, 11, 12, 13
static const uint8_t vector_kinds[] = {BASE, BASE, BASE, BASE};
static const uint64_t vector_bits[] = {BASE_BITS, BASE_BITS, BASE_BITS, BASE_BITS};

typedef struct {
    const char *name;
    unsigned number, revision;
    const uint8_t *kinds;
    const uint64_t *bits;
    size_t count;
} draft;

static const draft drafts[] = {
    {"endofatt", 5943, 0, euler_kinds, euler_bits, 0},
    {"atteuler", 5938, 0, euler_kinds, euler_bits, sizeof euler_kinds},
    {"pvtcartesian", 4006, 2, cartesian_kinds, cartesian_bits, sizeof cartesian_kinds},
    {"basevectorcart", 4043, 0, vector_kinds, vector_bits, sizeof vector_kinds},
};

static uint8_t out[65536];

#if defined BASELINE
typedef struct {
    const uint8_t *kinds;
    const uint64_t *bits;
    size_t count, at;
} list;
extern void baseline_prepare(void);
extern size_t baseline_endofatt(uint8_t *, size_t, uint64_t, uint64_t, list), baseline_atteuler(uint8_t *, size_t, uint64_t, uint64_t, list),
    baseline_pvtcartesian(uint8_t *, size_t, uint64_t, uint64_t, list), baseline_basevectorcart(uint8_t *, size_t, uint64_t, uint64_t, list);
static void prepare(void) { baseline_prepare(); }
static size_t put(const draft *d)
{
    list l = {d->kinds, d->bits, d->count, 0};
    switch (d->number) {
    case 5943: return baseline_endofatt(out, sizeof out, TOW, WNC, l);
    case 5938: return baseline_atteuler(out, sizeof out, TOW, WNC, l);
    case 4006: return baseline_pvtcartesian(out, sizeof out, TOW, WNC, l);
    default: return baseline_basevectorcart(out, sizeof out, TOW, WNC, l);
    }
}
#elif defined CALL
static uint8_t in_force[ALDERFLUTE_STORE], waiting[ALDERFLUTE_STORE];
static alderflute_state state;
static void prepare(void)
{
    alderflute_reply r = alderflute_stage(alderflute_new(), waiting, sizeof waiting, alderflute_table, sizeof alderflute_table);
    state = alderflute_open(r.state, alderflute_default_settings(), in_force, sizeof in_force, waiting, sizeof waiting).state;
}
static size_t put(const draft *d)
{
    alderflute_value tow = {ALDERFLUTE_GIVE_UNSIGNED, TOW}, wnc = {ALDERFLUTE_GIVE_UNSIGNED, WNC};
    return alderflute_write(state, in_force, sizeof in_force, d->number, d->revision, tow, wnc, d->kinds, d->count, d->bits, d->count, out,
        sizeof out).length;
}
#else
extern size_t alderflute_bench_write(size_t ceiling, const uint8_t *table, size_t length, uint64_t number, uint64_t revision, uint64_t tow,
    uint64_t wnc, const uint8_t *kinds, size_t kinds_length, const uint64_t *bits, size_t bits_length, uint8_t *to, size_t to_length);
static void prepare(void) {}
static size_t put(const draft *d)
{
    return alderflute_bench_write(65532, alderflute_table, sizeof alderflute_table, d->number, d->revision, TOW, WNC, d->kinds, d->count, d->bits,
        d->count, out, sizeof out);
}
#endif

int main(int argc, char **argv)
{
    size_t length = 0;
    if (argc < 3) return 2;
    prepare();
    for (size_t i = 0; i < sizeof drafts / sizeof drafts[0]; i++) {
        if (strcmp(argv[1], drafts[i].name)) continue;
        for (unsigned long times = strtoul(argv[2], NULL, 10); times > 0; times--) length = put(&drafts[i]);
    }
    for (size_t i = 0; i < length; i++) printf("%02x", out[i]);
    printf("\n");
    return length == 0;
}
