/* What no script of `replay` can say: states whose phase is none, a struct of zeros, buffers of length 0 at NULL, values that
   are to be 0, the number of the interface, the texts of refusals. And states without a ceiling, in every call. Prints each
   case that fails, and last 'N passed, M failed'. */
#include "alderflute.h"

extern int printf(const char *form, ...);
extern int strcmp(const char *a, const char *b);
extern int memcmp(const void *a, const void *b, size_t count);
extern void *memset(void *to, int byte, size_t count);

static uint8_t hold[ALDERFLUTE_HOLD], in_force[ALDERFLUTE_STORE], waiting[ALDERFLUTE_STORE], out[32], before[ALDERFLUTE_HOLD];
static const uint8_t sample[8] = {0x24, 0x40, 0xa9, 0x89, 0, 0, 8, 0};
/* The smallest table that T1 to T20 allow: version 7, one row, block 0, no fields. */
static const uint8_t table[20] = {0, 0, 0, 0, 0, 0, 0, 0, 7, 0, 1, 0, 20, 0, 20, 0, 0x59, 0x9c, 0x42, 0x54};
static const alderflute_value tow = {ALDERFLUTE_GIVE_UNSIGNED, 0x04030201}, wnc = {ALDERFLUTE_GIVE_UNSIGNED, 0x0605};
static const alderflute_settings plain = {65532};
static unsigned passed, failed;

/* `number` is the odd one: a phase, a ceiling or a refusal. */
static void check(int holds, const char *what, uint64_t number)
{
    if (holds) passed++;
    else failed++, printf("odd: %s, %lu\n", what, number);
}

static int same(const void *a, const void *b, size_t count) { return memcmp(a, b, count) == 0; }

static int zeros(alderflute_block b, alderflute_end e)
{
    return b.place == 0 && b.length == 0 && b.number == 0 && b.revision == 0 && e.bytes == 0 && e.blocks == 0 && e.skipped == 0;
}

static int untouched(void)
{
    memset(before, 0xa5, sizeof before);
    return same(hold, before, sizeof hold) && same(in_force, before, sizeof in_force) && same(waiting, before, sizeof waiting) &&
           same(out, before, sizeof out);
}

static int refuses(alderflute_reply r, alderflute_state s, uint32_t n)
{
    alderflute_answer a = r.answer;
    return a.refusal == n && a.kind == ALDERFLUTE_REFUSED && same(&r.state, &s, sizeof s) && a.version == 0 && a.waited == 0 &&
           a.taken == 0 && zeros(a.block, a.end) && untouched();
}

static int no_field(alderflute_field f, uint32_t n)
{
    return f.refusal == n && f.kind == ALDERFLUTE_REFUSED && f.number == 0 && f.signed_number == 0 && f.bits == 0 && untouched();
}

static int no_part(alderflute_part p, uint32_t n) { return p.refusal == n && p.offset == 0 && p.length == 0 && untouched(); }

static int no_block(alderflute_written w, uint32_t n) { return w.refusal == n && w.length == 0 && untouched(); }

/* A state that refusal 1 names: it comes from every call, the state is as it was, and nothing is written. */
static void unsound(alderflute_state s, uint64_t number)
{
    check(refuses(alderflute_open(s, plain, in_force, sizeof in_force, waiting, sizeof waiting), s, 1), "open", number);
    check(refuses(alderflute_feed(s, hold, sizeof hold, sample, sizeof sample), s, 1), "feed", number);
    check(refuses(alderflute_finish(s, hold, sizeof hold), s, 1), "finish", number);
    check(refuses(alderflute_stage(s, waiting, sizeof waiting, table, sizeof table), s, 1), "stage", number);
    check(refuses(alderflute_withdraw(s), s, 1), "withdraw", number);
    check(no_part(alderflute_bytes(s, hold, sizeof hold), 1), "bytes", number);
    check(no_part(alderflute_subbytes(s, in_force, sizeof in_force, sample, sizeof sample, 0), 1), "subbytes", number);
    check(no_field(alderflute_body(s, in_force, sizeof in_force, sample, sizeof sample, 0), 1), "body", number);
    check(no_field(alderflute_sub(s, in_force, sizeof in_force, sample, sizeof sample, 0, 0), 1), "sub", number);
    check(no_field(alderflute_sub2(s, in_force, sizeof in_force, sample, sizeof sample, 0, 0, 0), 1), "sub2", number);
    check(no_field(alderflute_range(s, in_force, sizeof in_force, sample, sizeof sample, 0), 1), "range", number);
    check(no_field(alderflute_range2(s, in_force, sizeof in_force, sample, sizeof sample, 0, 0), 1), "range2", number);
    check(no_field(alderflute_tow(s, sample, sizeof sample), 1), "tow", number);
    check(no_field(alderflute_wnc(s, sample, sizeof sample), 1), "wnc", number);
    check(no_block(alderflute_write(s, in_force, sizeof in_force, 0, 0, tow, wnc, NULL, 0, NULL, 0, out, sizeof out), 1), "write",
          number);
}

/* A phase that is none. */
static void unknown(uint64_t phase)
{
    alderflute_state s = {phase, 8, 8, 9, 1, 1, {65532}, 20, 20};
    unsound(s, phase);
}

/* A ceiling that is none, in a state that is sound but for it: of a reader that is new, and of one that has a block standing. */
static void no_ceiling(uint64_t ceiling)
{
    alderflute_state s = alderflute_new(), at_a_block = {ALDERFLUTE_FEEDING, 8, 8, 9, 1, 1, {ceiling}, 20, 20};
    s.settings.ceiling = ceiling;
    unsound(s, ceiling);
    unsound(at_a_block, ceiling);
}

/* Buffers of length 0 at NULL. */
static void nothing_lent(void)
{
    alderflute_state s = alderflute_new();
    check(refuses(alderflute_open(s, plain, NULL, 0, NULL, 0), s, 1), "open, nothing lent", 0);
    check(refuses(alderflute_feed(s, NULL, 0, NULL, 0), s, 1), "feed, nothing lent", 0);
    check(refuses(alderflute_finish(s, NULL, 0), s, 1), "finish, nothing lent", 0);
    check(refuses(alderflute_stage(s, NULL, 0, NULL, 0), s, 1), "stage, nothing lent", 0);
    check(refuses(alderflute_stage(s, waiting, sizeof waiting, NULL, 0), s, 4), "stage, an empty table", 0);
    check(no_part(alderflute_bytes(s, NULL, 0), 1), "bytes, nothing lent", 0);
    check(no_part(alderflute_subbytes(s, NULL, 0, NULL, 0, 0), 1), "subbytes, nothing lent", 0);
    check(no_field(alderflute_body(s, NULL, 0, NULL, 0, 0), 1), "body, nothing lent", 0);
    check(no_field(alderflute_sub(s, NULL, 0, NULL, 0, 0, 0), 1), "sub, nothing lent", 0);
    check(no_field(alderflute_sub2(s, NULL, 0, NULL, 0, 0, 0, 0), 1), "sub2, nothing lent", 0);
    check(no_field(alderflute_range(s, NULL, 0, NULL, 0, 0), 1), "range, nothing lent", 0);
    check(no_field(alderflute_range2(s, NULL, 0, NULL, 0, 0, 0), 1), "range2, nothing lent", 0);
    check(no_field(alderflute_tow(s, NULL, 0), 10), "tow of nothing", 0);
    check(no_field(alderflute_wnc(s, NULL, 0), 10), "wnc of nothing", 0);
    check(no_block(alderflute_write(s, NULL, 0, 0, 0, tow, wnc, NULL, 0, NULL, 0, NULL, 0), 1), "write, nothing lent", 0);
    check(no_block(alderflute_write(s, in_force, sizeof in_force, 0, 0, tow, wnc, NULL, 0, NULL, 0, NULL, 0), 5), "write, no table",
          0);
}

/* A write of block 0, which has no fields: what it is given, and the refusal that it is to get. */
typedef struct {
    const char *what;
    uint64_t number, revision;
    alderflute_value tow, wnc;
    uint8_t kinds[2];
    size_t length, room;
    uint32_t refusal;
} attempt;

static void tried(alderflute_state s, attempt a, const uint8_t *block)
{
    uint8_t after[sizeof out];
    memset(out, 0xa5, sizeof out), memset(after, 0xa5, sizeof after);
    for (size_t i = 0; a.refusal == 0 && i < 16; i++) after[i] = block[i];
    alderflute_written w = alderflute_write(s, in_force, sizeof in_force, a.number, a.revision, a.tow, a.wnc, a.length ? a.kinds : NULL,
                                            a.length, NULL, 0, a.room ? out : NULL, a.room);
    check(w.refusal == a.refusal && w.length == (a.refusal == 0 ? 16 : 0) && same(out, after, sizeof out), a.what, 1);
}

static void made(alderflute_state s)
{
    static const uint8_t full[16] = {0x24, 0x40, 0xdf, 0x50, 0, 0x20, 0x10, 0, 1, 2, 3, 4, 5, 6, 0, 0};
    static const uint8_t empty[16] = {0x24, 0x40, 0x78, 0x2f, 0, 0, 0x10, 0, 0xff, 0xff, 0xff, 0xff, 0xff, 0xff, 0, 0};
    const alderflute_value unset = {ALDERFLUTE_GIVE_UNSET, 1}, below = {ALDERFLUTE_GIVE_SIGNED, 1}, begins = {ALDERFLUTE_GIVE_SUB_BLOCK, 1},
                           no_kind = {6, 1}, long_one = {ALDERFLUTE_GIVE_UNSIGNED, 4294967296u}, ones = {ALDERFLUTE_GIVE_UNSIGNED, 65535};
    const attempt refused[] = {
        {"write, no row", 1, 0, tow, wnc, {0}, 0, sizeof out, 6},
        {"write, a number of 17 bits", 65536, 0, tow, wnc, {0}, 0, sizeof out, 6},
        {"write, a number of 33 bits", 4294967296u, 0, tow, wnc, {0}, 0, sizeof out, 6},
        {"write, revision 8", 0, 8, tow, wnc, {0}, 0, sizeof out, 11},
        {"write, a revision of 33 bits", 0, 4294967296u, tow, wnc, {0}, 0, sizeof out, 11},
        {"write, TOW of 33 bits", 0, 1, long_one, wnc, {0}, 0, sizeof out, 11},
        {"write, WNc with a sign", 0, 1, tow, below, {0}, 0, sizeof out, 11},
        {"write, WNc of all ones", 0, 1, tow, ones, {0}, 0, sizeof out, 11},
        {"write, TOW of no kind", 0, 1, no_kind, wnc, {0}, 0, sizeof out, 11},
        {"write, WNc a sub-block", 0, 1, tow, begins, {0}, 0, sizeof out, 11},
        {"write, a value too many", 0, 1, tow, wnc, {0, ALDERFLUTE_GIVE_UNSIGNED}, 2, sizeof out, 11},
        {"write, a sub-block too many", 0, 1, tow, wnc, {ALDERFLUTE_GIVE_SUB_BLOCK}, 1, sizeof out, 11},
        {"write, no room at all", 0, 1, tow, wnc, {0}, 0, 0, 12},
        {"write, a byte short", 0, 1, tow, wnc, {0}, 0, 15, 12},
    };
    const attempt block = {"write", 0, 1, tow, wnc, {0}, 0, sizeof out, 0};
    const attempt just_room = {"write, room for the block alone", 0, 1, tow, wnc, {0}, 0, 16, 0};
    const attempt all_unset = {"write, all unset", 0, 0, unset, unset, {0, 0}, 2, sizeof out, 0};
    for (size_t i = 0; i < sizeof refused / sizeof *refused; i++) tried(s, refused[i], NULL);
    tried(s, block, full), tried(s, just_room, full), tried(s, all_unset, empty);
}

/* Values that a kind does not have are 0. */
static void done(void)
{
    alderflute_reply r = alderflute_stage(alderflute_new(), waiting, sizeof waiting, table, sizeof table);
    alderflute_answer a = r.answer;
    check(a.refusal == 0 && a.kind == ALDERFLUTE_TABLE_VERSION && a.version == 7 && a.waited == 0 && a.taken == 0 && zeros(a.block, a.end),
          "stage", 0);
    a = alderflute_withdraw(r.state).answer;
    check(a.refusal == 0 && a.kind == ALDERFLUTE_WITHDRAWN && a.version == 0 && a.waited == 1 && a.taken == 0 && zeros(a.block, a.end),
          "withdraw", 0);
    r = alderflute_open(r.state, plain, in_force, sizeof in_force, waiting, sizeof waiting), a = r.answer;
    check(a.refusal == 0 && a.kind == ALDERFLUTE_TABLE_VERSION && a.version == 7 && a.waited == 0 && a.taken == 0 && zeros(a.block, a.end),
          "open", 0);
    made(r.state);
    r = alderflute_feed(r.state, hold, sizeof hold, sample, sizeof sample), a = r.answer;
    check(a.refusal == 0 && a.kind == ALDERFLUTE_BLOCK && a.version == 0 && a.waited == 0 && a.taken == 8 && a.block.place == 0 &&
              a.block.length == 8 && a.block.number == 0 && a.block.revision == 0 && a.end.bytes == 0 && a.end.blocks == 0,
          "feed, a block", 1);
    r = alderflute_feed(r.state, hold, sizeof hold, NULL, 0), a = r.answer;
    check(a.refusal == 0 && a.kind == ALDERFLUTE_MORE && a.version == 0 && a.waited == 0 && a.taken == 0 && zeros(a.block, a.end),
          "feed, no more", 1);
    r = alderflute_finish(r.state, hold, sizeof hold), a = r.answer;
    check(a.refusal == 0 && a.kind == ALDERFLUTE_END && a.version == 0 && a.waited == 0 && a.taken == 0 && a.block.length == 0 &&
              a.end.bytes == 8 && a.end.blocks == 1 && a.end.skipped == 0 && r.state.phase == ALDERFLUTE_CLOSED,
          "finish", 1);
}

/* A text for each number, and those of 0 to 13 and of an unknown one are different. */
static void texts(void)
{
    for (uint32_t n = 0; n < 15; n++) {
        const char *text = alderflute_refusal_text(n);
        int apart = text && *text;
        for (uint32_t m = 0; m < n; m++) apart = apart && strcmp(text, alderflute_refusal_text(m)) != 0;
        check(apart, "the text of a refusal", n);
    }
    check(strcmp(alderflute_refusal_text(14), alderflute_refusal_text((uint32_t)-1)) == 0, "the text of an unknown refusal", 0);
}

int main(void)
{
    static const uint64_t phases[] = {3, 4, 255, 256, 65536, 4294967296u, 4294967297u, 9223372036854775808u, (uint64_t)-1};
    static const uint64_t ceilings[] = {1, 4, 12, 15, 17, 18, 4098, 65533, 65536, 65548, 4294967296u, 4294967312u, (uint64_t)-4};
    static const alderflute_state zeros_alone;
    memset(hold, 0xa5, sizeof hold), memset(in_force, 0xa5, sizeof in_force), memset(waiting, 0xa5, sizeof waiting);
    memset(out, 0xa5, sizeof out);
    for (size_t i = 0; i < sizeof phases / sizeof *phases; i++) unknown(phases[i]);
    for (size_t i = 0; i < sizeof ceilings / sizeof *ceilings; i++) no_ceiling(ceilings[i]);
    unsound(zeros_alone, 0);
    nothing_lent();
    done();
    texts();
    check(alderflute_abi() == ALDERFLUTE_ABI, "the number of the interface", 0);
    printf("%u passed, %u failed\n", passed, failed);
    return failed != 0;
}
