/* Ceilings: which settings open takes, how long they hold, what a false header holds back with a ceiling and without, and
   blocks that are longer than it. Prints each case that fails, and last 'N passed, M failed'. */
#include "alderflute.h"
#include "../../samples/shipped-v1.table.h"

extern int printf(const char *form, ...);
extern void *memset(void *to, int byte, size_t count);

static uint8_t hold[ALDERFLUTE_HOLD], in_force[ALDERFLUTE_STORE], waiting[ALDERFLUTE_STORE], out[256];
/* A header with the length 60,000, and a block of 8 bytes behind it (rule S14). */
static const uint8_t false_header[16] = {0x24, 0x40, 0, 0, 0, 0, 0x60, 0xea, 0x24, 0x40, 0xa9, 0x89, 0, 0, 8, 0};
/* Block 4043 with one sub-block: all is 0 but the header, N and SBLength. */
static const uint8_t block[68] = {0x24, 0x40, 0xcb, 0x99, 0xcb, 0x0f, 68, 0, 0, 0, 0, 0, 0, 0, 1, 52};
static unsigned passed, failed;

static void check(int holds, const char *what, uint64_t ceiling)
{
    if (holds) passed++;
    else failed++, printf("ceiling: %s, %lu\n", what, ceiling);
}

static alderflute_reply opened(alderflute_state s, uint64_t ceiling)
{
    alderflute_settings settings = alderflute_default_settings();
    settings.ceiling = ceiling;
    return alderflute_open(s, settings, in_force, sizeof in_force, waiting, sizeof waiting);
}

static alderflute_reply fed(alderflute_reply r, const uint8_t *bytes, size_t count)
{
    return alderflute_feed(r.state, hold, sizeof hold, bytes, count);
}

static alderflute_reply finished(alderflute_reply r) { return alderflute_finish(r.state, hold, sizeof hold); }

/* A new reader with the table shipped waiting. */
static alderflute_state staged(void)
{
    return alderflute_stage(alderflute_new(), waiting, sizeof waiting, alderflute_table, sizeof alderflute_table).state;
}

static void defaults(void)
{
    check(alderflute_default_settings().ceiling == 65532, "the default settings", 65532);
    check(alderflute_new().settings.ceiling == 65532, "those of a new reader", 65532);
    check(ALDERFLUTE_CEILING_LEAST == 16 && ALDERFLUTE_CEILING_GREATEST == 65532, "the bounds", 65532);
}

static void taken(uint64_t ceiling)
{
    alderflute_reply r = opened(staged(), ceiling);
    check(r.answer.kind == ALDERFLUTE_TABLE_VERSION && r.state.settings.ceiling == ceiling, "open takes it", ceiling);
}

/* 13 comes after 1 and 2, and before 5 and 4; and the old ceiling stays. */
static void refused(uint64_t ceiling)
{
    alderflute_state new_one = alderflute_new(), s = staged(), broken = s;
    alderflute_reply r = opened(s, ceiling), other = opened(s, 4096);
    alderflute_settings settings = {ceiling};
    broken.waiting = 19;
    check(r.answer.refusal == ALDERFLUTE_REFUSAL_BAD_CEILING && r.answer.kind == ALDERFLUTE_REFUSED, "open refuses it", ceiling);
    check(r.state.settings.ceiling == 65532 && r.state.phase == ALDERFLUTE_CLOSED && r.state.waiting == s.waiting, "the state", ceiling);
    check(alderflute_open(s, settings, in_force, 8191, waiting, sizeof waiting).answer.refusal == 1, "1 before it", ceiling);
    check(opened(other.state, ceiling).answer.refusal == 2, "2 before it", ceiling);
    check(opened(new_one, ceiling).answer.refusal == 13 && opened(new_one, 16).answer.refusal == 5, "5 after it", ceiling);
    check(opened(broken, ceiling).answer.refusal == 13 && opened(broken, 16).answer.refusal == 4, "4 after it", ceiling);
    r = opened(finished(other).state, ceiling);
    check(r.answer.refusal == 13 && r.state.settings.ceiling == 4096, "a refused open keeps the old one", ceiling);
}

/* Whether a false header holds the block behind it back up to finish, or not. */
static void behind_a_false_header(uint64_t ceiling, int held_back)
{
    alderflute_reply r = fed(opened(staged(), ceiling), false_header, sizeof false_header);
    check(r.answer.taken == 16 && r.answer.kind == (held_back ? ALDERFLUTE_MORE : ALDERFLUTE_BLOCK), "the false header", ceiling);
    check(r.state.held == (held_back ? 16 : 8) && r.state.skipped == (held_back ? 0 : 8), "what is held and skipped", ceiling);
    if (held_back) r = finished(r);
    check(r.answer.kind == ALDERFLUTE_BLOCK && r.answer.block.place == 8 && r.answer.block.length == 8, "the block", ceiling);
    r = finished(r);
    check(r.answer.kind == ALDERFLUTE_END && r.answer.end.blocks == 1 && r.answer.end.skipped == 8, "the end", ceiling);
    check(r.state.settings.ceiling == ceiling, "after the end", ceiling);
}

/* F17: a header as long as the ceiling, and zeros. After MORE fewer bytes are held than the ceiling says. */
static void held(uint64_t ceiling)
{
    uint8_t header[8] = {0x24, 0x40, 0, 0, 0, 0, (uint8_t)(ceiling % 256), (uint8_t)(ceiling / 256)};
    static const uint8_t zero;
    alderflute_reply r = fed(opened(staged(), ceiling), header, sizeof header);
    for (uint64_t n = sizeof header; n + 1 < ceiling; n++) r = fed(r, &zero, 1);
    check(r.answer.kind == ALDERFLUTE_MORE && r.state.held == ceiling - 1, "a byte before the end", ceiling);
    r = fed(r, &zero, 1);
    check(r.answer.kind == ALDERFLUTE_MORE && r.state.held == 0 && r.state.skipped == ceiling, "at the end", ceiling);
}

/* A block of 68 bytes is reported up from the ceiling 68, and read with any. */
static void longer(uint64_t ceiling)
{
    alderflute_reply r = fed(opened(staged(), ceiling), block, sizeof block);
    int within = ceiling >= sizeof block;
    check(r.answer.kind == (within ? ALDERFLUTE_BLOCK : ALDERFLUTE_MORE) && r.answer.taken == 68, "feed", ceiling);
    check(r.state.skipped == (within ? 0 : 68) && r.state.held == (within ? 68 : 0), "skipped and held", ceiling);
    alderflute_field n = alderflute_body(r.state, in_force, sizeof in_force, block, sizeof block, 0);
    check(n.kind == ALDERFLUTE_UNSIGNED && n.number == 1, "body", ceiling);
    check(alderflute_sub(r.state, in_force, sizeof in_force, block, sizeof block, 0, 4).refusal == 0, "sub", ceiling);
    check(alderflute_subbytes(r.state, in_force, sizeof in_force, block, sizeof block, 0).length == 52, "subbytes", ceiling);
    check(alderflute_tow(r.state, block, sizeof block).refusal == 0, "tow", ceiling);
}

/* A block of 68 bytes is written up from the ceiling 68; below it no byte is. The ceiling is that of the last open. */
static void writes(uint64_t ceiling)
{
    static const uint8_t kinds[] = {ALDERFLUTE_GIVE_SUB_BLOCK, 1, 1, 1, 1, 4, 4, 4, 3, 3, 3, 1, 2, 1, 1, 1};
    static const uint64_t bits[sizeof kinds] = {0, 1, 1, 1, 1, 1, 1, 1, 1, 1, 1, 1, 1, 1, 1, 1};
    const alderflute_value now = {ALDERFLUTE_GIVE_UNSIGNED, 1};
    alderflute_reply r = finished(opened(staged(), ceiling));
    int within = ceiling >= sizeof block, touched = 0;
    memset(out, 0xa5, sizeof out);
    alderflute_written w = alderflute_write(r.state, in_force, sizeof in_force, 4043, 0, now, now, kinds, sizeof kinds, bits,
                                            sizeof kinds, out, sizeof out);
    for (size_t i = 0; i < sizeof out; i++) touched = touched || out[i] != 0xa5;
    check(w.refusal == (within ? 0 : ALDERFLUTE_REFUSAL_NO_ROOM) && w.length == (within ? 68 : 0), "write", ceiling);
    check(touched == within, "what write wrote", ceiling);
}

int main(void)
{
    static const uint64_t good[] = {16, 20, 64, 68, 72, 4096, 65528, 65532};
    static const uint64_t bad[] = {0, 4, 8, 12, 14, 15, 17, 18, 65530, 65533, 65536, 65540, 4294967296u, 4294967312u, (uint64_t)-4, (uint64_t)-1};
    defaults();
    for (size_t i = 0; i < sizeof good / sizeof *good; i++) taken(good[i]), held(good[i]), longer(good[i]), writes(good[i]);
    for (size_t i = 0; i < sizeof bad / sizeof *bad; i++) refused(bad[i]);
    behind_a_false_header(65532, 1), behind_a_false_header(60000, 1);
    behind_a_false_header(59996, 0), behind_a_false_header(4096, 0), behind_a_false_header(16, 0);
    printf("%u passed, %u failed\n", passed, failed);
    return failed != 0;
}
