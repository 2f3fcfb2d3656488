// Lists the blocks of the SBF on standard input, with time of week and, of AttEuler, the heading: example <FILE
#include <stdio.h>
#include <string.h>
#include "alderflute.h"
#include "shipped-v1.table.h" // a table and its names, as `tools/table c` writes them

static uint8_t hold[ALDERFLUTE_HOLD], in_force[ALDERFLUTE_STORE], waiting[ALDERFLUTE_STORE];

// A float comes as bits.
static double degrees(uint64_t bits)
{
    uint32_t low = (uint32_t)bits;
    float f;
    memcpy(&f, &low, sizeof f);
    return (double)f;
}

// A block that was just reported: its bytes stand in the hold until the next feed or finish.
static void show(alderflute_state state, alderflute_block b)
{
    alderflute_part part = alderflute_bytes(state, hold, sizeof hold);
    const uint8_t *block = hold + part.offset;
    alderflute_field tow = alderflute_tow(state, block, part.length);
    printf("block %llu %u %u %llu", (unsigned long long)b.place, b.number, b.revision, (unsigned long long)b.length);
    if (tow.kind == ALDERFLUTE_UNSIGNED) printf(" tow %llu", (unsigned long long)tow.number);
    if (b.number == ALDERFLUTE_ATTEULER) {
        alderflute_field heading =
            alderflute_body(state, in_force, sizeof in_force, block, part.length, ALDERFLUTE_ATTEULER_HEADING);
        if (heading.kind == ALDERFLUTE_SINGLE) printf(" heading %.3f", degrees(heading.bits));
    }
    printf("\n");
}

// Feeds a piece until all of it is taken and no block is left in it. MORE with a rest: the run is full, and the next
// feed is refused.
static alderflute_reply feed_all(alderflute_reply r, const uint8_t *piece, size_t n)
{
    size_t at = 0;
    do {
        r = alderflute_feed(r.state, hold, sizeof hold, piece + at, n - at);
        at += r.answer.taken;
        if (r.answer.kind == ALDERFLUTE_BLOCK) show(r.state, r.answer.block);
    } while (r.answer.kind == ALDERFLUTE_BLOCK || (r.answer.refusal == 0 && at < n));
    return r;
}

// No more bytes come: the blocks that are still held, then END.
static alderflute_reply finish_all(alderflute_reply r)
{
    do {
        r = alderflute_finish(r.state, hold, sizeof hold);
        if (r.answer.kind == ALDERFLUTE_BLOCK) show(r.state, r.answer.block);
    } while (r.answer.kind == ALDERFLUTE_BLOCK);
    return r;
}

int main(void)
{
    uint8_t piece[4096];
    size_t n;
    if (alderflute_abi() != ALDERFLUTE_ABI) {
        fprintf(stderr, "example: alderflute.h and libalderflute.a do not belong together\n");
        return 2;
    }
    alderflute_state new_one = alderflute_new();
    alderflute_settings settings = alderflute_default_settings(); // blocks of any length; a ceiling: see CEILING
    alderflute_reply r = alderflute_stage(new_one, waiting, sizeof waiting, alderflute_table, sizeof alderflute_table);
    if (r.answer.refusal == 0)
        r = alderflute_open(r.state, settings, in_force, sizeof in_force, waiting, sizeof waiting);
    while (r.answer.refusal == 0 && (n = fread(piece, 1, sizeof piece, stdin)) > 0) r = feed_all(r, piece, n);
    if (ferror(stdin)) {
        fprintf(stderr, "example: cannot read standard input\n");
        return 2;
    }
    uint32_t refusal = r.answer.refusal;
    if (refusal == 0 || refusal == ALDERFLUTE_REFUSAL_RUN_FULL) r = finish_all(r); // a full run may hold blocks too
    if (r.answer.kind == ALDERFLUTE_END)
        printf("end %llu %llu %llu\n", (unsigned long long)r.answer.end.bytes, (unsigned long long)r.answer.end.blocks,
               (unsigned long long)r.answer.end.skipped);
    else if (refusal == 0)
        refusal = r.answer.refusal;
    if (fflush(stdout) != 0 || ferror(stdout)) {
        fprintf(stderr, "example: cannot write standard output\n");
        return 2;
    }
    if (refusal != 0) {
        fprintf(stderr, "example: refused: %s\n", alderflute_refusal_text(refusal));
        return 1;
    }
    return 0;
}
