// Prints the pseudoranges in the MeasEpoch blocks of the SBF on standard input, in millimetres: ranges <FILE
// A line is the time of week, the satellite's SVID and the range; of a second signal of that satellite, the range behind a +.
#include <stdio.h>
#include "alderflute.h"
#include "shipped-v1.table.h" // a table and its names, as `tools/table c` writes them

static uint8_t hold[ALDERFLUTE_HOLD], in_force[ALDERFLUTE_STORE], waiting[ALDERFLUTE_STORE];

// A number, or what stands for it where there is none.
static void range(const char *before, alderflute_field f)
{
    if (f.kind == ALDERFLUTE_SIGNED) printf("%s%lld", before, (long long)f.signed_number);
    else if (f.kind == ALDERFLUTE_UNSIGNED) printf("%s%llu", before, (unsigned long long)f.number);
    else printf("%s%s", before, f.kind == ALDERFLUTE_DO_NOT_USE ? "unknown" : "refused");
}

// One satellite: its own pseudorange, then those of the signals nested in it. N2 is how many there are.
static void satellite(alderflute_state s, const uint8_t *block, size_t n, size_t k)
{
    alderflute_field n2 = alderflute_sub(s, in_force, sizeof in_force, block, n, k, ALDERFLUTE_MEASEPOCH_SUB_N2);
    range("", alderflute_tow(s, block, n));
    range(" ", alderflute_sub(s, in_force, sizeof in_force, block, n, k, ALDERFLUTE_MEASEPOCH_SUB_SVID));
    range(" ", alderflute_range(s, in_force, sizeof in_force, block, n, k));
    for (size_t m = 0; m < n2.number; m++) range(" + ", alderflute_range2(s, in_force, sizeof in_force, block, n, k, m));
    printf("\n");
}

// A block that was just reported. Where it is refused, as one whose walk ends past its end is (8), it is passed by.
static void show(alderflute_state s, alderflute_block b)
{
    alderflute_part part = alderflute_bytes(s, hold, sizeof hold);
    const uint8_t *block = hold + part.offset;
    if (b.number != ALDERFLUTE_MEASEPOCH) return;
    alderflute_field n1 = alderflute_body(s, in_force, sizeof in_force, block, part.length, ALDERFLUTE_MEASEPOCH_N1);
    const char *why = alderflute_refusal_text(n1.refusal);
    if (n1.refusal != 0) fprintf(stderr, "ranges: block at %llu: %s\n", (unsigned long long)b.place, why);
    for (size_t k = 0; k < n1.number; k++) satellite(s, block, part.length, k);
}

int main(void)
{
    uint8_t piece[4096];
    size_t n, at;
    if (alderflute_abi() != ALDERFLUTE_ABI) {
        fprintf(stderr, "ranges: alderflute.h and libalderflute.a do not belong together\n");
        return 2;
    }
    alderflute_settings settings = alderflute_default_settings(); // blocks of any length
    alderflute_reply r = alderflute_stage(alderflute_new(), waiting, sizeof waiting, alderflute_table, sizeof alderflute_table);
    if (r.answer.refusal == 0)
        r = alderflute_open(r.state, settings, in_force, sizeof in_force, waiting, sizeof waiting);
    while (r.answer.refusal == 0 && (n = fread(piece, 1, sizeof piece, stdin)) > 0) {
        at = 0;
        do {
            r = alderflute_feed(r.state, hold, sizeof hold, piece + at, n - at);
            at += r.answer.taken;
            if (r.answer.kind == ALDERFLUTE_BLOCK) show(r.state, r.answer.block);
        } while (r.answer.kind == ALDERFLUTE_BLOCK || (r.answer.refusal == 0 && at < n));
    }
    while (r.answer.refusal == 0 && r.answer.kind != ALDERFLUTE_END) {
        r = alderflute_finish(r.state, hold, sizeof hold);
        if (r.answer.kind == ALDERFLUTE_BLOCK) show(r.state, r.answer.block);
    }
    if (r.answer.refusal != 0) fprintf(stderr, "ranges: refused: %s\n", alderflute_refusal_text(r.answer.refusal));
    return r.answer.refusal != 0 || fflush(stdout) != 0 || ferror(stdin);
}
