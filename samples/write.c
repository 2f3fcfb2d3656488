// Writes an AttEuler block, prints its bytes in hex, and reads the roll back from them: write
#include <stdio.h>
#include <string.h>
#include "alderflute.h"
#include "shipped-v1.table.h" // a table and its names, as `tools/table c` writes them

static uint8_t in_force[ALDERFLUTE_STORE], waiting[ALDERFLUTE_STORE], out[64];

// Values of the body, by the fields' numbers, all unset at first. What stays unset, or lies past the end of the lists,
// is written as the field's Do-Not-Use value.
static uint8_t kinds[ALDERFLUTE_ATTEULER_ROLL + 1];
static uint64_t bits[ALDERFLUTE_ATTEULER_ROLL + 1];

static void give_number(size_t field, uint64_t n)
{
    kinds[field] = ALDERFLUTE_GIVE_UNSIGNED;
    bits[field] = n;
}

// A float is given as its bits.
static void give_single(size_t field, float f)
{
    uint32_t low;
    memcpy(&low, &f, sizeof low);
    kinds[field] = ALDERFLUTE_GIVE_SINGLE;
    bits[field] = low;
}

static int refused(uint32_t refusal)
{
    fprintf(stderr, "write: refused: %s\n", alderflute_refusal_text(refusal));
    return 1;
}

int main(void)
{
    if (alderflute_abi() != ALDERFLUTE_ABI) {
        fprintf(stderr, "write: alderflute.h and libalderflute.a do not belong together\n");
        return 2;
    }
    alderflute_state new_one = alderflute_new();
    alderflute_settings settings = alderflute_default_settings(); // blocks of any length
    alderflute_reply r = alderflute_stage(new_one, waiting, sizeof waiting, alderflute_table, sizeof alderflute_table);
    if (r.answer.refusal == 0)
        r = alderflute_open(r.state, settings, in_force, sizeof in_force, waiting, sizeof waiting);
    if (r.answer.refusal != 0) return refused(r.answer.refusal);
    give_number(ALDERFLUTE_ATTEULER_ERROR, 0); // three without a Do-Not-Use value: they have to be given
    give_number(ALDERFLUTE_ATTEULER_MODE, 2);
    give_number(ALDERFLUTE_ATTEULER_RESERVED, 0);
    give_single(ALDERFLUTE_ATTEULER_HEADING, 87.5f);
    give_single(ALDERFLUTE_ATTEULER_ROLL, -2.25f);
    alderflute_value tow = {ALDERFLUTE_GIVE_UNSIGNED, 345600000}, wnc = {ALDERFLUTE_GIVE_UNSIGNED, 2100};
    alderflute_written w = alderflute_write(r.state, in_force, sizeof in_force, ALDERFLUTE_ATTEULER, 0, tow, wnc, kinds,
                                            sizeof kinds, bits, sizeof bits / sizeof *bits, out, sizeof out);
    if (w.refusal != 0) return refused(w.refusal);
    alderflute_field f = alderflute_body(r.state, in_force, sizeof in_force, out, w.length, ALDERFLUTE_ATTEULER_ROLL);
    if (f.refusal != 0) return refused(f.refusal);
    uint32_t low = (uint32_t)f.bits;
    float roll;
    memcpy(&roll, &low, sizeof roll);
    for (size_t i = 0; i < w.length; i++) printf("%02x", out[i]);
    printf(" roll %.3f\n", (double)roll);
    return 0;
}
