/* Single calls by a table, for bench/record to count: record TABLE CALL NUMBER LENGTH TIMES makes the call so many times. The
   block has that number and length, and bytes that are 1 behind its time stamps. The status is 0 where no call is refused. */
#include <stdio.h>
#include "alderflute.h"
#include "block.h"

extern unsigned long strtoul(const char *text, char **end, int base);
extern int strcmp(const char *a, const char *b);

static uint8_t hold[ALDERFLUTE_HOLD], in_force[ALDERFLUTE_STORE], waiting[ALDERFLUTE_STORE], table[ALDERFLUTE_STORE];

/* N is 1 and SBLength 255, which no row passes; of two levels N2 is 1 and SB2Length 16. */
static void block(uint8_t *to, unsigned number, unsigned length)
{
    header(to, number, length);
    for (size_t i = 8; i < length; i++) to[i] = i < 14 ? 0 : i == 15 ? 255 : i == 16 ? 16 : 1;
    mend(to, length);
}

static alderflute_reply opened(alderflute_state s)
{
    return alderflute_open(s, alderflute_default_settings(), in_force, sizeof in_force, waiting, sizeof waiting);
}

static unsigned ask(const char *call, alderflute_state s, const uint8_t *b, size_t length, size_t table_length)
{
    if (!strcmp(call, "stage")) return alderflute_stage(s, waiting, sizeof waiting, table, table_length).answer.refusal;
    if (!strcmp(call, "open")) return opened(s).answer.refusal;
    if (!strcmp(call, "body")) return alderflute_body(s, in_force, sizeof in_force, b, length, 0).refusal;
    if (!strcmp(call, "sub")) return alderflute_sub(s, in_force, sizeof in_force, b, length, 0, 0).refusal;
    if (!strcmp(call, "sub2")) return alderflute_sub2(s, in_force, sizeof in_force, b, length, 0, 0, 0).refusal;
    if (!strcmp(call, "range")) return alderflute_range(s, in_force, sizeof in_force, b, length, 0).refusal;
    if (!strcmp(call, "range2")) return alderflute_range2(s, in_force, sizeof in_force, b, length, 0, 0).refusal;
    if (!strcmp(call, "tow")) return alderflute_tow(s, b, length).refusal;
    return 1;
}

int main(int argc, char **argv)
{
    FILE *file = argc > 5 ? fopen(argv[1], "rb") : NULL;
    if (!file) return 2;
    size_t size = fread(table, 1, sizeof table, file);
    unsigned number = (unsigned)strtoul(argv[3], NULL, 10), length = (unsigned)strtoul(argv[4], NULL, 10);
    if (length < 16 || length > 65532) return 2;
    block(hold, number, length);
    alderflute_reply r = alderflute_stage(alderflute_new(), waiting, sizeof waiting, table, size);
    if (strcmp(argv[2], "open")) r = opened(r.state);
    if (r.answer.refusal != 0) return 1;
    unsigned refusals = 0;
    for (unsigned long times = strtoul(argv[5], NULL, 10); times > 0; times--) refusals += ask(argv[2], r.state, hold, length, size);
    return refusals != 0;
}
