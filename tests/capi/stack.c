/* How deep the stack is that each call uses: prints 'CALL BYTES' a line. The bytes are those of the call and of what it calls,
   and also the call's own arguments and return address and what a plain caller puts on the stack for them and the reply. */
#include "alderflute.h"
#include "../../samples/shipped-v1.table.h"

extern int printf(const char *form, ...);

enum { DEEP = 16384, PAINT = 0xa5 };

static uint8_t hold[ALDERFLUTE_HOLD], in_force[ALDERFLUTE_STORE], waiting[ALDERFLUTE_STORE];
static alderflute_reply r;
static alderflute_settings settings;
static alderflute_field field;
static alderflute_part part;
static alderflute_written written;
static uint8_t out[256];
/* Block 4043 with one sub-block: all is 0 but the header, N and SBLength. */
static const uint8_t block[68] = {0x24, 0x40, 0xcb, 0x99, 0xcb, 0x0f, 68, 0, 0, 0, 0, 0, 0, 0, 1, 52};

/* Block 4027 with one first-level sub-block and one nested in it. */
static const uint8_t epoch[52] = {0x24, 0x40, 0x28, 0x74, 0xbb, 0x0f, 52, 0, 0, 0, 0, 0, 0, 0, 1, 20, 12, 0, 0, 0, 0, 0, 0, 1, 5, 0, 0, 0, 0, 0, 0, 0, 0, 0, 0, 0, 0, 0, 0, 1, 0, 0, 0, 0, 0, 0, 0, 0, 0, 0, 0, 0};

/* One sub-block for block 4043, with a value in each field. */
static const uint8_t kinds[] = {ALDERFLUTE_GIVE_SUB_BLOCK, 1, 1, 1, 1, 4, 4, 4, 3, 3, 3, 1, 2, 1, 1, 1};
static const uint64_t bits[sizeof kinds] = {0, 1, 1, 1, 1, 1, 1, 1, 1, 1, 1, 1, 1, 1, 1, 1};
static const alderflute_value now = {ALDERFLUTE_GIVE_UNSIGNED, 1};

/* A header that is never ended, and a block in what it holds back, for finish to find. */
static const uint8_t held_back[16] = {0x24, 0x40, 0, 0, 0, 0, 20, 0, 0x24, 0x40, 0xa9, 0x89, 0, 0, 8, 0};

static void new(void) { r.state = alderflute_new(); }
static void default_settings(void) { settings = alderflute_default_settings(); }
static void stage(void) { r = alderflute_stage(r.state, waiting, sizeof waiting, alderflute_table, sizeof alderflute_table); }
static void withdraw(void) { alderflute_withdraw(r.state); }
static void open(void) { r = alderflute_open(r.state, settings, in_force, sizeof in_force, waiting, sizeof waiting); }
static void feed(void) { r = alderflute_feed(r.state, hold, sizeof hold, block, sizeof block); }
static void bytes(void) { part = alderflute_bytes(r.state, hold, sizeof hold); }
static void body(void) { field = alderflute_body(r.state, in_force, sizeof in_force, block, sizeof block, 0); }
static void sub(void) { field = alderflute_sub(r.state, in_force, sizeof in_force, block, sizeof block, 0, 4); }
static void subbytes(void) { part = alderflute_subbytes(r.state, in_force, sizeof in_force, block, sizeof block, 0); }
static void sub2(void) { field = alderflute_sub2(r.state, in_force, sizeof in_force, epoch, sizeof epoch, 0, 0, 6); }
static void range(void) { field = alderflute_range(r.state, in_force, sizeof in_force, epoch, sizeof epoch, 0); }
static void range2(void) { field = alderflute_range2(r.state, in_force, sizeof in_force, epoch, sizeof epoch, 0, 0); }
static void tow(void) { field = alderflute_tow(r.state, block, sizeof block); }
static void wnc(void) { field = alderflute_wnc(r.state, block, sizeof block); }
static void write(void)
{
    written = alderflute_write(r.state, in_force, sizeof in_force, 4043, 0, now, now, kinds, sizeof kinds, bits, sizeof kinds, out,
                               sizeof out);
}
static void hold_back(void) { r = alderflute_feed(r.state, hold, sizeof hold, held_back, sizeof held_back); }
static void finish(void) { r = alderflute_finish(r.state, hold, sizeof hold); }

static const struct {
    const char *name;
    void (*call)(void);
} calls[] = {{"new", new}, {"default_settings", default_settings}, {"stage", stage}, {"withdraw", withdraw}, {"open", open}, {"feed", feed},
             {"bytes", bytes}, {"body", body},
             {"sub", sub}, {"subbytes", subbytes}, {"sub2", sub2}, {"range", range}, {"range2", range2}, {"tow", tow}, {"wnc", wnc}, {"write", write}, {"feed", hold_back}, {"finish", finish}};

/* Paints the stack below this frame, makes the call, and looks how far down the paint is gone. */
__attribute__((noinline)) static unsigned long depth(void (*call)(void))
{
    uint8_t *volatile here;
    __asm__ volatile("mov %%rsp, %0" : "=r"(here));
    for (volatile uint8_t *at = here - DEEP; at < here; at++) *at = PAINT;
    call();
    volatile uint8_t *at = here - DEEP;
    while (at < here && *at == PAINT) at++;
    return (unsigned long)(here - at);
}

/* Twice: at its first call memmove or memset may have to be found first, and that is not the call's stack. */
int main(void)
{
    unsigned long deep[sizeof calls / sizeof *calls];
    for (int turn = 0; turn < 2; turn++)
        for (size_t i = 0; i < sizeof calls / sizeof *calls; i++) {
            deep[i] = depth(calls[i].call);
            if (r.answer.refusal != 0 || field.refusal != 0 || part.refusal != 0 || written.refusal != 0)
                return printf("%s was refused\n", calls[i].name), 1;
        }
    for (size_t i = 0; i < sizeof calls / sizeof *calls; i++) printf("%s %lu\n", calls[i].name, deep[i]);
    return 0;
}
