/* Single calls for bench/worst to count: worst KIND prepares the call, worst KIND go makes it too. A kind is told by its first
   letter: block, longest, zeros, found, pairs, dearest, stream, end (of the run: a Finish). The status is 0 where the call
   answers what it should. */
#include "alderflute.h"
#include "../samples/shipped-v1.table.h"
#include "block.h"

enum { LONGEST = 65532, PIECE = 4096 };

static uint8_t hold[ALDERFLUTE_HOLD], in_force[ALDERFLUTE_STORE], waiting[ALDERFLUTE_STORE], bytes[2 * ALDERFLUTE_HOLD];

static void pair(uint8_t *to) { two(to, 0x4024); }

static void block(uint8_t *to, unsigned length) { header(to, ALDERFLUTE_ATTEULER, length), mend(to, length); }

/* A sync pair at every fourth byte. The two bytes behind the next pair are its length. */
static void fourths(size_t from, size_t to, unsigned (*length)(size_t place))
{
    for (size_t p = from; p < to; p += 4) pair(bytes + p), two(bytes + p + 6, length(p));
}

static unsigned the_longest(size_t place) { return (void)place, LONGEST; }
static unsigned up_to_the_last(size_t place) { return (unsigned)(LONGEST - place); }
static unsigned up_to_four_before(size_t place) { return (unsigned)(LONGEST - 4 - place); }

/* Sync pairs back to back: the fourth is the length of the first, 16,420. */
static void back_to_back(size_t from, size_t to)
{
    for (size_t p = from; p < to; p += 2) pair(bytes + p);
}

/* Sync pairs so that the sum of the lengths is large: at every fourth byte while what is left is more than twice 16,420, back
   to back while 16,420 bytes are left, then at every fourth again. The 1 between is there for no CRC to be right by chance. */
static void dearest(size_t first, unsigned (*length)(size_t place))
{
    fourths(first, 32700, length), back_to_back(32700, 49108), two(bytes + 49108, 1), fourths(49116, LONGEST - 12, length);
}

/* How many bytes of a kind are held before the call, how many it is given, and what it is to answer. */
typedef struct {
    size_t held, given, answer;
} call;

static call make(char kind)
{
    call c = {LONGEST - 1, 1, ALDERFLUTE_MORE};
    header(bytes, ALDERFLUTE_ATTEULER, LONGEST);
    if (kind == 'b') block(bytes, 44), c.held = 0, c.given = 44, c.answer = ALDERFLUTE_BLOCK;
    if (kind == 'l') block(bytes, LONGEST), c.answer = ALDERFLUTE_BLOCK;
    if (kind == 'f') {
        for (size_t p = 8; p + 44 < LONGEST; p += 44) block(bytes + p, 44);
        c.answer = ALDERFLUTE_BLOCK;
    }
    if (kind == 'p') back_to_back(8, LONGEST);
    if (kind == 'd') dearest(0, up_to_the_last);
    if (kind == 'e') dearest(8, up_to_four_before), c.given = 0, c.answer = ALDERFLUTE_END;
    if (kind == 's') fourths(0, sizeof bytes - 8, the_longest), c.given = PIECE;
    return c;
}

int main(int argc, char **argv)
{
    call c = make(argc > 1 ? *argv[1] : 'z');
    alderflute_reply r = alderflute_stage(alderflute_new(), waiting, sizeof waiting, alderflute_table, sizeof alderflute_table);
    r = alderflute_open(r.state, alderflute_default_settings(), in_force, sizeof in_force, waiting, sizeof waiting);
    r = alderflute_feed(r.state, hold, sizeof hold, bytes, c.held);
    if (r.answer.kind != ALDERFLUTE_MORE || r.state.held != c.held) return 1;
    if (argc < 3) return 0;
    if (c.answer == ALDERFLUTE_END) r = alderflute_finish(r.state, hold, sizeof hold);
    else r = alderflute_feed(r.state, hold, sizeof hold, bytes + c.held, c.given);
    return r.answer.kind != c.answer || r.answer.taken != c.given;
}
