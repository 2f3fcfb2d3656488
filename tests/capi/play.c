/* Plays a script of calls from standard input through the C interface and prints what the program `replay` prints, for
   tests/test_capi.py to compare. It declares what it calls of the C library: the kit's clang has no headers. */
#include "alderflute.h"

extern long read(int file, void *to, size_t count);
extern long write(int file, const void *from, size_t count);
extern void exit(int status);

enum { LONGEST = 270000 };

typedef struct {
    uint8_t *bytes;
    size_t length; /* of the buffer */
    size_t lent;   /* to the next call */
} buffer;

static uint8_t hold_bytes[ALDERFLUTE_HOLD], force_bytes[ALDERFLUTE_STORE], waiting_bytes[ALDERFLUTE_STORE], made_bytes[65536];
static buffer hold = {hold_bytes, sizeof hold_bytes, sizeof hold_bytes};
static buffer force = {force_bytes, sizeof force_bytes, sizeof force_bytes};
static buffer waiting = {waiting_bytes, sizeof waiting_bytes, sizeof waiting_bytes};
static buffer made = {made_bytes, sizeof made_bytes, sizeof made_bytes}; /* what a script calls out */
static alderflute_state state;

/* ---- output */

static char out[65536];
static size_t used;

static void flush(void)
{
    for (size_t at = 0; at < used;) {
        long n = write(1, out + at, used - at);
        if (n <= 0) exit(2);
        at += (size_t)n;
    }
    used = 0;
}

static void text(const char *s)
{
    for (; *s; s++) {
        if (used == sizeof out) flush();
        out[used++] = *s;
    }
}

static void number(uint64_t n)
{
    char digits[21];
    size_t at = sizeof digits - 1;
    digits[at] = 0;
    do digits[--at] = (char)('0' + n % 10);
    while ((n /= 10) != 0);
    text(digits + at);
}

static void word(uint64_t n)
{
    text(" ");
    number(n);
}

static void crc(const uint8_t *bytes, size_t length)
{
    static uint16_t table[256];
    uint16_t c = 0;
    char four[5] = {0};
    if (table[1] == 0)
        for (unsigned i = 0; i < 256; i++) {
            unsigned x = i << 8;
            for (int bit = 0; bit < 8; bit++) x = x & 0x8000 ? x << 1 ^ 0x1021 : x << 1;
            table[i] = (uint16_t)x;
        }
    for (size_t i = 0; i < length; i++) c = (uint16_t)(c << 8 ^ table[c >> 8 ^ bytes[i]]);
    for (int i = 0; i < 4; i++) four[i] = "0123456789abcdef"[c >> (12 - 4 * i) & 15];
    text(four);
}

static void state_and(int buffers)
{
    text(" |");
    word(state.phase), word(state.in_force), word(state.waiting), word(state.held);
    word(state.standing), word(state.taken), word(state.blocks), word(state.skipped);
    word(state.settings.ceiling);
    text(" | ");
    if (buffers) {
        crc(hold.bytes, hold.length), text(" ");
        crc(force.bytes, force.length), text(" ");
        crc(waiting.bytes, waiting.length), text("\n");
    } else {
        text("- - -\n");
    }
    hold.lent = hold.length, force.lent = force.length, waiting.lent = waiting.length, made.lent = made.length;
}

static void block(alderflute_block b)
{
    text("block");
    word(b.place), word(b.number), word(b.revision), word(b.length);
}

/* A call that goes on with the state; `done` is what a version is called. */
static void reply(alderflute_reply r, const char *done, int fed)
{
    alderflute_answer a = r.answer;
    state = r.state;
    if ((a.refusal != 0) != (a.kind == ALDERFLUTE_REFUSED)) text("(kind and refusal differ) ");
    if (fed && a.refusal == 0) text("fed "), number(a.taken), text(" ");
    switch (a.kind) {
    case ALDERFLUTE_REFUSED: text("refused"), word(a.refusal); break;
    case ALDERFLUTE_TABLE_VERSION: text(done), word(a.version); break;
    case ALDERFLUTE_BLOCK: block(a.block); break;
    case ALDERFLUTE_MORE: text("more"); break;
    case ALDERFLUTE_END: text("end"), word(a.end.bytes), word(a.end.blocks), word(a.end.skipped); break;
    case ALDERFLUTE_WITHDRAWN: text("withdrawn"), word(a.waited); break;
    default: text("(no kind)");
    }
    state_and(1);
}

static void field(alderflute_field f)
{
    if ((f.refusal != 0) != (f.kind == ALDERFLUTE_REFUSED)) text("(kind and refusal differ) ");
    switch (f.kind) {
    case ALDERFLUTE_REFUSED: text("refused"), word(f.refusal); break;
    case ALDERFLUTE_UNSIGNED: text("unsigned"), word(f.number); break;
    case ALDERFLUTE_SIGNED:
        text(f.signed_number < 0 ? "signed -" : "signed ");
        number(f.signed_number < 0 ? 0 - (uint64_t)f.signed_number : (uint64_t)f.signed_number);
        break;
    case ALDERFLUTE_SINGLE: text("single"), word(f.bits); break;
    case ALDERFLUTE_DOUBLE: text("double"), word(f.bits); break;
    case ALDERFLUTE_DO_NOT_USE: text("do-not-use"); break;
    case ALDERFLUTE_NOT_IN_REVISION: text("not-in-this-revision"); break;
    default: text("(no kind)");
    }
    state_and(0);
}

static void part(alderflute_part p, const uint8_t *bytes, size_t length)
{
    if (p.refusal != 0) {
        text("refused"), word(p.refusal);
        if (p.offset != 0 || p.length != 0) text(" (and a part)");
    } else if (p.offset > length || p.length > length - p.offset) {
        text("(a part past its buffer)");
    } else {
        text("part"), word(p.length), text(" "), crc(bytes + p.offset, p.length);
    }
    state_and(0);
}

static void written(alderflute_written w)
{
    if (w.refusal != 0) {
        text("refused"), word(w.refusal);
        if (w.length != 0) text(" (and a length)");
    } else {
        text("written"), word(w.length), text(" "), crc(made.bytes, made.length);
    }
    state_and(0);
}

/* ---- the words of a line */

typedef struct {
    const char *at;
    size_t length;
} span;

static int is(span s, const char *name)
{
    size_t n = 0;
    while (name[n]) n++;
    if (n != s.length) return 0;
    for (size_t i = 0; i < n; i++)
        if (s.at[i] != name[i]) return 0;
    return 1;
}

static int decimal(span s, uint64_t *n)
{
    *n = 0;
    for (size_t i = 0; i < s.length; i++) {
        uint64_t digit = (uint64_t)(unsigned char)s.at[i] - '0';
        if (digit > 9 || *n > ((uint64_t)-1 - digit) / 10) return 0;
        *n = *n * 10 + digit;
    }
    return s.length > 0;
}

static int nibble(char c)
{
    if (c >= '0' && c <= '9') return c - '0';
    if (c >= 'a' && c <= 'f') return c - 'a' + 10;
    if (c >= 'A' && c <= 'F') return c - 'A' + 10;
    return -1;
}

static uint8_t given[LONGEST / 2];

static int hex(span s, size_t *length)
{
    *length = 0;
    if (is(s, "-")) return 1;
    if (s.length == 0 || s.length % 2 != 0) return 0;
    for (size_t i = 0; i < s.length; i += 2) {
        int a = nibble(s.at[i]), b = nibble(s.at[i + 1]);
        if (a < 0 || b < 0) return 0;
        given[(*length)++] = (uint8_t)(a * 16 + b);
    }
    return 1;
}

static buffer *named(span s)
{
    return is(s, "hold") ? &hold : is(s, "force") ? &force : is(s, "waiting") ? &waiting : NULL;
}

static int poke(span name, uint64_t n)
{
    static const char *const names[] = {"phase", "force", "waits", "held", "stands", "taken", "blocks", "skipped", "ceiling"};
    uint64_t *const numbers[] = {&state.phase,    &state.in_force, &state.waiting, &state.held,
                                 &state.standing, &state.taken,    &state.blocks,  &state.skipped, &state.settings.ceiling};
    for (int i = 0; i < 9; i++)
        if (is(name, names[i])) return i == 0 && n > 2 ? 0 : (*numbers[i] = n, 1);
    return 0;
}

static int put(span name, uint64_t at, size_t n)
{
    buffer *b = named(name);
    if (!b || at > b->length || n > b->length - at) return 0;
    for (size_t i = 0; i < n; i++) b->bytes[at + i] = given[i];
    return 1;
}

static int size(span name, uint64_t n)
{
    buffer *b = is(name, "out") ? &made : named(name);
    if (!b) return 0;
    b->lent = n < b->length ? n : b->length;
    return 1;
}

/* The bytes that were given, where there are none as NULL: any pointer will do with length 0. */
static const uint8_t *pointer(size_t n) { return n ? given : NULL; }

/* ---- a write, with as many values as its line has */

static uint8_t kinds[LONGEST / 2];
static uint64_t bits[LONGEST / 2];

/* The next word of a line, and where the one after it begins. */
static span next(const char *line, size_t length, size_t *at)
{
    span s = {line + *at, 0};
    while (*at + s.length < length && s.at[s.length] != ' ') s.length++;
    *at += s.length + 1;
    return s;
}

/* A signed number in 64 bits: from -2^63 to 2^63 - 1. */
static int with_sign(span s, uint64_t *n)
{
    int below = s.length > 0 && *s.at == '-';
    span digits = {s.at + below, s.length - (size_t)below};
    if (!decimal(digits, n) || *n > ((uint64_t)1 << 63) - !below) return 0;
    if (below) *n = 0 - *n;
    return 1;
}

/* A value, or / for the beginning of a sub-block. */
static int value(span s, uint8_t *kind, uint64_t *n)
{
    static const char letters[] = {'u', 'i', 'f', 'd'};
    span rest = {s.at + 1, s.length - 1};
    *n = 0;
    if (is(s, "-")) return *kind = ALDERFLUTE_GIVE_UNSET, 1;
    if (is(s, "/")) return *kind = ALDERFLUTE_GIVE_SUB_BLOCK, 1;
    if (s.length == 0) return 0;
    for (*kind = 1; *kind <= 4; ++*kind)
        if (*s.at == letters[*kind - 1]) return *kind == ALDERFLUTE_GIVE_SIGNED ? with_sign(rest, n) : decimal(rest, n);
    return 0;
}

/* TOW or WNc: a number, or - for unset. */
static int stamp(span s, alderflute_value *v)
{
    v->bits = 0, v->kind = ALDERFLUTE_GIVE_UNSET;
    if (is(s, "-")) return 1;
    v->kind = ALDERFLUTE_GIVE_UNSIGNED;
    return decimal(s, &v->bits);
}

static int write_call(const char *line, size_t length, size_t at)
{
    uint64_t block_number, revision;
    alderflute_value tow, wnc;
    size_t n = 0;
    if (at > length || !decimal(next(line, length, &at), &block_number)) return 0;
    if (at > length || !decimal(next(line, length, &at), &revision)) return 0;
    if (at > length || !stamp(next(line, length, &at), &tow)) return 0;
    if (at > length || !stamp(next(line, length, &at), &wnc)) return 0;
    for (; at <= length; n++)
        if (!value(next(line, length, &at), &kinds[n], &bits[n])) return 0;
    written(alderflute_write(state, force.bytes, force.lent, block_number, revision, tow, wnc, n ? kinds : NULL, n, n ? bits : NULL, n,
                             made.lent ? made.bytes : NULL, made.lent));
    return 1;
}

/* ---- a line: 0 where it is none */

/* Open, by the default settings where the line has no ceiling. */
static int open_call(const span *w, int words)
{
    alderflute_settings settings = alderflute_default_settings();
    if (words > 2 || (words == 2 && !decimal(w[1], &settings.ceiling))) return 0;
    return reply(alderflute_open(state, settings, force.bytes, force.lent, waiting.bytes, waiting.lent), "opened", 0), 1;
}

static int call(const span *w, int words)
{
    size_t n;
    uint64_t i, j, k;
    if (is(w[0], "open")) return open_call(w, words);
    if (words == 1 && is(w[0], "finish")) return reply(alderflute_finish(state, hold.bytes, hold.lent), "", 0), 1;
    if (words == 1 && is(w[0], "bytes")) return part(alderflute_bytes(state, hold.bytes, hold.lent), hold.bytes, hold.lent), 1;
    if (words == 1 && is(w[0], "withdraw")) return reply(alderflute_withdraw(state), "", 0), 1;
    if (words == 3 && is(w[0], "poke")) return decimal(w[2], &i) && poke(w[1], i);
    if (words == 3 && is(w[0], "size")) return decimal(w[2], &i) && size(w[1], i);
    if (words < 2 || !hex(w[words - 1], &n)) return 0;
    if (words == 2 && is(w[0], "feed")) return reply(alderflute_feed(state, hold.bytes, hold.lent, pointer(n), n), "", 1), 1;
    if (words == 2 && is(w[0], "stage"))
        return reply(alderflute_stage(state, waiting.bytes, waiting.lent, pointer(n), n), "staged", 0), 1;
    if (words == 2 && is(w[0], "tow")) return field(alderflute_tow(state, pointer(n), n)), 1;
    if (words == 2 && is(w[0], "wnc")) return field(alderflute_wnc(state, pointer(n), n)), 1;
    if (words == 3 && is(w[0], "body") && decimal(w[1], &i))
        return field(alderflute_body(state, force.bytes, force.lent, pointer(n), n, i)), 1;
    if (words == 3 && is(w[0], "subbytes") && decimal(w[1], &i))
        return part(alderflute_subbytes(state, force.bytes, force.lent, pointer(n), n, i), given, n), 1;
    if (words == 4 && is(w[0], "sub") && decimal(w[1], &i) && decimal(w[2], &j))
        return field(alderflute_sub(state, force.bytes, force.lent, pointer(n), n, i, j)), 1;
    if (words == 5 && is(w[0], "sub2") && decimal(w[1], &i) && decimal(w[2], &j) && decimal(w[3], &k))
        return field(alderflute_sub2(state, force.bytes, force.lent, pointer(n), n, i, j, k)), 1;
    if (words == 3 && is(w[0], "range") && decimal(w[1], &i))
        return field(alderflute_range(state, force.bytes, force.lent, pointer(n), n, i)), 1;
    if (words == 4 && is(w[0], "range2") && decimal(w[1], &i) && decimal(w[2], &j))
        return field(alderflute_range2(state, force.bytes, force.lent, pointer(n), n, i, j)), 1;
    if (words == 4 && is(w[0], "put") && decimal(w[2], &i)) return put(w[1], i, n);
    return 0;
}

static int line(const char *at, size_t length)
{
    span w[6];
    int words = 0;
    size_t first = 0;
    if (length == 0 || *at == '#') return 1;
    if (is(next(at, length, &first), "write")) return write_call(at, length, first);
    for (size_t start = 0, i = 0; i <= length; i++)
        if (i == length || at[i] == ' ') {
            if (words == 5) return 0;
            w[words].at = at + start;
            w[words++].length = i - start;
            start = i + 1;
        }
    return call(w, words);
}

static void bad(uint64_t n)
{
    char digits[32];
    size_t at = sizeof digits;
    flush();
    digits[--at] = '\n';
    do digits[--at] = (char)('0' + n % 10);
    while ((n /= 10) != 0);
    if (write(2, "bad line ", 9) < 0 || write(2, digits + at, sizeof digits - at) < 0) exit(2);
}

int main(void)
{
    static char script[64 << 20];
    size_t length = 0, at = 0;
    for (long n; (n = read(0, script + length, sizeof script - length)) != 0; length += (size_t)n)
        if (n < 0) return 2;
    for (size_t i = 0; i < hold.length; i++) hold.bytes[i] = 0xa5;
    for (size_t i = 0; i < force.length; i++) force.bytes[i] = 0x5a;
    for (size_t i = 0; i < waiting.length; i++) waiting.bytes[i] = 0x3c;
    for (size_t i = 0; i < made.length; i++) made.bytes[i] = 0xc3;
    state = alderflute_new();
    for (uint64_t n = 1; at < length; n++) {
        size_t end = at;
        while (end < length && script[end] != '\n') end++;
        if (end - at > LONGEST || !line(script + at, end - at)) bad(n);
        at = end + 1;
    }
    flush();
    return 0;
}
