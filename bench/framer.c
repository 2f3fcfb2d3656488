/* Feeds a file to the library's framer, as a stream reader would: framer FILE CHUNK CEILING. Prints the counts; the same line as
   the baseline framer's counts, so that the two can be compared. It declares what it calls: the kit's clang has no headers. */
typedef unsigned long size_t;
typedef struct file FILE;

extern void alderflute_bench_feed(size_t ceiling, unsigned char *hold, size_t hold_len, size_t held, size_t standing,
                                  const unsigned char *piece, size_t piece_len, size_t room, size_t out[4]);
extern void alderflute_bench_finish(size_t ceiling, unsigned char *hold, size_t hold_len, size_t held, size_t standing,
                                    size_t out[4]);
extern int printf(const char *form, ...);
extern size_t strtoul(const char *text, char **end, int base);
extern FILE *fopen(const char *name, const char *mode);
extern size_t fread(void *to, size_t size, size_t count, FILE *from);

static unsigned char data[64 << 20], hold[65536];

int main(int argc, char **argv)
{
    FILE *f = argc > 3 ? fopen(argv[1], "rb") : 0;
    if (!f) return 2;
    size_t n = fread(data, 1, sizeof data, f), chunk = strtoul(argv[2], 0, 10), ceiling = strtoul(argv[3], 0, 10), at = 0;
    size_t held = 0, standing = 0, blocks = 0, bytes = 0, skipped = 0, ids = 0, out[4];
    if (ceiling > 65532) return 2; /* the framer's `requires` */
    if (chunk == 0) chunk = n;
    while (at < n) {
        size_t end = at + chunk < n ? at + chunk : n;
        for (;;) {
            alderflute_bench_feed(ceiling, hold, sizeof hold, held, standing, data + at, end - at, 4294967295u - at, out);
            held = out[0], standing = out[1], at += out[2], skipped += out[3];
            if (!standing) break;
            blocks++, bytes += standing, ids += hold[4] | hold[5] << 8;
        }
    }
    do {
        alderflute_bench_finish(ceiling, hold, sizeof hold, held, standing, out);
        held = out[0], standing = out[1], skipped += out[3];
        if (standing) blocks++, bytes += standing, ids += hold[4] | hold[5] << 8;
    } while (standing);
    printf("blocks=%lu in_blocks=%lu idsum=%lu skipped=%lu\n", blocks, bytes, ids, skipped);
    return 0;
}
