/* Prints the library's CRC of the first N of 2,000,000 bytes: crc N. All of them are filled, whatever N is, so two runs
   differ by the instructions of the CRC alone. It declares what it calls: the kit's clang has no headers. */
typedef unsigned long size_t;

extern unsigned short alderflute_crc(const unsigned char *bytes, size_t count);
extern int printf(const char *form, ...);
extern size_t strtoul(const char *text, char **end, int base);

static unsigned char bytes[2000000];

int main(int argc, char **argv)
{
    size_t n = argc > 1 ? strtoul(argv[1], 0, 10) : 0;
    unsigned x = 1;
    if (n > sizeof bytes) return 2;
    for (size_t i = 0; i < sizeof bytes; i++) {
        x = x * 1103515245u + 12345u;
        bytes[i] = (unsigned char)(x >> 16);
    }
    printf("%04x\n", (unsigned)alderflute_crc(bytes, n));
    return 0;
}
