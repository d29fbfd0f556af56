/* The listing of a journal by printf, for comparison with the program `journal`: cc -O2 bench/journal_printf.c */
#include <stdint.h>
#include <stdio.h>
#include <string.h>

static uint64_t le(const unsigned char *p, int n)
{
    uint64_t v = 0;
    while (n-- > 0)
        v = v << 8 | p[n];
    return v;
}

int main(void)
{
    unsigned char r[21];
    size_t n = fread(r, 1, 5, stdin);
    if (n < 5 || memcmp(r, "PLB", 3) != 0)
        return printf("refused 17\n"), 0;
    if (le(r + 3, 2) != 1)
        return printf("refused 18\n"), 0;
    printf("node code mode profile sec nsec info\n");
    while ((n = fread(r, 1, 21, stdin)) > 0) {
        unsigned type = (unsigned)le(r + 1, 2), mode = type >> 12 & 3;
        if (n < 21 || mode == 0 || r[0] < 1 || r[0] > 239)
            return printf("refused 19\n"), 0;
        printf("%u %04X %u %u %u %u %016llX\n", r[0], (unsigned)le(r + 3, 2), mode, type & 0xFFF, (unsigned)le(r + 5, 4),
               (unsigned)le(r + 9, 4), (unsigned long long)le(r + 13, 8));
    }
    return 0;
}
