/* quantiles: the bits of the quantile at every chance, 1 to 999,999 in a million, a line of 16 hexadecimal digits each: the lines whose sums stand in
   docs/DEFINITION.md, section 13. */
#include <inttypes.h>
#include <stdio.h>

#include "awaqlla.h"
#include "words.h"

int main(int argc, char **argv)
{
    if (argc > 1) {
        int helped = strcmp(argv[1], "--help") == 0;
        fprintf(helped ? stdout : stderr, "usage: quantiles\n");
        return ended("quantiles", helped ? 0 : 2);
    }
    for (uint32_t c = 1; c < 1000000; c++) {
        double x = c / 500000.0;
        uint64_t bits;
        memcpy(&bits, &x, sizeof bits);
        printf("%016" PRIx64 "\n", awaqlla_f_erfcinv_bits(bits));
    }
    return ended("quantiles", 0);
}
