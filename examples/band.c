/* band SHARE TICKS..: the shortest and the longest time around the mean with a share of links in a million inside, under the sample spread:
   both as their 16 hexadecimal digits, then both in decimal, in ticks; or the refusal's number. Shows how a C program calls the library. */
#include <inttypes.h>
#include <stdio.h>
#include <stdlib.h>
#include <string.h>

#include "awaqlla.h"
#include "words.h"

int main(int argc, char **argv)
{
    if (argc < 2 || strcmp(argv[1], "--help") == 0) {
        fprintf(argc < 2 ? stderr : stdout, "usage: band SHARE TICKS..\n");
        return ended("band", argc < 2 ? 2 : 0);
    }
    size_t n = (size_t)argc - 2;
    uint32_t *times = malloc((n + 1) * sizeof *times);
    if (times == NULL) {
        fprintf(stderr, "band: no memory\n");
        return 2;
    }
    for (size_t i = 0; i < n; i++)
        times[i] = number("band", argv[i + 2]);
    uint64_t out[3];
    awaqlla_band_bits(times, n, number("band", argv[1]), out);
    free(times);
    if (out[0] == AWAQLLA_DECLINED) {
        printf("refused %" PRIu64 "\n", out[1]);
        return ended("band", 1);
    }
    double low, high;
    memcpy(&low, &out[1], sizeof low);
    memcpy(&high, &out[2], sizeof high);
    printf("%016" PRIx64 " %016" PRIx64 " %.17g %.17g\n", out[1], out[2], low, high);
    return ended("band", 0);
}
