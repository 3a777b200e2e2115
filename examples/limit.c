/* limit [--form FORM] CHANCE TICKS..: mean, spread, quantile and limit of the times at a chance in a million, each as its 16 hexadecimal
   digits and in decimal, or the refusal's number; under form 2, which every new record has, unless another is said. Shows how a C program calls the library. */
#include <inttypes.h>
#include <stdio.h>
#include <stdlib.h>
#include <string.h>

#include "awaqlla.h"
#include "words.h"

int main(int argc, char **argv)
{
    uint32_t form = 2;
    int at = 1; /* the chance */
    if (argc > 2 && strcmp(argv[1], "--form") == 0) {
        form = number("limit", argv[2]);
        at = 3;
    }
    if (argc <= at || strcmp(argv[at], "--help") == 0) {
        fprintf(argc <= at ? stderr : stdout, "usage: limit [--form FORM] CHANCE TICKS..\n");
        return ended("limit", argc <= at ? 2 : 0);
    }
    size_t n = (size_t)(argc - at) - 1;
    uint32_t *times = malloc((n + 1) * sizeof *times);
    if (times == NULL) {
        fprintf(stderr, "limit: no memory\n");
        return 2;
    }
    for (size_t i = 0; i < n; i++)
        times[i] = number("limit", argv[(size_t)at + 1 + i]);
    uint64_t out[5];
    awaqlla_limit_bits(form, times, n, number("limit", argv[at]), out);
    free(times);
    if (out[0] == AWAQLLA_DECLINED) {
        printf("refused %" PRIu64 "\n", out[1]);
        return ended("limit", 1);
    }
    static const char *const names[] = {"mean", "spread", "quantile", "limit"};
    for (size_t i = 0; i < 4; i++) {
        double figure;
        memcpy(&figure, &out[i + 1], sizeof figure);
        printf("%-8s %016" PRIx64 " %.17g\n", names[i], out[i + 1], figure);
    }
    return ended("limit", 0);
}
