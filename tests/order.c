/* order: what readers of limits and bands take for granted, over all 999,998 neighbours among the chances and the shares. The quantile falls strictly and
   the inverse error function rises strictly; the limit of some times never rises with the chance, and a larger share never has a narrower band. */
#include <inttypes.h>
#include <math.h>
#include <stdio.h>

#include "awaqlla.h"
#include "words.h"

enum { MILLION = 1000000, SHOWN = 3 };

/* Sets of times: two that are close, and the two that are farthest apart. */
static const uint32_t TIMES[][2] = {{90, 110}, {1, 1048575}};

static double of_bits(uint64_t bits)
{
    double x;
    memcpy(&x, &bits, sizeof x);
    return x;
}

static uint64_t to_bits(double x)
{
    uint64_t bits;
    memcpy(&bits, &x, sizeof bits);
    return bits;
}

/* A figure at the whole number n, 1 to 999,999, of a set of times or of none; NaN, which has no place in an order, where it is refused. */
typedef double figure(const uint32_t *times, uint32_t n);

static double quantile(const uint32_t *times, uint32_t n)
{
    (void)times;
    return of_bits(awaqlla_f_erfcinv_bits(to_bits(n / 500000.0)));
}

static double inverse(const uint32_t *times, uint32_t n)
{
    (void)times;
    return of_bits(awaqlla_f_erfinv_bits(to_bits(n / 1000000.0)));
}

static double limit(const uint32_t *times, uint32_t n)
{
    uint64_t out[5];
    awaqlla_limit_bits(2, times, 2, n, out);
    return out[0] == AWAQLLA_DONE ? of_bits(out[4]) : NAN;
}

static double low_end(const uint32_t *times, uint32_t n)
{
    uint64_t out[3];
    awaqlla_band_bits(times, 2, n, out);
    return out[0] == AWAQLLA_DONE ? of_bits(out[1]) : NAN;
}

static double high_end(const uint32_t *times, uint32_t n)
{
    uint64_t out[3];
    awaqlla_band_bits(times, 2, n, out);
    return out[0] == AWAQLLA_DONE ? of_bits(out[2]) : NAN;
}

/* Says of how many neighbours a figure does not fall, or with sign -1 rise; one that stays counts where it must be strict. */
static int wrong_order(const char *what, figure *at, const uint32_t *times, int sign, int strict)
{
    char of[40] = "";
    if (times != NULL)
        snprintf(of, sizeof of, " of %" PRIu32 " and %" PRIu32, times[0], times[1]);
    int wrong = 0;
    double before = sign * at(times, 1);
    for (uint32_t n = 2; n < MILLION; n++) {
        double now = sign * at(times, n);
        if (!(strict ? now < before : now <= before) && ++wrong <= SHOWN)
            printf("order: %s%s at %" PRIu32 " is %.17g, before it %.17g\n", what, of, n, sign * now, sign * before);
        before = now;
    }
    const char *must = strict ? sign > 0 ? "falls" : "rises" : sign > 0 ? "does not rise" : "does not fall";
    printf("order: %s%s %s, %d neighbours, %d wrong\n", what, of, must, MILLION - 2, wrong);
    return wrong != 0;
}

int main(void)
{
    int wrong = wrong_order("the quantile", quantile, NULL, 1, 1);
    wrong |= wrong_order("the inverse error function", inverse, NULL, -1, 1);
    for (size_t i = 0; i < sizeof TIMES / sizeof TIMES[0]; i++) {
        wrong |= wrong_order("the limit", limit, TIMES[i], 1, 0);
        wrong |= wrong_order("the band's low end", low_end, TIMES[i], 1, 0);
        wrong |= wrong_order("the band's high end", high_end, TIMES[i], -1, 0);
    }
    return ended("order", wrong);
}
