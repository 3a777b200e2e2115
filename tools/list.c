/* The listing of a volume from standard input in plain C, over the library's scan: what tools/time-list times the program list beside.
   Each line is made in a buffer and handed to stdio, which writes in pieces. */
#include <math.h>
#include <stdint.h>
#include <stdio.h>
#include <string.h>

#include "awaqlla.h"

static uint8_t volume[AWAQLLA_MAX_LENGTH + 1];

static uint64_t number(const uint8_t *b, int width)
{
    uint64_t n = 0;
    for (int i = 0; i < width; i++)
        n |= (uint64_t)b[i] << 8 * i;
    return n;
}

static char *put_decimal(char *p, uint64_t n)
{
    char digits[20];
    int count = 0;
    do
        digits[count++] = (char)('0' + n % 10);
    while (n /= 10);
    while (count)
        *p++ = digits[--count];
    return p;
}

static char *put_hex(char *p, uint64_t bits)
{
    for (int shift = 60; shift >= 0; shift -= 4)
        *p++ = "0123456789abcdef"[bits >> shift & 15];
    return p;
}

static char *put_double(char *p, double x)
{
    uint64_t bits;
    memcpy(&bits, &x, 8);
    *p++ = ' ';
    return put_hex(p, bits);
}

/* Mark, mean and spread of n times. */
static char *put_figures(char *p, uint64_t form, const uint8_t *times, uint64_t n)
{
    uint64_t sum = 0, squares = 0;
    for (uint64_t i = 0; i < n; i++) {
        uint64_t t = number(times + 4 * i, 4);
        sum += t;
        squares += t * t;
    }
    uint64_t d = n * squares - sum * sum;
    *p++ = ' ';
    *p++ = n < 8 ? 'S' : d == 0 ? 'F' : 'N';
    p = put_double(p, (double)sum / (double)n);
    return put_double(p, sqrt((double)d / (double)(form == 2 ? n * (n - 1) : n * n)));
}

/* A record's line; answers the place behind the record. */
static const uint8_t *print_line(const uint8_t *b)
{
    char text[AWAQLLA_MAX_LINE], *p = text;
    uint64_t form = number(b, 2), day = number(b + 2, 2), size = number(b + 4, 2);
    const uint8_t *chances = b + 6 + size + 2;
    uint64_t n = number(chances - 2, 2);
    const uint8_t *times = chances + 4 * n + 2;
    uint64_t count = number(times - 2, 2);
    const uint8_t *limits = times + 4 * count + 2;
    memcpy(p, b + 6, size);
    p += size;
    *p++ = ' ';
    p = put_decimal(p, day);
    p = put_figures(p, form, times, count);
    for (uint64_t i = 0; i < n; i++) {
        *p++ = ' ';
        p = put_decimal(p, number(chances + 4 * i, 4));
        *p++ = ':';
        p = put_hex(p, number(limits + 8 * i, 8));
    }
    *p++ = '\n';
    fwrite(text, 1, (size_t)(p - text), stdout);
    return limits + 8 * n;
}

int main(void)
{
    size_t len = fread(volume, 1, sizeof volume, stdin);
    uint64_t state[3];
    awaqlla_scan(volume, len, len, state);
    if (state[0] != AWAQLLA_DAMAGED) {
        const uint8_t *b = volume;
        for (uint64_t i = 0; i < state[1]; i++)
            b = print_line(b);
    }
    const char *word = state[0] == AWAQLLA_WHOLE ? "whole" : state[0] == AWAQLLA_TORN ? "torn" : "damaged";
    printf("%s %llu %llu\n", word, (unsigned long long)state[1], (unsigned long long)state[2]);
    return 0;
}
