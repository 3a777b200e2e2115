/* journal: makes a volume in memory, cuts an append, appends again over the torn end, and prints what the library's calls answer.
   Shows how a C program calls the library; tests/journal.expected has what it prints. */
#include <inttypes.h>
#include <stdio.h>

#include "awaqlla.h"

#define ROOM 1024

static uint8_t volume[ROOM];
static size_t length; /* the volume's length in bytes */

/* The answer of an append; where it is a length, that is the volume's from now on. */
static void answer(const char *name, const uint64_t out[3])
{
    if (out[0] == AWAQLLA_DONE) {
        length = (size_t)out[1];
        printf("%s: length %zu\n", name, length);
    } else if (out[0] == AWAQLLA_DECLINED) {
        printf("%s: declined %" PRIu64 "\n", name, out[1]);
    } else {
        printf("%s: damaged %" PRIu64 " %" PRIu64 "\n", name, out[1], out[2]);
    }
}

static const uint32_t chances[] = {500000}; /* of each record, in a million */

static void append(const char *name, uint16_t day, uint32_t first, uint32_t second)
{
    const uint32_t times[] = {first, second};
    uint64_t out[3];
    awaqlla_append(volume, ROOM, length, day, (const uint8_t *)name, 1, chances, 1, times, 2, out);
    answer(name, out);
}

/* An append of which at most `budget` bytes are written. */
static void append_upto(const char *name, uint16_t day, uint32_t first, uint32_t second, size_t budget)
{
    const uint32_t times[] = {first, second};
    uint64_t out[3];
    awaqlla_append_upto(volume, ROOM, length, day, (const uint8_t *)name, 1, chances, 1, times, 2, budget, out);
    answer(name, out);
}

/* The listing, a line at a time; behind its last line there are no bytes. */
static void list(void)
{
    uint8_t line[AWAQLLA_MAX_LINE];
    size_t size;
    for (size_t i = 0; (size = awaqlla_line(volume, length, i, line, sizeof line)) > 0; i++)
        fwrite(line, 1, size, stdout);
}

/* The scan's three words. */
static void scan(void)
{
    uint64_t out[3];
    awaqlla_scan(volume, ROOM, length, out);
    printf("scan: %" PRIu64 " %" PRIu64 " %" PRIu64 "\n", out[0], out[1], out[2]);
}

/* Where record i stands, and its mark or why it cannot be read. */
static void record(size_t i)
{
    uint64_t out[2];
    uint64_t mark = awaqlla_mark(volume, ROOM, length, i);
    awaqlla_part(volume, ROOM, length, i, out);
    printf("record %zu: place %" PRIu64 ", bytes %" PRIu64 ", ", i, out[0], out[1]);
    if (mark < 'A')
        printf("refused %" PRIu64 "\n", mark);
    else
        printf("mark %c\n", (char)mark);
}

int main(void)
{
    printf("root of 4: %016" PRIx64 "\n", awaqlla_sqrt_bits(0x4010000000000000));
    printf("quantile of 1: %016" PRIx64 "\n", awaqlla_f_erfcinv_bits(0x3ff0000000000000));
    printf("quantile of 2: %016" PRIx64 "\n", awaqlla_f_erfcinv_bits(0x4000000000000000));
    list();
    append("A", 1, 100, 100);
    append_upto("B", 2, 90, 110, 20); /* cut after 20 bytes of its 33 */
    list();
    scan();
    append("B", 2, 90, 110); /* over the torn end */
    list();
    scan();
    record(0);
    record(1);
    record(2);                       /* there are two */
    append("C", 1, 90, 110);         /* its day is below the last record's */
    append_upto("C", 2, 90, 110, 0); /* cut before its first byte */
    list();
    volume[33] = 7; /* another form for the second record */
    list();
    scan();
    record(0);
    append("C", 2, 90, 110);
    volume[33] = 1; /* form 1 after a record of form 2 */
    list();
    append("C", 2, 90, 110);
    volume[0] = 1; /* both of form 1: at this chance each form has the same limit */
    append("C", 2, 90, 110);
    scan();
    return 0;
}
