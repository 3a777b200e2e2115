/* The header's sizes beside what the library writes: appends to a journal until there is no room, the largest record, the longest line of a listing.
   The wanted numbers are document 01's: 65,536 bytes, 652 and, of the line's parts, 267. Exit status 1 where one differs. */
#include <stdio.h>
#include <string.h>

#include "awaqlla.h"

#define ROOM 70000
#define COUNT(list) (sizeof list / sizeof list[0])

static uint8_t volume[ROOM], text[1000];
static int wrong;

static void expect(const char *what, uint64_t constant, uint64_t reached, uint64_t wanted)
{
    if (constant == wanted && reached == wanted)
        return;
    printf("sizes: %s: the header has %llu, the library reaches %llu, and document 01 has %llu\n", what, (unsigned long long)constant,
        (unsigned long long)reached, (unsigned long long)wanted);
    wrong = 1;
}

/* Appends a record with a name of 32 bytes; the length after it, or 0 where it is declined by ROOM. */
static uint64_t append(size_t size, size_t length, const uint32_t *chances, size_t chance_count, const uint32_t *times, size_t count)
{
    uint64_t out[3];
    uint8_t name[32];
    memset(name, '~', sizeof name);
    awaqlla_append(volume, size, length, 65535, name, sizeof name, chances, chance_count, times, count, out);
    if (out[0] == AWAQLLA_DONE)
        return out[1];
    if (out[0] != AWAQLLA_DECLINED || out[1] != AWAQLLA_REFUSAL_ROOM)
        wrong = 1;
    return 0;
}

int main(void)
{
    static const uint32_t chances[] = {100000, 100001, 200000, 300000, 400000, 499998, 499999, 500000};
    uint32_t times[128];
    for (size_t i = 0; i < COUNT(times); i++)
        times[i] = 1048575 - (uint32_t)i;

    /* The longest journal, where the buffer has more room, and where it has just so much. */
    for (size_t size = AWAQLLA_MAX_LENGTH; size <= ROOM; size += ROOM - AWAQLLA_MAX_LENGTH) {
        uint64_t length = 0, longer;
        while ((longer = append(size, length, chances, 1, times, 2)) != 0)
            length = longer;
        expect("AWAQLLA_MAX_LENGTH", AWAQLLA_MAX_LENGTH, length, 65536);
    }
    uint64_t length = append(AWAQLLA_MAX_LENGTH, 0, chances, COUNT(chances), times, COUNT(times));
    expect("AWAQLLA_MAX_RECORD", AWAQLLA_MAX_RECORD, length, 652);
    expect("AWAQLLA_MAX_LINE", AWAQLLA_MAX_LINE, awaqlla_line(volume, length, 0, text, sizeof text), 32 + 6 + 2 + 2 * 17 + 8 * (1 + 6 + 1 + 16) + 1);
    if (!wrong)
        puts("sizes: the header's 3 sizes are those that the library reaches");
    return wrong;
}
