/* history: replays lists of tools/make-history, which says what a line is, from standard input: calls of append, of times and through logs,
   plain and by the profile, with an index and without, and indexes made afresh. Compares each answer's three words and every byte of the
   slice and of the index's buffer. Prints each comparison that differs, and a last line with their number. */
#include <inttypes.h>
#include <stdio.h>
#include <stdlib.h>
#include <string.h>

#include "awaqlla.h"

#define ROOM 65568
#define INDEX_ROOM 4096
#define LOG_AT 40 /* the log stands behind the name's bytes */
#define WITH_INDEX 0x10000
#define BY_PROFILE 0x20000

struct line {
    char letter;
    uint64_t x, y, z;
};

static uint8_t slice[ROOM], slice_expected[ROOM], index_buffer[INDEX_ROOM], index_expected[INDEX_ROOM], name[LOG_AT + 4096];
static uint32_t chances[16], times[160];
static size_t size, len, index_size, name_len, chances_len, times_len;
static uint64_t answer[3];

static void stop(const char *what, const struct line *l)
{
    fprintf(stderr, "history: %s in: %c %016" PRIx64 " %016" PRIx64 " %016" PRIx64 "\n", what, l->letter, l->x, l->y, l->z);
    exit(2);
}

/* The y lowest bytes of z go to the place x of a buffer. */
static void put(const struct line *l, uint8_t *buffer, size_t room)
{
    if (l->x > room || l->y > 8 || l->x + l->y > room)
        stop("no such place", l);
    for (size_t i = 0; i < l->y; i++)
        buffer[l->x + i] = (uint8_t)(l->z >> 8 * i);
}

static void put_number(const struct line *l, uint32_t *numbers, size_t room)
{
    if (l->x >= room)
        stop("no such place", l);
    numbers[l->x] = (uint32_t)l->y;
}

/* An empty journal in a slice of a size. */
static void start(const struct line *l)
{
    if (l->x > ROOM)
        stop("no such size", l);
    size = l->x;
    len = 0;
    for (size_t i = 0; i < ROOM; i++)
        slice[i] = slice_expected[i] = (uint8_t)(l->y + 7 * i);
}

/* y bytes of what the slice should hold, from the place x on, once more from the place z on. */
static void repeat(const struct line *l)
{
    if (l->x > ROOM || l->z > ROOM || l->y > ROOM - l->x || l->y > ROOM - l->z)
        stop("no such place", l);
    for (size_t i = 0; i < l->y; i++)
        slice_expected[l->z + i] = slice_expected[l->x + i];
}

static void counts(const struct line *l)
{
    if (l->x > LOG_AT || l->y > 16 || l->z > 160)
        stop("no such counts", l);
    name_len = l->x;
    chances_len = l->y;
    times_len = l->z;
}

static void hand_index(const struct line *l)
{
    if (l->x > INDEX_ROOM)
        stop("no such size", l);
    index_size = l->x;
}

static uint32_t options_of(const struct line *l)
{
    return (l->x & WITH_INDEX ? AWAQLLA_OPTION_INDEX : 0) | (l->x & BY_PROFILE ? AWAQLLA_OPTION_PROFILE : 0);
}

/* The call of times, by the function that takes what it is handed and no more. */
static void append(const struct line *l, int all)
{
    const uint16_t day = (uint16_t)l->x;
    const uint32_t options = options_of(l);
    if (options != 0)
        awaqlla_append_with(slice, size, len, day, name, name_len, chances, chances_len, times, times_len, all ? SIZE_MAX : l->y, index_buffer,
            index_size, options, answer);
    else if (all)
        awaqlla_append(slice, size, len, day, name, name_len, chances, chances_len, times, times_len, answer);
    else
        awaqlla_append_upto(slice, size, len, day, name, name_len, chances, chances_len, times, times_len, l->y, answer);
}

/* The same through the log of z bytes. */
static void append_log(const struct line *l, int all)
{
    const uint16_t day = (uint16_t)l->x;
    const uint32_t options = options_of(l);
    const uint8_t *log = name + LOG_AT;
    if (l->z > sizeof name - LOG_AT)
        stop("no such log", l);
    if (options != 0)
        awaqlla_append_log_with(slice, size, len, day, name, name_len, chances, chances_len, log, l->z, all ? SIZE_MAX : l->y, index_buffer,
            index_size, options, answer);
    else if (all)
        awaqlla_append_log(slice, size, len, day, name, name_len, chances, chances_len, log, l->z, answer);
    else
        awaqlla_append_log_upto(slice, size, len, day, name, name_len, chances, chances_len, log, l->z, l->y, answer);
}

/* Only a length that append answers changes the journal's. */
static void call(const struct line *l)
{
    if (l->letter == 'a' || l->letter == 'A')
        append(l, l->letter == 'A');
    else
        append_log(l, l->letter == 'B');
    if (answer[0] == AWAQLLA_DONE)
        len = answer[1];
}

/* Whether the answer has a line's words and the buffers are as they should be. */
static int is_as_expected(const struct line *l)
{
    return answer[0] == l->x && answer[1] == l->y && answer[2] == l->z && memcmp(slice, slice_expected, ROOM) == 0 &&
           memcmp(index_buffer, index_expected, INDEX_ROOM) == 0;
}

/* A line that is no comparison. */
static void follow(const struct line *l)
{
    switch (l->letter) {
    case 'z': start(l); break;
    case 'w': put(l, slice, ROOM); put(l, slice_expected, ROOM); break;
    case 'x': put(l, slice_expected, ROOM); break;
    case 'l': len = l->x; break;
    case 'r': repeat(l); break;
    case 'n': put(l, name, sizeof name); break;
    case 'c': put_number(l, chances, 16); break;
    case 't': put_number(l, times, 160); break;
    case 'k': counts(l); break;
    case 'a': case 'A': case 'b': case 'B': call(l); break;
    case 'i': put(l, index_buffer, INDEX_ROOM); put(l, index_expected, INDEX_ROOM); break;
    case 'y': put(l, index_expected, INDEX_ROOM); break;
    case 'm': hand_index(l); break;
    case 'f': awaqlla_index(slice, size, len, index_buffer, index_size, answer); break;
    default: stop("no such letter", l);
    }
}

int main(void)
{
    size_t compared = 0, differ = 0;
    struct line l;
    int read;
    while ((read = scanf("%c %16" SCNx64 " %16" SCNx64 " %16" SCNx64 "\n", &l.letter, &l.x, &l.y, &l.z)) == 4) {
        if (l.letter != 'e') {
            follow(&l);
            continue;
        }
        compared++;
        if (!is_as_expected(&l)) {
            differ++;
            printf("differs: comparison %zu, words %" PRIu64 " %" PRIu64 " %" PRIu64 "\n", compared, answer[0], answer[1], answer[2]);
        }
    }
    if (read != EOF) {
        fputs("history: a line of another form\n", stderr);
        return 2;
    }
    printf("history: %zu compared, %zu differ\n", compared, differ);
    return differ > 0;
}
