/* trial: replays the list of tools/make-trial-cases, which says what a line is, from standard input: tries the limits that stand in a volume on a
   log, for entries of the index and for unknown names, and compares every word of each answer. Prints each case that differs, and a last
   line with the number of cases. */
#include <inttypes.h>
#include <stdio.h>
#include <stdlib.h>
#include <string.h>

#include "awaqlla.h"

#define ROOM 4096
#define LOG_ROOM 16777216
#define WORDS 12 /* of the answer for an entry; that for unknown names has three */

static uint8_t volume[ROOM], index_buffer[ROOM], log_buffer[LOG_ROOM];
static size_t volume_size, length, index_size, log_len;
static char line[2 * ROOM + 64];

static void stop(const char *what)
{
    fprintf(stderr, "trial: %s in: %.60s\n", what, line);
    exit(2);
}

/* Puts bytes in hexadecimal into a buffer, and answers how many there are. */
static size_t put(const char *digits, uint8_t *out, size_t room)
{
    size_t size = 0;
    unsigned byte;
    if (*digits == '-')
        return 0;
    for (; sscanf(digits, "%2x", &byte) == 1; digits += 2) {
        if (size == room)
            stop("more bytes than there is room");
        out[size++] = (uint8_t)byte;
    }
    return size;
}

/* Puts bytes behind the log, so often. */
static void put_log(const char *words)
{
    char *digits;
    const size_t count = strtoul(words, &digits, 10);
    if (count == 0)
        return;
    const size_t size = put(digits + 1, log_buffer + log_len, LOG_ROOM - log_len);
    if (size > 0 && count > (LOG_ROOM - log_len) / size)
        stop("more bytes than there is room");
    for (size_t i = 1; i < count; i++)
        memcpy(log_buffer + log_len + i * size, log_buffer + log_len, size);
    log_len += count * size;
}

/* Whether an answer has a line's words, those that are not written being 0. */
static int has_words(const uint64_t *answer, size_t count, const char *words)
{
    for (size_t i = 0; i < count; i++) {
        char *end;
        const uint64_t word = strtoull(words, &end, 10);
        if (answer[i] != word)
            return 0;
        words = end;
    }
    return 1;
}

/* One call for an entry; whether it is as the line says. */
static int is_tried(const char *words)
{
    char *end;
    uint64_t answer[WORDS];
    const size_t position = (size_t)strtoull(words, &end, 10);
    memset(answer, 0xa5, sizeof answer);
    awaqlla_trial(log_buffer, log_len, volume, volume_size, length, index_buffer, index_size, position, answer);
    return has_words(answer, WORDS, end);
}

/* One call for unknown names. */
static int is_unknown(const char *words)
{
    uint64_t answer[3];
    memset(answer, 0xa5, sizeof answer);
    awaqlla_trial_unknown(log_buffer, log_len, volume, volume_size, length, index_buffer, index_size, answer);
    return has_words(answer, 3, words);
}

/* A line that sets something up. */
static void set_up(void)
{
    const char *words = strchr(line, ' ');
    if (words++ == NULL)
        stop("no words");
    if (strncmp(line, "volume ", 7) == 0)
        length = volume_size = put(words, volume, ROOM);
    else if (strncmp(line, "length ", 7) == 0)
        length = strtoul(words, NULL, 10);
    else if (strncmp(line, "index ", 6) == 0)
        index_size = put(words, index_buffer, ROOM);
    else if (strncmp(line, "log ", 4) == 0)
        log_len = 0, put_log(words);
    else if (strncmp(line, "more ", 5) == 0)
        put_log(words);
    else
        stop("no such line");
}

int main(void)
{
    size_t cases = 0, differ = 0;
    while (fgets(line, sizeof line, stdin) != NULL) {
        const int tried = strncmp(line, "trial ", 6) == 0, unknown = strncmp(line, "unknown ", 8) == 0;
        if (line[0] == '#')
            continue;
        if (!tried && !unknown) {
            set_up();
            continue;
        }
        cases++;
        if (!(tried ? is_tried(line + 6) : is_unknown(line + 8))) {
            differ++;
            printf("differs: case %zu, %s", cases, line);
        }
    }
    printf("trial: %zu cases, %zu differ\n", cases, differ);
    return differ > 0;
}
