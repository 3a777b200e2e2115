/* merge: replays the list of tools/make-merge-cases, which says what a line is, from standard input: merges two volumes and compares the answer's
   four words and every byte of the third buffer. Prints each case that differs, and a last line with the number of cases. */
#include <inttypes.h>
#include <stdio.h>
#include <stdlib.h>
#include <string.h>

#include "awaqlla.h"

#define ROOM 70000
#define UNTOUCHED 0xa5 /* each byte of the third buffer before a merge */

static uint8_t leaf[256][1024]; /* by its letter */
static size_t leaf_size[256];
static uint8_t first[ROOM], second[ROOM], third[ROOM], expected[ROOM];
static char line[8192];

static void stop(const char *what)
{
    fprintf(stderr, "merge: %s in: %.60s\n", what, line);
    exit(2);
}

/* Stores the bytes of a leaf under its letter. */
static void take_leaf(const char *words)
{
    char letter;
    int digits;
    unsigned byte;
    if (sscanf(words, "%c %n", &letter, &digits) != 1)
        stop("no letter");
    size_t *size = &leaf_size[(uint8_t)letter];
    for (const char *at = words + digits; sscanf(at, "%2x", &byte) == 1; at += 2) {
        if (*size == sizeof leaf[0])
            stop("a leaf of more than 1024 bytes");
        leaf[(uint8_t)letter][(*size)++] = (uint8_t)byte;
    }
}

/* Puts the bytes of pieces into a buffer, and answers how many there are. */
static size_t put(const char *pieces, uint8_t *out)
{
    size_t size = 0;
    if (strcmp(pieces, "-") == 0)
        return 0;
    for (const char *at = pieces; *at != '\0'; at += *at == ',') {
        const uint8_t letter = (uint8_t)*at++;
        size_t count = 1, part = leaf_size[letter];
        if (*at == '*')
            count = strtoul(at + 1, (char **)&at, 10);
        else if (*at == '/')
            part = strtoul(at + 1, (char **)&at, 10);
        if (part > leaf_size[letter] || leaf_size[letter] == 0)
            stop("no such bytes");
        for (; count > 0; count--, size += part) {
            if (size + part > ROOM)
                stop("more bytes than there is room");
            memcpy(out + size, leaf[letter], part);
        }
    }
    return size;
}

/* A length: = is that of the bytes. */
static size_t length_of(const char *word, size_t size)
{
    return strcmp(word, "=") == 0 ? size : (size_t)strtoull(word, NULL, 10);
}

/* One merge; whether it is as the line says. */
static int is_as_expected(const char *words)
{
    static char a[3000], b[3000], result[3000], a_length[32], b_length[32];
    size_t room;
    uint64_t want[4], got[4];
    if (sscanf(words, "%2999s %31s %2999s %31s %zu %" SCNu64 " %" SCNu64 " %" SCNu64 " %" SCNu64 " %2999s", a, a_length, b, b_length, &room,
            &want[0], &want[1], &want[2], &want[3], result) != 10 ||
        room > ROOM)
        stop("not a case");
    const size_t a_size = put(a, first), b_size = put(b, second);
    memset(third, UNTOUCHED, ROOM);
    memset(expected, UNTOUCHED, ROOM);
    put(result, expected);
    awaqlla_merge(first, a_size, length_of(a_length, a_size), second, b_size, length_of(b_length, b_size), third, room, got);
    return memcmp(got, want, sizeof got) == 0 && memcmp(third, expected, ROOM) == 0;
}

int main(void)
{
    size_t cases = 0, differ = 0;
    while (fgets(line, sizeof line, stdin) != NULL) {
        if (strncmp(line, "leaf ", 5) == 0) {
            take_leaf(line + 5);
        } else if (strncmp(line, "merge ", 6) == 0) {
            cases++;
            if (!is_as_expected(line + 6)) {
                differ++;
                printf("differs: %s", line);
            }
        } else if (line[0] != '#') {
            stop("no such line");
        }
    }
    printf("merge: %zu cases, %zu differ\n", cases, differ);
    return differ > 0;
}
