/* What the programs of figures share: a word of the command line as a number, and the end of a program, whose output must have been written. */
#ifndef WORDS_H
#define WORDS_H

#include <errno.h>
#include <stdint.h>
#include <stdio.h>
#include <stdlib.h>
#include <string.h>

/* A decimal number of 32 bits without leading zeros; anything else ends the program. */
static inline uint32_t number(const char *program, const char *text)
{
    char *end;
    errno = 0;
    unsigned long value = strtoul(text, &end, 10);
    if (text[0] < '0' || text[0] > '9' || (text[0] == '0' && text[1] != 0) || *end != 0 || errno != 0 || value > UINT32_MAX) {
        fprintf(stderr, "%s: not a decimal number from 0 to 4294967295 without leading zeros: %s\n", program, text);
        exit(2);
    }
    return (uint32_t)value;
}

/* The exit status, which is 2 where standard output could not be written. */
static inline int ended(const char *program, int status)
{
    if (fflush(stdout) == 0 && !ferror(stdout))
        return status;
    fprintf(stderr, "%s: standard output: %s\n", program, strerror(errno));
    return 2;
}

#endif
