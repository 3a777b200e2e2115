/* environment VOLUME PROFILE: calls every function of the library, on a volume and on one of the profile, under the default floating-point environment and
   then under 64 others: each rounding mode, flush to zero, denormals as zero, exceptions masked or trapped, flags raised or not. Prints a line for each
   function: in how many of them a byte that it writes or answers is another, it traps, or it leaves another environment than it found. Exit status 1 if
   any does. */
#define _POSIX_C_SOURCE 200809L
#include <setjmp.h>
#include <signal.h>
#include <stdio.h>
#include <stdlib.h>
#include <string.h>
#include <xmmintrin.h>

#include "awaqlla.h"

#define DEFAULT_MXCSR 0x1f80u
#define DEFAULT_X87 0x037fu
#define ROOM 4096
#define COUNT(list) (sizeof list / sizeof list[0])

/* What a call is handed and may write. */
struct memory {
    uint64_t words[16];
    uint8_t volume[ROOM], index[ROOM], merged[ROOM], text[AWAQLLA_MAX_LINE];
};

static struct memory given, now, expected;
static size_t length, profile_length, index_length;
static uint8_t profile[ROOM];

static const uint32_t chances[] = {1, 10, 100, 1000};
static const uint32_t times[] = {8840, 8851, 8829, 8846, 8862, 8835, 8844, 8853, 8839, 8848, 8857, 8831, 8845, 8850, 8842, 8838, 8849, 8841, 8855, 8833, 8847,
    8843, 8852, 8836, 8854, 8837, 8856, 8834, 8858, 8832, 8859, 8830};
static const char log_text[] = "lld-arm 7044\nlld-arm 7100\nlld-arm 7043\nunknown 5\n";
/* In each range of the quantile, and where operands or results are subnormal. */
static const uint64_t doubles[] = {0x0000000000000001, 0x000fffffffffffff, 0x0010000000000000, 0x3e112e0be826d695, 0x3f1a36e2eb1c432d, 0x3fb999999999999b,
    0x3fd3333333333333, 0x3fe6666666666666, 0x3fee666666666666, 0x3fefb645a1cac083, 0x3fefffffffffffff, 0x3ff8000000000000, 0x3fffffffffffffff};

#define VOLUME now.volume, ROOM, length
#define PROFILE profile, ROOM, profile_length
#define INDEX now.index, ROOM
#define OFFER 65535, (const uint8_t *)"lld-arm", 7, chances, COUNT(chances)
#define TIMES times, COUNT(times)
#define LOG (const uint8_t *)log_text, sizeof log_text - 1
#define OPTIONS AWAQLLA_OPTION_INDEX

static void on_doubles(uint64_t (*function)(uint64_t))
{
    for (size_t i = 0; i < COUNT(doubles); i++)
        now.words[i] = function(doubles[i]);
}

static void sqrt_bits(void) { on_doubles(awaqlla_sqrt_bits); }
static void f_erfcinv_bits(void) { on_doubles(awaqlla_f_erfcinv_bits); }
static void f_erfinv_bits(void) { on_doubles(awaqlla_f_erfinv_bits); }
static void limit_bits(void) { awaqlla_limit_bits(2, TIMES, 1000, now.words); }
static void band_bits(void) { awaqlla_band_bits(TIMES, 900000, now.words); }
static void scan(void) { awaqlla_scan(VOLUME, now.words); }
static void part(void) { awaqlla_part(VOLUME, 1, now.words); }
static void mark(void) { now.words[0] = awaqlla_mark(VOLUME, 1); }
static void profile_scan(void) { awaqlla_profile_scan(PROFILE, now.words); }
static void profile_part(void) { awaqlla_profile_part(PROFILE, 1, now.words); }
static void profile_mark(void) { now.words[0] = awaqlla_profile_mark(PROFILE, 1); }
static void line(void) { now.words[0] = awaqlla_line(now.volume, length, 1, now.text, sizeof now.text); }
static void append(void) { awaqlla_append(VOLUME, OFFER, TIMES, now.words); }
static void append_upto(void) { awaqlla_append_upto(VOLUME, OFFER, TIMES, 180, now.words); }
static void append_with(void) { awaqlla_append_with(VOLUME, OFFER, TIMES, ROOM, INDEX, OPTIONS, now.words); }
static void append_log(void) { awaqlla_append_log(VOLUME, OFFER, LOG, now.words); }
static void append_log_upto(void) { awaqlla_append_log_upto(VOLUME, OFFER, LOG, 70, now.words); }
static void append_log_with(void) { awaqlla_append_log_with(VOLUME, OFFER, LOG, ROOM, INDEX, OPTIONS, now.words); }
static void make_index(void) { awaqlla_index(VOLUME, now.merged, ROOM, now.words); }
static void merge(void) { awaqlla_merge(VOLUME, PROFILE, now.merged, ROOM, now.words); }
static void trial(void) { awaqlla_trial(LOG, VOLUME, now.index, index_length, 0, now.words); }
static void trial_unknown(void) { awaqlla_trial_unknown(LOG, VOLUME, now.index, index_length, now.words); }

static const struct {
    const char *name;
    void (*call)(void);
} functions[] = {{"sqrt_bits", sqrt_bits}, {"f_erfcinv_bits", f_erfcinv_bits}, {"f_erfinv_bits", f_erfinv_bits}, {"limit_bits", limit_bits},
    {"band_bits", band_bits}, {"scan", scan}, {"part", part}, {"mark", mark}, {"profile_scan", profile_scan}, {"profile_part", profile_part},
    {"profile_mark", profile_mark}, {"line", line}, {"append", append}, {"append_upto", append_upto}, {"append_with", append_with},
    {"append_log", append_log}, {"append_log_upto", append_log_upto}, {"append_log_with", append_log_with}, {"index", make_index}, {"merge", merge},
    {"trial", trial}, {"trial_unknown", trial_unknown}};

static uint16_t x87(void)
{
    uint16_t word;
    __asm__ volatile("fnstcw %0" : "=m"(word));
    return word;
}

static void set(uint32_t mxcsr, uint16_t word)
{
    __asm__ volatile("fldcw %0" : : "m"(word));
    _mm_setcsr(mxcsr);
}

static sigjmp_buf trapped;

static void trap(int signal_number)
{
    (void)signal_number;
    siglongjmp(trapped, 1);
}

/* Environment number i of 64: bits 0 and 1 are the rounding mode, then both flushes, whether exceptions are trapped, and whether all flags are raised. */
static uint32_t mxcsr_of(unsigned i)
{
    return (i & 3) << 13 | (i & 4 ? 0x8000 : 0) | (i & 8 ? 0x0040 : 0) | (i & 16 ? 0 : 0x1f80) | (i & 32 ? 0x003f : 0);
}

/* The x87 unit's word with the same rounding mode, in single precision, its exceptions masked or not. */
static uint16_t x87_of(unsigned i)
{
    return (uint16_t)((i & 3) << 10 | 0x0040 | (i & 16 ? 0 : 0x003f));
}

struct count {
    unsigned others, traps, leaves;
};

/* One function under one environment. No floating-point operation of this program's stands between the two calls of set. */
static void try_one(void (*call)(void), unsigned i, struct count *count)
{
    const uint32_t mxcsr = mxcsr_of(i);
    const uint16_t word = x87_of(i);
    now = given;
    if (sigsetjmp(trapped, 1) != 0) {
        set(DEFAULT_MXCSR, DEFAULT_X87);
        count->traps++;
        return;
    }
    set(mxcsr, word);
    call();
    const uint32_t left = _mm_getcsr();
    const uint16_t word_left = x87();
    set(DEFAULT_MXCSR, DEFAULT_X87);
    count->others += memcmp(&now, &expected, sizeof now) != 0;
    count->leaves += left != mxcsr || word_left != word;
}

static size_t take(const char *path, uint8_t *bytes)
{
    FILE *file = fopen(path, "rb");
    const size_t size = file == NULL ? 0 : fread(bytes, 1, ROOM, file);
    if (file == NULL || ferror(file) != 0 || size == 0 || size == ROOM) {
        fprintf(stderr, "environment: %s: cannot be read, or has no byte, or more than %d\n", path, ROOM - 1);
        exit(2);
    }
    fclose(file);
    return size;
}

int main(int argc, char **argv)
{
    unsigned wrong = 0;
    if (argc != 3) {
        fputs("usage: environment VOLUME PROFILE\n", stderr);
        return 2;
    }
    length = take(argv[1], given.volume);
    profile_length = take(argv[2], profile);
    awaqlla_index(given.volume, ROOM, length, given.index, ROOM, given.words);
    index_length = (size_t)given.words[1];
    struct sigaction action;
    memset(&action, 0, sizeof action);
    action.sa_handler = trap;
    sigaction(SIGFPE, &action, NULL);
    for (size_t f = 0; f < COUNT(functions); f++) {
        struct count count = {0, 0, 0};
        now = given;
        functions[f].call();
        expected = now;
        for (unsigned i = 0; i < 64; i++)
            try_one(functions[f].call, i, &count);
        printf("awaqlla_%s: other bytes in %u of 64, traps in %u, other environment left in %u\n", functions[f].name, count.others, count.traps, count.leaves);
        wrong += count.others + count.traps + count.leaves;
    }
    return wrong > 0;
}
