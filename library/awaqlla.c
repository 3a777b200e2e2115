/* What the library exports. Each function calls the one of crate capi that is proved, under the floating-point environment that the proofs are of, and
   puts the caller's back: to nearest even, with subnormals, no exception trapped. SSE's control word, MXCSR, says all of that, since the compiled
   code uses no other floating-point unit; tests/library-check looks. */
#include <xmmintrin.h>

#include "awaqlla.h"

#ifndef __x86_64__
#error "rt compiles crate capi for x86-64; another machine has another control word"
#endif

/* MXCSR as a process starts with it: every exception masked, no flag raised, no flush to zero, to nearest even. */
#define DEFAULT_ENVIRONMENT 0x1f80u

/* The exported name, Rattle's name for the same function, its parameters, and these as arguments. tools/library makes Rattle's names local, so that no
   caller goes round. The control word is put back whole, and so the flags that the call raised are not seen. */
#define GUARDED(name, proved, parameters, arguments) \
    __typeof__(name) proved;                         \
    void name parameters                             \
    {                                                \
        const unsigned int callers = _mm_getcsr();   \
        _mm_setcsr(DEFAULT_ENVIRONMENT);             \
        proved arguments;                            \
        _mm_setcsr(callers);                         \
    }

/* The same of a function with a result. */
#define GUARDED_RESULT(type, name, proved, parameters, arguments) \
    __typeof__(name) proved;                                      \
    type name parameters                                          \
    {                                                             \
        const unsigned int callers = _mm_getcsr();                \
        _mm_setcsr(DEFAULT_ENVIRONMENT);                          \
        const type result = proved arguments;                     \
        _mm_setcsr(callers);                                      \
        return result;                                            \
    }

/* The numbers. */
GUARDED_RESULT(uint64_t, awaqlla_sqrt_bits, sqrt_bits, (uint64_t x), (x))
GUARDED_RESULT(uint64_t, awaqlla_f_erfcinv_bits, f_erfcinv_bits, (uint64_t x), (x))
GUARDED_RESULT(uint64_t, awaqlla_f_erfinv_bits, f_erfinv_bits, (uint64_t x), (x))
GUARDED(awaqlla_limit_bits, limit_bits,
    (uint32_t form, const uint32_t *times, size_t n, uint32_t chance, uint64_t out[5]),
    (form, times, n, chance, out))
GUARDED(awaqlla_band_bits, band_bits,
    (const uint32_t *times, size_t n, uint32_t share, uint64_t out[3]),
    (times, n, share, out))

/* A journal read, plainly and by the profile. */
GUARDED(awaqlla_scan, journal_scan,
    (const uint8_t *v, size_t size, size_t len, uint64_t out[3]),
    (v, size, len, out))
GUARDED(awaqlla_part, journal_part,
    (const uint8_t *v, size_t size, size_t len, size_t i, uint64_t out[2]),
    (v, size, len, i, out))
GUARDED_RESULT(uint64_t, awaqlla_mark, journal_mark,
    (const uint8_t *v, size_t size, size_t len, size_t i),
    (v, size, len, i))
GUARDED(awaqlla_profile_scan, journal_profile_scan,
    (const uint8_t *v, size_t size, size_t len, uint64_t out[3]),
    (v, size, len, out))
GUARDED(awaqlla_profile_part, journal_profile_part,
    (const uint8_t *v, size_t size, size_t len, size_t i, uint64_t out[2]),
    (v, size, len, i, out))
GUARDED_RESULT(uint64_t, awaqlla_profile_mark, journal_profile_mark,
    (const uint8_t *v, size_t size, size_t len, size_t i),
    (v, size, len, i))
GUARDED_RESULT(size_t, awaqlla_line, journal_line,
    (const uint8_t *v, size_t len, size_t i, uint8_t *out, size_t size),
    (v, len, i, out, size))

/* Appends, of times and through a log. */
GUARDED(awaqlla_append, journal_append,
    (uint8_t *v, size_t size, size_t len, uint16_t day, const uint8_t *name, size_t name_len, const uint32_t *chances, size_t chances_len,
        const uint32_t *times, size_t times_len, uint64_t out[3]),
    (v, size, len, day, name, name_len, chances, chances_len, times, times_len, out))
GUARDED(awaqlla_append_upto, journal_append_upto,
    (uint8_t *v, size_t size, size_t len, uint16_t day, const uint8_t *name, size_t name_len, const uint32_t *chances, size_t chances_len,
        const uint32_t *times, size_t times_len, size_t budget, uint64_t out[3]),
    (v, size, len, day, name, name_len, chances, chances_len, times, times_len, budget, out))
GUARDED(awaqlla_append_with, journal_append_with,
    (uint8_t *v, size_t size, size_t len, uint16_t day, const uint8_t *name, size_t name_len, const uint32_t *chances, size_t chances_len,
        const uint32_t *times, size_t times_len, size_t budget, uint8_t *index, size_t index_size, uint32_t options, uint64_t out[3]),
    (v, size, len, day, name, name_len, chances, chances_len, times, times_len, budget, index, index_size, options, out))
GUARDED(awaqlla_append_log, journal_append_log,
    (uint8_t *v, size_t size, size_t len, uint16_t day, const uint8_t *name, size_t name_len, const uint32_t *chances, size_t chances_len,
        const uint8_t *log, size_t log_len, uint64_t out[3]),
    (v, size, len, day, name, name_len, chances, chances_len, log, log_len, out))
GUARDED(awaqlla_append_log_upto, journal_append_log_upto,
    (uint8_t *v, size_t size, size_t len, uint16_t day, const uint8_t *name, size_t name_len, const uint32_t *chances, size_t chances_len,
        const uint8_t *log, size_t log_len, size_t budget, uint64_t out[3]),
    (v, size, len, day, name, name_len, chances, chances_len, log, log_len, budget, out))
GUARDED(awaqlla_append_log_with, journal_append_log_with,
    (uint8_t *v, size_t size, size_t len, uint16_t day, const uint8_t *name, size_t name_len, const uint32_t *chances, size_t chances_len,
        const uint8_t *log, size_t log_len, size_t budget, uint8_t *index, size_t index_size, uint32_t options, uint64_t out[3]),
    (v, size, len, day, name, name_len, chances, chances_len, log, log_len, budget, index, index_size, options, out))

/* The index, the merge and the trial. */
GUARDED(awaqlla_index, journal_index,
    (const uint8_t *v, size_t size, size_t len, uint8_t *index, size_t index_size, uint64_t out[3]),
    (v, size, len, index, index_size, out))
GUARDED(awaqlla_merge, journal_merge,
    (const uint8_t *a, size_t a_size, size_t a_len, const uint8_t *b, size_t b_size, size_t b_len, uint8_t *c, size_t c_size, uint64_t out[4]),
    (a, a_size, a_len, b, b_size, b_len, c, c_size, out))
GUARDED(awaqlla_trial, journal_trial,
    (const uint8_t *log, size_t log_len, const uint8_t *v, size_t size, size_t len, const uint8_t *index, size_t index_size, size_t position,
        uint64_t out[12]),
    (log, log_len, v, size, len, index, index_size, position, out))
GUARDED(awaqlla_trial_unknown, journal_trial_unknown,
    (const uint8_t *log, size_t log_len, const uint8_t *v, size_t size, size_t len, const uint8_t *index, size_t index_size, uint64_t out[3]),
    (log, log_len, v, size, len, index, index_size, out))
