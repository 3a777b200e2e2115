/* What libawaqlla.a and libawaqlla.so export, for C and C++; they export no other name. docs/landings/c-names.md has the names of before.
   Doubles go as bit patterns; a NaN comes out as 7ff8000000000000. Every argument is answered or refused.
   What a call writes to (v and index of the appends, index of awaqlla_index, c of the merge, every out) overlaps nothing else that the call is handed.
   A pointer must not be NULL, even where its length is 0.
   Each call works under the default floating-point environment (to nearest even, subnormals kept, every exception masked), so that its bits are the same
   whatever rounding mode, flush flags and traps the caller has set, and leaves the caller's as it was, all of MXCSR and of the x87 unit: it traps
   nowhere, and raises and lowers no exception flag. Only a call that is left by longjmp, out of a signal's handler, leaves the default environment behind.
   No function keeps anything between calls, so any number of threads may call at once, as long as none writes to what another uses. */
#ifndef AWAQLLA_H
#define AWAQLLA_H

#include <stddef.h>
#include <stdint.h>

#ifdef __cplusplus
extern "C" {
#endif

#define AWAQLLA_MAX_LENGTH 65536 /* the most bytes of a journal */
#define AWAQLLA_MAX_RECORD 652   /* the most bytes of a record */
#define AWAQLLA_MAX_LINE 267     /* the most bytes of a line of the listing, with its line end */

/* The first number of an answer. Where it is not AWAQLLA_DONE, nothing but out is written. */
enum {
    AWAQLLA_DONE = 0,         /* what was asked for is there */
    AWAQLLA_DECLINED = 1,     /* by a refusal */
    AWAQLLA_DAMAGED = 2,      /* a journal that is handed has a fault: its refusal and place */
    AWAQLLA_LINE_REFUSED = 3, /* by append and trial: a line of the log, with its refusal and place */
    AWAQLLA_INPUT_TORN = 3    /* by the merge: an input ends torn */
};

/* The first number of a scan's answer, which is the journal's end state; it may be AWAQLLA_DAMAGED too. */
enum { AWAQLLA_WHOLE = 0, AWAQLLA_TORN = 1 };

/* The refusals' numbers (docs/DEFINITION.md, section 10; SHARE 8.1). 8 was that of a limit not finite, which there is none; it is not used again. */
enum {
    AWAQLLA_REFUSAL_LENGTH = 1,      /* the length is beyond the slice or AWAQLLA_MAX_LENGTH */
    AWAQLLA_REFUSAL_FORM = 2,        /* a form other than 1 and 2 */
    AWAQLLA_REFUSAL_DAY = 3,         /* a day before that of the record before */
    AWAQLLA_REFUSAL_NAME = 4,        /* a name has 1 to 32 bytes, each 0x21 to 0x7e */
    AWAQLLA_REFUSAL_CHANCES = 5,     /* 1 to 8 chances, rising, each 1 to 999,999 in a million */
    AWAQLLA_REFUSAL_TIMES = 6,       /* 2 to 128 times, each 1 to 1,048,575 ticks */
    AWAQLLA_REFUSAL_LIMIT = 7,       /* the limits' count, or the bits of one that does not come out again */
    AWAQLLA_REFUSAL_ROOM = 9,        /* the record ends beyond the slice or AWAQLLA_MAX_LENGTH */
    AWAQLLA_REFUSAL_ABSENT = 10,     /* there are not so many records, or entries of the index */
    AWAQLLA_REFUSAL_LINE = 11,       /* a line of the log not of its shape or range */
    AWAQLLA_REFUSAL_MANY = 12,       /* a 129th line of the name */
    AWAQLLA_REFUSAL_OLD_FORM = 13,   /* form 1 after a record of form 2 */
    AWAQLLA_REFUSAL_INDEX = 14,      /* the index handed is not the journal's */
    AWAQLLA_REFUSAL_INDEX_ROOM = 15, /* its buffer cannot hold the index: made afresh, or with the record finished */
    AWAQLLA_REFUSAL_TORN = 16,       /* an input of a merge ends torn */
    AWAQLLA_REFUSAL_EVEN = 17,       /* an offered chance above 500,000 in a million */
    AWAQLLA_REFUSAL_SHARE = 18,      /* a band's share, 1 to 999,999 in a million */
    AWAQLLA_REFUSAL_PROFILE = 19     /* a record breaks the profile for safety controllers */
};

/* The square root, correctly rounded. */
uint64_t awaqlla_sqrt_bits(uint64_t x);

/* The inverse of the complementary error function. */
uint64_t awaqlla_f_erfcinv_bits(uint64_t x);

/* The inverse of the error function. */
uint64_t awaqlla_f_erfinv_bits(uint64_t x);

/* The limit of n times in ticks of ten microseconds at a chance in a million, under a form (1: the spread's divisor is n * n; 2: n * (n - 1)):
   {AWAQLLA_DONE, bits of mean, spread, quantile and limit}, or {AWAQLLA_DECLINED, refusal, 0, 0, 0}: FORM, CHANCES or TIMES, the first that
   holds. times points to n numbers; out to five places. */
void awaqlla_limit_bits(uint32_t form, const uint32_t *times, size_t n, uint32_t chance, uint64_t out[5]);

/* The band around the mean of n times with share links in a million inside, under the divisor n * (n - 1):
   {AWAQLLA_DONE, bits of the low end, bits of the high end}, or {AWAQLLA_DECLINED, refusal, 0}: SHARE or TIMES, the first that holds.
   times points to n numbers; out to three places. */
void awaqlla_band_bits(const uint32_t *times, size_t n, uint32_t share, uint64_t out[3]);

/* The journal that fills the first len bytes of the size bytes at v. A len beyond size or AWAQLLA_MAX_LENGTH is refused by LENGTH, at place 0.
   i counts the records from 0. The refusals' numbers are those of docs/DEFINITION.md, section 10. */

/* Scan: {AWAQLLA_WHOLE or AWAQLLA_TORN, records, committed length}, or {AWAQLLA_DAMAGED, refusal, place of the refused field}. out points to
   three places. */
void awaqlla_scan(const uint8_t *v, size_t size, size_t len, uint64_t out[3]);

/* Where record i stands: {place of its first byte, number of its bytes}; both are 0 where it cannot be read. out points to two places. */
void awaqlla_part(const uint8_t *v, size_t size, size_t len, size_t i, uint64_t out[2]);

/* The mark of record i: 'S' fewer than 8 times, 'F' 8 or more and all equal, 'N' others; or the refusal: scan's, or ABSENT, i not below
   the number of records. Every refusal is below 'A'. */
uint64_t awaqlla_mark(const uint8_t *v, size_t size, size_t len, size_t i);

/* The same by the profile for safety controllers: a whole record that has another form than 2, other chances than 1, 10, 100 and 1,000, or fewer
   than 32 times is refused by PROFILE, at the place of its first byte. What these accept the others accept with the same records. */
void awaqlla_profile_scan(const uint8_t *v, size_t size, size_t len, uint64_t out[3]);
void awaqlla_profile_part(const uint8_t *v, size_t size, size_t len, size_t i, uint64_t out[2]);
uint64_t awaqlla_profile_mark(const uint8_t *v, size_t size, size_t len, size_t i);

/* Append on the journal that fills the first len bytes of the size bytes at v: the record of what is offered, of form 2, is written from the
   committed length on, over a torn tail. Its limits are worked out from the times. {AWAQLLA_DONE, length after the call, 0}; {AWAQLLA_DECLINED,
   refusal, 0}: DAY, NAME, CHANCES, EVEN, TIMES or ROOM, the first that holds; or {AWAQLLA_DAMAGED, refusal, place} as scan's. Only an
   append that extends changes a byte of v. Each pointer points to as many items as the length behind it says; out to three places. */
void awaqlla_append(uint8_t *v, size_t size, size_t len, uint16_t day, const uint8_t *name, size_t name_len,
    const uint32_t *chances, size_t chances_len, const uint32_t *times, size_t times_len, uint64_t out[3]);

/* The call with a budget: append, its record written only as far as budget bytes of it. A budget beyond the record is all of it. */
void awaqlla_append_upto(uint8_t *v, size_t size, size_t len, uint16_t day, const uint8_t *name, size_t name_len,
    const uint32_t *chances, size_t chances_len, const uint32_t *times, size_t times_len, size_t budget, uint64_t out[3]);

/* Append, and the call with a budget, of the times that the log_len bytes at log have for the name, in their order. A log has lines of a name, one
   space, a decimal tick count without leading zeros, and a newline, names and ticks in their ranges. {AWAQLLA_LINE_REFUSED, refusal, place in the log of
   the line's first byte}: LINE or MANY for the first line that is refused, judged before the journal is read; else as the append of those times. */
void awaqlla_append_log(uint8_t *v, size_t size, size_t len, uint16_t day, const uint8_t *name, size_t name_len,
    const uint32_t *chances, size_t chances_len, const uint8_t *log, size_t log_len, uint64_t out[3]);

void awaqlla_append_log_upto(uint8_t *v, size_t size, size_t len, uint16_t day, const uint8_t *name, size_t name_len,
    const uint32_t *chances, size_t chances_len, const uint8_t *log, size_t log_len, size_t budget, uint64_t out[3]);

/* The index of the records that stand in the journal that fills the first len bytes of the size bytes at v, made afresh at the front of the index_size
   bytes at index: little-endian, a count of two bytes, then an entry for each name shown, rising by name bytes, each a count of two bytes, the name, and
   the start of the name's last record in four bytes. {AWAQLLA_DONE, length of the index, 0}; {AWAQLLA_DECLINED, INDEX_ROOM, 0}; or {AWAQLLA_DAMAGED,
   refusal, place} as scan's. Only an index that is made changes a byte of the buffer, and none behind the index. out points to three places. */
void awaqlla_index(const uint8_t *v, size_t size, size_t len, uint8_t *index, size_t index_size, uint64_t out[3]);

/* The append of times and the one through a log with all that an append may be handed. options, added: AWAQLLA_OPTION_INDEX hands the index in the index_size
   bytes at index: an index that is not the journal's is declined by INDEX, and then a buffer that cannot hold the one with the record finished by INDEX_ROOM,
   both after ROOM; where the record is finished the index has it, as one made afresh would; a call that is declined or that the budget cuts leaves the buffer.
   Bytes behind the index are not judged and stay. AWAQLLA_OPTION_PROFILE asks for the profile: the journal is judged as by awaqlla_profile_scan, and an offered
   record that breaks the profile is declined by PROFILE, after TIMES and before ROOM. 0 asks for neither, and the bytes at index are not looked at. Other
   options are not looked at. A budget beyond the record is all of it. */
enum { AWAQLLA_OPTION_INDEX = 1, AWAQLLA_OPTION_PROFILE = 2 };

void awaqlla_append_with(uint8_t *v, size_t size, size_t len, uint16_t day, const uint8_t *name, size_t name_len,
    const uint32_t *chances, size_t chances_len, const uint32_t *times, size_t times_len, size_t budget,
    uint8_t *index, size_t index_size, uint32_t options, uint64_t out[3]);

void awaqlla_append_log_with(uint8_t *v, size_t size, size_t len, uint16_t day, const uint8_t *name, size_t name_len,
    const uint32_t *chances, size_t chances_len, const uint8_t *log, size_t log_len, size_t budget,
    uint8_t *index, size_t index_size, uint32_t options, uint64_t out[3]);

/* Line i, counted from 0, of the listing of the journal that is all of the len bytes at v: a line for each record, then the end state's, each
   with its line end. As much of it as there is room for is written to the size bytes at out; the answer is how many bytes those are,
   0 behind the last line. AWAQLLA_MAX_LINE bytes have room for every line. Each call scans the journal. */
size_t awaqlla_line(const uint8_t *v, size_t len, size_t i, uint8_t *out, size_t size);

/* The merge (2026-09): the journals in the first a_len bytes of the a_size at a and the first b_len of the b_size at b, into the c_size bytes
   at c. Records go by day, on equal days the first journal's first; one of the second with the same bytes as one of the first is dropped.
   {AWAQLLA_DONE, length of the result, 0, 0}; {AWAQLLA_DECLINED, ROOM, 0, 0}; {AWAQLLA_DECLINED, OLD_FORM, place in the result, 0};
   {AWAQLLA_DAMAGED, refusal, place, whose} as scan's; or {AWAQLLA_INPUT_TORN, TORN, 0, whose}. whose is 1 for the first journal, 2 for the second.
   Only a merge that is done changes a byte of c, and none behind the result. a and b may be the same bytes, c overlaps neither; out points to four places. */
void awaqlla_merge(const uint8_t *a, size_t a_size, size_t a_len, const uint8_t *b, size_t b_size, size_t b_len,
    uint8_t *c, size_t c_size, uint64_t out[4]);

/* The trial of a recorded log (2026-12): the limits that stand in the journal of the first len bytes of the size at v, on the links of the log_len bytes
   at log, whose lines are those of awaqlla_append_log. The index_size bytes at index begin with the journal's own index, as awaqlla_index makes it. For
   the entry at a position of the index, from 0: {AWAQLLA_DONE, links, chances, the lowest chance exceeded or 0, overs at each chance ..}: how many
   lines have the entry's name, how many chances the last record of that name has, the lowest of these at which overs * 1,000,000 exceed chance * links,
   and how many of the links have more ticks than each limit, 0 where there is no chance. {AWAQLLA_LINE_REFUSED, LINE, place in the log, 0 ..} for the
   first line that is refused, judged before all else; {AWAQLLA_DAMAGED, refusal, place, 0 ..} as scan's; {AWAQLLA_DECLINED, INDEX or ABSENT, 0 ..}:
   another index, or a position not below the index's count. out points to twelve places. */
void awaqlla_trial(const uint8_t *log, size_t log_len, const uint8_t *v, size_t size, size_t len,
    const uint8_t *index, size_t index_size, size_t position, uint64_t out[12]);

/* The lines of the log whose names are not in the index: {AWAQLLA_DONE, lines, 0}, or as above but for ABSENT. out points to three places. It takes
   some 300 kB of the stack. */
void awaqlla_trial_unknown(const uint8_t *log, size_t log_len, const uint8_t *v, size_t size, size_t len,
    const uint8_t *index, size_t index_size, uint64_t out[3]);

#ifdef __cplusplus
}
#endif

#endif
