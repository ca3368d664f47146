/* The proved record pool, for C99 and C++. How to link and use it: docs/LIBRARY.md.
 *
 *     yuyarisun_number, yuyarisun_words          the numbers that a call answers, and what each of them says
 *     yuyarisun_sizes, YUYARISUN_.._LENGTH       the sizes of a pool, and how long they make each of its tables
 *     yuyarisun_pool, yuyarisun_lay              a pool as a caller keeps it; its tables laid out in two arrays, of marks and of numbers
 *     yuyarisun_is_on                            one mark of a table of marks
 *     yuyarisun_pool_make, .._collect            one line for an event on such a pool
 *     yuyarisun_pool_fresh, _sound, _free_records
 *     yuyarisun_pool_events, _trace              many events at once, and a whole trace
 *     yuyarisun_pool_report                      the numbers of each closed cycle of a trace
 *     yuyarisun_put_make, .._collect             an event as the bytes that these take
 *     yuyarisun_join_parts                       the parts of a trace, one for each worker and one for the collector, joined
 *     yuyarisun_make, .._trace, _report, _join   the same calls as the library has them, each table a pointer and a length
 *
 * Who owns what. The caller owns every table and lends it for the time of a call: the library allocates nothing, frees nothing, keeps no pointer and has
 * no state of its own. Two calls on two pools may so run at once on two threads; two calls on one pool may not.
 *
 * What a caller sees to, since no call can: that a table's pointer is not null, is aligned as its type is, a uint16_t or a uint64_t, and points to as many of
 * these as the length beside it says, and that no two tables, and none of the numbers that a call writes, overlap; the same of the bytes, the answers and the
 * cycles' numbers that many events and traces take. All the rest a call sees to: sizes out of range and other lengths (1) and tables in which no sound pool
 * lies (2) are refused, and a refused call changes nothing but puts 0 into its value. Many events and traces stop at a field that is refused, and what was done
 * before it stays done.
 */
#ifndef YUYARISUN_H
#define YUYARISUN_H

#include <stdbool.h>
#include <stddef.h>
#include <stdint.h>

#ifdef __cplusplus
extern "C" {
#endif

/* ---- The numbers that a call answers ---- */

/* An event's call asks for 1 first, then for 2, 3, 13, 14, 4, and then for 5. 7 to 12 are given where many events or a trace are read from bytes, and where parts
 * are joined, which asks for 15 and 16 last. */
enum yuyarisun_number {
    YUYARISUN_DONE = 0,
    YUYARISUN_WRONG_SIZE = 1,
    YUYARISUN_NOT_SOUND = 2,
    YUYARISUN_NO_SUCH_WORKER = 3,
    YUYARISUN_HOLDS_NONE = 4,
    YUYARISUN_NONE_FREE = 5,
    /* 6 is left free on purpose: no pool can produce a full log, and the number isn't used again. */
    YUYARISUN_WRONG_TAG = 7,
    YUYARISUN_WRONG_LENGTH = 8,
    YUYARISUN_STOPS_SHORT = 9,
    YUYARISUN_WRONG_STEP = 10,
    YUYARISUN_EXTRA_BYTE = 11,
    YUYARISUN_WRONG_COUNT = 12,
    YUYARISUN_NO_SUCH_REGISTER = 13,
    YUYARISUN_NO_SUCH_LINK = 14,
    YUYARISUN_SIZES_DIFFER = 15,
    YUYARISUN_OUTPUT_SHORT = 16
};

/* What a number says: a constant text, never null. */
static inline const char *yuyarisun_words(uint16_t number)
{
    switch (number) {
    case YUYARISUN_DONE: return "done";
    case YUYARISUN_WRONG_SIZE: return "a size is out of its range, or a lent table has another length";
    case YUYARISUN_NOT_SOUND: return "the pool is not sound";
    case YUYARISUN_NO_SUCH_WORKER: return "no such worker";
    case YUYARISUN_HOLDS_NONE: return "load or store through a register that holds none";
    case YUYARISUN_NONE_FREE: return "make, and no record is free";
    case YUYARISUN_WRONG_TAG: return "tag unknown, first field not the sizes, or sizes a second time";
    case YUYARISUN_WRONG_LENGTH: return "field length not the tag's";
    case YUYARISUN_STOPS_SHORT: return "the trace stops inside a field or before the end field";
    case YUYARISUN_WRONG_STEP: return "step number not the previous plus one";
    case YUYARISUN_EXTRA_BYTE: return "a byte after the end field";
    case YUYARISUN_WRONG_COUNT: return "end field's count is not the last step number";
    case YUYARISUN_NO_SUCH_REGISTER: return "no such register";
    case YUYARISUN_NO_SUCH_LINK: return "no such link or board entry";
    case YUYARISUN_SIZES_DIFFER: return "two parts differ in sizes";
    case YUYARISUN_OUTPUT_SHORT: return "the output is too short";
    default: return "no number that a call answers";
    }
}

/* ---- Sizes, and the length of each table ---- */

/* n records 1..1024, k links in each 1..8, w workers 1..8, r registers per worker 1..16, b board entries 0..16, through which workers pass records. There are
 * S = n x k + b links: those of the records, and the board entries. */
typedef struct yuyarisun_sizes {
    uint16_t n, k, w, r, b;
} yuyarisun_sizes;

#define YUYARISUN_MOST_RECORDS 1024
#define YUYARISUN_MOST_LINKS 8
#define YUYARISUN_MOST_WORKERS 8
#define YUYARISUN_MOST_REGISTERS 16
#define YUYARISUN_MOST_BOARD_ENTRIES 16

/* S, the number of all links. */
#define YUYARISUN_ALL_LINKS(n, k, b) ((size_t)(n) * (size_t)(k) + (size_t)(b))

/* How many 64-bit words so many marks take. */
#define YUYARISUN_WORDS_FOR(marks) (((size_t)(marks) + 63) / 64)

/* How long each table is, exactly: used, held, candidates and changed in 64-bit words, all others in 16-bit numbers. Of constant sizes these are constant, so
 * that an array can be declared with them. */
#define YUYARISUN_USED_LENGTH(n, k, w, r, b) YUYARISUN_WORDS_FOR(n)
#define YUYARISUN_COUNTS_LENGTH(n, k, w, r, b) ((size_t)(n))
#define YUYARISUN_HELD_LENGTH(n, k, w, r, b) YUYARISUN_WORDS_FOR(n)
#define YUYARISUN_CANDIDATES_LENGTH(n, k, w, r, b) YUYARISUN_WORDS_FOR(n)
#define YUYARISUN_MAKERS_LENGTH(n, k, w, r, b) ((size_t)(n))
#define YUYARISUN_VALUES_LENGTH(n, k, w, r, b) YUYARISUN_ALL_LINKS(n, k, b)
#define YUYARISUN_CHANGED_LENGTH(n, k, w, r, b) YUYARISUN_WORDS_FOR(YUYARISUN_ALL_LINKS(n, k, b))
#define YUYARISUN_REGISTERS_LENGTH(n, k, w, r, b) ((size_t)(w) * (size_t)(r) + 1)
#define YUYARISUN_SNOOPS_LENGTH(n, k, w, r, b) ((size_t)(w))
#define YUYARISUN_LOGS_LENGTH(n, k, w, r, b) ((size_t)(w) * 2 * YUYARISUN_ALL_LINKS(n, k, b))
#define YUYARISUN_HISTORY_LENGTH(n, k, w, r, b) (2 * YUYARISUN_ALL_LINKS(n, k, b))
#define YUYARISUN_LENGTHS_LENGTH(n, k, w, r, b) ((size_t)(w) + 1)

/* The four tables of marks together, in 64-bit words: 177 at the largest sizes. */
#define YUYARISUN_MARKS_LENGTH(n, k, w, r, b) (3 * YUYARISUN_WORDS_FOR(n) + YUYARISUN_WORDS_FOR(YUYARISUN_ALL_LINKS(n, k, b)))

/* The eight others together, in 16-bit numbers: 158,146 at the largest sizes. */
#define YUYARISUN_NUMBERS_LENGTH(n, k, w, r, b)                                                                                                                \
    (2 * (size_t)(n) + 3 * YUYARISUN_ALL_LINKS(n, k, b) + (size_t)(w) * (2 * YUYARISUN_ALL_LINKS(n, k, b) + (size_t)(r) + 2) + 2)

static inline bool yuyarisun_sizes_in_range(yuyarisun_sizes s)
{
    return s.n >= 1 && s.n <= YUYARISUN_MOST_RECORDS && s.k >= 1 && s.k <= YUYARISUN_MOST_LINKS && s.w >= 1 && s.w <= YUYARISUN_MOST_WORKERS && s.r >= 1 &&
           s.r <= YUYARISUN_MOST_REGISTERS && s.b <= YUYARISUN_MOST_BOARD_ENTRIES;
}

/* ---- A pool as a caller keeps it ---- */

/* A lent table: where its numbers are, and how many. */
typedef struct yuyarisun_table {
    uint16_t *numbers;
    size_t length;
} yuyarisun_table;

/* A lent table of marks: where its words are, and how many. The lowest number has the lowest bit: the mark of record a is bit (a - 1) % 64 of word (a - 1) /
 * 64, that of link l is bit l % 64 of word l / 64. A bit that is 1 is a mark that is on. The bits of the last word behind the last record's or the last link's
 * are 0: with one of them at 1 the pool is not sound (2). */
typedef struct yuyarisun_marks {
    uint64_t *words;
    size_t length;
} yuyarisun_marks;

/* Whether the mark at a place is on; the mark of record a is at a - 1, that of link l at l. */
static inline bool yuyarisun_is_on(yuyarisun_marks marks, size_t place)
{
    return (marks.words[place / 64] >> (place % 64) & 1) == 1;
}

/* The collector's own record. Each call takes it and moves it on. A cycle opens with the step out of phase 0 and closes with the step back to it, which counts
 * `closed` up. */
typedef struct yuyarisun_collector {
    uint16_t phase, position, closed;
} yuyarisun_collector;

/* Everything that a call is lent. The caller fills it in, by yuyarisun_lay or by hand; a pool put away and taken up again is the twelve tables' words and
 * numbers, the sizes and the collector's record. */
typedef struct yuyarisun_pool {
    yuyarisun_sizes sizes;
    yuyarisun_marks used;       /* of record a at a - 1: on if it is used, off if it is free */
    yuyarisun_table counts;     /* of record a at a - 1: its count */
    yuyarisun_marks held;       /* of record a at a - 1: its held mark */
    yuyarisun_marks candidates; /* of record a at a - 1: its candidate mark */
    yuyarisun_table makers;     /* of record a at a - 1: the worker that made it + 1, or 0 */
    yuyarisun_table values;     /* of link l at l: the record that it leads to, or 0; link f of record a is (a - 1) x k + f, board entry e is n x k + e */
    yuyarisun_marks changed;    /* of link l at l: its changed mark */
    yuyarisun_table registers;  /* register r of worker w at w x (registers per worker) + r: a record, or 0; behind all of them the last made number, or 0 */
    yuyarisun_table snoops;     /* of worker w at w: its snoop flag, 0 or 1 */
    yuyarisun_table logs;       /* entry i of worker w at w x 2S + 2i: a link, then the value that was overwritten first */
    yuyarisun_table history;    /* entry i at 2i, in the same form */
    yuyarisun_table lengths;    /* how many entries each log has, in the workers' order, then how many the history has */
    yuyarisun_collector collector;
} yuyarisun_pool;

/* What an event is answered: a number, and the event's value, 0 if it is refused. */
typedef struct yuyarisun_answer {
    uint16_t number;
    uint16_t value;
} yuyarisun_answer;

/* The next `length` numbers of an array; `at` moves past them. */
static inline yuyarisun_table yuyarisun_part(uint16_t **at, size_t length)
{
    yuyarisun_table part;
    part.numbers = *at;
    part.length = length;
    *at += length;
    return part;
}

/* The same of the words of marks. */
static inline yuyarisun_marks yuyarisun_part_of_marks(uint64_t **at, size_t length)
{
    yuyarisun_marks part;
    part.words = *at;
    part.length = length;
    *at += length;
    return part;
}

/* Lays the tables out in two arrays of the caller's, one after another: the four of marks in `marks`, the eight others in `numbers`; and puts the collector's
 * record to 0. The arrays have room for at least YUYARISUN_MARKS_LENGTH(n, k, w, r, b) words and YUYARISUN_NUMBERS_LENGTH(n, k, w, r, b) numbers, stay the
 * caller's and have to outlive the pool. An array of its type is aligned as it has to be; in one stretch of memory from malloc the words come first and the
 * numbers behind them, and both are. What stands in the arrays stays: yuyarisun_pool_fresh comes next, or tables that were put away. Answers 1 and leaves the
 * pool as it was if a size is out of its range or an array is too short, else 0. */
static inline uint16_t yuyarisun_lay(yuyarisun_pool *pool, yuyarisun_sizes sizes, uint64_t *marks, size_t marks_length, uint16_t *numbers,
                                     size_t numbers_length)
{
    const size_t n = sizes.n, k = sizes.k, w = sizes.w, r = sizes.r, b = sizes.b;
    if (!yuyarisun_sizes_in_range(sizes) || marks_length < YUYARISUN_MARKS_LENGTH(n, k, w, r, b) || numbers_length < YUYARISUN_NUMBERS_LENGTH(n, k, w, r, b))
        return YUYARISUN_WRONG_SIZE;
    pool->sizes = sizes;
    pool->used = yuyarisun_part_of_marks(&marks, YUYARISUN_USED_LENGTH(n, k, w, r, b));
    pool->held = yuyarisun_part_of_marks(&marks, YUYARISUN_HELD_LENGTH(n, k, w, r, b));
    pool->candidates = yuyarisun_part_of_marks(&marks, YUYARISUN_CANDIDATES_LENGTH(n, k, w, r, b));
    pool->changed = yuyarisun_part_of_marks(&marks, YUYARISUN_CHANGED_LENGTH(n, k, w, r, b));
    pool->counts = yuyarisun_part(&numbers, YUYARISUN_COUNTS_LENGTH(n, k, w, r, b));
    pool->makers = yuyarisun_part(&numbers, YUYARISUN_MAKERS_LENGTH(n, k, w, r, b));
    pool->values = yuyarisun_part(&numbers, YUYARISUN_VALUES_LENGTH(n, k, w, r, b));
    pool->registers = yuyarisun_part(&numbers, YUYARISUN_REGISTERS_LENGTH(n, k, w, r, b));
    pool->snoops = yuyarisun_part(&numbers, YUYARISUN_SNOOPS_LENGTH(n, k, w, r, b));
    pool->logs = yuyarisun_part(&numbers, YUYARISUN_LOGS_LENGTH(n, k, w, r, b));
    pool->history = yuyarisun_part(&numbers, YUYARISUN_HISTORY_LENGTH(n, k, w, r, b));
    pool->lengths = yuyarisun_part(&numbers, YUYARISUN_LENGTHS_LENGTH(n, k, w, r, b));
    pool->collector.phase = pool->collector.position = pool->collector.closed = 0;
    return YUYARISUN_DONE;
}

/* ---- The calls as the library has them ---- */

/* What every call is lent to write: the twelve tables, each a pointer and how many words or numbers it points to; the collector's record. */
#define YUYARISUN_LENT_TABLES                                                                                                                                  \
    uint64_t *used, size_t used_length, uint16_t *counts, size_t counts_length, uint64_t *held, size_t held_length, uint64_t *candidates,                      \
        size_t candidates_length, uint16_t *makers, size_t makers_length, uint16_t *values, size_t values_length, uint64_t *changed, size_t changed_length,    \
        uint16_t *registers, size_t registers_length, uint16_t *snoops, size_t snoops_length, uint16_t *logs, size_t logs_length, uint16_t *history,           \
        size_t history_length, uint16_t *lengths, size_t lengths_length, uint16_t *phase, uint16_t *position, uint16_t *closed

/* That, and the sizes of the pool. */
#define YUYARISUN_LENT uint16_t n, uint16_t k, uint16_t w, uint16_t r, uint16_t b, YUYARISUN_LENT_TABLES

/* The same, to read alone. */
#define YUYARISUN_LENT_TO_READ                                                                                                                                 \
    uint16_t n, uint16_t k, uint16_t w, uint16_t r, uint16_t b, const uint64_t *used, size_t used_length, const uint16_t *counts, size_t counts_length,        \
        const uint64_t *held, size_t held_length, const uint64_t *candidates, size_t candidates_length, const uint16_t *makers, size_t makers_length,          \
        const uint16_t *values, size_t values_length, const uint64_t *changed, size_t changed_length, const uint16_t *registers, size_t registers_length,      \
        const uint16_t *snoops, size_t snoops_length, const uint16_t *logs, size_t logs_length, const uint16_t *history, size_t history_length,                \
        const uint16_t *lengths, size_t lengths_length, uint16_t phase, uint16_t position, uint16_t closed

/* make: the first free record above the last one made, else the lowest, becomes used, and the register `into` holds it. The value is its number. Answers 0, 1,
 * 2, 3, 13 or 5. */
uint16_t yuyarisun_make(YUYARISUN_LENT, uint16_t *value, uint8_t worker, uint8_t into);

/* move: the register `into` takes what the register `from` holds, which is the value. Answers 0, 1, 2, 3 or 13. */
uint16_t yuyarisun_move(YUYARISUN_LENT, uint16_t *value, uint8_t worker, uint8_t into, uint8_t from);

/* drop: the register becomes none. The value is 0. Answers 0, 1, 2, 3 or 13. */
uint16_t yuyarisun_drop(YUYARISUN_LENT, uint16_t *value, uint8_t worker, uint8_t dropped);

/* load: the register `into` takes a link of the record in the register `through`, which is the value. Answers 0, 1, 2, 3, 13, 14 or 4. */
uint16_t yuyarisun_load(YUYARISUN_LENT, uint16_t *value, uint8_t worker, uint8_t into, uint8_t through, uint8_t link);

/* store: a link of the record in the register `through` takes what the register `from` holds. The value is the one overwritten. Answers 0, 1, 2, 3, 13,
 * 14 or 4. */
uint16_t yuyarisun_store(YUYARISUN_LENT, uint16_t *value, uint8_t worker, uint8_t through, uint8_t link, uint8_t from);

/* look: the register `into` takes what the board entry holds, which is the value. Answers 0, 1, 2, 3, 13 or 14. */
uint16_t yuyarisun_look(YUYARISUN_LENT, uint16_t *value, uint8_t worker, uint8_t into, uint8_t entry);

/* post: the board entry takes what the register `from` holds. The value is the one overwritten. Answers 0, 1, 2, 3, 13 or 14. */
uint16_t yuyarisun_post(YUYARISUN_LENT, uint16_t *value, uint8_t worker, uint8_t entry, uint8_t from);

/* collect: one collector step. The value is the record freed, otherwise 0, which does not say that a cycle has closed: a step may only empty links of a record that
 * waits to be freed. Answers 0, 1 or 2. */
uint16_t yuyarisun_collect(YUYARISUN_LENT, uint16_t *value);

/* Makes the tables a fresh pool, whatever they held. Answers 0 or 1. */
uint16_t yuyarisun_fresh(YUYARISUN_LENT);

/* Whether the sizes are in range, every length is exact and the pool is sound. */
bool yuyarisun_sound(YUYARISUN_LENT_TO_READ);

/* How many of n records are free: n less the bits that are 1 in these words, 0 where there are more of them. It takes however many words it is lent, and the
 * bits behind the last record's count as any others: of a sound pool's table they are 0, and the answer is the number of its free records. */
size_t yuyarisun_free_records(uint16_t n, const uint64_t *used, size_t used_length);

/* Many events at once, on a pool that is looked through once: event fields one after another, as a trace has them, each with the step number of the one before
 * plus one; the first has *step + 1. Each is done exactly as its own call would do it. Answers 0 if every byte was taken. 1 and 2 refuse the call: nothing is
 * done, and *place is 0. 7 to 10 and 12 are those of the first field that is no event, as in a trace, with 7 for an end field that has the right count: *place
 * is where it begins, the events before it are done, and nothing behind it is looked at.
 *
 * *step becomes the last step number, so that the next call may go on with it; *events how many events were done; *place the number of the bytes if all were
 * taken. The number and the value of each event go into `answers` in turn, as far as there is room for both; what lies behind the last stays as it was. The
 * call reads the bytes and writes the answers, and keeps neither. */
uint16_t yuyarisun_events(YUYARISUN_LENT, const uint8_t *bytes, size_t bytes_length, uint32_t *step, uint16_t *answers, size_t answers_length, size_t *events,
                          size_t *place);

/* A whole trace. Its sizes field makes the tables a fresh pool, whatever they held, if their lengths are exactly those of its sizes; else the answer is 1 and
 * they stay as they were. Answers 0 for a whole trace, with *free_records how many records are free and *place 0. Else it is the number of the field that is
 * refused, 1 or 7 to 12, with *place where it begins (11: where the extra byte is) and *free_records 0; the tables and the collector's record are as the fields
 * before left them. *events is how many events were done, and `answers` has them as above; their steps are 1, 2, 3 and so on. */
uint16_t yuyarisun_trace(YUYARISUN_LENT_TABLES, const uint8_t *bytes, size_t bytes_length, uint16_t *answers, size_t answers_length, size_t *events,
                         uint16_t *free_records, size_t *place);

/* A report for each cycle of a whole trace. It does with the tables and the collector's record as yuyarisun_trace does, and answers the same, with the same
 * *events, *free_records and *place. *cycles is how many cycles closed. Of each of them three numbers go into `numbers` in turn, as far as there is room for all three: the
 * entries moved into the history in it, the records freed in it, and its net, the sum of all counts just after its close less that sum at its opening, which may be
 * below nought. A cycle that is still open where the trace ends or is refused is none of them; what lies behind the last stays as it was. */
uint16_t yuyarisun_report(YUYARISUN_LENT_TABLES, const uint8_t *bytes, size_t bytes_length, int64_t *numbers, size_t numbers_length, size_t *events,
                          size_t *cycles, uint16_t *free_records, size_t *place);

/* Joins the parts of a trace, one for each worker and one for the collector. They lie end to end in `parts`, and `lengths` has how long each is; the joined trace
 * goes into `out`. It has the first part's sizes field, then every event of every part once, byte for byte, by step number as a number, then its end field. So
 * parts_length bytes are always enough for it: its events are those of the parts, its sizes field is the first part's, and its end field is as long as that part's.
 *
 * Answers 0 with *length how long the joined trace is and *place 0; what lies behind it in `out` stays as it was. Else the answer is the first of these, *length
 * is 0, and nothing is written:
 *     1           there are not one to nine parts, or their lengths don't add up to parts_length, as numbers: a sum that wraps does not
 *     1, 7 to 12  of the first part with a field that is refused, as in a trace, but 10 where its step number is not above the part's previous one, 12 where the
 *                 count of its end field is not how many events the part holds, and 9 and 11 by the end of the part
 *     15          two parts differ in sizes
 *     10          the joined step numbers are not 1, 2, 3 and so on
 *     16          `out` is too short
 * *place is where in `parts` the field begins that is refused (11: where the extra byte is), else 0. The call keeps no pointer, and nothing of the three may
 * overlap. */
uint16_t yuyarisun_join(const uint8_t *parts, size_t parts_length, const uint64_t *lengths, size_t lengths_length, uint8_t *out, size_t out_length,
                        size_t *length, size_t *place);

/* ---- One line for an event ---- */

/* A pool's tables, its sizes and the collector's record, as a call is lent them. */
#define YUYARISUN_TABLES_OF(pool)                                                                                                                              \
    (pool)->used.words, (pool)->used.length, (pool)->counts.numbers, (pool)->counts.length, (pool)->held.words, (pool)->held.length,                           \
        (pool)->candidates.words, (pool)->candidates.length, (pool)->makers.numbers, (pool)->makers.length, (pool)->values.numbers, (pool)->values.length,     \
        (pool)->changed.words, (pool)->changed.length, (pool)->registers.numbers, (pool)->registers.length, (pool)->snoops.numbers, (pool)->snoops.length,     \
        (pool)->logs.numbers, (pool)->logs.length, (pool)->history.numbers, (pool)->history.length, (pool)->lengths.numbers, (pool)->lengths.length

#define YUYARISUN_SIZES_OF(pool) (pool)->sizes.n, (pool)->sizes.k, (pool)->sizes.w, (pool)->sizes.r, (pool)->sizes.b
#define YUYARISUN_COLLECTOR_OF(pool) &(pool)->collector.phase, &(pool)->collector.position, &(pool)->collector.closed
#define YUYARISUN_LEND(pool) YUYARISUN_SIZES_OF(pool), YUYARISUN_TABLES_OF(pool), YUYARISUN_COLLECTOR_OF(pool)

/* In these w is a worker, r and q are registers of it, f is a link of the record in q, and e is a board entry, each counted from 0. */

static inline yuyarisun_answer yuyarisun_pool_make(yuyarisun_pool *pool, uint8_t w, uint8_t r)
{
    yuyarisun_answer answer;
    answer.number = yuyarisun_make(YUYARISUN_LEND(pool), &answer.value, w, r);
    return answer;
}

/* Register r takes what q holds. */
static inline yuyarisun_answer yuyarisun_pool_move(yuyarisun_pool *pool, uint8_t w, uint8_t r, uint8_t q)
{
    yuyarisun_answer answer;
    answer.number = yuyarisun_move(YUYARISUN_LEND(pool), &answer.value, w, r, q);
    return answer;
}

static inline yuyarisun_answer yuyarisun_pool_drop(yuyarisun_pool *pool, uint8_t w, uint8_t r)
{
    yuyarisun_answer answer;
    answer.number = yuyarisun_drop(YUYARISUN_LEND(pool), &answer.value, w, r);
    return answer;
}

/* Register r takes link f of the record in q. */
static inline yuyarisun_answer yuyarisun_pool_load(yuyarisun_pool *pool, uint8_t w, uint8_t r, uint8_t q, uint8_t f)
{
    yuyarisun_answer answer;
    answer.number = yuyarisun_load(YUYARISUN_LEND(pool), &answer.value, w, r, q, f);
    return answer;
}

/* Link f of the record in q takes what r holds. */
static inline yuyarisun_answer yuyarisun_pool_store(yuyarisun_pool *pool, uint8_t w, uint8_t q, uint8_t f, uint8_t r)
{
    yuyarisun_answer answer;
    answer.number = yuyarisun_store(YUYARISUN_LEND(pool), &answer.value, w, q, f, r);
    return answer;
}

/* Register r takes what board entry e holds. */
static inline yuyarisun_answer yuyarisun_pool_look(yuyarisun_pool *pool, uint8_t w, uint8_t r, uint8_t e)
{
    yuyarisun_answer answer;
    answer.number = yuyarisun_look(YUYARISUN_LEND(pool), &answer.value, w, r, e);
    return answer;
}

/* Board entry e takes what r holds. */
static inline yuyarisun_answer yuyarisun_pool_post(yuyarisun_pool *pool, uint8_t w, uint8_t e, uint8_t r)
{
    yuyarisun_answer answer;
    answer.number = yuyarisun_post(YUYARISUN_LEND(pool), &answer.value, w, e, r);
    return answer;
}

static inline yuyarisun_answer yuyarisun_pool_collect(yuyarisun_pool *pool)
{
    yuyarisun_answer answer;
    answer.number = yuyarisun_collect(YUYARISUN_LEND(pool), &answer.value);
    return answer;
}

static inline uint16_t yuyarisun_pool_fresh(yuyarisun_pool *pool)
{
    return yuyarisun_fresh(YUYARISUN_LEND(pool));
}

static inline bool yuyarisun_pool_sound(const yuyarisun_pool *pool)
{
    return yuyarisun_sound(YUYARISUN_SIZES_OF(pool), YUYARISUN_TABLES_OF(pool), pool->collector.phase, pool->collector.position, pool->collector.closed);
}

static inline size_t yuyarisun_pool_free_records(const yuyarisun_pool *pool)
{
    return yuyarisun_free_records(pool->sizes.n, pool->used.words, pool->used.length);
}

/* ---- Many events, and whole traces ---- */

/* How long `answers` has to be to hold the number and the value of every event in so many bytes: no event field has fewer than 7. */
#define YUYARISUN_ANSWERS_LENGTH(bytes_length) (2 * ((size_t)(bytes_length) / 7))

/* What many events are answered: the number, 0 if every byte was taken; where it stopped; how many events were done. */
typedef struct yuyarisun_events_answer {
    uint16_t number;
    size_t place;
    size_t events;
} yuyarisun_events_answer;

/* What a whole trace is answered: that, place 0 if it is whole; and how many records are free at its end. */
typedef struct yuyarisun_trace_answer {
    uint16_t number;
    size_t place;
    size_t events;
    uint16_t free_records;
} yuyarisun_trace_answer;

/* yuyarisun_events on a pool. `bytes` and `answers` may be null where their length is 0. */
static inline yuyarisun_events_answer yuyarisun_pool_events(yuyarisun_pool *pool, const uint8_t *bytes, size_t bytes_length, uint32_t *step, uint16_t *answers,
                                                            size_t answers_length)
{
    yuyarisun_events_answer answer;
    const uint8_t no_byte = 0;
    uint16_t no_answer = 0;
    answer.number = yuyarisun_events(YUYARISUN_LEND(pool), bytes_length == 0 ? &no_byte : bytes, bytes_length, step, answers_length == 0 ? &no_answer : answers,
                                     answers_length, &answer.events, &answer.place);
    return answer;
}

/* The sizes that a trace begins with, in range or not, for yuyarisun_lay; all 0, which it refuses, if no whole sizes field stands there. A field of length 8 says
 * that there is no board, one of length 10 has b at its end. */
static inline yuyarisun_sizes yuyarisun_sizes_of_trace(const uint8_t *bytes, size_t bytes_length)
{
    yuyarisun_sizes sizes = {0, 0, 0, 0, 0};
    if (bytes_length < 3 || bytes[0] != 0x01 || bytes[1] != 0 || (bytes[2] != 8 && bytes[2] != 10) || bytes_length < (size_t)3 + bytes[2])
        return sizes;
    sizes.n = (uint16_t)(bytes[3] << 8 | bytes[4]);
    sizes.k = (uint16_t)(bytes[5] << 8 | bytes[6]);
    sizes.w = (uint16_t)(bytes[7] << 8 | bytes[8]);
    sizes.r = (uint16_t)(bytes[9] << 8 | bytes[10]);
    if (bytes[2] == 10)
        sizes.b = (uint16_t)(bytes[11] << 8 | bytes[12]);
    return sizes;
}

/* yuyarisun_trace on a pool: the lengths of the tables have to be those of the trace's sizes. pool->sizes is not looked at; an accepted sizes field makes it the
 * trace's, for lengths leave k and b open. `bytes` and `answers` may be null where their length is 0. */
static inline yuyarisun_trace_answer yuyarisun_pool_trace(yuyarisun_pool *pool, const uint8_t *bytes, size_t bytes_length, uint16_t *answers,
                                                          size_t answers_length)
{
    yuyarisun_trace_answer answer;
    const uint8_t no_byte = 0;
    uint16_t no_answer = 0;
    answer.number = yuyarisun_trace(YUYARISUN_TABLES_OF(pool), YUYARISUN_COLLECTOR_OF(pool), bytes_length == 0 ? &no_byte : bytes, bytes_length,
                                    answers_length == 0 ? &no_answer : answers, answers_length, &answer.events, &answer.free_records, &answer.place);
    if (answer.number == YUYARISUN_DONE || answer.place > 0) /* whatever is refused behind the sizes field has another place */
        pool->sizes = yuyarisun_sizes_of_trace(bytes, bytes_length);
    return answer;
}

/* How long `numbers` has to be to hold the three numbers of every cycle of a trace of so many bytes: a cycle has five steps or more, and a step 7 bytes. */
#define YUYARISUN_CYCLES_LENGTH(bytes_length) (3 * ((size_t)(bytes_length) / 35))

/* What a report is answered: what the whole trace is, and how many cycles closed. */
typedef struct yuyarisun_report_answer {
    uint16_t number;
    size_t place;
    size_t events;
    size_t cycles;
    uint16_t free_records;
} yuyarisun_report_answer;

/* yuyarisun_report on a pool, as yuyarisun_pool_trace: an accepted sizes field makes pool->sizes the trace's. `bytes` and `numbers` may be null where their length
 * is 0. */
static inline yuyarisun_report_answer yuyarisun_pool_report(yuyarisun_pool *pool, const uint8_t *bytes, size_t bytes_length, int64_t *numbers,
                                                            size_t numbers_length)
{
    yuyarisun_report_answer answer;
    const uint8_t no_byte = 0;
    int64_t no_number = 0;
    answer.number = yuyarisun_report(YUYARISUN_TABLES_OF(pool), YUYARISUN_COLLECTOR_OF(pool), bytes_length == 0 ? &no_byte : bytes, bytes_length,
                                     numbers_length == 0 ? &no_number : numbers, numbers_length, &answer.events, &answer.cycles, &answer.free_records,
                                     &answer.place);
    if (answer.number == YUYARISUN_DONE || answer.place > 0)
        pool->sizes = yuyarisun_sizes_of_trace(bytes, bytes_length);
    return answer;
}

/* The longest event field has so many bytes. */
#define YUYARISUN_EVENT_MOST_BYTES 11

/* Writes an event field: its tag, the length of its payload, the step number, and as many of the event's numbers as that length has room for. Answers where the
 * next one begins. */
static inline uint8_t *yuyarisun_put_event(uint8_t *at, uint32_t step, uint8_t tag, uint8_t length, uint8_t a, uint8_t b, uint8_t c, uint8_t d)
{
    const uint8_t field[YUYARISUN_EVENT_MOST_BYTES] = {
        tag, 0, length, (uint8_t)(step >> 24), (uint8_t)(step >> 16), (uint8_t)(step >> 8), (uint8_t)step, a, b, c, d};
    for (size_t i = 0; i < (size_t)3 + length; i++)
        at[i] = field[i];
    return at + 3 + length;
}

/* One line for each kind: where to, the event's step number, and its numbers. The caller sees to it that there is room, YUYARISUN_EVENT_MOST_BYTES at most. */

static inline uint8_t *yuyarisun_put_make(uint8_t *at, uint32_t step, uint8_t w, uint8_t r)
{
    return yuyarisun_put_event(at, step, 0x10, 6, w, r, 0, 0);
}

static inline uint8_t *yuyarisun_put_move(uint8_t *at, uint32_t step, uint8_t w, uint8_t r, uint8_t q)
{
    return yuyarisun_put_event(at, step, 0x11, 7, w, r, q, 0);
}

static inline uint8_t *yuyarisun_put_drop(uint8_t *at, uint32_t step, uint8_t w, uint8_t r)
{
    return yuyarisun_put_event(at, step, 0x12, 6, w, r, 0, 0);
}

static inline uint8_t *yuyarisun_put_load(uint8_t *at, uint32_t step, uint8_t w, uint8_t r, uint8_t q, uint8_t f)
{
    return yuyarisun_put_event(at, step, 0x13, 8, w, r, q, f);
}

static inline uint8_t *yuyarisun_put_store(uint8_t *at, uint32_t step, uint8_t w, uint8_t q, uint8_t f, uint8_t r)
{
    return yuyarisun_put_event(at, step, 0x14, 8, w, q, f, r);
}

static inline uint8_t *yuyarisun_put_look(uint8_t *at, uint32_t step, uint8_t w, uint8_t r, uint8_t e)
{
    return yuyarisun_put_event(at, step, 0x15, 7, w, r, e, 0);
}

static inline uint8_t *yuyarisun_put_post(uint8_t *at, uint32_t step, uint8_t w, uint8_t e, uint8_t r)
{
    return yuyarisun_put_event(at, step, 0x16, 7, w, e, r, 0);
}

static inline uint8_t *yuyarisun_put_collect(uint8_t *at, uint32_t step)
{
    return yuyarisun_put_event(at, step, 0x20, 4, 0, 0, 0, 0);
}

/* ---- Parts of a trace ---- */

/* What joining is answered: the number, 0 if the joined trace was written; how long it is; where a field is refused. */
typedef struct yuyarisun_join_answer {
    uint16_t number;
    size_t length;
    size_t place;
} yuyarisun_join_answer;

/* yuyarisun_join, answered at once. `parts`, `lengths` and `out` may be null where their length is 0. */
static inline yuyarisun_join_answer yuyarisun_join_parts(const uint8_t *parts, size_t parts_length, const uint64_t *lengths, size_t lengths_length,
                                                         uint8_t *out, size_t out_length)
{
    yuyarisun_join_answer answer;
    const uint8_t no_byte = 0;
    const uint64_t no_length = 0;
    uint8_t no_room = 0;
    answer.number = yuyarisun_join(parts_length == 0 ? &no_byte : parts, parts_length, lengths_length == 0 ? &no_length : lengths, lengths_length,
                                   out_length == 0 ? &no_room : out, out_length, &answer.length, &answer.place);
    return answer;
}

#undef YUYARISUN_LENT_TABLES
#undef YUYARISUN_LENT
#undef YUYARISUN_LENT_TO_READ
#undef YUYARISUN_TABLES_OF
#undef YUYARISUN_SIZES_OF
#undef YUYARISUN_COLLECTOR_OF
#undef YUYARISUN_LEND

#ifdef __cplusplus
}
#endif

#endif
