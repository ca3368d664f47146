/* Holds the header's names and lengths against what the library leaves in the tables: a few events, after each of which every table that they touch is
 * looked at under its own name; then many events at once, a whole trace, and parts of one. For C99 and C++; tests/library builds and runs it. It prints nothing,
 * or the line that does not hold. */
#include <stdio.h>
#include <stdlib.h>
#include <string.h>

#include "yuyarisun.h"

#define HOLD(condition)                                                                                                                                        \
    do {                                                                                                                                                       \
        if (!(condition)) {                                                                                                                                    \
            printf("line %d does not hold: %s\n", __LINE__, #condition);                                                                                       \
            return 1;                                                                                                                                          \
        }                                                                                                                                                      \
    } while (0)

enum { N = 4, K = 2, W = 2, R = 2, B = 2 };
static uint64_t marks[YUYARISUN_MARKS_LENGTH(N, K, W, R, B)];
static uint16_t numbers[YUYARISUN_NUMBERS_LENGTH(N, K, W, R, B)];
static uint64_t largest_marks[YUYARISUN_MARKS_LENGTH(1024, 8, 8, 16, 16)];
static uint16_t largest_numbers[YUYARISUN_NUMBERS_LENGTH(1024, 8, 8, 16, 16)];

#define LENGTH(array) (sizeof(array) / sizeof *(array))

/* Lays a pool out in the small arrays, or in the large ones. */
static uint16_t lay(yuyarisun_pool *pool, yuyarisun_sizes sizes)
{
    return yuyarisun_lay(pool, sizes, marks, LENGTH(marks), numbers, LENGTH(numbers));
}

static uint16_t lay_large(yuyarisun_pool *pool, yuyarisun_sizes sizes)
{
    return yuyarisun_lay(pool, sizes, largest_marks, LENGTH(largest_marks), largest_numbers, LENGTH(largest_numbers));
}

/* Anything in both small arrays. */
static void spoil(void)
{
    memset(marks, 0xff, sizeof marks);
    memset(numbers, 0xff, sizeof numbers);
}

/* The words of each number, and of none. */
static int words(void)
{
    for (uint16_t number = 0; number <= 16; number++)
        for (uint16_t other = 0; other <= number; other++)
            HOLD((strcmp(yuyarisun_words(number), yuyarisun_words(other)) == 0) == (number == other));
    HOLD(strcmp(yuyarisun_words(YUYARISUN_DONE), "done") == 0);
    HOLD(strcmp(yuyarisun_words(YUYARISUN_WRONG_COUNT), "end field's count is not the last step number") == 0);
    HOLD(strcmp(yuyarisun_words(YUYARISUN_NO_SUCH_WORKER), "no such worker") == 0);
    HOLD(strcmp(yuyarisun_words(YUYARISUN_NO_SUCH_REGISTER), "no such register") == 0);
    HOLD(strcmp(yuyarisun_words(YUYARISUN_NO_SUCH_LINK), "no such link or board entry") == 0);
    HOLD(strcmp(yuyarisun_words(YUYARISUN_SIZES_DIFFER), "two parts differ in sizes") == 0);
    HOLD(strcmp(yuyarisun_words(YUYARISUN_OUTPUT_SHORT), "the output is too short") == 0);
    HOLD(strcmp(yuyarisun_words(6), yuyarisun_words(65535)) == 0 && strcmp(yuyarisun_words(17), yuyarisun_words(65535)) == 0);
    return 0;
}

/* The tables fill the arrays, one behind the other, and sizes or arrays that are wrong are refused. */
static int laid_out(void)
{
    yuyarisun_pool pool;
    yuyarisun_sizes sizes = {N, K, W, R, B};
    HOLD(LENGTH(largest_marks) == 177 && LENGTH(largest_numbers) == 158146);
    HOLD(yuyarisun_lay(&pool, sizes, marks, LENGTH(marks) - 1, numbers, LENGTH(numbers)) == YUYARISUN_WRONG_SIZE);
    HOLD(yuyarisun_lay(&pool, sizes, marks, LENGTH(marks), numbers, LENGTH(numbers) - 1) == YUYARISUN_WRONG_SIZE);
    HOLD(lay(&pool, sizes) == YUYARISUN_DONE);
    HOLD(pool.used.words == marks && pool.held.words == pool.used.words + 1 && pool.candidates.words == pool.held.words + 1);
    HOLD(pool.changed.words == pool.candidates.words + 1 && pool.changed.words + pool.changed.length == marks + LENGTH(marks));
    HOLD(pool.counts.numbers == numbers && pool.makers.numbers == numbers + N && pool.values.numbers == numbers + 2 * N);
    HOLD(pool.lengths.numbers + pool.lengths.length == numbers + LENGTH(numbers));
    pool.logs.length--;
    HOLD(yuyarisun_pool_fresh(&pool) == YUYARISUN_WRONG_SIZE);
    HOLD(yuyarisun_pool_collect(&pool).number == YUYARISUN_WRONG_SIZE);
    for (int size = 0; size < 5; size++) {
        const uint16_t past[5] = {1025, 9, 9, 17, 17};
        yuyarisun_sizes wrong = {1024, 8, 8, 16, 16};
        uint16_t *each[5] = {&wrong.n, &wrong.k, &wrong.w, &wrong.r, &wrong.b};
        HOLD(lay_large(&pool, wrong) == YUYARISUN_DONE && pool.changed.length == 129 && pool.used.length == 16);
        HOLD(yuyarisun_pool_fresh(&pool) == YUYARISUN_DONE && yuyarisun_pool_sound(&pool) && yuyarisun_pool_free_records(&pool) == 1024);
        *each[size] = past[size];
        HOLD(yuyarisun_lay(&pool, wrong, largest_marks, SIZE_MAX, largest_numbers, SIZE_MAX) == YUYARISUN_WRONG_SIZE);
        *each[size] = 0;
        HOLD(yuyarisun_lay(&pool, wrong, largest_marks, SIZE_MAX, largest_numbers, SIZE_MAX) == (size < 4 ? YUYARISUN_WRONG_SIZE : YUYARISUN_DONE));
    }
    return 0;
}

/* Both kinds in one stretch of memory, words first: each is aligned as its type is. */
static int in_one_stretch(void)
{
    for (uint16_t n = 1; n <= 130; n++) {
        yuyarisun_pool pool;
        yuyarisun_sizes sizes = {n, 1, 1, 1, (uint16_t)(n % 3)};
        const size_t words = YUYARISUN_MARKS_LENGTH(n, 1, 1, 1, n % 3), others = YUYARISUN_NUMBERS_LENGTH(n, 1, 1, 1, n % 3);
        uint64_t *stretch = (uint64_t *)malloc(words * sizeof(uint64_t) + others * sizeof(uint16_t));
        HOLD(stretch != NULL && yuyarisun_lay(&pool, sizes, stretch, words, (uint16_t *)(stretch + words), others) == YUYARISUN_DONE);
        HOLD((uintptr_t)pool.used.words % sizeof(uint64_t) == 0 && (uintptr_t)pool.changed.words % sizeof(uint64_t) == 0);
        HOLD((uintptr_t)pool.counts.numbers % sizeof(uint16_t) == 0 && (uintptr_t)pool.lengths.numbers % sizeof(uint16_t) == 0);
        HOLD((void *)(pool.changed.words + pool.changed.length) == (void *)pool.counts.numbers);
        HOLD(yuyarisun_pool_fresh(&pool) == YUYARISUN_DONE && yuyarisun_pool_sound(&pool) && yuyarisun_pool_free_records(&pool) == n);
        free(stretch);
    }
    return 0;
}

static int done(yuyarisun_answer answer, uint16_t value)
{
    return answer.number == YUYARISUN_DONE && answer.value == value;
}

/* Worker 1 makes two records and links them, before the cycle and while it snoops; the cycle goes by. */
static int named(void)
{
    yuyarisun_pool pool;
    yuyarisun_sizes sizes = {N, K, W, R, B};
    const size_t log = 1 * 2 * YUYARISUN_ALL_LINKS(N, K, B);
    HOLD(lay(&pool, sizes) == YUYARISUN_DONE);
    spoil();
    HOLD(!yuyarisun_pool_sound(&pool) && yuyarisun_pool_collect(&pool).number == YUYARISUN_NOT_SOUND);
    HOLD(yuyarisun_pool_fresh(&pool) == YUYARISUN_DONE && yuyarisun_pool_sound(&pool));

    HOLD(done(yuyarisun_pool_make(&pool, 1, 0), 1) && done(yuyarisun_pool_make(&pool, 1, 1), 2));
    HOLD(pool.used.words[0] == 3 && yuyarisun_is_on(pool.used, 0) && yuyarisun_is_on(pool.used, 1) && !yuyarisun_is_on(pool.used, 2));
    HOLD(pool.makers.numbers[0] == 2 && pool.makers.numbers[1] == 2);
    HOLD(pool.registers.numbers[1 * R + 0] == 1 && pool.registers.numbers[1 * R + 1] == 2 && pool.registers.numbers[W * R] == 2);
    HOLD(done(yuyarisun_pool_store(&pool, 1, 0, 1, 1), 0));
    HOLD(pool.values.numbers[1] == 2 && pool.changed.words[0] == 2 && pool.lengths.numbers[1] == 1);
    HOLD(pool.logs.numbers[log] == 1 && pool.logs.numbers[log + 1] == 0);
    HOLD(done(yuyarisun_pool_store(&pool, 1, 1, 0, 0), 0) && done(yuyarisun_pool_store(&pool, 1, 1, 0, 0), 1));
    HOLD(pool.logs.numbers[log + 2] == 2 && pool.lengths.numbers[1] == 2);
    HOLD(done(yuyarisun_pool_load(&pool, 1, 0, 0, 1), 2) && done(yuyarisun_pool_move(&pool, 1, 1, 0), 2) && done(yuyarisun_pool_drop(&pool, 1, 1), 0));
    HOLD(pool.registers.numbers[1 * R + 0] == 2 && pool.registers.numbers[1 * R + 1] == 0);

    for (int step = 0; step < 3; step++)
        HOLD(done(yuyarisun_pool_collect(&pool), 0));
    HOLD(pool.collector.phase == 2 && pool.snoops.numbers[0] == 1 && pool.snoops.numbers[1] == 1);
    HOLD(done(yuyarisun_pool_store(&pool, 1, 0, 1, 0), 0) && pool.held.words[0] == 2);
    for (int step = 0; step < 2; step++)
        HOLD(done(yuyarisun_pool_collect(&pool), 0));
    HOLD(pool.collector.phase == 3 && pool.lengths.numbers[1] == 0 && pool.lengths.numbers[2] == 3);
    HOLD(pool.history.numbers[0] == 1 && pool.history.numbers[2] == 2 && pool.history.numbers[4] == 3 && pool.logs.numbers[log] == 0);
    HOLD(pool.candidates.words[0] == 3 && pool.makers.numbers[0] == 0);
    HOLD(done(yuyarisun_pool_collect(&pool), 0) && pool.collector.position == 1 && !yuyarisun_is_on(pool.changed, 1));
    while (pool.collector.phase < 6)
        HOLD(done(yuyarisun_pool_collect(&pool), 0));
    HOLD(pool.counts.numbers[0] == 1 && pool.counts.numbers[1] == 2 && pool.snoops.numbers[1] == 0 && pool.lengths.numbers[2] == 0);
    HOLD(done(yuyarisun_pool_collect(&pool), 0) && pool.collector.phase == 0 && pool.collector.closed == 1);
    HOLD(yuyarisun_pool_sound(&pool) && yuyarisun_pool_free_records(&pool) == 2);
    HOLD(yuyarisun_pool_make(&pool, 2, 2).number == YUYARISUN_NO_SUCH_WORKER && yuyarisun_pool_load(&pool, 0, 0, 2, 2).number == YUYARISUN_NO_SUCH_REGISTER);
    HOLD(yuyarisun_pool_load(&pool, 0, 0, 0, 2).number == YUYARISUN_NO_SUCH_LINK && yuyarisun_pool_load(&pool, 0, 0, 0, 0).number == YUYARISUN_HOLDS_NONE);
    return 0;
}

/* Worker 0 posts a record, worker 1 looks at it and posts none over it: board entry 1 is link 9. Worker 0 drops it, and worker 1 keeps it. */
static int board(void)
{
    yuyarisun_pool pool;
    yuyarisun_sizes sizes = {N, K, W, R, B};
    HOLD(lay(&pool, sizes) == YUYARISUN_DONE && yuyarisun_pool_fresh(&pool) == YUYARISUN_DONE);
    HOLD(pool.values.length == 10 && pool.changed.length == 1 && pool.history.length == 20 && pool.logs.length == 40);
    HOLD(done(yuyarisun_pool_make(&pool, 0, 0), 1) && done(yuyarisun_pool_post(&pool, 0, 1, 0), 0));
    HOLD(pool.values.numbers[9] == 1 && pool.changed.words[0] == 512 && pool.logs.numbers[0] == 9 && pool.logs.numbers[1] == 0);
    HOLD(done(yuyarisun_pool_look(&pool, 1, 0, 0), 0) && done(yuyarisun_pool_look(&pool, 1, 0, 1), 1) && pool.registers.numbers[1 * R + 0] == 1);
    HOLD(done(yuyarisun_pool_post(&pool, 1, 1, 1), 1) && pool.values.numbers[9] == 0 && pool.lengths.numbers[1] == 0);
    HOLD(done(yuyarisun_pool_drop(&pool, 0, 0), 0));
    while (pool.collector.closed == 0)
        HOLD(done(yuyarisun_pool_collect(&pool), 0));
    HOLD(yuyarisun_pool_sound(&pool) && yuyarisun_pool_free_records(&pool) == 3);
    HOLD(yuyarisun_pool_look(&pool, 2, 2, 2).number == YUYARISUN_NO_SUCH_WORKER && yuyarisun_pool_post(&pool, 0, 2, 2).number == YUYARISUN_NO_SUCH_REGISTER);
    HOLD(yuyarisun_pool_look(&pool, 0, 0, 2).number == YUYARISUN_NO_SUCH_LINK && yuyarisun_pool_post(&pool, 0, 2, 0).number == YUYARISUN_NO_SUCH_LINK);
    return 0;
}

/* 65 records: record 64 has the highest bit of the first word, and record 65 the lowest of the second. Each bit behind it, and behind that of link 129, makes the
 * pool unsound. */
static int packed(void)
{
    yuyarisun_pool pool;
    yuyarisun_sizes sizes = {65, 2, 1, 1, 0};
    HOLD(lay_large(&pool, sizes) == YUYARISUN_DONE && pool.used.length == 2 && pool.held.length == 2);
    HOLD(pool.candidates.length == 2 && pool.changed.length == 3);
    HOLD(yuyarisun_pool_fresh(&pool) == YUYARISUN_DONE);
    for (uint16_t a = 1; a <= 65; a++) {
        HOLD(done(yuyarisun_pool_make(&pool, 0, 0), a) && yuyarisun_is_on(pool.used, a - 1u) && (a == 65 || !yuyarisun_is_on(pool.used, a)));
        HOLD(yuyarisun_pool_free_records(&pool) == 65u - a);
    }
    HOLD(pool.used.words[0] == UINT64_MAX && pool.used.words[1] == 1);
    HOLD(yuyarisun_pool_make(&pool, 0, 0).number == YUYARISUN_NONE_FREE);
    HOLD(done(yuyarisun_pool_store(&pool, 0, 0, 1, 0), 0) && pool.changed.words[2] == 2 && yuyarisun_is_on(pool.changed, 129));

    const yuyarisun_marks tables[4] = {pool.used, pool.held, pool.candidates, pool.changed};
    for (int table = 0; table < 4; table++) {
        const size_t last = tables[table].length - 1;
        for (unsigned bit = table < 3 ? 1 : 2; bit < 64; bit++) {
            const uint64_t before = tables[table].words[last];
            HOLD(yuyarisun_pool_sound(&pool));
            tables[table].words[last] |= (uint64_t)1 << bit;
            HOLD(!yuyarisun_pool_sound(&pool) && yuyarisun_pool_drop(&pool, 0, 0).number == YUYARISUN_NOT_SOUND);
            HOLD(tables[table].words[last] == (before | (uint64_t)1 << bit));
            tables[table].words[last] = before;
        }
    }

    /* The free records are n less the ones, whatever words these are. */
    const uint64_t words[2] = {7, UINT64_MAX};
    HOLD(yuyarisun_free_records(65, words, 1) == 62 && yuyarisun_free_records(70, words, 2) == 3 && yuyarisun_free_records(2, words, 1) == 0);
    HOLD(yuyarisun_free_records(1024, words, 0) == 1024 && yuyarisun_free_records(65, words, 2) == 0);
    return 0;
}

/* Each kind of event as bytes, many at once, and what stops them. */
static int many(void)
{
    static const uint8_t expected[] = {
        0x10, 0, 6, 1, 2, 3, 4, 1, 0,       /* make */
        0x11, 0, 7, 1, 2, 3, 5, 1, 1, 0,    /* move */
        0x14, 0, 8, 1, 2, 3, 6, 1, 0, 1, 1, /* store */
        0x13, 0, 8, 1, 2, 3, 7, 1, 1, 0, 1, /* load */
        0x12, 0, 6, 1, 2, 3, 8, 1, 0,       /* drop */
        0x16, 0, 7, 1, 2, 3, 9, 1, 0, 1,    /* post */
        0x15, 0, 7, 1, 2, 3, 10, 0, 1, 0,   /* look */
        0x20, 0, 4, 1, 2, 3, 11             /* collect */
    };
    static const uint16_t answered[16] = {0, 1, 0, 1, 0, 0, 0, 1, 0, 0, 0, 0, 0, 1, 0, 0};
    uint8_t bytes[8 * YUYARISUN_EVENT_MOST_BYTES];
    uint16_t answers[YUYARISUN_ANSWERS_LENGTH(sizeof bytes)];
    uint32_t step = 0x01020304;
    uint8_t *at = bytes;
    at = yuyarisun_put_make(at, step, 1, 0);
    at = yuyarisun_put_move(at, step + 1, 1, 1, 0);
    at = yuyarisun_put_store(at, step + 2, 1, 0, 1, 1);
    at = yuyarisun_put_load(at, step + 3, 1, 1, 0, 1);
    at = yuyarisun_put_drop(at, step + 4, 1, 0);
    at = yuyarisun_put_post(at, step + 5, 1, 0, 1);
    at = yuyarisun_put_look(at, step + 6, 0, 1, 0);
    at = yuyarisun_put_collect(at, step + 7);
    const size_t length = (size_t)(at - bytes);
    HOLD(length == sizeof expected && memcmp(bytes, expected, length) == 0);
    HOLD(YUYARISUN_ANSWERS_LENGTH(length) >= 16 && YUYARISUN_ANSWERS_LENGTH(6) == 0 && YUYARISUN_ANSWERS_LENGTH(14) == 4);

    yuyarisun_pool pool;
    yuyarisun_sizes sizes = {N, K, W, R, B};
    HOLD(lay(&pool, sizes) == YUYARISUN_DONE && yuyarisun_pool_fresh(&pool) == YUYARISUN_DONE);
    memset(answers, 0xff, sizeof answers);
    yuyarisun_events_answer all = yuyarisun_pool_events(&pool, bytes, length, &step, answers, sizeof answers / sizeof *answers);
    HOLD(all.number == YUYARISUN_WRONG_STEP && all.place == 0 && all.events == 0 && step == 0x01020304 && answers[0] == 0xffff);
    step--;
    all = yuyarisun_pool_events(&pool, bytes, length, &step, answers, sizeof answers / sizeof *answers);
    HOLD(all.number == YUYARISUN_DONE && all.place == length && all.events == 8 && step == 0x0102030b);
    HOLD(memcmp(answers, answered, sizeof answered) == 0 && answers[16] == 0xffff);
    HOLD(pool.registers.numbers[1 * R + 0] == 0 && pool.registers.numbers[1 * R + 1] == 1 && pool.values.numbers[1] == 1 && pool.collector.phase == 1);

    all = yuyarisun_pool_events(&pool, NULL, 0, &step, NULL, 0);
    HOLD(all.number == YUYARISUN_DONE && all.place == 0 && all.events == 0 && step == 0x0102030b);
    at = yuyarisun_put_collect(bytes, step + 1);
    at = yuyarisun_put_collect(at, step + 3);
    all = yuyarisun_pool_events(&pool, bytes, (size_t)(at - bytes), &step, answers, 1);
    HOLD(all.number == YUYARISUN_WRONG_STEP && all.place == 7 && all.events == 1 && step == 0x0102030c && answers[0] == 0 && answers[1] == 1);
    HOLD(pool.collector.position == 1);
    pool.lengths.length--;
    HOLD(yuyarisun_pool_events(&pool, bytes, 7, &step, NULL, 0).number == YUYARISUN_WRONG_SIZE);
    pool.lengths.length++;
    pool.used.words[0] |= (uint64_t)1 << N; /* behind the last record's bit */
    all = yuyarisun_pool_events(&pool, bytes, 7, &step, NULL, 0);
    HOLD(all.number == YUYARISUN_NOT_SOUND && all.place == 0 && all.events == 0 && step == 0x0102030c);
    return 0;
}

/* The document's whole case, and what refuses it. */
static int traced(void)
{
    static const uint16_t answered[18] = {0, 1, 0, 0, 0, 0, 0, 0, 0, 0, 0, 0, 0, 1, 0, 0, 0, 2};
    uint8_t trace[11 + 9 * YUYARISUN_EVENT_MOST_BYTES + 7] = {0x01, 0, 8, 0, 2, 0, 1, 0, 1, 0, 1};
    const uint8_t end[7] = {0x7f, 0, 4, 0, 0, 0, 9};
    uint8_t *at = yuyarisun_put_drop(yuyarisun_put_make(trace + 11, 1, 0, 0), 2, 0, 0);
    for (uint32_t step = 3; step <= 8; step++)
        at = yuyarisun_put_collect(at, step);
    at = yuyarisun_put_make(at, 9, 0, 0);
    memcpy(at, end, sizeof end);
    const size_t length = (size_t)(at + sizeof end - trace);

    yuyarisun_pool pool;
    uint16_t answers[18];
    yuyarisun_sizes sizes = yuyarisun_sizes_of_trace(trace, length);
    HOLD(sizes.n == 2 && sizes.k == 1 && sizes.w == 1 && sizes.r == 1 && sizes.b == 0);
    HOLD(yuyarisun_sizes_of_trace(trace, 10).n == 0 && yuyarisun_sizes_of_trace(NULL, 0).n == 0 && yuyarisun_sizes_of_trace(trace + 11, length - 11).n == 0);
    HOLD(lay(&pool, sizes) == YUYARISUN_DONE);
    spoil();
    yuyarisun_trace_answer whole = yuyarisun_pool_trace(&pool, trace, length, answers, sizeof answers / sizeof *answers);
    HOLD(whole.number == YUYARISUN_DONE && whole.place == 0 && whole.events == 9 && whole.free_records == 1 && pool.collector.closed == 1);
    HOLD(memcmp(answers, answered, sizeof answered) == 0 && yuyarisun_pool_sound(&pool) && yuyarisun_pool_free_records(&pool) == 1);

    whole = yuyarisun_pool_trace(&pool, trace, length - 7, NULL, 0);
    HOLD(whole.number == YUYARISUN_STOPS_SHORT && whole.place == length - 7 && whole.events == 9 && whole.free_records == 0 && yuyarisun_pool_sound(&pool));
    HOLD(yuyarisun_pool_trace(&pool, NULL, 0, NULL, 0).number == YUYARISUN_STOPS_SHORT);

    /* The sizes with length 10: at first with a board of 2, then without one. */
    uint8_t longer[sizeof trace + 2] = {0x01, 0, 10, 0, 2, 0, 1, 0, 1, 0, 1, 0, 2};
    memcpy(longer + 13, trace + 11, length - 11);
    HOLD(yuyarisun_sizes_of_trace(longer, 13).b == 2 && yuyarisun_sizes_of_trace(longer, 12).n == 0);
    whole = yuyarisun_pool_trace(&pool, longer, length + 2, NULL, 0);
    HOLD(whole.number == YUYARISUN_WRONG_SIZE && whole.place == 0 && whole.events == 0);
    longer[12] = 0;
    whole = yuyarisun_pool_trace(&pool, longer, length + 2, NULL, 0);
    HOLD(whole.number == YUYARISUN_DONE && whole.events == 9 && whole.free_records == 1);
    longer[2] = 9;
    HOLD(yuyarisun_sizes_of_trace(longer, length + 2).n == 0 && yuyarisun_pool_trace(&pool, longer, length + 2, NULL, 0).number == YUYARISUN_WRONG_LENGTH);

    /* Tables that were laid out for another k and b, of the same lengths. */
    yuyarisun_sizes split = {2, 2, 1, 1, 0};
    HOLD(lay(&pool, split) == YUYARISUN_DONE);
    longer[2] = 10;
    longer[12] = 2;
    whole = yuyarisun_pool_trace(&pool, longer, length + 2, NULL, 0);
    HOLD(whole.number == YUYARISUN_DONE && pool.sizes.k == 1 && pool.sizes.b == 2 && yuyarisun_pool_sound(&pool));
    HOLD(yuyarisun_pool_trace(&pool, longer, 12, NULL, 0).number == YUYARISUN_STOPS_SHORT && pool.sizes.b == 2);

    pool.used.length--;
    whole = yuyarisun_pool_trace(&pool, longer, length + 2, NULL, 0);
    HOLD(whole.number == YUYARISUN_WRONG_SIZE && whole.place == 0 && whole.events == 0 && pool.collector.closed == 1);
    return 0;
}

/* Record 1 leads to 2 and to 3, which are counted, unlinked and freed: two cycles, and an open one. */
static int reported(void)
{
    static const int64_t expected[6] = {2, 0, 2, 2, 2, -2};
    uint8_t trace[13 + 30 * YUYARISUN_EVENT_MOST_BYTES + 7] = {0x01, 0, 10, 0, 3, 0, 2, 0, 1, 0, 3, 0, 0};
    uint8_t end[7] = {0x7f, 0, 4, 0, 0, 0, 0};
    uint32_t step = 0;
    uint8_t *at = trace + 13;
    for (uint8_t r = 0; r < 3; r++)
        at = yuyarisun_put_make(at, ++step, 0, r);
    for (uint8_t f = 0; f < 2; f++)
        at = yuyarisun_put_store(at, ++step, 0, 0, f, (uint8_t)(f + 1));
    at = yuyarisun_put_drop(yuyarisun_put_drop(at, step + 1, 0, 1), step + 2, 0, 2);
    for (step += 2; step < 16;)
        at = yuyarisun_put_collect(at, ++step);
    for (uint8_t f = 0; f < 2; f++)
        at = yuyarisun_put_store(at, ++step, 0, 0, f, 1);
    while (step < 30)
        at = yuyarisun_put_collect(at, ++step);
    end[6] = (uint8_t)step;
    memcpy(at, end, sizeof end);
    const size_t length = (size_t)(at + sizeof end - trace);

    yuyarisun_pool pool;
    int64_t numbers[8];
    HOLD(YUYARISUN_CYCLES_LENGTH(length) >= 6 && YUYARISUN_CYCLES_LENGTH(34) == 0 && YUYARISUN_CYCLES_LENGTH(70) == 6);
    HOLD(lay(&pool, yuyarisun_sizes_of_trace(trace, length)) == YUYARISUN_DONE);
    spoil();
    memset(numbers, 0xff, sizeof numbers);
    yuyarisun_report_answer whole = yuyarisun_pool_report(&pool, trace, length, numbers, sizeof numbers / sizeof *numbers);
    HOLD(whole.number == YUYARISUN_DONE && whole.place == 0 && whole.events == 30 && whole.cycles == 2 && whole.free_records == 2);
    HOLD(memcmp(numbers, expected, sizeof expected) == 0 && numbers[6] == -1 && numbers[7] == -1);
    HOLD(pool.collector.phase == 1 && pool.collector.closed == 2 && yuyarisun_pool_sound(&pool) && yuyarisun_pool_free_records(&pool) == 2);

    /* Room for one and two thirds; none; and a trace that is refused in its open cycle. */
    memset(numbers, 0xff, sizeof numbers);
    whole = yuyarisun_pool_report(&pool, trace, length, numbers, 5);
    HOLD(whole.number == YUYARISUN_DONE && whole.cycles == 2 && memcmp(numbers, expected, 3 * sizeof *numbers) == 0 && numbers[3] == -1 && numbers[4] == -1);
    HOLD(yuyarisun_pool_report(&pool, trace, length, NULL, 0).cycles == 2);
    whole = yuyarisun_pool_report(&pool, trace, length - 7, numbers, sizeof numbers / sizeof *numbers);
    HOLD(whole.number == YUYARISUN_STOPS_SHORT && whole.place == length - 7 && whole.events == 30 && whole.cycles == 2 && whole.free_records == 0);
    HOLD(yuyarisun_pool_report(&pool, NULL, 0, NULL, 0).number == YUYARISUN_STOPS_SHORT && pool.sizes.n == 3);
    pool.used.length--;
    whole = yuyarisun_pool_report(&pool, trace, length, numbers, sizeof numbers / sizeof *numbers);
    HOLD(whole.number == YUYARISUN_WRONG_SIZE && whole.place == 0 && whole.events == 0 && whole.cycles == 0 && pool.collector.closed == 2);
    return 0;
}

static int refused(yuyarisun_join_answer answer, uint16_t number, size_t place)
{
    return answer.number == number && answer.length == 0 && answer.place == place;
}

/* Two parts, with the steps 1 and 3 and with step 2, and each way to refuse them. */
static int joined(void)
{
    uint8_t parts[2 * (11 + 2 * YUYARISUN_EVENT_MOST_BYTES + 7)];
    const uint8_t sizes[11] = {0x01, 0, 8, 0, 2, 0, 1, 0, 1, 0, 1}, end[7] = {0x7f, 0, 4, 0, 0, 0, 2};
    uint64_t lengths[2] = {11 + 9 + 7 + 7, 11 + 9 + 7};
    uint8_t out[64], untouched[64];
    uint8_t *at = parts;
    memcpy(at, sizes, sizeof sizes);
    at = yuyarisun_put_collect(yuyarisun_put_make(at + sizeof sizes, 1, 0, 0), 3);
    memcpy(at, end, sizeof end);
    uint8_t *const second = at + sizeof end;
    memcpy(second, sizes, sizeof sizes);
    at = yuyarisun_put_drop(second + sizeof sizes, 2, 0, 0);
    memcpy(at, end, sizeof end);
    at[6] = 1;
    const size_t all = (size_t)(at + sizeof end - parts);
    HOLD(all == lengths[0] + lengths[1]);
    memset(out, 0xff, sizeof out);
    memset(untouched, 0xff, sizeof untouched);

    yuyarisun_join_answer answer = yuyarisun_join_parts(parts, all, lengths, 2, out, 42);
    HOLD(refused(answer, YUYARISUN_OUTPUT_SHORT, 0) && memcmp(out, untouched, sizeof out) == 0);
    answer = yuyarisun_join_parts(parts, all, lengths, 2, out, sizeof out);
    HOLD(answer.number == YUYARISUN_DONE && answer.length == 43 && answer.place == 0);
    HOLD(memcmp(out, parts, 20) == 0 && memcmp(out + 20, second + 11, 9) == 0 && memcmp(out + 29, parts + 20, 7) == 0);
    HOLD(memcmp(out + 36, end, 6) == 0 && out[42] == 3 && memcmp(out + 43, untouched, sizeof out - 43) == 0);

    memset(out, 0xff, sizeof out);
    HOLD(refused(yuyarisun_join_parts(parts, all, lengths, 1, out, sizeof out), YUYARISUN_WRONG_SIZE, 0));
    lengths[1]--;
    HOLD(refused(yuyarisun_join_parts(parts, all, lengths, 2, out, sizeof out), YUYARISUN_WRONG_SIZE, 0));
    HOLD(refused(yuyarisun_join_parts(parts, all - 1, lengths, 2, out, sizeof out), YUYARISUN_STOPS_SHORT, lengths[0] + 20));
    lengths[1]++;
    HOLD(refused(yuyarisun_join_parts(second, lengths[1], lengths + 1, 1, out, sizeof out), YUYARISUN_WRONG_STEP, 0));
    at[6] = 2;
    HOLD(refused(yuyarisun_join_parts(parts, all, lengths, 2, out, sizeof out), YUYARISUN_WRONG_COUNT, lengths[0] + 20));
    at[6] = 1;
    second[4] = 3;
    HOLD(refused(yuyarisun_join_parts(parts, all, lengths, 2, out, sizeof out), YUYARISUN_SIZES_DIFFER, 0));
    HOLD(refused(yuyarisun_join_parts(NULL, 0, NULL, 0, NULL, 0), YUYARISUN_WRONG_SIZE, 0));
    lengths[0] = 0;
    HOLD(refused(yuyarisun_join_parts(NULL, 0, lengths, 1, NULL, 0), YUYARISUN_STOPS_SHORT, 0));
    HOLD(memcmp(out, untouched, sizeof out) == 0);
    return 0;
}

int main(void)
{
    return words() || laid_out() || in_one_stretch() || named() || board() || packed() || many() || traced() || reported() || joined();
}
