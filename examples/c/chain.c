/* A chain of three records is made, dropped and given back; then a table is spoilt, and the next call refuses it. The twelve tables lie in two arrays, which the
 * program owns: the marks in words of 64 bits, the others in numbers of 16. What it prints is examples/chain.expected. */
#include <stdio.h>

#include "yuyarisun.h"

enum { N = 8, K = 2, W = 1, R = 3, B = 0 };
static uint64_t marks[YUYARISUN_MARKS_LENGTH(N, K, W, R, B)];
static uint16_t numbers[YUYARISUN_NUMBERS_LENGTH(N, K, W, R, B)];

int main(void)
{
    const yuyarisun_sizes sizes = {N, K, W, R, B};
    yuyarisun_pool pool;
    if (yuyarisun_lay(&pool, sizes, marks, sizeof marks / sizeof *marks, numbers, sizeof numbers / sizeof *numbers) != YUYARISUN_DONE)
        return 1;
    if (yuyarisun_pool_fresh(&pool) != YUYARISUN_DONE)
        return 1;

    /* Register 0 of worker 0 holds the head. Each new record, in register 1, leads to it by link 0 and takes its place. */
    for (int i = 0; i < 3; i++) {
        yuyarisun_answer made = yuyarisun_pool_make(&pool, 0, 1);
        printf("made %d\n", made.value);
        yuyarisun_pool_store(&pool, 0, 1, 0, 0);
        yuyarisun_pool_move(&pool, 0, 0, 1);
    }
    yuyarisun_answer next = yuyarisun_pool_load(&pool, 0, 1, 0, 0);
    printf("the head leads to %d\n", next.value);
    yuyarisun_answer refused = yuyarisun_pool_load(&pool, 0, 1, 2, 0);
    printf("refused %d: %s\n", refused.number, yuyarisun_words(refused.number));

    yuyarisun_pool_drop(&pool, 0, 0);
    yuyarisun_pool_drop(&pool, 0, 1);
    while (pool.collector.closed == 0) {
        yuyarisun_answer step = yuyarisun_pool_collect(&pool);
        if (step.number != YUYARISUN_DONE)
            return 1;
        if (step.value != 0)
            printf("freed %d\n", step.value);
    }
    printf("free records: %d\n", (int)yuyarisun_pool_free_records(&pool));

    pool.counts.numbers[0] = 7; /* no link counts for record 1 */
    refused = yuyarisun_pool_collect(&pool);
    printf("refused %d: %s\n", refused.number, yuyarisun_words(refused.number));
    return 0;
}
